/* The error of the last call, as a program asks for it. The Rattle kit has this in C for x86-64 alone; dsrlist for aarch64 is linked with
   this file in its place. */
#include <errno.h>

int rattle_errno(void) {
    return errno;
}
