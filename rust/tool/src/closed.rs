//! Which of the standard streams were closed when the program began.
//!
//! Rust's runtime opens /dev/null in the place of a closed stream before `main`, so that a listing written there would be lost without a
//! word. This looks before the runtime does.
#![allow(unsafe_code)]
use std::ffi::c_int;
use std::sync::atomic::{AtomicBool, Ordering};

static INPUT_CLOSED: AtomicBool = AtomicBool::new(false);
static OUTPUT_CLOSED: AtomicBool = AtomicBool::new(false);

/// Whether standard input was closed.
pub fn input() -> bool {
    INPUT_CLOSED.load(Ordering::Relaxed)
}

/// Whether standard output was closed.
pub fn output() -> bool {
    OUTPUT_CLOSED.load(Ordering::Relaxed)
}

extern "C" {
    fn fcntl(stream: c_int, command: c_int, ...) -> c_int;
}

/// The command that asks for a stream's flags, and changes nothing.
const GET_FLAGS: c_int = 1;

extern "C" fn look() {
    // SAFETY: fcntl with this command takes any number and touches no memory.
    let closed = |stream| unsafe { fcntl(stream, GET_FLAGS) } == -1;
    INPUT_CLOSED.store(closed(0), Ordering::Relaxed);
    OUTPUT_CLOSED.store(closed(1), Ordering::Relaxed);
}

// The C library calls what stands in this section before `main`.
#[used]
#[link_section = ".init_array"]
static LOOK: extern "C" fn() = look;
