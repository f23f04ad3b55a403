"""Talks to a driver (drive/*.c) over its standard input and output. Nothing here knows the codes."""
import struct
import subprocess


class Driver:
    def __init__(self, command):
        self.process = subprocess.Popen(command, stdin=subprocess.PIPE, stdout=subprocess.PIPE)

    def ask(self, call, answer_octets):
        self.process.stdin.write(call)
        self.process.stdin.flush()
        answer = self.process.stdout.read(answer_octets)
        if len(answer) != answer_octets:
            raise SystemExit("the driver ended early (status %s)" % self.process.wait())
        return answer

    def end(self):
        self.process.stdin.close()
        if self.process.wait() != 0:
            raise SystemExit("the driver failed (status %d)" % self.process.returncode)


def slice_of(octets):
    return struct.pack("<I", len(octets)) + bytes(octets)


def numbers(octets):
    return struct.unpack("<%dI" % (len(octets) // 4), octets)
