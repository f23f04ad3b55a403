#!/usr/bin/python3
"""The independent second program for the header's parity and reading (01, "Parity" and "Headers").

Two methods that share nothing: matrix 6.2 as printed, transposed; and long division of polynomials by the generator. They have to agree
with each other and with the library on all 65,536 messages. Words are then read by distance alone: every codeword stands in a list, and
a word belongs to the one that differs from it in at most two bits. No syndrome, no flipped candidates.

Use: header.py COMMAND..   (the command that runs the header driver)
"""
import itertools
import os
import random
import struct
import sys

import numpy

from driver import Driver, numbers

SEED = int(os.environ.get("SEED", "201108"))
LENT = 0xA55A
UNREADABLE = 97

# ES 201 108, clause 6.2.3, equation (6.2): the matrix as it is printed, before the sign T. Its columns are P1 to P16 only after the
# transpose: row i belongs to message bit i.
PRINTED = """
1 0 0 0 0 0 0 0 1 0 0 0 1 0 1 1
1 1 0 0 0 0 0 0 1 1 0 0 1 1 1 0
1 1 1 0 0 0 0 0 1 1 1 0 1 1 0 1
0 1 1 1 0 0 0 0 0 1 1 1 0 1 1 1
1 0 1 1 1 0 0 0 1 0 1 1 0 0 0 0
0 1 0 1 1 1 0 0 0 1 0 1 1 0 0 0
0 0 1 0 1 1 1 0 0 0 1 0 1 1 0 0
0 0 0 1 0 1 1 1 0 0 0 1 0 1 1 0
1 0 0 0 1 0 1 1 0 0 0 0 0 0 0 1
0 1 0 0 0 1 0 1 1 0 0 0 0 0 0 1
0 0 1 0 0 0 1 0 1 1 0 0 0 0 0 1
0 0 0 1 0 0 0 1 0 1 1 0 0 0 0 1
0 0 0 0 1 0 0 0 1 0 1 1 0 0 0 1
0 0 0 0 0 1 0 0 0 1 0 1 1 0 0 1
0 0 0 0 0 0 1 0 0 0 1 0 1 1 0 1
0 0 0 0 0 0 0 1 0 0 0 1 0 1 1 1
"""
MATRIX = [[int(x) for x in row.split()] for row in PRINTED.split("\n") if row]
TRANSPOSED = [[MATRIX[i][j] for i in range(16)] for j in range(16)]

# Equation (6.1), as the powers with a one.
GENERATOR = {0, 8, 12, 14, 15}


def by_matrix(messages):
    """The codewords: each message, then transposed matrix times message."""
    bits = messages[:, None] >> numpy.arange(16) & 1
    parity = bits @ numpy.transpose(TRANSPOSED) % 2
    return messages | (parity << numpy.arange(16, 32)).sum(axis=1)


def by_division(message):
    """The codeword: a polynomial is the set of its powers; message bit i is X^(15+i)."""
    left = {15 + i for i in range(16) if message >> i & 1}
    ones = len(left)
    while left and max(left) >= 15:
        shift = max(left) - 15
        left ^= {power + shift for power in GENERATOR}
    word = message | sum(1 << (16 + power) for power in left)
    return word | ((ones + len(left)) % 2) << 31


# Two message halves of words at most two apart differ in at most two bits.
NEAR = [0] + [1 << i for i in range(16)] + [1 << i | 1 << j for i, j in itertools.combinations(range(16), 2)]
ONES = numpy.array([x.bit_count() for x in range(65536)])


def distance(some, other):
    """The number of bits in which words differ, each from its own."""
    differ = some ^ other
    return ONES[differ & 0xFFFF] + ONES[differ >> 16]


def nearest(codewords, words):
    """(message, flips) of the codeword at most two bits away, or None: of each word. All words go through each step together."""
    messages, flips = numpy.full(len(words), -1), numpy.zeros(len(words), int)
    for step in NEAR:
        message = (words ^ step) & 0xFFFF
        apart = distance(codewords[message], words)
        close = apart <= 2
        if (close & (messages >= 0)).any():
            raise SystemExit("two codewords within two bits of %08x" % words[close & (messages >= 0)][0])
        messages[close], flips[close] = message[close], apart[close]
    return [None if message < 0 else (message, count) for message, count in zip(messages.tolist(), flips.tolist())]


def nearest_of_all(codewords, word):
    """The same of one word with no shortcut: every one of the 65,536."""
    apart = distance(codewords, word)
    close = [(int(codewords[i]) & 0xFFFF, int(apart[i])) for i in numpy.flatnonzero(apart <= 2)]
    return close[0] if close else None


class Check:
    def __init__(self, command):
        self.driver = Driver(command)
        self.calls = 0

    def encode(self, messages):
        call = b"E" + struct.pack("<I%dI" % len(messages), len(messages), *messages)
        return numbers(self.driver.ask(call, 4 * len(messages)))

    def read(self, words):
        self.calls += 1
        call = b"R" + struct.pack("<BIII%dI" % len(words), self.calls % 2, LENT, LENT, len(words), *words)
        got = numbers(self.driver.ask(call, 16 * len(words)))
        return [tuple(got[4 * i : 4 * i + 4]) for i in range(len(words))]

    def compare(self, codewords, name, words, want_lost=None):
        """Holds the library's readings to the nearest codeword; a lost word leaves both lent numbers alone."""
        lost = 0
        for start in range(0, len(words), 20000):
            part = words[start : start + 20000]
            for word, got, close in zip(part, self.read(part), nearest(codewords, numpy.array(part))):
                want = (UNREADABLE, 1, LENT, LENT) if close is None else (0, 1) + close
                lost += close is None
                if got != want:
                    raise SystemExit("word %08x: the library reads %s, the second program %s" % (word, got, want))
        if want_lost is not None and lost != want_lost:
            raise SystemExit("%s: %d lost, not %d" % (name, lost, want_lost))
        print("  %-58s %7d words, %7d lost" % (name, len(words), lost))


def flipped(codeword, places):
    for place in places:
        codeword ^= 1 << place
    return codeword


def main():
    rng = random.Random(SEED)
    print("  seed %d" % SEED)
    check = Check(sys.argv[1:])
    table = by_matrix(numpy.arange(65536))
    codewords = table.tolist()
    for message in range(65536):
        if by_division(message) != codewords[message]:
            raise SystemExit("message %04x: matrix and division disagree" % message)
    print("  matrix 6.2 (transposed) and long division agree            65536 messages")
    got = check.encode(range(65536))
    for message in range(65536):
        if got[message] != codewords[message]:
            raise SystemExit("message %04x: library %08x, second program %08x" % (message, got[message], codewords[message]))
    print("  the library's codewords agree with both                    65536 messages")
    untransposed = sum(1 for i in range(16) if [r[i] for r in MATRIX] != MATRIX[i])
    if untransposed == 0:
        raise SystemExit("the matrix is its own transpose: the check could not tell them apart")

    check.compare(table, "every codeword, clean", codewords, 0)
    some = [0, 0xFFFF, 0x0008, 0x0010, 0x8000] + [rng.randrange(65536) for _ in range(27)]
    for count in (1, 2):
        words = [flipped(codewords[m], places) for m in some for places in itertools.combinations(range(32), count)]
        check.compare(table, "every %d flip(s) of %d codewords" % (count, len(some)), words, 0)
    three = [flipped(codewords[m], places) for m in some[:6] for places in itertools.combinations(range(32), 3)]
    check.compare(table, "every three flips of 6 codewords: all lost", three, len(three))
    four = [flipped(codewords[some[5]], places) for places in itertools.combinations(range(32), 4)]
    check.compare(table, "every four flips of a codeword: 465 read as another", four, 35960 - 465)
    for count in range(5):
        words = [flipped(codewords[rng.randrange(65536)], rng.sample(range(32), count)) for _ in range(20000)]
        check.compare(table, "random messages, %d flip(s)" % count, words, None if count == 4 else 20000 * (count == 3))
    check.compare(table, "random words", [rng.getrandbits(32) for _ in range(60000)])
    some = [rng.getrandbits(32) for _ in range(50)] + [flipped(rng.choice(codewords), rng.sample(range(32), k % 5)) for k in range(100)]
    for word, close in zip(some, nearest(table, numpy.array(some))):
        if close != nearest_of_all(table, word):
            raise SystemExit("word %08x: the shortcut misses a codeword" % word)
    check.compare(table, "random and damaged words, against all codewords each", some)
    check.driver.end()


main()
