#!/usr/bin/python3
"""The independent second program for the packet's CRC (01, "CRC").

By division of whole numbers: the 88 bits are one number, first sent the highest power, and the generator is subtracted from the top. As
an outside voice, python3-crccheck's Crc4G704 over the eleven data octets (88 bits, each octet's least significant first, as
CRC-4/G-704 reads them): its value's bits 0 to 3 are packet bits 88 to 91. Both are held to the streams that the library packs, and to
what it says of damaged ones.

Use: stream.py COMMAND..   (the command that runs the stream driver)
"""
import itertools
import os
import random
import struct
import sys

from crccheck.crc import Crc4G704

from driver import Driver, numbers, slice_of

SEED = int(os.environ.get("SEED", "201108"))
GENERATOR = 0b10011  # X^4 + X + 1


def by_division(bits):
    """The four bits that are sent after `bits`, highest power first."""
    dividend = int("".join(map(str, bits)), 2) << 4
    while dividend.bit_length() > 4:
        dividend ^= GENERATOR << (dividend.bit_length() - 5)
    return [dividend >> 3 & 1, dividend >> 2 & 1, dividend >> 1 & 1, dividend & 1]


def by_catalogue(bits):
    octets = bytes(sum(bits[8 * i + b] << b for b in range(8)) for i in range(11))
    value = Crc4G704.calc(octets)
    return [value >> b & 1 for b in range(4)]


def packets(stream):
    """The twelve packets of a stream, 92 bits each."""
    sent = "".join(format(octet, "08b")[::-1] for octet in stream)
    return [[int(b) for b in sent[92 * p : 92 * p + 92]] for p in range(12)]


def octets_of(parts):
    sent = "".join(str(b) for part in parts for b in part)
    return bytes(int(sent[i : i + 8][::-1], 2) for i in range(0, len(sent), 8))


def frame_bits(frame):
    text = "".join(format(x, "06b")[::-1] for x in frame[:6]) + format(frame[6], "08b")[::-1]
    return [int(b) for b in text]


def indices_of(parts):
    """The index octets in twelve packets."""
    out = []
    for part in parts:
        for f in range(2):
            text = "".join(map(str, part[44 * f : 44 * f + 44]))
            out += [int(text[6 * i : 6 * i + 6][::-1], 2) for i in range(6)] + [int(text[36:44][::-1], 2)]
    return bytes(out)


class Check:
    def __init__(self, command):
        self.driver = Driver(command)
        self.packed = self.unpacked = self.calls = 0

    def pack(self, frames):
        """The library's stream of 24 frames, with each CRC held to both methods."""
        indices = bytes(x for frame in frames for x in frame)
        self.calls += 1
        got = self.driver.ask(b"P" + bytes([self.calls % 2]) + slice_of(indices) + slice_of(bytes([0xEE]) * 138), 8 + 138)
        if numbers(got[:8]) != (0, 1):
            raise SystemExit("pack: answer and kept are %s" % (numbers(got[:8]),))
        parts = packets(got[8:])
        for p, part in enumerate(parts):
            data = frame_bits(frames[2 * p]) + frame_bits(frames[2 * p + 1])
            want = by_division(data)
            if part[:88] != data or part[88:] != want or by_catalogue(data) != want:
                raise SystemExit("packet %d: library %s, division %s, catalogue %s" % (p, part[88:], want, by_catalogue(data)))
        self.packed += 12
        return parts

    def unpack(self, parts):
        """The library's notes of twelve packets, held to division; gives them back."""
        lent = slice_of(bytes([0xEE]) * 168) + slice_of(bytes([0xEE]) * 12)
        self.calls += 1
        got = self.driver.ask(b"U" + bytes([self.calls % 2]) + slice_of(octets_of(parts)) + lent, 8 + 168 + 12)
        if numbers(got[:8]) != (0, 1):
            raise SystemExit("unpack: answer and kept are %s" % (numbers(got[:8]),))
        notes = [int(by_division(part[:88]) != part[88:]) for part in parts]
        if got[8:176] != indices_of(parts) or list(got[176:]) != notes:
            raise SystemExit("unpack: notes %s, not %s, or other indices" % (list(got[176:]), notes))
        self.unpacked += 12
        return notes


def random_frame(rng):
    return [rng.randrange(64) for _ in range(6)] + [rng.randrange(256)]


def two_flips(check, part):
    """Every two flipped bits of a packet, twelve packets to a call: the CRC stays right exactly at distances that 15 divides."""
    pairs = list(itertools.combinations(range(92), 2))
    right = 0
    for start in range(0, len(pairs), 12):
        group = pairs[start : start + 12]
        parts = [[b ^ (k in places) for k, b in enumerate(part)] for places in group]
        notes = check.unpack(parts + [part] * (12 - len(group)))
        for (a, b), note in zip(group, notes):
            if (note == 0) != ((b - a) % 15 == 0):
                raise SystemExit("flips at %d and %d: note %d" % (a, b, note))
            right += note == 0
    print("  every two flips of a packet                     %6d, of which %d leave the CRC right" % (len(pairs), right))


def bursts(check, part):
    """Flips inside four neighbouring bits, at least one: always seen."""
    damaged = {tuple(b ^ (at <= k < at + 4 and shape >> (k - at) & 1) for k, b in enumerate(part)) for at in range(89) for shape in range(1, 16)}
    damaged = sorted(damaged)
    for start in range(0, len(damaged), 12):
        group = [list(d) for d in damaged[start : start + 12]]
        notes = check.unpack(group + [part] * (12 - len(group)))
        if notes[: len(group)] != [1] * len(group):
            raise SystemExit("a burst was not seen")
    print("  flips inside four neighbouring bits             %6d, all seen" % len(damaged))


def main():
    rng = random.Random(SEED)
    print("  seed %d" % SEED)
    check = Check(sys.argv[1:])
    one = [[1, 0, 0, 0, 0, 0, 0]] + [[0] * 7] * 23
    parts = check.pack(one)
    if [k for k in range(92) if parts[0][k]] != [0, 90]:
        raise SystemExit("frame 1,0,0,0,0,0,0: the CRC is not the single term X at stream bit 90")
    for bit in range(88):
        frames = indices_of([[int(k == bit) for k in range(92)]] * 12)
        check.pack([list(frames[7 * f : 7 * f + 7]) for f in range(24)])
    for _ in range(1000):
        check.pack([random_frame(rng) for _ in range(24)])
    print("  CRCs by division, by Crc4G704 and by the library agree %6d packets" % check.packed)
    part = check.pack([random_frame(rng) for _ in range(24)])[5]
    two_flips(check, part)
    bursts(check, part)
    seen = 0
    for _ in range(1000):
        seen += sum(check.unpack([[rng.randrange(2) for _ in range(92)] for _ in range(12)]))
    print("  random packets                                   12000, of which %d have a wrong CRC" % seen)
    print("  packets taken apart by the library, in all      %6d" % check.unpacked)
    check.driver.end()


main()
