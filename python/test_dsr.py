"""Tests of dsr.py: python3 test_dsr.py, with the library that dsr.py finds. Those that need numpy are skipped without it."""
import array
import concurrent.futures
import dataclasses
import itertools
import os
import pathlib
import pickle
import re
import shutil
import subprocess
import sys
import tempfile
import unittest

import dsr

try:
    import numpy
except ImportError:
    numpy = None

HEADER_FILE = pathlib.Path(__file__).resolve().parent.parent / "c" / "dsr.h"
ZERO = dsr.Tables.zero()
# 01's example: one frame, 1 0 0 0 0 0 0, at 8 kHz.
EXAMPLE = bytes.fromhex("87B208000EEE01") + bytes(10) + b"\x04" + bytes(126)
# A codebook whose numbers rise with the index up to 63, by two an index.
RISING = [i % 128 for i in range(1280)]


def frames(count):
    """So many frames, none of them zero."""
    return bytes(i % 63 + 1 for i in range(dsr.FRAME_INDICES * count))


def flipped(octets, *bits):
    """The octets with these bits flipped."""
    changed = bytearray(octets)
    for bit in bits:
        changed[bit // 8] ^= 1 << bit % 8
    return bytes(changed)


def multiframe(message):
    """The example's multiframe with that message in its header: rate in bits 0 and 1, type in 2, counter in 3 to 6, EXP from 7 on."""
    return EXAMPLE[:2] + dsr.header_encode(message).to_bytes(4, "little") + EXAMPLE[6:]


def delayed(octets, idle, tail=0):
    """The octets behind so many idle bits, and so many octets more behind them: what a modem gives."""
    return (int.from_bytes(octets, "little") << idle).to_bytes(len(octets) + (idle + 7) // 8 + tail, "little")


class Case(unittest.TestCase):
    def refused(self, status, place, function, *arguments, **named):
        with self.assertRaises(dsr.Refused) as caught:
            function(*arguments, **named)
        self.assertEqual((caught.exception.status, caught.exception.place), (status, place))
        return caught.exception


class Writing(Case):
    def test_reads_back(self):
        for count in (0, 1, 23, 24, 25, 48, 6119):
            for rate in dsr.Rate:
                for front_end in dsr.FrontEnd:
                    with self.subTest(count=count, rate=rate, front_end=front_end):
                        self.reads_back(count, rate, front_end)

    def reads_back(self, count, rate, front_end):
        image = dsr.write(rate, front_end, frames(count))
        multiframes = count // 24 + 1
        self.assertEqual(len(image), 144 * multiframes)
        reading = dsr.read(image, ZERO, one_header_settles=count < 24)
        self.assertEqual((reading.rate, reading.front_end), (rate, front_end))
        self.assertEqual((reading.multiframes, reading.speech, reading.bad, reading.end), (multiframes, count, 0, True))
        self.assertEqual(reading.index, frames(count) + bytes(168 * multiframes - 7 * count))
        self.assertEqual(reading.report, bytes(13 * multiframes))
        self.assertEqual(b"".join(reading.frames()), frames(count))

    def test_image_of_the_example(self):
        self.assertEqual(dsr.write(0, 0, [1, 0, 0, 0, 0, 0, 0]), EXAMPLE)

    def test_settings_are_not_cut(self):
        for number in (2, 4, 256, 259, -1, -256, 2**32, 2**63, 2**64, 2**64 + 1, -2**64):
            self.refused(1, 0, dsr.write, number, 0, frames(1))
            self.refused(1, 0, dsr.write, 0, number, frames(1))
        self.assertRaises(TypeError, dsr.write, 0.0, 0, frames(1))

    def test_refusals(self):
        self.refused(2, 8, dsr.write, 0, 0, frames(2)[:8])
        self.refused(3, 6120, dsr.write, 0, 0, frames(6120))
        self.refused(3, 100000, dsr.write, 0, 0, bytes(700000))
        self.refused(4, 3, dsr.write, 0, 0, frames(2) + bytes([1, 64, 1, 1, 1, 1, 1]))
        self.refused(5, 24, dsr.write, 0, 0, frames(23) + bytes(7) + frames(1))
        self.refused(5, 1, dsr.write, 0, 0, bytes(7))


class Reading(Case):
    def setUp(self):
        self.image = dsr.write(1, 0, frames(30))

    def test_damage_is_named(self):
        reading = dsr.read(flipped(self.image, 16, 40, 48 + 92 + 5), ZERO)  # two bits of the first header, one of the second pair
        self.assertEqual((reading.rate, reading.speech, reading.bad), (dsr.Rate.KHZ_11, 30, 1))
        self.assertEqual(reading.header_notes(), [dsr.HeaderNote(2, False, False), dsr.HeaderNote(0, False, False)])
        self.assertEqual(reading.pair_notes(), [0, dsr.PairNote.CRC_FAILED] + 22 * [0])
        said = frames(30)
        self.assertEqual(reading.frames()[2:4], [said[7:14], said[28:35]])

    def test_header_notes(self):
        lost = flipped(self.image, 16, 17, 18)
        note = dsr.read(lost + self.image, ZERO).header_notes()[0]
        self.assertTrue(note.lost and note.flips is None)
        notes = dsr.read(self.image + dsr.write(0, 0, frames(1)), ZERO).header_notes()
        self.assertEqual(notes[2], dsr.HeaderNote(0, True, True))
        self.assertFalse(notes[2].lost)
        self.assertEqual(dsr.read(self.image * 2, ZERO).header_notes()[2], dsr.HeaderNote(0, True, False))
        other = dsr.header_encode(3 | 3 << 3).to_bytes(4, "little")  # 16 kHz, and the right counter
        self.assertEqual(dsr.read(self.image + EXAMPLE[:2] + other + EXAMPLE[6:], ZERO).header_notes()[2], dsr.HeaderNote(0, False, True))

    def test_end_missing(self):
        reading = dsr.read(dsr.write(1, 0, frames(50))[:288], ZERO)
        self.assertEqual((reading.speech, reading.end), (48, False))

    def test_tables_are_lent(self):
        strict = dsr.Tables(RISING, [0] * 14)
        notes = dsr.read(flipped(self.image, 48 + 92 * 3), strict).pair_notes()
        self.assertEqual(notes[2:5], [dsr.PairNote.BAD_OTHERWISE, dsr.PairNote.CRC_FAILED, dsr.PairNote.BAD_OTHERWISE])
        patient = dsr.Tables([-i for i in range(1280)], [2000] * 14)
        self.assertEqual(dsr.read(flipped(self.image, 48 + 92 * 3), patient).bad, 1)

    def test_falls_count_as_rises(self):
        """Each pair goes up or down by eight indices, the numbers with it by 16; or from one end of 32 bits to the other."""
        ends = [2**31 - 1 if i % 128 // 2 == 9 else -2**31 for i in range(1280)]
        for first, second in ((1, 9), (9, 1)):
            image = flipped(dsr.write(0, 0, (7 * [first] + 7 * [second]) * 20), 48 + 92 * 3)
            for numbers, threshold, bad in ((RISING, 15, 18), (RISING, 16, 1), (ends, 2**31 - 1, 18)):
                tables = dsr.Tables(numbers, [threshold] * 14)
                for reading in (dsr.read(image, tables), dsr.read_bits(delayed(image, 3), tables, least=16)):
                    self.assertEqual(reading.bad, bad)
                    self.assertEqual(reading.pair_notes()[1:5], [0, 2 * (bad > 1), 1, 2 * (bad > 1)])

    def test_a_negative_threshold(self):
        """Its number is the place. Only 11 comes before it."""
        for place in range(14):
            for value in (-1, -2**31):
                thresholds = place * [0] + [value] + (13 - place) * [-2**31]
                tables = dsr.Tables([0] * 1280, thresholds)
                for octets in (self.image, self.image[:-1], b"\0", b"", EXAMPLE, 2 * multiframe(2)):
                    self.refused(10, place, dsr.read, octets, tables)
                    for named in ({"least": 16}, {"least": 11}, {"least": 12, "start": 2**40}):
                        self.refused(10, place, dsr.read_bits, octets, tables, **named)
                for short in (dsr.Tables([0] * 1279, thresholds), dsr.Tables([0] * 1280, thresholds[:-1]), dsr.Tables([], thresholds + [0])):
                    self.refused(11, 0, dsr.read, b"\0", short)
                    self.refused(11, 0, dsr.read_bits, b"\0", short, least=11)
        refusal = self.refused(10, 3, dsr.read, b"", dsr.Tables([0] * 1280, [0, 0, 0, -5] + 10 * [0]))
        self.assertEqual(str(refusal), "refused 10 3: a negative threshold")

    def test_refusals(self):
        image = self.image
        self.refused(11, 0, dsr.read, image, dsr.Tables([0] * 1279, [0] * 14))
        self.refused(11, 0, dsr.read, image, dsr.Tables([0] * 1280, []))
        self.refused(11, 0, dsr.read, image, dsr.Tables([], [0] * 14))
        self.refused(12, 0, dsr.read, b"\0" + image, ZERO)
        self.refused(12, 290, dsr.read, image + b"\x78\x4d\0", ZERO)
        self.refused(13, 144, dsr.read, image[:-1], ZERO)
        self.refused(14, 0, dsr.read, b"", ZERO)
        self.refused(14, 4, dsr.read, b"\x78\x4d" * 2, ZERO)
        self.refused(15, 36720, dsr.read, image[:144] * 255 + b"\x87\xb2", ZERO)
        self.refused(16, 0, dsr.read, flipped(EXAMPLE, 16), ZERO)
        self.refused(17, 0, dsr.read, 2 * (EXAMPLE[:2] + dsr.header_encode(2 | 1 << 3).to_bytes(4, "little") + EXAMPLE[6:]), ZERO)
        self.refused(20, 0, dsr.read, 2 * flipped(EXAMPLE, *(48 + 92 * p for p in range(12))), ZERO)

    def test_refusal_says_itself(self):
        refusal = self.refused(13, 144, dsr.read, self.image[:-1], ZERO)
        self.assertIs(refusal.status, dsr.Status.READ_CUT)
        self.assertEqual(refusal.text, "sync with too few octets, or a lone last 87 or 78")
        self.assertEqual(str(refusal), "refused 13 144: sync with too few octets, or a lone last 87 or 78")
        again = pickle.loads(pickle.dumps(refusal))
        self.assertEqual((again.status, again.place, str(again)), (13, 144, str(refusal)))

    def test_threads(self):
        images = [dsr.write(0, 0, frames(count)) for count in range(200, 264)]
        with concurrent.futures.ThreadPoolExecutor(4) as threads:
            speech = [reading.speech for reading in threads.map(lambda image: dsr.read(image, ZERO), images)]
        self.assertEqual(speech, list(range(200, 264)))


class Misuse(Case):
    def test_rate_and_front_end_swapped(self):
        self.assertRaises(TypeError, dsr.write, dsr.FrontEnd.NOISE_ROBUST, 0, b"")
        self.assertRaises(TypeError, dsr.write, 0, dsr.Rate.KHZ_11, b"")

    def test_far_place(self):
        self.refused(14, 2**17, dsr.read, b"\x78\x4d" * 2**16, ZERO)


class Hunting(Case):
    def setUp(self):
        self.image = dsr.write(0, 1, frames(24))
        self.modem = delayed(self.image, 19, 1)  # 288 + 3 + 1 octets

    def test_hunt(self):
        self.assertEqual(dsr.hunt(self.modem, least=14), dsr.Hunted(19, 20))
        self.assertEqual(dsr.hunt(self.modem, least=16, start=20), dsr.Hunted(1171, 1152))
        self.assertEqual(dsr.hunt(flipped(self.modem, 19, 20), least=14, start=19), dsr.Hunted(19, 1))

    def test_read_bits(self):
        reading = dsr.read_bits(flipped(self.modem, 19), ZERO, least=14)
        self.assertEqual((reading.rate, reading.front_end, reading.multiframes), (dsr.Rate.KHZ_8, dsr.FrontEnd.NOISE_ROBUST, 2))
        self.assertEqual((reading.speech, reading.bad, reading.end, reading.outside, reading.tested), (24, 0, True, 32, 21))
        self.assertEqual((b"".join(reading.frames()), reading.report), (frames(24), bytes(26)))
        self.assertEqual(dsr.read_bits(self.modem, ZERO, least=16, start=19).outside, 13)

    def test_refusals(self):
        self.refused(21, 11, dsr.hunt, self.modem, least=11)
        self.assertEqual(self.refused(22, 1172, dsr.hunt, self.modem, least=14, start=1172).tested, 13)
        self.refused(22, 2**64 - 1, dsr.hunt, b"", least=14, start=2**64 - 1)
        self.refused(11, 0, dsr.read_bits, self.modem, dsr.Tables([], []), least=11)
        self.refused(21, 17, dsr.read_bits, self.modem, ZERO, least=17)
        self.refused(22, 1172, dsr.read_bits, self.modem, ZERO, least=14, start=1172)
        self.refused(15, 8 * 36720 + 3, dsr.read_bits, delayed(self.image[:144] * 256, 3), ZERO, least=16)
        self.refused(16, 0, dsr.read_bits, flipped(EXAMPLE, 16), ZERO, least=16)
        self.refused(22, 2**40, dsr.read_bits, self.modem, ZERO, least=14, start=2**40)

    def test_numbers_are_not_cut(self):
        for number in (-1, 2**64, 2**64 + 14):
            self.assertRaises(OverflowError, dsr.hunt, self.modem, least=number)
            self.assertRaises(OverflowError, dsr.hunt, self.modem, least=14, start=number)
            self.assertRaises(OverflowError, dsr.read_bits, self.modem, ZERO, least=number)
            self.assertRaises(OverflowError, dsr.read_bits, self.modem, ZERO, least=14, start=number)


class Choosing(Case):
    """The rule for an only multiframe: the default, and the one that is asked for by name."""

    def readers(self, octets):
        """Each reader with what it is given."""
        return ((dsr.read, (octets, ZERO), {}), (dsr.read_bits, (octets, ZERO), {"least": 16}))

    def outcome(self, function, given, named, one_header_settles):
        try:
            return function(*given, **named, one_header_settles=one_header_settles)
        except dsr.Refused as refusal:
            return refusal.status, refusal.place

    def test_an_only_multiframe_is_refused(self):
        for count in (0, 1, 23):
            for function, given, named in self.readers(dsr.write(3, 1, frames(count))):
                self.refused(16, 0, function, *given, **named)
                self.refused(16, 0, function, *given, **named, one_header_settles=False)

    def test_by_name_it_is_read(self):
        for count in (0, 1, 23):
            for function, given, named in self.readers(dsr.write(3, 1, frames(count))):
                reading = function(*given, **named, one_header_settles=True)
                self.assertEqual((reading.rate, reading.front_end, reading.multiframes), (3, 1, 1))
                self.assertEqual((reading.speech, reading.bad, reading.end), (count, 0, True))
                self.assertEqual((reading.index, reading.report), (frames(count) + bytes(168 - 7 * count), bytes(13)))

    def test_a_mended_only_header_settles_by_neither_rule(self):
        for flips in ((16,), (16, 47)):
            for function, given, named in self.readers(flipped(EXAMPLE, *flips)):
                for choice in (False, True):
                    self.refused(16, 0, function, *given, **named, one_header_settles=choice)
        for choice in (False, True):
            self.refused(16, 0, dsr.read, flipped(EXAMPLE, 16, 17, 18), ZERO, one_header_settles=choice)

    def test_alone_found_is_an_only_one(self):
        lost = flipped(dsr.write(0, 0, frames(24)), 16, 17, 18)
        self.refused(16, 0, dsr.read_bits, lost, ZERO, least=16)
        self.assertEqual(dsr.read_bits(lost, ZERO, least=16, one_header_settles=True).outside, 1152)
        self.refused(16, 0, dsr.read, lost, ZERO, one_header_settles=True)

    def test_wherever_the_search_begins(self):
        for before in (0, 3, 400, 75_000):
            for start in (0, 1, 8 * before):
                octets = bytes(before) + EXAMPLE + bytes(9)
                named = {"least": 14 if start == 1 else 16, "start": 0 if before == 0 else start}
                self.refused(16, 0, dsr.read_bits, octets, ZERO, **named)
                self.assertEqual(dsr.read_bits(octets, ZERO, **named, one_header_settles=True).multiframes, 1)

    def test_its_place_in_the_order(self):
        rate_2 = EXAMPLE[:2] + dsr.header_encode(2 | 1 << 3).to_bytes(4, "little") + EXAMPLE[6:]
        all_bad = flipped(EXAMPLE, *(48 + 92 * p for p in range(12)))
        for octets, number in ((rate_2, 17), (all_bad, 20)):
            for function, given, named in self.readers(octets):
                self.refused(16, 0, function, *given, **named)
                self.refused(number, 0, function, *given, **named, one_header_settles=True)
        self.refused(11, 0, dsr.read, EXAMPLE, dsr.Tables([], []))
        self.refused(13, 144, dsr.read, EXAMPLE + b"\x87", ZERO)

    def test_longer_ones_are_read_alike(self):
        image = dsr.write(1, 1, frames(60))
        other = EXAMPLE[:2] + dsr.header_encode(3 | 2 << 3).to_bytes(4, "little") + EXAMPLE[6:]
        longer = (image, image[:288], image * 85, image * 86, flipped(image, 16, 47, 300, 1152 + 16), flipped(image, 16, 17, 18),
                  EXAMPLE + other, EXAMPLE + other + other, b"\x78\x4d" + image, 2 * flipped(EXAMPLE, *(48 + 92 * p for p in range(12))))
        for octets in longer:
            for function, given, named in self.readers(octets):
                outcomes = [self.outcome(function, given, named, choice) for choice in (False, True)]
                self.assertEqual(outcomes[0], outcomes[1])

    def test_only_true_and_false_will_do(self):
        for word in (1, 0, None, "no", "yes", 2**64):
            for function, given, named in self.readers(EXAMPLE):
                self.assertRaises(TypeError, function, *given, **named, one_header_settles=word)
        self.assertRaises(TypeError, dsr.read, EXAMPLE, ZERO, True)  # by name only


class Settling(Case):
    """The settings without the whole utterance."""

    LOST = flipped(EXAMPLE, 16, 17, 18)
    ALL_DIFFERENT = b"".join(multiframe(exp << 7) for exp in range(1, 256))

    def settles(self, octets, *want):
        """Either rule gives that rate, front end and number of multiframes."""
        for choice in (False, True):
            self.assertEqual(dsr.settle(octets, one_header_settles=choice), dsr.Settled(*want))

    def refuses(self, number, place, octets):
        """Either rule refuses so."""
        for choice in (False, True):
            self.refused(number, place, dsr.settle, octets, one_header_settles=choice)

    def test_the_second_multiframe_settles(self):
        for count in (24, 47, 48, 60, 6119):
            for rate in dsr.Rate:
                for front_end in dsr.FrontEnd:
                    image = dsr.write(rate, front_end, frames(count))
                    self.settles(image, rate, front_end, 2)
                    self.settles(flipped(image, 16, 17, 1152 + 18, 1152 + 47), rate, front_end, 2)
        settled = dsr.settle(bytearray(image))
        self.assertIs(settled.rate, dsr.Rate.KHZ_16)
        self.assertIs(settled.front_end, dsr.FrontEnd.NOISE_ROBUST)

    def test_a_growing_recording_waits_and_then_stays(self):
        recorded = dsr.write(1, 1, frames(60))
        self.refuses(14, 0, b"")
        for octets in range(1, 144):
            self.refuses(13, 0, recorded[:octets])
        self.refused(16, 0, dsr.settle, recorded[:144])
        # by the old rule the first multiframe is taken for the only one where the recording ends with it
        self.assertEqual(dsr.settle(recorded[:144], one_header_settles=True), dsr.Settled(1, 1, 1))
        for octets in range(145, 288):
            self.refuses(13, 144, recorded[:octets])
        for octets in range(288, len(recorded) + 1):
            self.settles(recorded[:octets], 1, 1, 2)

    def test_what_stands_behind_is_not_looked_at(self):
        for tail in (b"\0", b"\x87", b"\x78", b"\x87\xb2", b"\xff" * 1000, multiframe(2), self.LOST, self.ALL_DIFFERENT):
            self.settles(dsr.write(3, 0, frames(60))[:288] + tail, 3, 0, 2)
            self.refuses(17, 0, 2 * multiframe(2) + tail)
        self.settles(256 * EXAMPLE, 0, 0, 2)
        self.settles(2 * flipped(EXAMPLE, *(48 + 92 * p for p in range(12))), 0, 0, 2)  # nor are the pairs

    def test_refusals(self):
        self.refuses(12, 0, b"\0")
        self.refuses(12, 2, b"\x78\x4d\x4d")
        self.refuses(13, 0, EXAMPLE[:143])
        self.refuses(13, 146, EXAMPLE + b"\x78\x4d\x78")
        self.refuses(14, 0, b"")
        self.refuses(14, 2**17, b"\x78\x4d" * 2**16)
        for unsettled in (255 * self.LOST, self.ALL_DIFFERENT):
            self.refuses(16, 0, unsettled)
            self.refuses(15, 36722, unsettled + b"\x78\x4d\x87\xb2")
            self.refuses(15, 36720, unsettled + EXAMPLE)
            self.refuses(13, 36720, unsettled + b"\x87")
        for unfit in (2, 6, 1 << 7, 1 << 15):
            self.refuses(17, 0, 2 * multiframe(unfit))

    def test_an_only_multiframe_follows_the_choice(self):
        for octets in (EXAMPLE, b"\x78\x4d" + EXAMPLE + b"\x78\x4d"):
            self.refused(16, 0, dsr.settle, octets)
            self.assertEqual(dsr.settle(octets, one_header_settles=True), dsr.Settled(0, 0, 1))
        for unfit in (2, 1 << 15):
            self.refused(16, 0, dsr.settle, multiframe(unfit))
            self.refused(17, 0, dsr.settle, multiframe(unfit), one_header_settles=True)
        for touched in (flipped(EXAMPLE, 16), flipped(EXAMPLE, 16, 47), self.LOST):
            self.refuses(16, 0, touched)

    def test_garbage_behind_an_only_multiframe(self):
        for only in (EXAMPLE, multiframe(2)):
            self.refuses(12, 144, only + b"\0")
            self.refuses(13, 144, only + b"\x78")
            self.refuses(13, 144, only + b"\x87\xb2\x08")
            self.refuses(12, 146, only + b"\x78\x4d\x01")

    def test_the_first_two_that_agree_settle(self):
        khz_8, khz_11 = multiframe(0), multiframe(1)
        for unsettled in (khz_8 + khz_11, khz_8 + self.LOST, self.LOST + khz_8):
            self.refuses(16, 0, unsettled)
        self.settles(khz_8 + khz_11 + khz_8 + khz_11, 0, 0, 3)
        self.settles(khz_8 + multiframe(7) + khz_11 + multiframe(7) + khz_8, 3, 1, 4)
        self.refuses(17, 0, khz_8 + multiframe(2) + multiframe(2) + khz_8)
        self.settles(253 * self.LOST + 2 * khz_11, 1, 0, 255)

    def test_a_full_reading_gives_the_same(self):
        messages, tried = (0, 1, 7, 2, 1 << 7), 0
        for kinds in itertools.product(range(len(messages) + 1), repeat=4):
            octets = b"".join(multiframe(messages[kind]) if kind < len(messages) else self.LOST for kind in kinds)
            try:
                reading = dsr.read(octets, ZERO)
            except dsr.Refused as refusal:
                self.refuses(refusal.status, refusal.place, octets)
            else:
                settled = dsr.settle(octets)
                self.assertEqual((settled.rate, settled.front_end), (reading.rate, reading.front_end))
                self.settles(octets[:144 * settled.multiframes] + b"\0", *dataclasses.astuple(settled))
                tried += 1
        self.assertGreater(tried, 400)

    def test_only_true_and_false_will_do(self):
        for word in (1, 0, None, "no", "yes", 2**64):
            self.assertRaises(TypeError, dsr.settle, 2 * EXAMPLE, one_header_settles=word)
        self.assertRaises(TypeError, dsr.settle, 2 * EXAMPLE, True)  # by name only

    def test_octets(self):
        for kind in (bytes, bytearray, memoryview, list, tuple, lambda octets: array.array("B", octets)):
            self.assertEqual(dsr.settle(kind(2 * EXAMPLE)).multiframes, 2)
        for data in (7, "abcdefg", None, array.array("i", [1] * 7)):
            self.assertRaises(TypeError, dsr.settle, data)


class Parts(Case):
    def test_header(self):
        for message, octets in ((8, "08000EEE"), (16, "10001D0D"), (24, "180013E3"), (1, "010001D1"), (0x8000, "008080E8")):
            word = int.from_bytes(bytes.fromhex(octets), "little")
            self.assertEqual(dsr.header_encode(message), word)
            self.assertEqual(dsr.header_read(word), dsr.Header(message, 0))
            self.assertEqual(dsr.header_read(word ^ 0x80000001), dsr.Header(message, 2))
        lost = self.refused(97, None, dsr.header_read, 0x01010001)
        self.assertEqual(str(lost), "refused 97: no codeword differs from the word in at most two bits")

    def test_header_numbers_are_not_cut(self):
        for number in (-1, 2**16):
            self.assertRaises(OverflowError, dsr.header_encode, number)
        for number in (-1, 2**32):
            self.assertRaises(OverflowError, dsr.header_read, number)

    def test_pack_and_unpack(self):
        stream = dsr.pack(frames(24))
        self.assertEqual(dsr.write(0, 0, frames(24))[6:144], stream)
        self.assertEqual(dsr.unpack(stream), (frames(24), 12 * [dsr.PairNote.GOOD]))
        self.assertEqual(dsr.unpack(flipped(stream, 92 * 11))[1], 11 * [0] + [dsr.PairNote.CRC_FAILED])

    def test_refusals(self):
        for length in (0, 167, 169):
            self.refused(98, None, dsr.pack, bytes(length))
        for length in (0, 137, 139):
            self.refused(98, None, dsr.unpack, bytes(length))
        self.refused(4, None, dsr.pack, bytes([64]) + bytes(167))


class Inputs(Case):
    def test_octets(self):
        said = frames(25)
        image = dsr.write(0, 0, said)
        for kind in (bytes, bytearray, memoryview, list, tuple, lambda octets: array.array("B", octets)):
            self.assertEqual(dsr.write(0, 0, kind(said)), image)
            self.assertEqual(dsr.read(kind(image), ZERO).speech, 25)
        self.assertEqual(dsr.write(0, 0, memoryview(bytes(2 * x for x in range(42)))[::2][7:14]), dsr.write(0, 0, bytes(range(28, 56, 4))))

    def test_lent_octets_stay(self):
        image = bytearray(flipped(dsr.write(0, 0, frames(25)), 48))
        kept = bytes(image)
        self.assertEqual(dsr.read(image, ZERO).bad, 1)
        self.assertEqual(image, kept)
        image.append(0)  # and are not held

    def test_what_is_no_octets(self):
        for data in (7, "abcdefg", None, array.array("i", [1] * 7), array.array("b", [1] * 7), 1.5):
            self.assertRaises(TypeError, dsr.write, 0, 0, data)
        self.assertRaises(ValueError, dsr.write, 0, 0, [256] * 7)
        self.assertRaises(ValueError, dsr.write, 0, 0, [-1] * 7)

    def test_tables(self):
        image = dsr.write(0, 0, frames(30))
        for code in "bhilq":
            tables = dsr.Tables(array.array(code, [-1] * 1280), memoryview(array.array(code, [7] * 14)))
            self.assertEqual(dsr.read(image, tables).bad, 0)
            self.assertEqual((list(tables.codebook), list(tables.thresholds)), ([-1] * 1280, [7] * 14))
            self.refused(10, 0, dsr.read, image, dsr.Tables(tables.codebook, array.array(code, [-1] * 14)))
        for wide in (2**31, -2**31 - 1):
            self.assertRaises(OverflowError, dsr.Tables, [wide], [])
            self.assertRaises(OverflowError, dsr.Tables, array.array("q", [wide]), [])
        for data in (bytes(1280), "0", [0.5], array.array("d", [1]), 5, None):
            self.assertRaises(TypeError, dsr.Tables, data, [])


@unittest.skipUnless(numpy, "no numpy")
class Numpy(Case):
    def test_octets(self):
        said = numpy.frombuffer(frames(24), dtype=numpy.uint8).reshape(-1, 7)
        image = dsr.write(3, 1, said)
        self.assertEqual(image, dsr.write(3, 1, frames(24)))
        self.assertEqual(dsr.write(3, 1, numpy.asfortranarray(said)), image)
        self.assertEqual(dsr.write(numpy.int64(3), numpy.uint8(1), said), image)
        self.refused(1, 0, dsr.write, numpy.int64(-1), 0, said)
        reading = dsr.read(numpy.frombuffer(image, dtype=numpy.uint8), ZERO)
        self.assertTrue((reading.frames_numpy()[:reading.speech] == said).all())
        self.assertEqual((reading.frames_numpy().shape, reading.report_numpy().shape), ((48, 7), (2, 13)))
        for kind in (numpy.int8, numpy.uint16, numpy.int64, numpy.float32, bool):
            self.assertRaises(TypeError, dsr.write, 0, 0, said.astype(kind))

    def test_tables(self):
        image = flipped(dsr.write(0, 0, frames(30)), 48 + 92 * 3)
        for kind in (numpy.int16, numpy.int32, numpy.int64):
            tables = dsr.Tables(-numpy.array(RISING, dtype=kind).reshape(-1, 2), numpy.full((7, 2), 1, dtype=kind))
            self.assertEqual((tables.codebook[5], list(tables.thresholds)), (-5, [1] * 14))
            self.assertEqual(dsr.read(image, tables).report_numpy()[0, 3:5].tolist(), [2, 1])
            self.refused(10, 0, dsr.read, image, dsr.Tables(tables.codebook, numpy.full((7, 2), -1, dtype=kind)))
        self.assertRaises(TypeError, dsr.Tables, numpy.zeros(1280), numpy.zeros(14))
        self.assertRaises(TypeError, dsr.Tables, numpy.zeros(1280, dtype=">i4"), numpy.zeros(14, dtype=int))


class Module(unittest.TestCase):
    def run_alone(self, program, folder=pathlib.Path(__file__).resolve().parent, **environment):
        return subprocess.run([sys.executable, "-B", "-c", program], cwd=folder, env={**os.environ, **environment}, capture_output=True,
                              text=True)

    def test_library_that_is_named_is_taken(self):
        done = self.run_alone("import dsr", DSR_LIBRARY="/no/such/libdsr.so")
        self.assertNotEqual(done.returncode, 0)
        self.assertIn("/no/such/libdsr.so", done.stderr)

    def test_library_that_is_missing_is_said(self):
        with tempfile.TemporaryDirectory() as folder:
            shutil.copy(dsr.__file__, folder)
            done = self.run_alone("import dsr", folder, DSR_LIBRARY="", LD_LIBRARY_PATH="")
        if done.returncode != 0:  # else one is installed
            self.assertIn("ImportError: run make lib", done.stderr)

    def test_library_without_a_function_is_said(self):
        done = self.run_alone("import dsr", DSR_LIBRARY="libc.so.6")
        self.assertIn(f"ImportError: this is dsr.py {dsr.__version__}, and the library has no dsr_", done.stderr)

    def test_numpy_is_not_imported(self):
        done = self.run_alone("import sys, dsr; dsr.read(2 * dsr.write(0, 0, b''), dsr.Tables.zero()); print('numpy' in sys.modules)")
        self.assertEqual(done.stdout, "False\n")

    def test_every_name_is_there(self):
        for name in dsr.__all__:
            self.assertTrue(getattr(dsr, name).__doc__, name)


@unittest.skipUnless(HEADER_FILE.exists(), "no c/dsr.h beside the module")
class SameAsC(unittest.TestCase):
    """What stands in c/dsr.h and here is the same."""

    def setUp(self):
        self.text = HEADER_FILE.read_text(encoding="utf-8")

    def enumeration(self, name):
        body = re.sub(r"/\*.*?\*/", "", self.text.split(f"enum {name} {{\n", 1)[1].split("};", 1)[0], flags=re.S)
        return {constant: int(number) for constant, number in re.findall(r"(DSR_\w+) = (\d+)", body)}

    def test_statuses(self):
        self.assertEqual({"DSR_" + status.name: status.value for status in dsr.Status}, self.enumeration("dsr_status"))
        words = dict(re.findall(r'case (DSR_\w+): return "(.*)";', self.text))
        self.assertEqual({"DSR_" + status.name: status.text for status in dsr.Status}, words)

    def test_other_numbers(self):
        rates = {"DSR_RATE_8_KHZ": dsr.Rate.KHZ_8, "DSR_RATE_11_KHZ": dsr.Rate.KHZ_11, "DSR_RATE_16_KHZ": dsr.Rate.KHZ_16, "DSR_RATE_NONE": 255}
        self.assertEqual(rates, self.enumeration("dsr_rate"))
        self.assertEqual({f"DSR_{end.name}": end for end in dsr.FrontEnd}, self.enumeration("dsr_front_end"))
        choices = {"DSR_DEFAULT_CHOICES": dsr._DEFAULT_CHOICES, "DSR_ONE_HEADER_SETTLES": dsr._ONE_HEADER_SETTLES}
        self.assertEqual(choices, self.enumeration("dsr_choices"))
        notes = self.enumeration("dsr_note")
        self.assertEqual([notes["DSR_PAIR_" + name] for name in ("GOOD", "CRC", "BAD")], list(dsr.PairNote))

    def test_sizes_and_version(self):
        sizes = {name: int(number) for name, number in re.findall(r"#define DSR_(\w+) (\d+)$", self.text, re.M)}
        for name in set(sizes) & set(vars(dsr)):
            self.assertEqual(getattr(dsr, name), sizes[name], name)
        self.assertGreaterEqual(len(set(sizes) & set(vars(dsr))), 11)
        self.assertIn(f'#define DSR_VERSION_TEXT "{dsr.__version__}"', self.text)


if __name__ == "__main__":
    unittest.main()
