"""The proved voice-link codec (ETSI ES 201 108 multiframes) for Python, over libdsr.so.

    write         frames to the octets that are sent
    read          received octets to frames
    settle        the first octets of a recording to its sample rate and front end
    read_bits     received bits with no octet boundary to frames
    hunt          the first place of a multiframe in such bits
    header_encode, header_read, pack, unpack    the parts of a multiframe, for tests

Octets may be bytes, bytearray, memoryview, array.array('B'), a numpy array of uint8 or a list of numbers; bytes come back. Nothing outside
of Python's own library is needed; numpy is imported only by Reading.frames_numpy and Reading.report_numpy. A refusal is the exception
Refused, with number, place and words of document 01 (the specification) or 02 (its changes). Calls in several threads do not meet.

The library is the file that the environment variable DSR_LIBRARY names; else the installed libdsr.so.0.4; else the one that `make lib` made
beside this file's folder. c/dsr.h says of every number and octet what it means.
"""
import array
import ctypes
import dataclasses
import enum
import operator
import os
import pathlib
import platform
import typing

__version__ = "0.4.0"
__all__ = ["BitsReading", "FrontEnd", "Header", "HeaderNote", "Hunted", "PairNote", "Rate", "Reading", "Refused", "Settled", "Status",
           "Tables", "header_encode", "header_read", "hunt", "pack", "read", "read_bits", "settle", "unpack", "write"]

FRAME_INDICES = 7
MULTIFRAME_FRAMES = 24
MULTIFRAME_PAIRS = 12
MULTIFRAME_OCTETS = 144
STREAM_OCTETS = 138
MULTIFRAME_INDICES = FRAME_INDICES * MULTIFRAME_FRAMES
MULTIFRAME_REPORT = 1 + MULTIFRAME_PAIRS
MOST_MULTIFRAMES = 255
MOST_FRAMES = MOST_MULTIFRAMES * MULTIFRAME_FRAMES - 1
CODEBOOK_NUMBERS = 1280
THRESHOLD_NUMBERS = 14

_MOST_64 = 2**64 - 1
# dsr.h's numbers of the choices.
_DEFAULT_CHOICES, _ONE_HEADER_SETTLES = 0, 1
# The Makefile's rule: the major number, and while it is 0 the minor one too.
_SONAME = "libdsr.so.0.4"


class Status(enum.IntEnum):
    """What the library answers: DONE, or the number of a refusal. `text` has the words of 01 and 02 for when it is given; those of 0, of
    96 to 99 and of a hunt's 15 are the library's own."""

    def __new__(cls, number, text):
        status = int.__new__(cls, number)
        status._value_ = number
        status.text = text
        return status

    DONE = 0, "done"
    WRITE_SETTINGS = 1, "rate not 0, 1 or 3, or type above 1"
    WRITE_INDEX_COUNT = 2, "index octets no multiple of 7"
    WRITE_FRAME_COUNT = 3, "more than 6,119 frames"
    WRITE_INDEX_VALUE = 4, "one of the first six indices of a frame above 63"
    WRITE_ZERO_FRAME = 5, "an all-zero frame that is the last, or whose number is a multiple of 24"
    WRITE_OUTPUT_SHORT = 6, "output shorter than 144m"
    READ_THRESHOLD = 10, "a negative threshold"
    READ_TABLES = 11, "codebook not 1,280 or thresholds not 14"
    READ_UNKNOWN = 12, "octets at p begin nothing known"
    READ_CUT = 13, "sync with too few octets, or a lone last 87 or 78"
    READ_NO_MULTIFRAME = 14, "no multiframe"
    READ_TOO_MANY = 15, "a sync after 255 multiframes, even a cut one; in a hunt a match"
    READ_UNSETTLED = 16, "settings not settled"
    READ_SETTINGS = 17, "settled rate is 2 or any EXP is 1"
    READ_INDEX_SHORT = 18, "index buffer under 168m"
    READ_REPORT_SHORT = 19, "report buffer under 13m"
    READ_ALL_BAD = 20, "every pair bad"
    HUNT_MATCH = 21, "T outside 12 to 16"
    HUNT_NOWHERE = 22, "no place found by the first hunt"
    NO_SUCH_CHOICE = 96, "no such choice"
    HEADER_UNREADABLE = 97, "no codeword differs from the word in at most two bits"
    WRONG_LENGTH = 98, "a length is not the multiframe's, or none that lent memory has"
    READ_ANSWER_SHORT = 99, "answer too short"


class Refused(Exception):
    """A refusal: `status` (its number), `place` (None if it has none) and `text`. Of a refused hunt `tested` is the number of places."""

    def __init__(self, status, place=None, tested=None):
        self.status, self.place, self.text, self.tested = Status(status), place, Status(status).text, tested
        super().__init__(self.status, place, tested)

    def __str__(self):
        place = "" if self.place is None else f" {self.place}"
        return f"refused {int(self.status)}{place}: {self.text}"


class Rate(enum.IntEnum):
    """The code of a sample rate."""

    KHZ_8 = 0
    KHZ_11 = 1
    KHZ_16 = 3


class FrontEnd(enum.IntEnum):
    """The type of a front end."""

    STANDARD = 0
    NOISE_ROBUST = 1


class PairNote(enum.IntEnum):
    """What a reading says of a pair of frames."""

    GOOD = 0
    CRC_FAILED = 1
    BAD_OTHERWISE = 2


@dataclasses.dataclass(frozen=True)
class HeaderNote:
    """What a reading says of a header."""

    flips: typing.Optional[int]  # flips that were mended, at most two; None if the header is lost
    counter_wrong: bool  # its counter is not that of its position
    settings_differ: bool  # its settings differ from the settled ones

    @property
    def lost(self):
        """Whether no codeword differs from the header in at most two bits."""
        return self.flips is None

    @classmethod
    def of(cls, octet):
        """The note that a report's octet holds."""
        return cls(None if octet & 3 == 3 else octet & 3, bool(octet & 4), bool(octet & 8))


@dataclasses.dataclass(frozen=True)
class Reading:
    """What a reading says of an utterance."""

    rate: Rate
    front_end: FrontEnd
    multiframes: int
    speech: int  # 24(m-1) plus the place (1 to 24, 0 if none) of the last nonzero frame of the last multiframe, after replacing
    bad: int  # bad pairs
    end: bool  # whether the last frame is zero, which marks the end of an utterance
    index: bytes = dataclasses.field(repr=False)  # all frames, seven octets each, 24 frames a multiframe
    report: bytes = dataclasses.field(repr=False)  # 13 octets a multiframe: a header note, then twelve pair notes

    def frames(self):
        """The frames of speech in order, seven octets each, without the padding behind them."""
        return [self.index[FRAME_INDICES * f:FRAME_INDICES * (f + 1)] for f in range(self.speech)]

    def header_notes(self):
        """A HeaderNote for each multiframe."""
        return [HeaderNote.of(octet) for octet in self.report[::MULTIFRAME_REPORT]]

    def pair_notes(self):
        """A PairNote for each pair, twelve a multiframe: pair q is frames 2q and 2q + 1, counted from 0."""
        return [PairNote(octet) for at, octet in enumerate(self.report) if at % MULTIFRAME_REPORT]

    def frames_numpy(self):
        """All frames, padding too, as a numpy array of uint8 with a row for each frame; it cannot be written to."""
        return _numpy(self.index, FRAME_INDICES)

    def report_numpy(self):
        """The report as a numpy array of uint8 with a row for each multiframe; it cannot be written to."""
        return _numpy(self.report, MULTIFRAME_REPORT)


@dataclasses.dataclass(frozen=True)
class BitsReading(Reading):
    """What a reading that hunts says besides."""

    outside: int  # bits outside the multiframes found, from the first bit searched to the end
    tested: int  # places tested in all hunts together


@dataclasses.dataclass(frozen=True)
class Settled:
    """What was settled, and how far that took."""

    rate: Rate
    front_end: FrontEnd
    multiframes: int  # multiframes read: the last of them settled


@dataclasses.dataclass(frozen=True)
class Hunted:
    """Where a hunt ended."""

    found: int  # the multiframe's first bit
    tested: int  # places tested, this one among them


@dataclasses.dataclass(frozen=True)
class Header:
    """A header that was read: its message of 16 bits, and how many flips were mended."""

    message: int
    flips: int


class Tables:
    """The codebook and the thresholds that a reading judges pairs by; c/dsr.h says how they are laid out.

    Each is a list of numbers, or an array of them (array.array, numpy), signed and of 32 bits. A pair of frames is inconsistent if at least
    two of its seven indices rise or fall by more than a threshold. A reading refuses other lengths than 1,280 and 14 with 11, and then a
    negative threshold with 10, its number from 0 as the place; here any are taken. Make it once and use it for many readings."""

    def __init__(self, codebook, thresholds):
        self.codebook, self.thresholds = _numbers(codebook), _numbers(thresholds)

    @classmethod
    def zero(cls):
        """All numbers 0: no pair is inconsistent, so only a failed CRC makes a pair bad."""
        return cls([0] * CODEBOOK_NUMBERS, [0] * THRESHOLD_NUMBERS)


def write(rate, front_end, indices):
    """Writes an utterance, seven index octets a frame (also as rows of a numpy array), and gives its image.

    Refused: 1 to 5. A Rate and a FrontEnd in each other's place are a TypeError."""
    if isinstance(rate, FrontEnd) or isinstance(front_end, Rate):
        raise TypeError("the rate comes first, then the front end")
    said = _octets(indices)
    frames = min(len(said) // FRAME_INDICES, MOST_FRAMES)
    out = ctypes.create_string_buffer(MULTIFRAME_OCTETS * (frames // MULTIFRAME_FRAMES + 1))
    place = ctypes.c_uint64()
    _check(_library.dsr_write(_setting(rate), _setting(front_end), said, len(said), out, len(out), place), place)
    return out.raw[:place.value]


def read(octets, tables, *, one_header_settles=False):
    """Reads received octets by the tables lent, and gives a Reading.

    An only multiframe is refused with 16, however clean it is: its codeword can be the wrong one, and no second header is there to show it.
    With `one_header_settles` it is read if its header is itself a codeword, for whoever has to read one and knows the line, as at a bench.
    For two multiframes or more that changes nothing.

    Refused: 10 to 17 and 20."""
    received = _octets(octets)
    lent = _Lent(len(received), 6)
    choices = _choices(one_header_settles)
    _check(_library.dsr_read(received, len(received), choices, *_lend(tables), *lent.arguments()), lent.place)
    return Reading(*lent.reading())


def settle(octets, *, one_header_settles=False):
    """Reads multiframes only until two headers agree, and gives a Settled: for a recording that is still being written.

    No CRC is tried, and the octets behind the settling multiframe are not looked at. Rate and front end are those of `read`, whenever that
    succeeds; where it refuses further on, they are given all the same.

    Refused: 12 to 17. By default an answer stays whatever octets follow, and so do 12, 15 and 17; after 13, 14 or 16 more octets can
    settle, so ask again with all of them. `one_header_settles` is as in `read`, for octets that are the whole utterance: while the rest is still to come,
    it takes the first multiframe for the only one, and its answer can change."""
    received = _octets(octets)
    answer, place = (ctypes.c_uint64 * 3)(), ctypes.c_uint64()
    _check(_library.dsr_settle(received, len(received), _choices(one_header_settles), answer, len(answer), place), place)
    rate, front_end, multiframes = answer
    return Settled(Rate(rate), FrontEnd(front_end), multiframes)


def read_bits(octets, tables, *, least, start=0, one_header_settles=False):
    """Reads bits with no octet boundary: hunts from bit `start` on, with at least `least` (12 to 16) of a sync's bits matching.

    Bit t is in octet t // 8, with value 2 ** (t % 8). Gives a BitsReading. A multiframe that alone was found is an only one, and
    `one_header_settles` is as in `read`. Refused: 10, 11, 15 (its place is here a bit) to 17 and 20 to 22."""
    received = _octets(octets)
    lent = _Lent(len(received), 8)
    choices = _choices(one_header_settles)
    number = _library.dsr_read_bits(received, len(received), _wide(start), _wide(least), choices, *_lend(tables), *lent.arguments())
    _check(number, lent.place)
    return BitsReading(*lent.reading(), *lent.answer[6:])


def hunt(octets, *, least, start=0):
    """Finds the first multiframe from bit `start` on, and gives a Hunted. Refused: 21 and 22."""
    received = _octets(octets)
    found, tested, place = ctypes.c_uint64(), ctypes.c_uint64(), ctypes.c_uint64()
    _check(_library.dsr_hunt(received, len(received), _wide(start), _wide(least), found, tested, place), place, tested)
    return Hunted(found.value, tested.value)


def header_encode(message):
    """Gives the codeword of a message of 16 bits: the first sent bit least significant, P1 to P16 in bits 16 to 31."""
    return _library.dsr_header_encode(_narrow(message, 16))


def header_read(word):
    """Reads a received header of 32 bits, and gives a Header. Refused: 97, if no codeword differs in at most two bits."""
    message, flips = ctypes.c_uint16(), ctypes.c_uint32()
    _check(_library.dsr_header_read(_narrow(word, 32), message, flips))
    return Header(message.value, flips.value)


def pack(indices):
    """Packs the 168 index octets of a multiframe into its feature stream of 138. Refused: 4 (without a place) and 98."""
    said, stream = _octets(indices), ctypes.create_string_buffer(STREAM_OCTETS)
    _check(_library.dsr_pack(said, len(said), stream, len(stream)))
    return stream.raw


def unpack(stream):
    """Takes a feature stream of 138 octets apart: gives 168 index octets, and a PairNote for each of the twelve pairs. Refused: 98."""
    sent, indices, notes = _octets(stream), ctypes.create_string_buffer(MULTIFRAME_INDICES), ctypes.create_string_buffer(MULTIFRAME_PAIRS)
    _check(_library.dsr_unpack(sent, len(sent), indices, len(indices), notes, len(notes)))
    return indices.raw, [PairNote(octet) for octet in notes.raw]


class _Lent:
    """The memory that a reading fills: room for as many multiframes as so many octets can hold, so that it is never too short."""

    def __init__(self, octets, numbers):
        most = min(octets // MULTIFRAME_OCTETS, MOST_MULTIFRAMES)
        self.index = ctypes.create_string_buffer(max(1, MULTIFRAME_INDICES * most))
        self.report = ctypes.create_string_buffer(max(1, MULTIFRAME_REPORT * most))
        self.answer = (ctypes.c_uint64 * numbers)()
        self.place = ctypes.c_uint64()

    def arguments(self):
        return (self.index, len(self.index), self.report, len(self.report), self.answer, len(self.answer), self.place)

    def reading(self):
        rate, front_end, multiframes, speech, bad, end = self.answer[:6]
        return (Rate(rate), FrontEnd(front_end), multiframes, speech, bad, bool(end), self.index.raw[:MULTIFRAME_INDICES * multiframes],
                self.report.raw[:MULTIFRAME_REPORT * multiframes])


def _octets(data):
    """The octets as bytes; what does not consist of octets is no octets, rather than cut to some."""
    if isinstance(data, bytes):
        return data
    if isinstance(data, (list, tuple)):
        return bytes(data)
    view = memoryview(data)
    if view.format not in ("B", "c"):
        raise TypeError(f"octets are unsigned numbers of 8 bits, not of the format {view.format!r}")
    return view.tobytes()


def _numbers(data):
    """The numbers as an array of 32 bits, signed; one that does not fit is an OverflowError."""
    if isinstance(data, (bytes, bytearray, str)):
        raise TypeError("a table is numbers, not octets or text")
    if isinstance(data, (list, tuple)):
        return array.array("i", data)
    view = memoryview(data)
    if view.format not in tuple("bBhHiIlLqQ"):
        raise TypeError(f"a table is whole numbers in the machine's order, not of the format {view.format!r}")
    return array.array("i", memoryview(view.tobytes()).cast(view.format).tolist())


def _lend(tables):
    """Both tables as pointers and lengths."""
    def pointer(numbers):
        return (ctypes.c_int32 * max(1, len(numbers))).from_buffer(numbers if numbers else array.array("i", [0]))
    return pointer(tables.codebook), len(tables.codebook), pointer(tables.thresholds), len(tables.thresholds)


def _choices(one_header_settles):
    """The number of the choices. Only True and False will do: a word such as "no", out of a file of settings, must not ask for the rule."""
    if not isinstance(one_header_settles, bool):
        raise TypeError(f"one_header_settles is True or False, not {one_header_settles!r}")
    return _ONE_HEADER_SETTLES if one_header_settles else _DEFAULT_CHOICES


def _setting(number):
    """A rate or type: one outside 64 bits becomes the largest, which is refused as it would be, rather than cut to a right one."""
    number = operator.index(number)
    return number if 0 <= number <= _MOST_64 else _MOST_64


def _wide(number):
    return _narrow(number, 64)


def _narrow(number, bits):
    """The number, if it has so many bits. ctypes would cut it."""
    number = operator.index(number)
    if not 0 <= number < 1 << bits:
        raise OverflowError(f"{number} is no unsigned number of {bits} bits")
    return number


def _check(number, place=None, tested=None):
    """Nothing if the library is done, else the refusal."""
    if number != Status.DONE:
        raise Refused(number, None if place is None else place.value, None if tested is None else tested.value)


def _numpy(octets, row):
    import numpy  # only here: whoever asks for no array needs no numpy
    return numpy.frombuffer(octets, dtype=numpy.uint8).reshape(-1, row)


def _declare(library):
    """The functions of c/dsr.h, so that ctypes converts no number by guess."""
    octets, size, wide = ctypes.c_char_p, ctypes.c_size_t, ctypes.c_uint64
    numbers, answer = ctypes.POINTER(ctypes.c_int32), ctypes.POINTER(ctypes.c_uint64)
    tables, lent = [numbers, size, numbers, size], [octets, size, octets, size, answer, size, answer]
    arguments = {
        "header_encode": [ctypes.c_uint16],
        "header_read": [ctypes.c_uint32, ctypes.POINTER(ctypes.c_uint16), ctypes.POINTER(ctypes.c_uint32)],
        "pack": [octets, size, octets, size],
        "unpack": [octets, size, octets, size, octets, size],
        "write": [wide, wide, octets, size, octets, size, answer],
        "read": [octets, size, wide, *tables, *lent],
        "settle": [octets, size, wide, answer, size, answer],
        "hunt": [octets, size, wide, wide, answer, answer, answer],
        "read_bits": [octets, size, wide, wide, wide, *tables, *lent],
    }
    for name, types in arguments.items():
        function = getattr(library, "dsr_" + name, None)
        if function is None:  # DSR_LIBRARY can name any
            raise ImportError(f"this is dsr.py {__version__}, and the library has no dsr_{name}: install the same version of both")
        function.argtypes, function.restype = types, ctypes.c_uint32
    return library


def _load():
    """The library that DSR_LIBRARY names; else the installed one; else the repository's own."""
    named = os.environ.get("DSR_LIBRARY")
    if named:
        return ctypes.CDLL(named)
    made = pathlib.Path(__file__).resolve().parent.parent / "target" / "lib" / platform.machine() / "libdsr.so"
    reasons = []
    for file in (_SONAME, str(made)):
        try:
            return ctypes.CDLL(file)
        except OSError as error:
            reasons.append(str(error))
    raise ImportError("run make lib, install the library, or name its file in DSR_LIBRARY: " + "; ".join(reasons))


_library = _declare(_load())
