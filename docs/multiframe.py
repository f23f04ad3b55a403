#!/usr/bin/env python3
"""Draws the multiframe of ETSI ES 201 108 as SVG on standard output: python3 docs/multiframe.py >docs/multiframe.svg

Widths are worked out from the sizes below; nothing is drawn by hand, so the drawing cannot disagree with itself."""

SYNC, HEADER, PACKETS = (0x87, 0xB2), (0x08, 0x00, 0x0E, 0xEE), 12
INDEX_BITS = (6, 6, 6, 6, 6, 6, 8)
FRAME_BITS, CRC_BITS = sum(INDEX_BITS), 4
PACKET_BITS = 2 * FRAME_BITS + CRC_BITS
STREAM_OCTETS = PACKETS * PACKET_BITS // 8
FIELDS = [("SampRate", 2), ("feType", 1), ("MframeCnt", 4), ("EXP1 to EXP9", 9), ("P1 to P16", 16)]

LEFT, WIDTH, PAGE = 40, 960, 1040
BLUE, GREEN, SAND, ROSE, GREY, WHITE = "#cfe2f3", "#d9ead3", "#fff2cc", "#f4cccc", "#eeeeee", "#ffffff"

drawn = []


def box(x, y, w, h, fill, words="", size=12):
    drawn.append(f'<rect x="{x:.2f}" y="{y:.2f}" width="{w:.2f}" height="{h:.2f}" fill="{fill}" stroke="#444444" stroke-width="1"/>')
    if words:
        text(x + w / 2, y + h / 2 + size * 0.36, words, size, "middle")


def text(x, y, words, size=12, anchor="start", weight="normal"):
    drawn.append(f'<text x="{x:.2f}" y="{y:.2f}" font-size="{size}" text-anchor="{anchor}" font-weight="{weight}">{words}</text>')


def line(x1, y1, x2, y2, dash="none", colour="#444444"):
    drawn.append(
        f'<line x1="{x1:.2f}" y1="{y1:.2f}" x2="{x2:.2f}" y2="{y2:.2f}" stroke="{colour}" stroke-width="1" stroke-dasharray="{dash}"/>'
    )


def bits(octets):
    """The bits of octets in sending order: the least significant bit of each octet first."""
    return [octet >> k & 1 for octet in octets for k in range(8)]


def heading(y, words):
    text(LEFT, y, words, 15, weight="bold")


def whole(y):
    heading(y, f"Multiframe: {2 + 4 + STREAM_OCTETS} octets, 24 frames, 240 ms of speech (widths not to scale)")
    parts = [("sync", 2, 120, ROSE), ("header", 4, 200, BLUE), (f"feature stream: {PACKETS} pair packets of {PACKET_BITS} bits", STREAM_OCTETS, 640, GREEN)]
    x, octet = LEFT, 0
    for name, octets, width, fill in parts:
        box(x, y + 12, width, 36, fill, f"{name}, {octets} octets", 13)
        text(x, y + 64, f"octet {octet}", 11)
        x, octet = x + width, octet + octets
    text(x, y + 64, f"end: {octet}", 11, "end")


def row_of_bits(x, y, cell, values, fills, first=0):
    """Cells with a bit each, its number above; a heavier line where an octet begins."""
    for i, (value, fill) in enumerate(zip(values, fills)):
        box(x + cell * i, y, cell, 24, fill, str(value), 12)
        text(x + cell * (i + 0.5), y - 4, str(first + i), 9, "middle")
    for i in range(0, len(values), 8):
        line(x + cell * i, y - 14, x + cell * i, y + 44, "3,2")


def sync(y):
    heading(y, "Sync 87 B2, in sending order: bit t is in octet t div 8, with value 2^(t mod 8)")
    row_of_bits(LEFT, y + 30, 30, bits(SYNC), [ROSE] * 16)
    for i, octet in enumerate(SYNC):
        text(LEFT + 240 * i + 6, y + 70, f"octet {i} = {octet:02X}", 11)
    text(LEFT + 500, y + 40, "The inverse sync is 78 4D: every bit turned over. Any number of them", 11)
    text(LEFT + 500, y + 56, "may stand before, between and after multiframes.", 11)


def header(y):
    heading(y, "Header, 32 bits; the values are those of 8 kHz, type 0, count 1: 08 00 0E EE")
    cell, x = WIDTH / 32, LEFT
    colours = [SAND, GREEN, BLUE, GREY, ROSE]
    fills = [fill for (_, width), fill in zip(FIELDS, colours) for _ in range(width)]
    row_of_bits(LEFT, y + 30, cell, bits(HEADER), fills)
    for (name, width), fill in zip(FIELDS, colours):
        box(x, y + 76, cell * width, 22, fill, name, {1: 8, 2: 10}.get(width, 12))
        x += cell * width
    for i, octet in enumerate(HEADER):
        text(LEFT + 8 * cell * i + 6, y + 68, f"octet {i + 2} = {octet:02X}", 11)
    text(LEFT, y + 116, "P1 to P15: the remainder of the message modulo 1 + X^8 + X^12 + X^14 + X^15, P1 for X^0. P16 makes the number of ones even.", 11)
    text(LEFT, y + 132, "Two codewords differ in at least six bits: one or two flips are mended, three never.", 11)


def stream(y):
    heading(y, f"Feature stream: packet p starts at stream bit {PACKET_BITS}p; the odd ones begin in the middle of an octet")
    width = WIDTH / PACKETS
    for p in range(PACKETS):
        start = PACKET_BITS * p
        box(LEFT + width * p, y + 14, width, 32, GREEN if p % 2 == 0 else SAND, f"packet {p}", 12)
        text(LEFT + width * (p + 0.5), y + 60, f"bit {start}", 10, "middle")
        text(LEFT + width * (p + 0.5), y + 73, f"octet {start // 8}" + (f", bit {start % 8}" if start % 8 else ""), 10, "middle")


def two_packets(y):
    """Two packets are a whole number of octets, so the picture repeats from here on. Gives the place of the shared octet."""
    octets = 2 * PACKET_BITS // 8
    heading(y, f"Packets 0 and 1, to scale: {2 * PACKET_BITS} bits, {octets} octets; each is frame (44), frame (44), CRC (4)")
    bit = WIDTH / (2 * PACKET_BITS)
    shared = PACKET_BITS // 8
    for o in range(octets):
        box(LEFT + 8 * bit * o, y + 14, 8 * bit, 20, ROSE if o == shared else WHITE, str(o), 10)
    text(LEFT + WIDTH, y + 8, "octets of the stream", 10, "end")
    x = LEFT
    for p in range(2):
        for f in range(2):
            box(x, y + 40, FRAME_BITS * bit, 22, GREEN if p == 0 else SAND, f"frame {2 * p + f + 1}", 11)
            for width in INDEX_BITS:
                box(x, y + 62, width * bit, 20, GREEN if p == 0 else SAND, str(width), 10)
                x += width * bit
        box(x, y + 40, CRC_BITS * bit, 42, BLUE)
        text(x + CRC_BITS * bit / 2, y + 96, "CRC", 10, "middle")
        x += CRC_BITS * bit
    text(LEFT, y + 96, "below each frame: its seven indices and their widths in bits", 11)
    return LEFT + 8 * bit * shared, LEFT + 8 * bit * (shared + 1), y + 84


def shared_octet(y, corner):
    for i, words in enumerate(["Octet 11,", "shared by", "both"]):
        heading(y + 36 + 20 * i, words)
    cell, x = 90, LEFT + 120
    words = ["CRC: X^3", "CRC: X^2", "CRC: X", "CRC: 1"] + [f"index 1, bit {k}" for k in range(4)]
    for i, word in enumerate(words):
        box(x + cell * i, y + 32, cell, 28, BLUE if i < CRC_BITS else SAND, word, 11)
        text(x + cell * (i + 0.5), y + 26, f"stream bit {88 + i}", 10, "middle")
        text(x + cell * (i + 0.5), y + 74, f"value {1 << i}", 10, "middle")
    text(x, y + 92, "packet 0 ends: the CRC is sent highest power first", 11)
    text(x + cell * CRC_BITS, y + 92, "packet 1 begins: every other field least significant bit first", 11)
    left, right, top = corner
    line(left, top, x, y + 14, "2,3", "#aa4444")
    line(right, top, x + 8 * cell, y + 14, "2,3", "#aa4444")


def main():
    whole(30)
    sync(130)
    header(238)
    stream(408)
    shared_octet(630, two_packets(518))
    height = 740
    print(f'<svg xmlns="http://www.w3.org/2000/svg" width="{PAGE}" height="{height}" viewBox="0 0 {PAGE} {height}"')
    print('     font-family="DejaVu Sans, Helvetica, Arial, sans-serif" fill="#222222">')
    print("<title>The multiframe: sync, header, feature stream, and the order of bits</title>")
    print(f'<rect width="{PAGE}" height="{height}" fill="{WHITE}"/>')
    print("\n".join(drawn))
    print("</svg>")


main()
