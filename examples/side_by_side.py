#!/usr/bin/env python3
"""Puts plain PGM pictures side by side into one PNG, each place four pixels wide and high.

    python3 examples/side_by_side.py rings.pgm heights.pgm > volcano.png
"""
import struct
import sys
import zlib

ZOOM, GAP = 4, 12


def picture(path):
    """The rows of a plain PGM picture."""
    words = open(path).read().split()
    assert words[0] == "P2" and words[3] == "255", path
    wide, high = int(words[1]), int(words[2])
    shades = [int(w) for w in words[4:]]
    assert len(shades) == wide * high, path
    return [shades[y * wide : (y + 1) * wide] for y in range(high)]


def chunk(name, data):
    return struct.pack(">I", len(data)) + name + data + struct.pack(">I", zlib.crc32(name + data))


def main():
    pictures = [picture(path) for path in sys.argv[1:]]
    high = max(len(rows) for rows in pictures)
    lines = []
    for y in range(high):
        line = []
        for i, rows in enumerate(pictures):
            line += [255] * (GAP if i else 0)
            line += [s for s in (rows[y] if y < len(rows) else [255] * len(rows[0])) for _ in range(ZOOM)]
        lines += [bytes([0]) + bytes(line)] * ZOOM
    wide = len(lines[0]) - 1
    out = b"\x89PNG\r\n\x1a\n" + chunk(b"IHDR", struct.pack(">IIBBBBB", wide, len(lines), 8, 0, 0, 0, 0))
    out += chunk(b"IDAT", zlib.compress(b"".join(lines), 9)) + chunk(b"IEND", b"")
    sys.stdout.buffer.write(out)


main()
