#!/usr/bin/env python3
"""Writes the four scans of the survey example, from formulas alone.

Usage: examples/survey/make.py        (writes next to itself)

Four flights cover a field of 200 by 200 metres. Two have format 3 (LAS 1.2, GPS time and colour), and two have
format 7 (LAS 1.4). Each covers a quarter, with an overlap. The first two hold coordinates in centimetres from the corner of the
field; the last two in decimetres from their own corner. Their headers say so, with offsets, scales, extents and
the reference system, as any reader of LAS files expects.
"""

import json
import math
import struct
from pathlib import Path

HERE = Path(__file__).parent
POINTS = 2500
SIDE = 110  # metres that a flight covers on each axis
FIELD = (572000, 5930000, 0)  # the corner of the field in UTM zone 32
CORNERS = {"north-west": (0, 90), "north-east": (90, 90), "south-west": (0, 0), "south-east": (90, 0)}


def numbers(seed):
    """Numbers from 0 up to 1, by a linear congruential generator."""
    state = seed
    while True:
        state = (state * 6364136223846793005 + 1442695040888963407) % 2**64
        yield (state >> 33) / 2**31


def height(x, y):
    """The ground: two hills and a ditch, in metres."""
    hills = 18 * math.exp(-((x - 60) ** 2 + (y - 120) ** 2) / 1800) + 11 * math.exp(-((x - 150) ** 2 + (y - 60) ** 2) / 900)
    return 4 + hills - 3 * math.exp(-((x - y) ** 2) / 60)


def returns(name, seed):
    """The points of a flight: place in metres, class, colour, intensity, GPS time."""
    left, low = CORNERS[name]
    by_lot = numbers(seed)
    for number in range(POINTS):
        x = left + SIDE * next(by_lot)
        y = low + SIDE * next(by_lot)
        is_tree = next(by_lot) < 0.12
        z = height(x, y) + (6 * next(by_lot) if is_tree else 0.05 * next(by_lot))
        colour = (9000, 24000, 7000) if is_tree else (30000, 26000, 18000)
        yield (x, y, z), (5 if is_tree else 2), colour, int(20000 * next(by_lot)), 1000.0 + number / 500


def vlr(record, name, body):
    """A variable length record on the reference system."""
    return struct.pack("<H16sHH32s", 0, b"LASF_Projection", record, len(body), name) + body


def geotiff_keys():
    """The reference system as LAS 1.2 has it: projected, EPSG:25832, with heights EPSG:7837."""
    keys = [(1024, 1), (3072, 25832), (4096, 7837)]
    numbers_of = [1, 1, 0, len(keys)] + [n for key, code in keys for n in (key, 0, 1, code)]
    return vlr(34735, b"GeoTiff keys", struct.pack(f"<{len(numbers_of)}H", *numbers_of))


def well_known_text():
    """The reference system as LAS 1.4 has it: the text that the configuration has too."""
    text = json.loads((HERE / "survey.json").read_text())["srs"]["wkt"]
    return vlr(2112, b"WKT", text.encode() + b"\0")


def header(minor, size, form, length, unit, corner, places, reference):
    """A public header block over these raw places, and the record on the reference system after it."""
    block = bytearray(size)
    block[0:4] = b"LASF"
    # Bit 4 says that the reference system is a text.
    struct.pack_into("<H", block, 6, 16 if minor == 4 else 0)
    block[24:26] = bytes([1, minor])
    struct.pack_into("<32s32sHH", block, 26, b"OTHER", b"make.py", 1, 2026)
    struct.pack_into("<HII", block, 94, size, size + len(reference), 1)
    struct.pack_into("<BH", block, 104, form, length)
    # Each point is the first return of one.
    if minor == 4:
        struct.pack_into("<16Q", block, 247, POINTS, POINTS, *[0] * 14)
    else:
        struct.pack_into("<6I", block, 107, POINTS, POINTS, *[0] * 4)
    struct.pack_into("<6d", block, 131, unit, unit, unit, *corner)
    ends = [end(axis) for axis in zip(*places) for end in (max, min)]
    extent = [raw * unit + corner[i // 2] for i, raw in enumerate(ends)]
    struct.pack_into("<6d", block, 179, *extent)
    return block + reference


def flight_of_format_3(name, seed):
    """Centimetres from the corner of the field; LAS 1.2."""
    body, places = bytearray(), []
    for (x, y, z), kind, (r, g, b), intensity, time in returns(name, seed):
        places.append([round(100 * c) for c in (x, y, z)])
        body += struct.pack("<iiiHBBbBHdHHH", *places[-1], intensity, 0x09, kind, -3, 1, seed, time, r, g, b)
    return header(2, 227, 3, 34, 0.01, FIELD, places, geotiff_keys()) + body


def flight_of_format_7(name, seed):
    """Decimetres from the flight's own corner; LAS 1.4."""
    left, low = CORNERS[name]
    corner = (FIELD[0] + left, FIELD[1] + low, FIELD[2])
    body, places = bytearray(), []
    for (x, y, z), kind, (r, g, b), intensity, time in returns(name, seed):
        places.append([round(10 * c) for c in (x - left, y - low, z)])
        body += struct.pack("<iiiHBBBBhHdHHH", *places[-1], intensity, 0x11, 0x10, kind, 1, -500, seed, time, r, g, b)
    return header(4, 375, 7, 36, 0.1, corner, places, well_known_text()) + body


def main():
    for seed, name in enumerate(CORNERS, 1):
        flight = flight_of_format_3 if seed <= 2 else flight_of_format_7
        (HERE / f"{name}.las").write_bytes(flight(name, seed))


main()
