"""LAS files for the tests of the tools: any version and point format, with true headers, and their points again.

Nothing here is shared with the program or with the tools that are tested.
"""

import random
import struct

LEAST_HEADER = {2: 227, 3: 235, 4: 375}
RECORDS = {
    0: struct.Struct("<iiiHBBbBH"), 1: struct.Struct("<iiiHBBbBHd"), 2: struct.Struct("<iiiHBBbBHHHH"),
    3: struct.Struct("<iiiHBBbBHdHHH"), 6: struct.Struct("<iiiHBBBBhHd"), 7: struct.Struct("<iiiHBBBBhHdHHH"),
}


def record_by_lot(lot, form, place):
    """A record at this raw place, all else random; each point is one of one to four returns."""
    u8, u16 = (lambda: lot.randrange(256)), (lambda: lot.randrange(65536))
    returns = lot.randint(1, 4)
    which = lot.randint(1, returns)
    time, colour = round(lot.random() * 1e9, 6), [u16(), u16(), u16()]
    if form < 6:
        head = [*place, u16(), which | returns << 3 | lot.randrange(4) << 6, u8(), lot.randint(-90, 90), u8(), u16()]
        return RECORDS[form].pack(*head, *([time] if form in (1, 3) else []), *(colour if form in (2, 3) else []))
    head = [*place, u16(), which | returns << 4, u8(), u8(), u8(), lot.randint(-30000, 30000), u16(), time]
    return RECORDS[form].pack(*head, *(colour if form == 7 else []))


def las(records, form, minor=None, scale=0.01, offset=(0.0, 0.0, 0.0), vlrs=b"", count=None):
    """A LAS file of these records: its header states their number and where they lie."""
    minor = (4 if form >= 6 else 2) if minor is None else minor
    size = LEAST_HEADER[minor]
    head = bytearray(size)
    head[0:4], head[24:26] = b"LASF", bytes([1, minor])
    struct.pack_into("<HII", head, 94, size, size + len(vlrs), vlrs.count(b"LASF_Projection"))
    struct.pack_into("<BH", head, 104, form, RECORDS[form].size)
    struct.pack_into(*(("<Q", head, 247) if minor == 4 else ("<I", head, 107)), len(records) if count is None else count)
    scales = [scale] * 3 if isinstance(scale, float) else scale
    struct.pack_into("<6d", head, 131, *scales, *offset)
    places = [struct.unpack_from("<iii", record) for record in records] or [(0, 0, 0)]
    ends = [end(axis) * scales[i] + offset[i] for i, axis in enumerate(zip(*places)) for end in (max, min)]
    struct.pack_into("<6d", head, 179, *ends)
    return bytes(head) + vlrs + b"".join(records)


def las_by_lot(seed, form, count, reach=1000, **header):
    """A LAS file of random points, up to `reach` raw units from the raw 0 on each axis."""
    lot = random.Random(seed)
    places = [[lot.randint(-reach, reach) for _ in range(3)] for _ in range(count)]
    return las([record_by_lot(lot, form, place) for place in places], form, **header)


def raw_places(data):
    """The raw places of a LAS file's records, in order."""
    (start,), (length,) = struct.unpack_from("<I", data, 96), struct.unpack_from("<H", data, 105)
    (count,) = struct.unpack_from("<Q", data, 247) if data[25] == 4 else struct.unpack_from("<I", data, 107)
    return [struct.unpack_from("<iii", data, start + at * length) for at in range(count)]


def vlr(record, body):
    """A variable length record on the reference system."""
    return struct.pack("<H16sHH32s", 0, b"LASF_Projection", record, len(body), b"") + body
