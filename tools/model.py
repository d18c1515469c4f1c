"""A second implementation of a build, for the checks of the built program.

It follows docs/FORMATS.md, the defaults in docs/USE.md and the rules of the sampling. It shares nothing with the
program, and takes all points of a node at once, from the root down. It is slow, and holds all in memory.

`PROGRAM` is the program that the checks run: the one that `./ept` builds, or the path in EPT_TOOL.
"""

import collections
import json
import os
import re
import struct
from pathlib import Path

TOP = Path(__file__).resolve().parent.parent
PROGRAM = Path(os.environ.get("EPT_TOOL", TOP / "crates/ept_tool/out/ept_tool")).absolute()
KEYS = ["input", "scale", "offset", "bounds", "span", "minNodeSize", "maxDepth", "hierarchyStep", "srs",
        "firstClasses", "withheldLast", "threads", "cacheSize", "maxNodes", "checkpoint"]
SRS_KEYS = ["authority", "horizontal", "vertical", "wkt"]
BOUNDED = [(14, 15), (15, 15), (16, 1), (17, 1), (19, 15), (20, 3)]  # places in a packed point, and their greatest values
LEAST_HEADER = {2: 227, 3: 235, 4: 375}
RECORD = {0: 20, 1: 28, 2: 26, 3: 34, 6: 30, 7: 36}
DIMENSIONS = [("Intensity", "unsigned", 2), ("ReturnNumber", "unsigned", 1), ("NumberOfReturns", "unsigned", 1),
              ("ScanDirectionFlag", "unsigned", 1), ("EdgeOfFlightLine", "unsigned", 1),
              ("Classification", "unsigned", 1), ("ClassFlags", "unsigned", 1), ("ScanChannel", "unsigned", 1),
              ("ScanAngleRank", "signed", 1), ("ScanAngle", "signed", 2), ("UserData", "unsigned", 1),
              ("PointSourceId", "unsigned", 2), ("GpsTime", "float", 8), ("Red", "unsigned", 2),
              ("Green", "unsigned", 2), ("Blue", "unsigned", 2), ("OriginId", "unsigned", 4),
              ("PointId", "unsigned", 8)]


class Refused(Exception):
    """A refusal: its status and its line."""

    def __init__(self, line):
        super().__init__(line)
        self.line = line
        self.status = int(line.split()[1])


# ---- the configuration

class NoWhole:
    """A number that is no whole number of 64 bits."""


def whole(text):
    value = int(text)
    return NoWhole() if text == "-0" or not -2 ** 63 <= value < 2 ** 64 else value


def is_whole(value):
    return isinstance(value, int) and not isinstance(value, bool)


def is_plain(text):
    return all(byte >= 32 and byte != 127 for byte in text.encode())


def kind(key):
    return Refused("error 3 config 4 " + key)


def out_of_range(key):
    return Refused("error 3 config 5 " + key)


def number(config, key, least, most, default):
    value = config.get(key, default)
    if not is_whole(value):
        raise kind(key)
    if not least <= value <= most:
        raise out_of_range(key)
    return value


def numbers(config, key, count, default):
    if key not in config:
        return default
    value = config[key]
    if not (isinstance(value, list) and len(value) == count and all(map(is_whole, value))):
        raise kind(key)
    return value


def is_input(member):
    if isinstance(member, str):
        return True
    if not isinstance(member, dict) or not set(member) <= {"path", "scale", "shift", "expect"}:
        return False
    shift = member.get("shift", [0, 0, 0])
    expect = member.get("expect", "0" * 96)
    return (isinstance(member.get("path"), str) and is_whole(member.get("scale", 0))
            and isinstance(shift, list) and len(shift) == 3 and all(map(is_whole, shift))
            and isinstance(expect, str) and re.fullmatch("[0-9a-f]{96}", expect) is not None)


def read_inputs(value, scale):
    members = [value] if isinstance(value, str) else value
    if not isinstance(members, list) or not all(map(is_input, members)):
        raise kind("input")
    inputs = []
    for member in members:
        given = {"path": member} if isinstance(member, str) else member
        one = {"path": given["path"], "scale": given.get("scale", scale), "shift": given.get("shift", [0, 0, 0])}
        if "expect" in given:
            one["expect"] = given["expect"]
        inputs.append(one)
    if not 1 <= len(inputs) <= 65535:
        raise out_of_range("input")
    for one in inputs:
        if not (1 <= len(one["path"].encode()) <= 4096 and is_plain(one["path"])
                and 0 <= one["scale"] <= scale and all(abs(n) <= 10 ** 15 for n in one["shift"])):
            raise out_of_range("input")
    return inputs


def read_srs(value):
    if not isinstance(value, dict) or not set(value) <= set(SRS_KEYS) \
            or not all(isinstance(text, str) for text in value.values()):
        raise kind("srs")
    if not all(len(text.encode()) <= 65536 and is_plain(text) for text in value.values()):
        raise out_of_range("srs")
    return {key: value[key] for key in SRS_KEYS if key in value}


def read_classes(value):
    if not isinstance(value, list) or not all(map(is_whole, value)):
        raise kind("firstClasses")
    if not all(0 <= n <= 255 for n in value) or len(set(value)) < len(value):
        raise out_of_range("firstClasses")
    return value


def read_config(text):
    try:
        config = json.loads(text, parse_int=whole, parse_float=lambda _: NoWhole())
    except ValueError:
        raise Refused("error 3 config 1 -")
    if not isinstance(config, dict):
        raise kind("top")
    if not set(config) <= set(KEYS):
        raise Refused("error 3 config 2 -")
    for key in ["input", "scale"]:
        if key not in config:
            raise Refused("error 3 config 3 " + key)
    kept = {"scale": number(config, "scale", 0, 9, None)}
    kept["input"] = read_inputs(config["input"], kept["scale"])
    kept["offset"] = numbers(config, "offset", 3, [0, 0, 0])
    if any(abs(n) > 10 ** 9 for n in kept["offset"]):
        raise out_of_range("offset")
    kept["bounds"] = bounds = numbers(config, "bounds", 6, None)
    if bounds is not None and not (all(-2 ** 31 <= n < 2 ** 31 for n in bounds)
                                   and all(bounds[i] <= bounds[i + 3] for i in range(3))):
        raise out_of_range("bounds")
    kept["span"] = number(config, "span", 2, 1024, 128)
    if kept["span"] & kept["span"] - 1:
        raise out_of_range("span")
    kept["minNodeSize"] = number(config, "minNodeSize", 0, 2 ** 31, 4096)
    kept["maxDepth"] = number(config, "maxDepth", 0, 32, 32)
    kept["hierarchyStep"] = number(config, "hierarchyStep", 0, 32, 0)
    kept["srs"] = read_srs(config.get("srs", {}))
    kept["firstClasses"] = read_classes(config.get("firstClasses", []))
    kept["withheldLast"] = config.get("withheldLast", False)
    if not isinstance(kept["withheldLast"], bool):
        raise kind("withheldLast")
    threads = number(config, "threads", 1, 64, 4)
    cache = number(config, "cacheSize", 1, 2 ** 20, 64)
    kept["maxNodes"] = number(config, "maxNodes", 1, 2 ** 20, 65536)
    number(config, "checkpoint", 1, 2 ** 40, 10 ** 7)
    if cache < threads:
        raise Refused("error 3 config 6 -")
    return kept


# ---- LAS

def header_fault(head, expect):
    """The first fault of a header, of which these are the first 375 bytes, or all."""
    if len(head) < 227:
        return 1
    if head[:4] != b"LASF":
        return 2
    if head[24] != 1 or head[25] not in LEAST_HEADER:
        return 3
    size, offset = struct.unpack("<HI", head[94:100])
    if size < LEAST_HEADER[head[25]] or len(head) < LEAST_HEADER[head[25]]:
        return 4
    if head[104] & 0xC0:
        return 5
    if head[104] not in RECORD:
        return 6
    if struct.unpack("<H", head[105:107])[0] < RECORD[head[104]]:
        return 7
    if offset < size:
        return 8
    if expect is not None and head[131:179] != bytes.fromhex(expect):
        return 9
    return 0


def read_header(head):
    points = struct.unpack("<Q", head[247:255])[0] if head[25] == 4 else 0
    return {"format": head[104], "length": struct.unpack("<H", head[105:107])[0],
            "offset": struct.unpack("<I", head[96:100])[0],
            "points": points or struct.unpack("<I", head[107:111])[0]}


def read_record(kind_of, record, factor, shift, source, at):
    """The 21 fields of a point, in the order of the packed point."""
    u16 = lambda place: struct.unpack("<H", record[place:place + 2])[0]
    place = [raw * factor + by for raw, by in zip(struct.unpack("<iii", record[:12]), shift)]
    none = {"angle_rank": 0, "angle": 0, "channel": 0, "gps": bytes(8), "colour": (0, 0, 0)}
    if kind_of < 6:
        flags = record[14]
        fields = dict(none, returns=(flags & 7, flags >> 3 & 7), direction=flags >> 6 & 1, edge=flags >> 7,
                      class_of=record[15] & 31, class_flags=record[15] >> 5,
                      angle_rank=struct.unpack("<b", record[16:17])[0], source_id=u16(18))
        if kind_of in (1, 3):
            fields["gps"] = record[20:28]
        if kind_of in (2, 3):
            colour = 20 if kind_of == 2 else 28
            fields["colour"] = (u16(colour), u16(colour + 2), u16(colour + 4))
    else:
        flags = record[15]
        fields = dict(none, returns=(record[14] & 15, record[14] >> 4), direction=flags >> 6 & 1, edge=flags >> 7,
                      class_of=record[16], class_flags=flags & 15, channel=flags >> 4 & 3,
                      angle=struct.unpack("<h", record[18:20])[0], source_id=u16(20), gps=record[22:30])
        if kind_of == 7:
            fields["colour"] = (u16(30), u16(32), u16(34))
    return {"place": place, "id": (source, at), "fields": fields, "intensity": u16(12), "user": record[17]}


def packed(point):
    if "packed" in point:
        return point["packed"]
    f = point["fields"]
    return struct.pack("<iiiHBBBBBBBbhBH", *point["place"], point["intensity"], *f["returns"], f["direction"],
                       f["edge"], f["class_of"], f["class_flags"], f["channel"], f["angle_rank"], f["angle"],
                       point["user"], f["source_id"]) \
        + f["gps"] + struct.pack("<HHHIQ", *f["colour"], *point["id"])


def read_tile(data):
    """The points of a tile, each with its packed form; `None` if the bytes are no tile."""
    if len(data) % 53:
        return None
    points = []
    for at in range(0, len(data), 53):
        piece = data[at:at + 53]
        if any(piece[place] > most for place, most in BOUNDED):
            return None
        point = {"place": list(struct.unpack("<iii", piece[:12])), "id": struct.unpack("<IQ", piece[41:]), "packed": piece}
        if points and point["id"] <= points[-1]["id"]:
            return None
        points.append(point)
    return points


def scan_input(one, source, files, bounds, scale):
    if one["path"] not in files:
        raise Refused("error 7 source")
    data = files[one["path"]]
    fault = header_fault(data[:375], one.get("expect"))
    if fault:
        raise Refused("error 4 las %d source %d" % (fault, source))
    header = read_header(data[:375])
    if header["points"] >= 2 ** 40:
        raise Refused("error 5 points source %d" % source)
    points = []
    for at in range(header["points"]):
        begin = header["offset"] + at * header["length"]
        if begin + header["length"] > len(data):
            raise Refused("error 4 las 10 source %d number %d" % (source, at))
        point = read_record(header["format"], data[begin:begin + header["length"]], 10 ** (scale - one["scale"]),
                            one["shift"], source, at)
        inside = all(-2 ** 31 <= n < 2 ** 31 for n in point["place"]) and (
            bounds is None or all(bounds[i] <= point["place"][i] <= bounds[i + 3] for i in range(3)))
        if not inside:
            raise Refused("error 4 bounds source %d number %d" % (source, at))
        points.append(point)
    return points


# ---- the octree

def extent_of(points):
    places = [point["place"] for point in points]
    return [min(p[i] for p in places) for i in range(3)] + [max(p[i] for p in places) for i in range(3)]


def extent_of_boxes(boxes):
    """The least box over these, or None where there are none."""
    return [min(box[i] for box in boxes) for i in range(3)] + [max(box[i + 3] for box in boxes) for i in range(3)] if boxes else None


def count_of(points):
    """The number of points and their extent."""
    return len(points), extent_of(points) if points else None


def cube_of(bounds, span, max_depth):
    """The cube over bounds: its corner, the exponent of its side, and the greatest depth."""
    s = span.bit_length() - 1
    e = s
    while any(2 ** e <= bounds[i + 3] - bounds[i] for i in range(3)):
        e += 1
    return bounds[:3], e, min(max_depth, e - s)


def group_of(point, first, withheld_last):
    """Points of a lower group come first: 2 for a withheld point, and 1 more for a class that is none of the first ones."""
    if not first and not withheld_last:
        return 0
    kind_of, flags = packed(point)[18:20]
    return 2 * (withheld_last and flags >> 2 & 1) + (1 if first and kind_of not in first else 0)


def sample(points, bounds, span, threshold, max_depth, first=(), withheld_last=False):
    """The nodes: from key to points, in order of their ids."""
    corner, e, deepest = cube_of(bounds, span, max_depth)
    s = span.bit_length() - 1
    nodes = {}
    waiting = [((0, 0, 0, 0), points)]
    while waiting:
        key, given = waiting.pop()
        depth, side = key[0], 2 ** (e - key[0])
        cell = 2 ** (e - depth - s)
        best = {}
        for point in given:
            index = tuple((point["place"][i] - corner[i]) // cell for i in range(3))
            distance = sum((2 * (point["place"][i] - corner[i] - index[i] * cell) - cell) ** 2 for i in range(3))
            rank = (group_of(point, first, withheld_last), distance) + point["id"]
            if index not in best or rank < best[index][0]:
                best[index] = (rank, point)
        winners = {point["id"] for _, point in best.values()}
        losers = collections.defaultdict(list)
        for point in given:
            if point["id"] not in winners:
                half = [(point["place"][i] - corner[i] - key[i + 1] * side) * 2 // side for i in range(3)]
                losers[half[0] + 2 * half[1] + 4 * half[2]].append(point)
        gone = set()
        if depth < deepest:
            for octant, those in losers.items():
                if len(those) > threshold:
                    child = (depth + 1,) + tuple(2 * key[i + 1] + (octant >> i & 1) for i in range(3))
                    waiting.append((child, those))
                    gone |= {point["id"] for point in those}
        nodes[key] = sorted((point for point in given if point["id"] not in gone), key=lambda point: point["id"])
    return nodes, [*corner, *[n + 2 ** e for n in corner]]


# ---- the files

def decimal_text(n, places):
    digits = str(abs(n)).rjust(places + 1, "0")
    text = digits if places == 0 else digits[:-places] + "." + digits[-places:]
    return "-" + text if n < 0 else text


def quoted(text):
    return '"' + text.replace("\\", "\\\\").replace('"', '\\"') + '"'


def key_text(key):
    return "-".join(map(str, key))


def hierarchy_files(counts, step):
    files = {}
    for top in counts:
        if top[0] % step if step else top[0]:
            continue
        lines = []
        for key in sorted(counts):
            down = key[0] - top[0]
            if down < 0 or tuple(n >> down for n in key[1:]) != top[1:] or (step and down > step):
                continue
            lines.append('"%s":%d' % (key_text(key), -1 if step and down == step else counts[key]))
        files["ept-hierarchy/%s.json" % key_text(top)] = "{" + ",".join(lines) + "}"
    return files


def srs_text(srs):
    return "{" + ",".join("%s:%s" % (quoted(key), quoted(text)) for key, text in srs.items()) + "}"


def row_text(values):
    return "[" + ",".join(map(str, values)) + "]"


def input_text(one):
    """An input as `ept-build.json` has it."""
    expect = ',"expect":"%s"' % one["expect"] if "expect" in one else ""
    return '{"path":%s,"scale":%d,"shift":%s%s}' % (quoted(one["path"]), one["scale"], row_text(one["shift"]), expect)


def field_texts(kept, bounds):
    """The members of `ept-build.json` but the inputs, in order."""
    first = {"firstClasses": row_text(sorted(kept["firstClasses"]))} if kept["firstClasses"] else {}
    last = {"withheldLast": "true"} if kept["withheldLast"] else {}
    return {"scale": str(kept["scale"]), "offset": row_text(kept["offset"]), "bounds": row_text(bounds),
            "span": str(kept["span"]), "minNodeSize": str(kept["minNodeSize"]), "maxDepth": str(kept["maxDepth"]),
            "hierarchyStep": str(kept["hierarchyStep"]), "srs": srs_text(kept["srs"])} | first | last


def build_text(kept, bounds):
    """The text of `ept-build.json`."""
    members = field_texts(kept, bounds) | {"input": "[" + ",".join(map(input_text, kept["input"])) + "]"}
    return "{" + ",".join('"%s":%s' % member for member in members.items()) + "}"


def output(kept, counts, bounds, nodes, cube):
    """The files of the output: `counts` has the number of points of each input and their extent, or None."""
    scale = kept["scale"]
    corners = lambda box: "[" + ",".join(decimal_text(n + kept["offset"][i % 3] * 10 ** scale, scale)
                                         for i, n in enumerate(box)) + "]"
    extent = extent_of_boxes([box for _, box in counts if box])
    schema = ['{"name":"%s","type":"signed","size":4,"scale":%s,"offset":%d}' % (name, decimal_text(1, scale), by)
              for name, by in zip("XYZ", kept["offset"])]
    schema += ['{"name":"%s","type":"%s","size":%d}' % row for row in DIMENSIONS]
    files = {"ept-data/%s.bin" % key_text(key): b"".join(map(packed, those)) for key, those in nodes.items()}
    texts = hierarchy_files({key: len(those) for key, those in nodes.items()}, kept["hierarchyStep"])
    texts["ept.json"] = ('{"bounds":%s,"boundsConforming":%s,"dataType":"binary","hierarchyType":"json","points":%d,'
                         '"schema":[%s],"span":%d,"srs":%s,"version":"1.1.0"}') % (
        corners(cube), corners(extent or bounds), sum(count for count, _ in counts), ",".join(schema), kept["span"],
        srs_text(kept["srs"]))
    rows = []
    for one, (count, box) in zip(kept["input"], counts):
        text = ',"bounds":' + corners(box) if box else ""
        rows.append('{"path":%s,"points":%d%s,"inserted":true}' % (quoted(one["path"]), count, text))
    texts["ept-sources/manifest.json"] = "[" + ",".join(rows) + "]"
    texts["ept-build.json"] = build_text(kept, bounds)
    files.update((name, text.encode()) for name, text in texts.items())
    return files


def model(config, files):
    """The line, the status and the files of a build."""
    try:
        kept = read_config(config)
        sources = [scan_input(one, at, files, kept["bounds"], kept["scale"]) for at, one in enumerate(kept["input"])]
        points = [point for those in sources for point in those]
        if not points and kept["bounds"] is None:
            raise Refused("error 4 nobounds")
        bounds = kept["bounds"] or extent_of(points)
        nodes, cube = sample(points, bounds, kept["span"], kept["minNodeSize"], kept["maxDepth"], kept["firstClasses"],
                             kept["withheldLast"])
        if len(nodes) > kept["maxNodes"]:
            raise Refused("error 5 nodes")
        return "points %d nodes %d" % (len(points), len(nodes)), 0, output(kept, list(map(count_of, sources)), bounds, nodes, cube)
    except Refused as refused:
        return refused.line, refused.status, {}


def trial(count):
    """The line of a trial of this number of generated points."""
    number, points = count, []
    for at in range(count):
        place = []
        for below in (100_000, 100_000, 1_000):
            number = (number * 6364136223846793005 + 1442695040888963407) % 2 ** 64
            place.append((number >> 33) % below)
        points.append(read_record(0, struct.pack("<iiiH6x", *place, at % 65_536), 1, (0, 0, 0), at % 4, at // 4))
    points.sort(key=lambda point: point["id"])
    nodes, _ = sample(points, [0, 0, 0, 99_999, 99_999, 999], 128, 4_096, 32)
    total = sum(sum(packed(point)) for those in nodes.values() for point in those) % 2 ** 64
    return "points %d nodes %d depth %d sum %d" % (count, len(nodes), max(key[0] for key in nodes), total)
