"""A second implementation of queries and selections: what `query OUT BOX DEPTHS` and `select OUT BOX DEPTHS CLASSES TIME
DIMS` write for any folder, whole or damaged.

It follows docs/FORMATS.md. The files are, in this order:

- the done gate, then `ept-build.json`;
- each hierarchy file that a link leads to and whose root's box meets the area, in key order;
- each tile in the depths whose box meets the area, in key order.

The first of these files that is missing or malformed is the one that is damaged.
"""

import heapq
import json
import re

import model

DONE = "ept-work/done-2"
BUILD_KEYS = ["scale", "offset", "bounds", "span", "minNodeSize", "maxDepth", "hierarchyStep", "srs", "input"]
OPTIONAL_KEYS = {"firstClasses", "withheldLast"}
ROOT = (0, 0, 0, 0)
WIDTHS = {"X": 4, "Y": 4, "Z": 4} | {name: size for name, _, size in model.DIMENSIONS}


class Damaged(Exception):
    """A file that a query needs is malformed; the bytes before it."""

    def __init__(self, name, written=b""):
        super().__init__(name)
        self.name, self.written = name, written


def as_object(data):
    """The members of a JSON object, in the order of their names' bytes; `None` if the bytes are no object."""
    def refused(_):
        raise ValueError

    try:
        value = json.loads(data.decode(), parse_int=model.whole, parse_float=lambda _: model.NoWhole(), parse_constant=refused)
    except ValueError:
        return None
    return value if isinstance(value, dict) else None


def read_build_json(data):
    """What `ept-build.json` says; `None` if no build has these very bytes."""
    value = as_object(data) if data is not None else None
    if value is None or [key for key in value if key not in OPTIONAL_KEYS] != BUILD_KEYS:
        return None
    try:
        kept = model.read_config(json.dumps(value, default=lambda _: 0.5))
    except model.Refused:
        return None
    return kept if kept["bounds"] and model.build_text(kept, kept["bounds"]).encode() == data else None


def read_key(text):
    """The key of a text; `None` if it is no key's."""
    found = re.fullmatch(r"(0|[1-9]\d?)-(0|[1-9]\d*)-(0|[1-9]\d*)-(0|[1-9]\d*)", text, re.ASCII)
    key = tuple(map(int, found.groups())) if found else None
    return key if key and key[0] <= 31 and all(n < 2 ** key[0] for n in key[1:]) else None


def read_hierarchy(data):
    """The entries of a hierarchy file; `None` if it is none."""
    value = as_object(data) if data is not None else None
    if value is None:
        return None
    entries = {read_key(name): count for name, count in value.items()}
    sound = all(key is not None and model.is_whole(count) and -1 <= count < 2 ** 63 for key, count in entries.items())
    return entries if sound else None


def is_within(key, top):
    """Whether a key is that of `top` or below it."""
    down = key[0] - top[0]
    return down >= 0 and tuple(n >> down for n in key[1:]) == top[1:]


def is_file_of(entries, top, step, deepest):
    """Whether entries are those of a well-formed hierarchy file of this key."""
    if entries.get(top, -1) == -1 or any(not is_within(key, top) or key[0] > deepest for key in entries):
        return False
    return all((count == -1) == (bool(step) and key[0] == top[0] + step) and (not step or key[0] <= top[0] + step)
               for key, count in entries.items())


def node_box(cube, key):
    """The closed box of a key."""
    corner, e, _ = cube
    side = 2 ** (e - key[0])
    least = [corner[i] + key[i + 1] * side for i in range(3)]
    return least + [n + side - 1 for n in least]


def meet(one, other):
    return all(one[i] <= other[i + 3] and other[i] <= one[i + 3] for i in range(3))


def counts_of(files, kept, cube, area):
    """The count of each node that the hierarchy files name which a query of this area reads."""
    counts, waiting = {}, [ROOT] if meet(node_box(cube, ROOT), area) else []
    while waiting:
        top = heapq.heappop(waiting)
        name = "ept-hierarchy/%s.json" % model.key_text(top)
        entries = read_hierarchy(files.get(name))
        if entries is None or not is_file_of(entries, top, kept["hierarchyStep"], cube[2]):
            raise Damaged(name)
        for key, count in entries.items():
            if count != -1:
                counts[key] = count
            elif meet(node_box(cube, key), area):
                heapq.heappush(waiting, key)
    return counts


def plan(files, area, depths):
    """The keys of the tiles that a query reads, in order, each with its count; a malformed file is reported."""
    kept = read_build_json(files.get("ept-build.json"))
    if kept is None:
        raise Damaged("ept-build.json")
    cube = model.cube_of(kept["bounds"], kept["span"], kept["maxDepth"])
    counts = counts_of(files, kept, cube, area)
    return [(key, counts[key]) for key in sorted(counts)
            if depths[0] <= key[0] <= depths[1] and meet(node_box(cube, key), area)]


def points_in(files, key, count, area):
    """The packed points of a tile of a plan that lie in the area; a malformed tile is reported."""
    name = "ept-data/%s.bin" % model.key_text(key)
    points = model.read_tile(files[name]) if name in files else None
    if points is None or len(points) != count:
        raise Damaged(name)
    return b"".join(point["packed"] for point in points if all(area[i] <= point["place"][i] <= area[i + 3] for i in range(3)))


# ---- selections

def read_classes(text):
    """The classes of a text in a tuple, which is empty for any; `None` if the text is malformed."""
    if text == "-":
        return ()
    if not re.fullmatch(r"(?:0|[1-9]\d{0,2})(?:,(?:0|[1-9]\d{0,2}))*", text, re.ASCII):
        return None
    classes = tuple(map(int, text.split(",")))
    return classes if classes == tuple(sorted(set(classes))) and classes[-1] <= 255 else None


def read_time(text):
    """The bytes of the time of a text, none for any; `None` if the text is malformed."""
    if text == "-":
        return b""
    return bytes.fromhex(text) if re.fullmatch(r"[0-9a-f]{16}", text, re.ASCII) else None


def read_dims(text):
    """The names of the dimensions of a text; `None` if the text is malformed."""
    names = tuple(WIDTHS) if text == "-" else tuple(text.split(","))
    return names if len(set(names)) == len(names) and set(names) <= set(WIDTHS) else None


def read_sift(classes, time, dims):
    """The selection that three texts ask for; `None` if one of them is malformed."""
    sift = read_classes(classes), read_time(time), read_dims(dims)
    return None if None in sift else sift


def fields_of(packed):
    """The bytes of each dimension of a packed point."""
    fields, at = {}, 0
    for name, width in WIDTHS.items():
        fields[name], at = packed[at:at + width], at + width
    return fields


def sifted(sift, data):
    """What a selection keeps of packed points; all where there is none."""
    if sift is None:
        return data
    classes, time, dims = sift
    width = sum(WIDTHS.values())
    points = [fields_of(data[at:at + width]) for at in range(0, len(data), width)]
    return b"".join(point[name] for point in points for name in dims
                    if (not classes or point["Classification"][0] in classes) and (not time or point["GpsTime"] == time))


def answer(files, area, depths, sift=None):
    """The packed points of a query, or what a selection keeps of them; a malformed file is reported."""
    written = b""
    for key, count in plan(files, area, depths):
        try:
            written += sifted(sift, points_in(files, key, count, area))
        except Damaged as damaged:
            raise Damaged(damaged.name, written) from damaged
    return written


def query(files, area, depths, sift=None):
    """Status, bytes and the file that is damaged, or None, of a query or a selection on these files."""
    if files.get(DONE) != b"\1":
        return 6, b"", None
    try:
        return 0, answer(files, area, depths, sift), None
    except Damaged as damaged:
        return 8, damaged.written, damaged.name


def plain_filter(files, area, depths):
    """The same on a complete folder by looking at all tiles: what a query has to give there."""
    found = b""
    for key in sorted(read_key(name[9:-4]) for name in files if name.startswith("ept-data/")):
        if depths[0] <= key[0] <= depths[1]:
            for point in model.read_tile(files["ept-data/%s.bin" % model.key_text(key)]):
                if all(area[i] <= point["place"][i] <= area[i + 3] for i in range(3)):
                    found += point["packed"]
    return found
