"""A second implementation of the work files: checkpoints, which one is current, and what a build leaves of a folder.

It follows docs/FORMATS.md ("The work files", "The body of a checkpoint"). A folder is a dictionary from names to
bytes. `current` finds the current checkpoint. `soundness` says what is wrong with a folder. `build_on` returns what a
build on a sound folder returns and leaves. A body of version 1 names tiles of the old layout, in which the number of a
record has four bytes. A build takes such a checkpoint over before its first phase.
"""

import struct
from collections import defaultdict

import model
from model import Refused

OLD, NEWEST = 1, 3
MARKS = {b"EPTW" + struct.pack("<I", version): version for version in (OLD, 2, NEWEST)}
MOST_POINTS = {OLD: 2 ** 32 - 1, 2: 2 ** 40 - 1, NEWEST: 2 ** 40 - 1}
SRS_BITS = {"authority": 0, "horizontal": 1, "vertical": 2, "wkt": 3}
FIELDS = ["scale", "offset", "bounds", "span", "minNodeSize", "maxDepth", "hierarchyStep", "srs", "firstClasses", "withheldLast"]
LETTERS = "ab"
DONE = "ept-work/done-2"


class Fault(Exception):
    """Why bytes are no body: `Length`, `Version`, `Field` with a place, or `Tree`."""


# ---- a body

class Fields:
    """The bytes of a body, read field by field."""

    def __init__(self, data):
        self.data, self.at = data, 0

    def take(self, width, test=lambda _: True, read=bytes):
        """The next field, which has to pass the test."""
        begin, self.at = self.at, self.at + width
        if self.at > len(self.data):
            raise Fault("Length")
        value = read(self.data[begin:self.at])
        if not test(value):
            raise Fault("Field", begin)
        return value

    def number(self, width, least=0, most=None, signed=False):
        """A number of this many bytes within its range."""
        return self.take(width, lambda n: least is None or least <= n and (most is None or n <= most),
                         lambda piece: int.from_bytes(piece, "little", signed=signed))

    def near(self, most):
        """Three numbers of 64 bits, each up to a limit either way."""
        return [self.number(8, -most, most, signed=True) for _ in range(3)]

    def box(self, outer=None):
        """Six numbers of 32 bits, ordered on each axis and within another box."""
        box = []
        for i in range(6):
            least = max(box[i - 3] if i >= 3 else -2 ** 31, outer[i % 3] if outer else -2 ** 31)
            box.append(self.number(4, least, outer[i % 3 + 3] if outer else 2 ** 31 - 1, signed=True))
        return box

    def text(self, least, most):
        """A text: its length, then its bytes."""
        length = self.number(4, least, most)
        return self.take(length, is_text).decode()


def is_text(piece):
    try:
        return model.is_plain(piece.decode())
    except ValueError:
        return False


def read_source(fields, most, scale, bounds):
    """An input with its number of points and their extent."""
    one = {"path": fields.text(1, 4096), "scale": fields.number(1, 0, scale), "shift": fields.near(10 ** 15)}
    if fields.number(1, 0, 1):
        one["expect"] = fields.take(48).hex()
    points = fields.number(8, 0, most)
    there = fields.number(1, int(points > 0), int(points > 0))
    return one, (points, fields.box(bounds) if there else None)


def read_node(fields, deepest):
    """A line: its key, and then count, mask and letter."""
    depth = fields.number(1, 0, deepest)
    key = (depth, *(fields.number(4, 0, 2 ** depth - 1) for _ in range(3)))
    return key, (fields.number(8), fields.number(1), fields.number(1, 0, 1))


def read_body(data):
    """The checkpoint of a body: version, generation, kept, counts, inserted and nodes; or its first fault."""
    fields = Fields(data)
    version = MARKS.get(fields.take(8))
    if version is None:
        raise Fault("Version")
    generation = fields.number(8)
    kept = {"scale": fields.number(1, 0, 9), "span": 2 ** fields.number(1, 1, 10), "maxDepth": fields.number(1, 0, 32),
            "hierarchyStep": fields.number(1, 0, 32), "minNodeSize": fields.number(4, 0, 2 ** 31), "offset": fields.near(10 ** 9),
            "bounds": fields.box()}
    there = fields.number(1, 0, 15)
    kept["srs"] = {key: fields.text(0, 65536) for key, bit in SRS_BITS.items() if there >> bit & 1}
    bits = int.from_bytes(fields.take(32), "little") if version == NEWEST else 0
    kept["firstClasses"] = [n for n in range(256) if bits >> n & 1]
    kept["withheldLast"] = version == NEWEST and fields.number(1, 0, 1) == 1
    sources = [read_source(fields, MOST_POINTS[version], kept["scale"], kept["bounds"]) for _ in range(fields.number(4, 1, 65535))]
    kept["input"], counts = [one for one, _ in sources], [count for _, count in sources]
    inserted = fields.number(8, 0, sum(points for points, _ in counts))
    _, _, deepest = model.cube_of(kept["bounds"], kept["span"], kept["maxDepth"])
    lines = [read_node(fields, deepest) for _ in range(fields.number(4))]
    if fields.at != len(data):
        raise Fault("Length")
    if not 1 <= generation <= inserted + len(counts) + (version > OLD):
        raise Fault("Field", 8)
    if not is_tree(lines, inserted):
        raise Fault("Tree")
    return {"version": version, "generation": generation, "kept": kept, "counts": counts, "inserted": inserted, "nodes": dict(lines)}


def masks_of(keys):
    """For each key the bits of the octants in which it has a child."""
    masks = defaultdict(int)
    for depth, x, y, z in keys:
        if depth:
            masks[depth - 1, x >> 1, y >> 1, z >> 1] |= 1 << (x & 1 | (y & 1) << 1 | (z & 1) << 2)
    return masks


def is_tree(lines, inserted):
    """Whether lines are the nodes of a whole tree with this number of points."""
    keys = [key for key, _ in lines]
    masks = masks_of(keys)
    return (keys[:1] == [(0, 0, 0, 0)] and all(a < b for a, b in zip(keys, keys[1:])) and set(masks) <= set(keys)
            and all(masks[key] == mask for key, (_, mask, _) in lines) and sum(line[0] for _, line in lines) == inserted)


def write_body(checkpoint):
    """The body of a checkpoint, of the newest version if it has none."""
    kept, version = checkpoint["kept"], checkpoint.get("version", NEWEST)
    text = lambda value: struct.pack("<I", len(value.encode())) + value.encode()
    out = b"EPTW" + struct.pack("<I", version)
    out += struct.pack("<QBBBBI3q6i", checkpoint["generation"], kept["scale"], kept["span"].bit_length() - 1, kept["maxDepth"],
                             kept["hierarchyStep"], kept["minNodeSize"], *kept["offset"], *kept["bounds"])
    out += bytes([sum(1 << SRS_BITS[key] for key in kept["srs"])]) + b"".join(text(kept["srs"][key]) for key in SRS_BITS if key in kept["srs"])
    if version == NEWEST:
        out += sum(1 << n for n in kept["firstClasses"]).to_bytes(32, "little") + bytes([kept["withheldLast"]])
    out += struct.pack("<I", len(kept["input"]))
    for one, (points, box) in zip(kept["input"], checkpoint["counts"]):
        out += text(one["path"]) + struct.pack("<B3q", one["scale"], *one["shift"])
        out += b"\1" + bytes.fromhex(one["expect"]) if "expect" in one else b"\0"
        out += struct.pack("<Q", points) + (b"\1" + struct.pack("<6i", *box) if box else b"\0")
    out += struct.pack("<QI", checkpoint["inserted"], len(checkpoint["nodes"]))
    for key, line in sorted(checkpoint["nodes"].items()):
        out += struct.pack("<BIIIQBB", *key, *line)
    return out


# ---- a folder

def work_tile(letter, key):
    """The name of a version of a node's tile."""
    return "ept-work/%s/%s.bin" % (LETTERS[letter], model.key_text(key))


def is_output_name(name):
    return not name.startswith(("ept-work/", "ept-spill/"))


def has_checkpoints(names):
    """Whether a program that left files of these names keeps checkpoints."""
    return any(name.startswith("ept-work/body-") for name in names)


def current(files):
    """The letter and the current checkpoint, or None; a counted body that is none is refused."""
    found = []
    for letter in LETTERS:
        if files.get("ept-work/gate-" + letter) == b"\1":
            try:
                found.append((read_body(files.get("ept-work/body-" + letter, b"")), letter))
            except Fault:
                raise Refused("error 8 checkpoint " + letter) from None
    if len(found) == 2 and found[0][0]["generation"] == found[1][0]["generation"]:
        raise Refused("error 8 checkpoint b")
    return max(found, key=lambda one: one[0]["generation"])[::-1] if found else None


def old_tile(points):
    """The tile of these points in the old layout: the number of a record in four bytes, the last ones of the point."""
    return b"".join(model.packed(point)[:-8] + struct.pack("<I", point["id"][1]) for point in points)


def widened(data):
    """The tile in the new layout of the same points as one in the old; `None` if its length is not a multiple of 49."""
    return None if len(data) % 49 else b"".join(data[at:at + 49] + bytes(4) for at in range(0, len(data), 49))


def saved_tile(checkpoint, points):
    """The tile of these points as a checkpoint of this version has it."""
    return old_tile(points) if checkpoint["version"] == OLD else b"".join(map(model.packed, points))


def tile_points(files, checkpoint, key):
    """The points of the tile that a checkpoint names for a key; a tile that can't be is refused."""
    count, mask, letter = checkpoint["nodes"][key]
    data = files.get(work_tile(letter, key))
    if data is not None and checkpoint["version"] == OLD:
        data = widened(data)
    points = model.read_tile(data) if data is not None else None
    if points is None or len(points) != count or not is_grid(points, checkpoint["kept"], key, mask):
        raise Refused("error 8 tile " + model.key_text(key))
    return points


def is_grid(points, kept, key, mask):
    """Whether points can be those of a node that has these open octants."""
    corner, e, deepest = model.cube_of(kept["bounds"], kept["span"], kept["maxDepth"])
    side = 2 ** (e - key[0])
    low = [corner[i] + key[i + 1] * side for i in range(3)]
    if any(not low[i] <= point["place"][i] < low[i] + side for point in points for i in range(3)):
        return False
    if mask and key[0] == deepest:
        return False
    losers = losers_of(points, kept, key, low, side)
    return all(not (mask >> octant & 1) and (key[0] == deepest or len(those) <= kept["minNodeSize"])
               for octant, those in losers.items())


def losers_of(points, kept, key, low, side):
    """The losers among the points of a node, by octant."""
    cell = max(side // kept["span"], 1)
    best, losers = {}, defaultdict(list)
    for point in points:
        index = tuple((point["place"][i] - low[i]) // cell for i in range(3))
        distance = sum((2 * (point["place"][i] - low[i] - index[i] * cell) - cell) ** 2 for i in range(3))
        group = model.group_of(point, kept["firstClasses"], kept["withheldLast"])
        one = (group, distance) + point["id"], point
        best[index] = min(best.get(index, one), one, key=lambda other: other[0])
    winners = {point["id"] for _, point in best.values()}
    for point in points:
        if point["id"] not in winners:
            half = [(point["place"][i] - low[i]) * 2 // side for i in range(3)]
            losers[half[0] + 2 * half[1] + 4 * half[2]].append(point)
    return losers


def sampled(kept, points):
    """The nodes of the sampling, by what is kept of a configuration."""
    return model.sample(points, kept["bounds"], kept["span"], kept["minNodeSize"], kept["maxDepth"], kept["firstClasses"],
                        kept["withheldLast"])


def lines_of(nodes):
    """What a checkpoint says of nodes, except for the letters."""
    masks = masks_of(nodes)
    return {key: (len(points), masks[key]) for key, points in nodes.items()}


def all_points(kept, shelf):
    """The points of each input of a checkpoint, within its bounds."""
    return [model.scan_input(one, at, shelf, kept["bounds"], kept["scale"]) for at, one in enumerate(kept["input"])]


def soundness(files, shelf):
    """What of a folder can't be what a build leaves, whenever it was stopped: one sentence each."""
    try:
        found = current(files)
    except Refused as refused:
        return [refused.line]
    names = {name for name in files if is_output_name(name)}
    if found is None:
        return (["the done gate is open without a checkpoint"] if files.get(DONE) == b"\1" else []) \
            + (["output files without a checkpoint"] if names else [])
    checkpoint = found[1]
    kept = checkpoint["kept"]
    sources = all_points(kept, shelf)
    points = [point for those in sources for point in those]
    faults = [] if [model.count_of(those) for those in sources] == checkpoint["counts"] else ["other counts or extents"]
    return faults + checkpoint_faults(files, checkpoint, sampled(kept, points[:checkpoint["inserted"]])[0]) \
        + output_faults(files, checkpoint, points, names)


def checkpoint_faults(files, checkpoint, nodes):
    """What of a checkpoint and its tiles is not the sampling of the points that are inserted."""
    lines = {key: line[:2] for key, line in checkpoint["nodes"].items()}
    faults = [] if lines == lines_of(nodes) else ["its lines are not those of the sampling of %d points" % checkpoint["inserted"]]
    for key, (_, _, letter) in checkpoint["nodes"].items():
        if key in nodes and files.get(work_tile(letter, key)) != saved_tile(checkpoint, nodes[key]):
            faults.append("%s is not the tile of its node" % work_tile(letter, key))
    return faults


def output_faults(files, checkpoint, points, names):
    """What of the output files can't be there next to this checkpoint."""
    kept = checkpoint["kept"]
    nodes, cube = sampled(kept, points)
    wanted = model.output(kept, checkpoint["counts"], kept["bounds"], nodes, cube)
    faults = ["%s is no file of the output" % name for name in sorted(names - set(wanted))]
    if files.get(DONE) == b"\1":
        if checkpoint["version"] == OLD:
            faults.append("the done gate is open over tiles of the old layout")
        if checkpoint["inserted"] != len(points):
            faults.append("the done gate is open before all is inserted")
        faults += ["%s is not as it has to be" % name for name, data in wanted.items() if files.get(name) != data]
    return faults


# ---- a build on a folder

def differing(kept, given):
    """The first field in which a configuration differs from what is kept, or None."""
    ours, theirs = model.field_texts(kept, kept["bounds"]), model.field_texts(given, given["bounds"] or kept["bounds"])
    for field in FIELDS:
        if ours.get(field) != theirs.get(field):
            return field
    is_front = list(map(model.input_text, given["input"][:len(kept["input"])])) == list(map(model.input_text, kept["input"]))
    return None if is_front else "input"


def loaded(files, checkpoint, most):
    """The points of a checkpoint's tiles, loaded in key order into at most `most` nodes."""
    points = []
    for number, key in enumerate(sorted(checkpoint["nodes"])):
        if number >= most:
            raise Refused("error 5 nodes")
        points += tile_points(files, checkpoint, key)
    return sorted(points, key=lambda point: point["id"])


def new_points(given, config, shelf, first, bounds):
    """The points of the inputs from one on, and the bounds: those there are, else the extent of all."""
    sources = [model.scan_input(one, at, shelf, bounds, config["scale"]) for at, one in enumerate(given) if at >= first]
    extent = model.extent_of_boxes([box for _, box in map(model.count_of, sources) if box])
    if bounds is None and extent is None:
        raise Refused("error 4 nobounds")
    return sources, bounds or extent


def build_on(files, text, shelf):
    """What a build on a sound folder ends with: line, status, and what it leaves.

    What it leaves is None if nothing is put. Otherwise it is the checkpoint without letters, the output files, and whether
    the done gate is open. The output files are None if they stay as they were.
    """
    try:
        given = model.read_config(text)
        every = model.number(model.json.loads(text), "checkpoint", 1, 2 ** 40, 10 ** 7)
        found = current(files)
        before = found[1] if found else None
        if before and differing(before["kept"], given):
            raise Refused("error 6 differs " + differing(before["kept"], given))
        first = len(before["counts"]) if before else 0
        sources, bounds = new_points(given["input"], given, shelf, first, before["kept"]["bounds"] if before else given["bounds"])
        counts = (before["counts"] if before else []) + list(map(model.count_of, sources))
        start, total = before["inserted"] if before else 0, sum(points for points, _ in counts)
        if start == total and len(counts) == first and before["version"] != OLD and files.get(DONE) == b"\1":
            return "points %d nodes %d" % (total, len(before["nodes"])), 0, None
        kept = dict(given, bounds=bounds)
        points = (loaded(files, before, kept["maxNodes"]) if before else []) + left_points(kept, before, sources, shelf)
    except Refused as refused:
        return refused.line, refused.status, None
    return phases(kept, counts, points, every, start, taken_over(before), len(counts) > first)


def taken_over(before):
    """The checkpoint from which the phases resume: the next one of the same points, if this one's tiles are of the old layout."""
    if before is None or before["version"] != OLD:
        return before
    turned = {key: (count, mask, 1 - letter) for key, (count, mask, letter) in before["nodes"].items()}
    return before | {"version": NEWEST, "generation": before["generation"] + 1, "nodes": turned}


def left_points(kept, before, sources, shelf):
    """The points that are not inserted yet: the rest of the earlier inputs, and the new ones."""
    old, skip = [], before["inserted"] if before else 0
    for at, (points, _) in enumerate(before["counts"] if before else []):
        if skip < points:
            old += model.scan_input(kept["input"][at], at, shelf, kept["bounds"], kept["scale"])[skip:]
        skip = max(skip - points, 0)
    return old + [point for those in sources for point in those]


def phases(kept, counts, points, every, start, before, is_new):
    """The end of a build that inserts the rest of these points, this number in a phase."""
    generation, at, total = before["generation"] if before else 0, start, len(points)
    nodes, cube = sampled(kept, points[:at])
    left = before
    while at < total or is_new:
        at, is_new = min(at + every, total), False
        nodes, cube = sampled(kept, points[:at])
        if len(nodes) > kept["maxNodes"]:
            return "error 5 nodes", 5, {"checkpoint": left, "output": None, "done": False}
        generation += 1
        left = {"version": NEWEST, "generation": generation, "kept": kept, "counts": counts, "inserted": at, "nodes": lines_of(nodes)}
    return "points %d nodes %d" % (total, len(nodes)), 0, {
        "checkpoint": left, "output": model.output(kept, counts, kept["bounds"], nodes, cube), "done": True}


def same_checkpoint(one, other):
    """Whether two checkpoints say the same, except for the letters of their tiles."""
    if one is None or other is None:
        return one is other
    plain = lambda c: (c["version"], c["generation"], model.build_text(c["kept"], c["kept"]["bounds"]), c["counts"], c["inserted"],
                       {key: tuple(line[:2]) for key, line in c["nodes"].items()})
    return plain(one) == plain(other)
