"""A second implementation of parts: a part of a build in a folder of its own, and parts merged.

A folder is a dictionary from names to bytes. `part_files` has the files of a part. `merged` returns what merging returns,
and what it puts. A part is the number whose bit o is set for octant o.
"""

import model
import model_work
from model import Refused

ROOT = (0, 0, 0, 0)


class NotMerged(Exception):
    """Why parts are not merged, as Rust's Debug writes it."""

    def __init__(self, name, **fields):
        values = ", ".join("%s: %s" % field for field in fields.items())
        self.line = "%s { %s }" % (name, values) if fields else name


def folder_of(octants):
    return "ept-work/part-" + "".join(str(o) for o in range(8) if octants >> o & 1)


def tile_of(points):
    return b"".join(map(model.packed, points))


def inputs_of(text, shelf):
    """What is kept of a configuration, the counts of the inputs, and all points."""
    kept = model.read_config(text)
    sources = [model.scan_input(one, at, shelf, kept["bounds"], kept["scale"]) for at, one in enumerate(kept["input"])]
    points = [point for those in sources for point in those]
    if not points and kept["bounds"] is None:
        raise Refused("error 4 nobounds")
    kept["bounds"] = kept["bounds"] or model.extent_of(points)
    return kept, [model.count_of(those) for those in sources], points


def octant_of(kept, point):
    """The octant of the root's box, whose side is even."""
    corner, exponent, _ = model.cube_of(kept["bounds"], kept["span"], kept["maxDepth"])
    upper = [(point["place"][i] - corner[i]) >> exponent - 1 for i in range(3)]
    return upper[0] + 2 * upper[1] + 4 * upper[2]


def is_shallow(kept):
    return model.cube_of(kept["bounds"], kept["span"], kept["maxDepth"])[2] == 0


def checkpoint_of(kept, counts, points, nodes):
    """The first checkpoint of these nodes, whose tiles all have the first letter."""
    lines = {key: line + (0,) for key, line in model_work.lines_of(nodes).items()}
    return {"generation": 1, "kept": kept, "counts": counts, "inserted": len(points), "nodes": lines}


def part_files(text, shelf, octants):
    """The line of a part, and its files."""
    kept, counts, points = inputs_of(text, shelf)
    if is_shallow(kept):
        raise Refused("error 6 shallow")
    mine = [point for point in points if octants >> octant_of(kept, point) & 1]
    nodes, _ = model_work.sampled(kept, mine)
    if len(nodes) > kept["maxNodes"]:
        raise Refused("error 5 nodes")
    folder = folder_of(octants)
    files = {folder + "/%s.bin" % model.key_text(key): tile_of(those) for key, those in nodes.items()}
    files[folder + "/body"] = model_work.write_body(checkpoint_of(kept, counts, mine, nodes))
    files[folder + "/gate"] = b"\1"
    return "points %d nodes %d" % (len(mine), len(nodes)), files


def build_files(text, shelf):
    """The work files of a build that makes one checkpoint, of all points: what merged parts have to be."""
    kept, counts, points = inputs_of(text, shelf)
    nodes, _ = model_work.sampled(kept, points)
    files = {model_work.work_tile(0, key): tile_of(those) for key, those in nodes.items()}
    files["ept-work/body-a"] = model_work.write_body(checkpoint_of(kept, counts, points, nodes))
    files["ept-work/gate-a"] = b"\1"
    return files


def key_debug(key):
    return "Key { depth: %d, x: %d, y: %d, z: %d }" % key


def body_of(files, octants, kept, counts):
    """The body of a part, which has to be of this scan."""
    folder = folder_of(octants)
    if files.get(folder + "/gate") != b"\1":
        raise NotMerged("NoPart", octants=octants)
    try:
        found = model_work.read_body(files.get(folder + "/body", b""))
    except model_work.Fault:
        found = None
    if found is None or found["version"] == model_work.OLD:
        raise NotMerged("PartDamaged", octants=octants, key="None")
    if model_work.differing(found["kept"], kept) or len(found["kept"]["input"]) != len(kept["input"]) \
            or found["counts"] != counts:
        raise NotMerged("PartDiffers", octants=octants)
    return found


def part_tile(files, kept, octants, body, key):
    """The points of a part's tile, which have to be those of a node of the part."""
    count, mask, _ = body["nodes"][key]
    data = files.get(folder_of(octants) + "/%s.bin" % model.key_text(key))
    points = model.read_tile(data) if data is not None else None
    if points is None or len(points) != count or not model_work.is_grid(points, kept, key, mask) \
            or any(not octants >> octant_of(kept, point) & 1 for point in points):
        raise NotMerged("PartDamaged", octants=octants, key="Some(%s)" % key_debug(key))
    return points


def no_checkpoint(files):
    """Refuses a folder with a current checkpoint, or with a bad one."""
    try:
        found = model_work.current(files)
    except Refused as refused:
        raise NotMerged("BadCheckpoint", letter=refused.line[-1].upper()) from None
    if found is not None:
        raise NotMerged("HasCheckpoint", generation=found[1]["generation"])


def merged(text, shelf, files, parts):
    """The files that merging these parts puts."""
    no_checkpoint(files)
    kept, counts, points = inputs_of(text, shelf)
    if is_shallow(kept):
        raise NotMerged("Shallow")
    bodies = [body_of(files, octants, kept, counts) for octants in parts]
    below = sorted((key, at) for at, body in enumerate(bodies) for key in body["nodes"] if key != ROOT)
    keys = [key for key, _ in below]
    if len(set(keys)) < len(keys) or sum(body["inserted"] for body in bodies) != len(points):
        raise NotMerged("PartDamaged", octants=parts[-1], key="None")
    nodes = {ROOT: sorted((point for octants, body in zip(parts, bodies) for point in part_tile(files, kept, octants, body, ROOT)),
                          key=lambda point: point["id"])}
    for key, at in below:
        nodes[key] = part_tile(files, kept, parts[at], bodies[at], key)
    if len(nodes) > kept["maxNodes"]:
        raise NotMerged("TooManyNodes")
    put = {model_work.work_tile(0, key): tile_of(those) for key, those in nodes.items()}
    put["ept-work/body-a"] = model_work.write_body(checkpoint_of(kept, counts, points, nodes))
    put["ept-work/gate-a"] = b"\1"
    return put
