"""Folders with one thing spoiled, for tools/compare: what a check has to find.

A folder is a dictionary from names to bytes. Each way of spoiling takes a folder that a build left. It returns the new
bytes of some of its files, or None for a file that is to be missing. It returns no change if the folder has nothing of
the kind.
"""

import json
import re

import model
import model_check
import model_query

LENGTH = 53
ORIGIN, NUMBER = slice(41, 45), slice(45, 53)


# ---- what a folder has

def tile_name(key):
    return "ept-data/%s.bin" % model.key_text(key)


def keys_of(files):
    """The keys of the tiles, in key order."""
    return sorted(model_query.read_key(name[len("ept-data/"):-len(".bin")]) for name in files if name.startswith("ept-data/"))


def points_of(files, key):
    """The packed points of a tile."""
    data = files[tile_name(key)]
    return [data[at:at + LENGTH] for at in range(0, len(data), LENGTH)]


def id_of(packed):
    return int.from_bytes(packed[ORIGIN], "little"), int.from_bytes(packed[NUMBER], "little")


def tile_of(points):
    """The points as a tile, in the order of their ids."""
    return b"".join(sorted(points, key=id_of))


def hierarchies(files):
    """The entries of each hierarchy file, by its name."""
    return {name: json.loads(data) for name, data in files.items() if name.startswith("ept-hierarchy/")}


def counts_of(files):
    """The count of each node."""
    return {model_query.read_key(text): count for entries in hierarchies(files).values() for text, count in entries.items() if count != -1}


def as_file(entries):
    """A hierarchy file of these entries, in key order."""
    named = sorted((model_query.read_key(text), count) for text, count in entries.items())
    return ("{" + ",".join('"%s":%d' % (model.key_text(key), count) for key, count in named) + "}").encode()


def recounted(files, counts):
    """The hierarchy files of nodes of these counts, and those that are gone."""
    texts = model.hierarchy_files(counts, json.loads(files["ept-build.json"])["hierarchyStep"])
    return dict.fromkeys(hierarchies(files)) | {name: text.encode() for name, text in texts.items()}


def with_tiles(files, tiles, lot):
    """Other points in some tiles. The hierarchy counts them, except for one time in five."""
    tiles = {key: [point["packed"] if isinstance(point, dict) else point for point in points] for key, points in tiles.items()}
    changed = {tile_name(key): tile_of(points) for key, points in tiles.items()}
    counts = counts_of(files) | {key: len(points) for key, points in tiles.items()}
    return changed | (recounted(files, counts) if lot.random() < 0.8 else {})


def filled(files):
    """The keys of the tiles that have a point."""
    return [key for key in keys_of(files) if files[tile_name(key)]]


# ---- ways of spoiling

def flip_bit(lot, files):
    """A bit of a tile."""
    keys = filled(files)
    if not keys:
        return {}
    name = tile_name(lot.choice(keys))
    data = bytearray(files[name])
    at = lot.randrange(len(data) // LENGTH) * LENGTH + lot.choice([lot.randrange(LENGTH), lot.randrange(12), lot.randrange(41, LENGTH)])
    data[at] ^= 1 << lot.randrange(8)
    return {name: bytes(data)}


def move_point(lot, files):
    """A point in another tile than its own: often in that of the parent or of a child."""
    keys = filled(files)
    if not keys or len(keys_of(files)) < 2:
        return {}
    key = lot.choice(keys)
    others = [other for other in keys_of(files) if other != key]
    near = [other for other in others if abs(other[0] - key[0]) == 1 and (model_query.is_within(other, key) or model_query.is_within(key, other))]
    other = lot.choice(near if near and lot.random() < 0.7 else others)
    points, point = points_of(files, key), lot.randrange(len(points_of(files, key)))
    return with_tiles(files, {key: points[:point] + points[point + 1:], other: points_of(files, other) + [points[point]]}, lot)


def drop_point(lot, files):
    """A point that is in no tile."""
    keys = filled(files)
    if not keys:
        return {}
    key = lot.choice(keys)
    points = points_of(files, key)
    points.pop(lot.randrange(len(points)))
    return with_tiles(files, {key: points}, lot)


def empty_tile(lot, files):
    """A tile without points."""
    keys = filled(files)
    return with_tiles(files, {lot.choice(keys): []}, lot) if keys else {}


def exchange_tiles(lot, files):
    """Two tiles, one in the place of the other."""
    keys = keys_of(files)
    if len(keys) < 2:
        return {}
    one, other = lot.sample(keys, 2)
    return with_tiles(files, {one: points_of(files, other), other: points_of(files, one)}, lot)


def exchange_points(lot, files):
    """Two points of two tiles, one in the place of the other: often one of a node, and one above it in the same box."""
    keys = filled(files)
    if len(keys) < 2:
        return {}
    one, other = lot.sample(keys, 2)
    below = [key for key in keys if key != one and model_query.is_within(key, one)]
    if below and lot.random() < 0.8:
        other = lot.choice(below)
    ours, theirs = points_of(files, one), points_of(files, other)
    there = lot.randrange(len(theirs))
    near = sorted(range(len(ours)), key=lambda at: distance(ours[at], theirs[there]))
    here = near[0] if lot.random() < 0.7 else lot.choice(near)
    ours[here], theirs[there] = theirs[there], ours[here]
    return with_tiles(files, {one: ours, other: theirs}, lot)


def distance(one, other):
    """The greatest distance of two packed points on an axis."""
    places = ([int.from_bytes(point[at:at + 4], "little", signed=True) for at in (0, 4, 8)] for point in (one, other))
    return max(abs(a - b) for a, b in zip(*places))


def sink_winner(lot, files):
    """Exchanges the best point of a cell with the next one of that cell, in a node two or more nodes below."""
    folder = model_check.Folder(files)
    points = {key: folder.points_of(key) for key in keys_of(files)}
    bests = {key: folder.best(key[0], those) for key, those in points.items()}
    found = []
    for key in points:
        for up, top in enumerate(model_check.above(key)):
            between = [point for other in model_check.above(key)[:up] for point in points[other]]
            for point in points[key] if up else []:
                cell, rank = folder.cell(top[0], point), folder.rank(top[0], point)
                winner = bests[top][cell]
                if folder.is_inside(key, winner) and all(folder.cell(top[0], one) != cell or rank < folder.rank(top[0], one) for one in between):
                    found.append((key, top, point, winner))
    if not found:
        return {}
    key, top, point, winner = lot.choice(found)
    moved = {key: (point, winner), top: (winner, point)}
    return with_tiles(files, {where: [new if one is old else one for one in points[where]] for where, (old, new) in moved.items()}, lot)


def fold_node(lot, files):
    """The points of a node in its parent, and the node gone."""
    keys = keys_of(files)
    leaves = [key for key in keys if key[0] and not any(other != key and model_query.is_within(other, key) for other in keys)]
    if not leaves:
        return {}
    key = lot.choice(leaves)
    top = (key[0] - 1, *[axis >> 1 for axis in key[1:]])
    points = points_of(files, top) + points_of(files, key)
    counts = {other: count for other, count in counts_of(files).items() if other != key} | {top: len(points)}
    return recounted(files, counts) | {tile_name(key): None, tile_name(top): tile_of(points)}


def change_count(lot, files):
    """A count of a hierarchy file."""
    name, entries = lot.choice(sorted(hierarchies(files).items()))
    text = lot.choice(sorted(entries))
    return {name: as_file(entries | {text: lot.choice([entries[text] + 1, entries[text] - 1, 0, -1, 2 ** 63 - 1])})}


def remove_key(lot, files):
    """A key that is in no hierarchy file, or in one file less. Its tile is there, or is gone too."""
    gone = lot.choice(keys_of(files))
    changed = {tile_name(gone): None} if lot.random() < 0.5 else {}
    if lot.random() < 0.7:
        return changed | recounted(files, {key: count for key, count in counts_of(files).items() if key != gone})
    text = model.key_text(gone)
    name, entries = lot.choice([(name, entries) for name, entries in hierarchies(files).items() if text in entries])
    return changed | {name: as_file({other: count for other, count in entries.items() if other != text})}


def add_key(lot, files):
    """A key more, with an empty tile, with the points of the node above it, or with a point of its own."""
    kept = json.loads(files["ept-build.json"])
    corner, side, deepest = model.cube_of(kept["bounds"], kept["span"], kept["maxDepth"])
    top = lot.choice(keys_of(files))
    down = lot.choice([1, 1, 1, 2, 3])
    key = (top[0] + down, *[(axis << down) + lot.randrange(2 ** down) for axis in top[1:]])
    if key in keys_of(files) or key[0] > deepest and lot.random() < 0.9:
        return {}
    least = [at + axis * 2 ** max(side - key[0], 0) for at, axis in zip(corner, key[1:])]
    one = b"".join((at % 2 ** 32).to_bytes(4, "little") for at in least) + bytes(29) + b"\xff" * 12
    points, left = lot.choice([([], points_of(files, top)), (points_of(files, top), []), ([one], points_of(files, top))])
    counts = counts_of(files) | {key: len(points), top: len(left)}
    return recounted(files, counts) | {tile_name(key): tile_of(points), tile_name(top): tile_of(left)}


def change_number(lot, files):
    """A number of `ept-build.json`."""
    text = files["ept-build.json"].decode()
    if lot.random() < 0.6:
        kept = json.loads(text)
        name, values = lot.choice([("span", [2, 4, 8, 16]), ("minNodeSize", [0, 1, 2, 5, 20, 2 ** 31]), ("maxDepth", [0, 1, 2, 32]),
                                   ("hierarchyStep", [0, 1, 2, 3])])
        return {"ept-build.json": text.replace('"%s":%d,' % (name, kept[name]), '"%s":%d,' % (name, lot.choice(values)), 1).encode()}
    begin, end = lot.choice([found.span() for found in re.finditer(r"-?\d+", text)])
    number = int(text[begin:end])
    return {"ept-build.json": (text[:begin] + str(lot.choice([number + 1, number - 1, -number, 2 * number])) + text[end:]).encode()}


def change_precedence(lot, files):
    """Other classes that come first in `ept-build.json`, or withheld points last or not; now and then in no form of a build's."""
    text = files["ept-build.json"].decode()
    first = lot.choice([[], [], [2], [0, 255], sorted(lot.sample(range(256), lot.choice([1, 5, 128, 256]))), [3, 2], [2, 2], [256], [-1], [2.0]])
    members = "" if not first and lot.random() < 0.9 else ',"firstClasses":%s' % json.dumps(first, separators=(",", ":"))
    members += lot.choice(["", "", ',"withheldLast":true', ',"withheldLast":true', ',"withheldLast":false', ',"withheldLast":1'])
    plain = re.sub(r',"firstClasses":\[[\d,]*\]', "", text.replace(',"withheldLast":true', "", 1), count=1)
    return {"ept-build.json": plain.replace(',"input":[', members + ',"input":[', 1).encode()}


def repeat_id(lot, files):
    """The id of a point at another point, of the same tile or of another one."""
    keys = filled(files)
    if not keys:
        return {}
    key, other = lot.choice(keys), lot.choice(keys)
    points = points_of(files, key)
    at = lot.randrange(len(points))
    points[at] = points[at][:41] + lot.choice(points_of(files, other))[41:]
    return {tile_name(key): tile_of(points)}


def repeat_point(lot, files):
    """A point once more, in a tile below its own or in any other one."""
    keys = filled(files)
    if not keys or len(keys_of(files)) < 2:
        return {}
    key = lot.choice(keys)
    others = [other for other in keys_of(files) if other != key]
    below = [other for other in others if model_query.is_within(other, key)]
    other = lot.choice(below if below and lot.random() < 0.7 else others)
    return with_tiles(files, {other: points_of(files, other) + [lot.choice(points_of(files, key))]}, lot)


def move_far(lot, files):
    """A place outside of the cube, or elsewhere in it."""
    keys = filled(files)
    if not keys:
        return {}
    key = lot.choice(keys)
    points = points_of(files, key)
    at, axis = lot.randrange(len(points)), lot.randrange(3)
    number = lot.choice([2 ** 31 - 1, -2 ** 31, lot.randint(-1000, 1000)])
    points[at] = points[at][:4 * axis] + number.to_bytes(4, "little", signed=True) + points[at][4 * axis + 4:]
    return {tile_name(key): tile_of(points)}


def lose_file(lot, files):
    """A file of the output that is missing, cut or longer."""
    name = lot.choice(lot.choice([[name for name in files if name.startswith(front)] or ["ept-build.json"]
                                  for front in ("ept-data/", "ept-hierarchy/", "ept-build.json", model_query.DONE)]))
    return {name: lot.choice([None, files[name][:-1], files[name] + b"0", files[name] + files[name][-LENGTH:]])}


def leave(lot, files):
    """Nothing that a check reads."""
    return {lot.choice(["ept.json", "ept-sources/manifest.json"]): lot.choice([None, b"", b"{}"])}


WAYS = [flip_bit, move_point, drop_point, empty_tile, exchange_tiles, exchange_points, sink_winner, fold_node, change_count, remove_key, add_key,
        change_number, change_precedence, repeat_id, repeat_point, move_far, lose_file, leave]


def spoil(lot, files):
    """The name of a way of spoiling, and what becomes of some files."""
    changes = {}
    while not changes:  # a way may find nothing of its kind, or change nothing
        way = lot.choice(WAYS)
        changes = way(lot, files)
        changes = {name: data for name, data in changes.items() if data != files.get(name)}
    return way.__name__, changes
