#!/usr/bin/env python3
"""Draws a small Entwine Point Tile folder as an SVG: which points are at which depth.

Usage: examples/draw.py OUT PICTURE.svg
       examples/draw.py OUT PICTURE.svg --classes LAST      the depths up to LAST, each point in the colour of its class

It reads `ept.json`, the hierarchy files from the root's on and the tiles themselves, and knows nothing else
of how the folder was made. A panel shows the points of one depth, seen from above one corner.
"""

import json
import math
import struct
import sys
from pathlib import Path

PANEL = 260
MOST = 1500  # points of a depth that are drawn
MARGIN = 24
COLOURS = ["#1b6ca8", "#d1495b", "#edae49", "#66a182", "#8d6cab"]
CLASSES = {2: ("ground", "#b07d3c"), 5: ("vegetation", "#1f9d3a"), 6: ("building", "#c0392b"), 9: ("water", "#1b6ca8")}
OTHER = ("other", "#777777")


def point_format(schema):
    """The struct format of a packed point, and the index of X, Y, Z and the class in it."""
    letters = {
        ("signed", 1): "b", ("signed", 2): "h", ("signed", 4): "i",
        ("unsigned", 1): "B", ("unsigned", 2): "H", ("unsigned", 4): "I", ("unsigned", 8): "Q",
        ("float", 8): "d",
    }
    names = [d["name"] for d in schema]
    text = "<" + "".join(letters[d["type"], d["size"]] for d in schema)
    return struct.Struct(text), [names.index(n) for n in ("X", "Y", "Z", "Classification")]


def read_hierarchy(folder, key="0-0-0-0"):
    """The count of each node; -1 leads to the file of that key."""
    for name, count in json.loads((folder / f"ept-hierarchy/{key}.json").read_text()).items():
        if count == -1:
            yield from read_hierarchy(folder, name)
        else:
            yield name, count


def read_points(folder):
    """The points of each depth, as native coordinates and a class."""
    ept = json.loads((folder / "ept.json").read_text())
    form, places = point_format(ept["schema"])
    scales = [ept["schema"][i]["scale"] for i in range(3)]
    offsets = [ept["schema"][i]["offset"] for i in range(3)]
    depths = {}
    for key, count in read_hierarchy(folder):
        tile = (folder / "ept-data" / (key + ".bin")).read_bytes()
        points = [
            [p[i] * s + o for i, s, o in zip(places, scales, offsets)] + [p[places[3]]] for p in form.iter_unpack(tile)
        ]
        assert len(points) == count, f"{key}: {len(points)} points, {count} in the hierarchy"
        depths.setdefault(int(key.split("-")[0]), []).append((key, points))
    return ept, depths


def project(point, low, side):
    """A place of the cube on a panel, seen from above one corner."""
    x, y, z = ((c - l) / side - 0.5 for c, l in zip(point, low))
    right = (x - y) * math.cos(math.pi / 6)
    up = (x + y) * math.sin(math.pi / 6) * -1 + z
    scale = PANEL / 2.2
    return PANEL / 2 + right * scale, PANEL / 2 - up * scale


def edges(low, side):
    """The cube's edges on a panel."""
    corner = lambda i: [l + side * (i >> a & 1) for a, l in enumerate(low)]
    for i in range(8):
        for a in range(3):
            if not i >> a & 1:
                yield project(corner(i), low, side), project(corner(i | 1 << a), low, side)


def shares(points):
    """How many points there are of each class, in words."""
    names = [CLASSES.get(point[3], OTHER)[0] for point in points]
    return ", ".join(f"{names.count(name)} {name}" for name, _ in [*CLASSES.values(), OTHER] if name in names)


def panel(depth, nodes, low, side, left, by_class):
    """The drawing of one depth."""
    colour = COLOURS[depth % len(COLOURS)]
    total = sum(len(points) for _, points in nodes)
    yield f'<g transform="translate({left},{MARGIN})">'
    for (a, b), (c, d) in edges(low, side):
        yield f'<line x1="{a:.1f}" y1="{b:.1f}" x2="{c:.1f}" y2="{d:.1f}" stroke="#c8c8c8"/>'
    step = max(1, -(-total // MOST))
    radius = 3 if total < 400 else 1.4
    for _, points in nodes:
        for point in sorted(points[::step], key=lambda p: (p[0] + p[1], p[2])):
            x, y = project(point, low, side)
            fill = CLASSES.get(point[3], OTHER)[1] if by_class else colour
            yield f'<circle cx="{x:.1f}" cy="{y:.1f}" r="{radius}" fill="{fill}" fill-opacity="0.75"/>'
    label = f"depth {depth}: {len(nodes)} node{'s' * (len(nodes) != 1)}, {total} points"
    if by_class:
        label = f"depth {depth}: " + shares([point for _, points in nodes for point in points])
    yield f'<text x="{PANEL / 2}" y="{PANEL + 16}" text-anchor="middle">{label}</text>'
    yield "</g>"


def draw(folder, last):
    """The picture of all depths, or of the classes of those up to the last one."""
    ept, depths = read_points(folder)
    depths = {depth: nodes for depth, nodes in depths.items() if last is None or depth <= last}
    low, side = ept["bounds"][:3], ept["bounds"][3] - ept["bounds"][0]
    width = MARGIN + len(depths) * (PANEL + MARGIN)
    height = PANEL + 2 * MARGIN + 8
    yield (
        f'<svg xmlns="http://www.w3.org/2000/svg" viewBox="0 0 {width} {height}" '
        f'font-family="sans-serif" font-size="13" fill="#333">'
    )
    yield f'<rect width="{width}" height="{height}" fill="white"/>'
    for i, depth in enumerate(sorted(depths)):
        yield from panel(depth, depths[depth], low, side, MARGIN + i * (PANEL + MARGIN), last is not None)
    yield "</svg>"


def main():
    if len(sys.argv) not in (3, 5) or sys.argv[3:4] not in ([], ["--classes"]):
        sys.exit(__doc__)
    last = int(sys.argv[4]) if len(sys.argv) == 5 else None
    Path(sys.argv[2]).write_text("\n".join(draw(Path(sys.argv[1]), last)) + "\n")


if __name__ == "__main__":
    main()
