"""A second implementation of the checker: what `check OUT` reports of any folder, whole or damaged.

A folder is judged by the build file, the hierarchy and the tiles. The first two are read as a query of all points reads
them. The tile of a node is read before those of its children, and these by octant. What is wrong with a node is the
first line of this table that applies:

| Number | What is wrong |
|---|---|
| 1 | it is not the root, and its parent is no node; this is looked for in all keys, in key order, before any tile |
| 2 | a point lies outside the box of the node |
| 3 | a point is not the best one of its cell, and lies in an octant whose child is a node |
| 4 | an octant whose child is no node has more such points than may stay, above the greatest depth |
| 6 | a node above has no point in the cell of a point of this node that is better |
| 7 | a child and the nodes below it have no more points, by the hierarchy, than may stay in a node |
| 8 | it is not the root, and has no point |
| 9 | the id of a point is that of a point of a node before |
"""

import model
import model_query
from model_query import Damaged, ROOT

EVERYWHERE = [-2 ** 63] * 3 + [2 ** 63 - 1] * 3


def steps_to(key):
    """The octants on the way from the root to a key: nodes in the order of these are in preorder."""
    depth, *axes = key
    return [sum((axis >> depth - 1 - level & 1) << number for number, axis in enumerate(axes)) for level in range(depth)]


def above(key):
    """The keys above a key, the parent first."""
    return [(key[0] - up, *[axis >> up for axis in key[1:]]) for up in range(1, key[0] + 1)]


def child(key, octant):
    return (key[0] + 1, *[2 * axis + (octant >> number & 1) for number, axis in enumerate(key[1:])])


class Folder:
    """A folder whose build file and hierarchy are well-formed."""

    def __init__(self, files):
        self.files = files
        self.counts = dict(model_query.plan(files, EVERYWHERE, (0, 32)))
        self.kept = model_query.read_build_json(files["ept-build.json"])
        self.corner, self.side, self.deepest = model.cube_of(self.kept["bounds"], self.kept["span"], self.kept["maxDepth"])
        self.cells, self.most = self.kept["span"].bit_length() - 1, self.kept["minNodeSize"]
        self.bests, self.ids = {}, set()
        self.within = {key: 0 for key in self.counts}  # how many points there are at a node and below it
        for key, count in self.counts.items():
            for top in [key, *above(key)]:
                if top in self.within:
                    self.within[top] += count

    def points_of(self, key):
        """The points of a node's tile."""
        name = "ept-data/%s.bin" % model.key_text(key)
        points = model.read_tile(self.files[name]) if name in self.files else None
        if points is None or len(points) != self.counts[key]:
            raise Damaged(name)
        return points

    def cell(self, depth, point):
        """The cell of a point at a depth."""
        return tuple((at - least) >> (self.side - depth - self.cells) for at, least in zip(point["place"], self.corner))

    def rank(self, depth, point):
        """The less, the better: its group, how far from the centre of its cell, then by id."""
        size = 2 ** (self.side - depth - self.cells)
        centre = [2 * least + (2 * at + 1) * size for least, at in zip(self.corner, self.cell(depth, point))]
        far = sum((2 * at - middle) ** 2 for at, middle in zip(point["place"], centre))
        return model.group_of(point, self.kept["firstClasses"], self.kept["withheldLast"]), far, *point["id"]

    def best(self, depth, points):
        """The best point of each cell."""
        found = {}
        for point in points:
            cell = self.cell(depth, point)
            if cell not in found or self.rank(depth, point) < self.rank(depth, found[cell]):
                found[cell] = point
        return found

    def octant(self, depth, point):
        """The octant of a point, in the node of this depth that it lies in."""
        halves = [(at - least) >> (self.side - depth - 1) & 1 for at, least in zip(point["place"], self.corner)]
        return halves[0] + 2 * halves[1] + 4 * halves[2]

    def is_inside(self, key, point):
        box = model_query.node_box((self.corner, self.side, self.deepest), key)
        return all(box[axis] <= point["place"][axis] <= box[axis + 3] for axis in range(3))

    # What may be wrong with a node, of which these are the points. `bests` and `ids` are those of the nodes before it.

    def lies_outside(self, key, points):
        return not all(self.is_inside(key, point) for point in points)

    def losers(self, key, points):
        """How many points of each octant are not the best of their cells."""
        best = {point["id"] for point in self.best(key[0], points).values()}
        octants = [self.octant(key[0], point) for point in points if point["id"] not in best]
        return [octants.count(octant) for octant in range(8)]

    def has_child(self, key, octant):
        return child(key, octant) in self.counts

    def has_open_loser(self, key, points):
        return any(count and self.has_child(key, octant) for octant, count in enumerate(self.losers(key, points)))

    def has_too_many(self, key, points):
        return key[0] < self.deepest and any(count > self.most and not self.has_child(key, octant)
                                             for octant, count in enumerate(self.losers(key, points)))

    def loses_to(self, top, point):
        """Whether a point of the node above is better than this one, which lies in its cell."""
        other = self.bests[top].get(self.cell(top[0], point))
        return other is not None and self.rank(top[0], other) < self.rank(top[0], point)

    def belongs_above(self, key, points):
        return not all(self.loses_to(top, point) for top in above(key) for point in points)

    def has_small_child(self, key, points):
        return any(self.has_child(key, octant) and self.within[child(key, octant)] <= self.most for octant in range(8))

    def is_empty(self, key, points):
        return key != ROOT and not points

    def repeats_id(self, key, points):
        return any(point["id"] in self.ids for point in points)

    def fault(self, key, points):
        """The number of what is wrong with a node, or 0."""
        faults = {2: self.lies_outside, 3: self.has_open_loser, 4: self.has_too_many, 6: self.belongs_above,
                  7: self.has_small_child, 8: self.is_empty, 9: self.repeats_id}
        return next((number for number, applies in faults.items() if applies(key, points)), 0)

    def judge(self):
        """The first node with which something is wrong, and the number of it; `None` if there is none."""
        for key in sorted(self.counts):
            if key != ROOT and above(key)[0] not in self.counts:
                return key, 1
        for key in sorted(self.counts, key=steps_to):
            points = self.points_of(key)
            fault = self.fault(key, points)
            if fault:
                return key, fault
            self.bests[key] = self.best(key[0], points)
            self.ids |= {point["id"] for point in points}
        return None


def check(files, folder_of=Folder):
    """The line, the status and the file that is damaged, or None, of a check of these files."""
    if files.get(model_query.DONE) != b"\1":
        return "error 6 complete", 6, None
    try:
        folder = folder_of(files)
        found = folder.judge()
    except Damaged as damaged:
        return "error 8 damaged", 8, damaged.name
    if found:
        return "unfit %s %d" % (model.key_text(found[0]), found[1]), 8, None
    return "fit points %d nodes %d" % (sum(folder.counts.values()), len(folder.counts)), 0, None
