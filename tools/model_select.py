"""A second implementation of selections: what `select OUT BOX DEPTHS CLASSES TIME DIMS` writes on any folder.

It follows docs/FORMATS.md and the plan of tools/model_query.py. It writes the points of the query that pass, each as the
bytes of the dimensions that are asked for, in that order.
"""

import re
import struct

import model
import model_query

# The dimensions of a packed point, in the order of their bytes: the name of each, and where its bytes are.
NAMES = ["X", "Y", "Z"] + [name for name, _, _ in model.DIMENSIONS]
WIDTHS = [4, 4, 4] + [width for _, _, width in model.DIMENSIONS]
PLACES = {name: slice(sum(WIDTHS[:row]), sum(WIDTHS[:row + 1])) for row, name in enumerate(NAMES)}
LENGTH = sum(WIDTHS)
ANY = "-"


class Sift:
    """Which points pass, None where any do, and the names of the dimensions that are kept of them."""

    def __init__(self, classes, time, dims):
        self.classes, self.time, self.dims = classes, time, dims

    def passes(self, packed):
        """Whether a packed point has one of the classes, and the time."""
        return ((self.classes is None or packed[PLACES["Classification"]][0] in self.classes)
                and (self.time is None or packed[PLACES["GpsTime"]] == self.time))

    def cut(self, packed):
        """What is kept of a packed point."""
        return b"".join(packed[PLACES[name]] for name in self.dims)


def read_classes(text):
    """The numbers in a text, which ascend; `None` if the text is malformed."""
    words = text.split(",")
    if not all(re.fullmatch("0|[1-9][0-9]{0,2}", word, re.ASCII) for word in words):
        return None
    classes = list(map(int, words))
    return classes if classes == sorted(set(classes)) and classes[-1] <= 255 else None


def read_time(text):
    """The bytes of a text of 16 digits; `None` if it is malformed."""
    return bytes.fromhex(text) if re.fullmatch("[0-9a-f]{16}", text, re.ASCII) else None


def read_dims(text):
    """The names in a text, none of them twice; `None` if it is malformed."""
    names = text.split(",")
    return names if set(names) <= set(NAMES) and len(set(names)) == len(names) else None


def read_sift(classes, time, dims):
    """The selection that three texts ask for; `None` if one of them is malformed."""
    asked = [read(text) if text != ANY else default for read, text, default in
             ((read_classes, classes, ()), (read_time, time, ()), (read_dims, dims, NAMES))]
    return None if None in asked else Sift(*(None if part == () else part for part in asked))


def sifted(data, sift):
    """What is kept of packed points that follow one another, and how many of them pass."""
    points = [data[at:at + LENGTH] for at in range(0, len(data), LENGTH)]
    kept = [sift.cut(point) for point in points if sift.passes(point)]
    return b"".join(kept), len(kept)


def select(files, area, depths, sift):
    """Status, bytes and the file that is damaged, or None, of a selection on these files."""
    status, points, damaged = model_query.query(files, area, depths)
    return status, sifted(points, sift)[0], damaged


# how `struct` packs a point: its dimensions in order
FORM = "iiiHBBBBBBBbhBH8sHHHIQ"


def plain_filter(files, area, depths, sift):
    """The same on a complete folder, by a look at each field of each point: what a selection has to give there."""
    fields = struct.Struct("<" + FORM)
    found = b""
    for packed in fields.iter_unpack(model_query.plain_filter(files, area, depths)):
        named = dict(zip(NAMES, packed))
        if (sift.classes is None or named["Classification"] in sift.classes) and (sift.time is None or named["GpsTime"] == sift.time):
            found += b"".join(struct.pack("<" + form_of(name), named[name]) for name in sift.dims)
    return found


def form_of(name):
    """How Python's `struct` packs a dimension."""
    return re.findall(r"\d*[a-zA-Z]", FORM)[NAMES.index(name)]
