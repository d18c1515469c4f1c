"""What QGIS's own reader of point clouds finds of a dataset, next to the points of the scans.

The scans are decoded here from their bytes, without code of the programs. If QGIS's Python library is missing, it is
installed from the system's packages (as root, by apt-get).

  python3 tools/by_qgis.py EPT CONFIG NAME..      prints as JSON what the QGIS of this system finds, by these names

So tools/interop asks the QGIS of another system. EPT is the path of an `ept.json`, CONFIG has `scale` and `offset`.
"""

import json
import os
import struct
import subprocess
import sys
from collections import Counter
from pathlib import Path

TOP = Path(__file__).resolve().parent.parent
CONFIGURATION = "examples/survey/survey.json"
CONFIG = json.loads((TOP / CONFIGURATION).read_text())
NAMES = (
    "X Y Z Intensity ReturnNumber NumberOfReturns ScanDirectionFlag EdgeOfFlightLine Classification ClassFlags "
    "ScanChannel ScanAngleRank ScanAngle UserData PointSourceId GpsTime Red Green Blue OriginId PointId"
).split()
RECORDS = {3: struct.Struct("<iiiHBBbBHdHHH"), 7: struct.Struct("<iiiHBBBBhHdHHH")}


def fields_of_format_3(raw):
    """Intensity to colour of a record of point format 3, in the order of the names."""
    x, y, z, intensity, returns, kind, rank, user, source, time, *colour = raw
    flags = [returns & 7, returns >> 3 & 7, returns >> 6 & 1, returns >> 7, kind & 31, kind >> 5]
    return [x, y, z], [intensity, *flags, 0, rank, 0, user, source, time, *colour]


def fields_of_format_7(raw):
    """The same of a record of point format 7."""
    x, y, z, intensity, returns, flags, kind, user, angle, source, time, *colour = raw
    parts = [returns & 15, returns >> 4, flags >> 6 & 1, flags >> 7, kind, flags & 15, flags >> 4 & 3]
    return [x, y, z], [intensity, *parts, 0, angle, user, source, time, *colour]


def points_of(path, origin, exponent, shift):
    """The points of a scan, each with its place in stored units, its input and its number."""
    scan = path.read_bytes()
    (start,) = struct.unpack_from("<I", scan, 96)
    form, length = struct.unpack_from("<BH", scan, 104)
    at, letter = (247, "<Q") if scan[25] == 4 else (107, "<I")
    (count,) = struct.unpack_from(letter, scan, at)
    split = fields_of_format_3 if form == 3 else fields_of_format_7
    for number in range(count):
        place, fields = split(RECORDS[form].unpack_from(scan, start + number * length))
        stored = [raw * 10**exponent + moved for raw, moved in zip(place, shift)]
        yield (*stored, *fields, origin, number)


def points_of_all(config):
    """All points of the inputs of a configuration, as it places them."""
    for origin, given in enumerate(config["input"]):
        given = given if isinstance(given, dict) else {"path": given}
        exponent = config["scale"] - given.get("scale", config["scale"])
        yield from points_of(TOP / given["path"], origin, exponent, given.get("shift", [0, 0, 0]))


def points_of_survey():
    """All points of the survey, as its configuration places them."""
    return points_of_all(CONFIG)


def reader():
    """QGIS's library, installed if it is missing; `None` if it can't be had."""
    os.environ.setdefault("QT_QPA_PLATFORM", "offscreen")
    for attempt in range(2):
        try:
            import qgis.core

            return qgis.core
        except ImportError:
            if attempt:
                return None
            for words in ["update"], ["install", "-y", "--no-install-recommends", "python3-qgis"]:
                subprocess.run(["apt-get", *words], stdout=subprocess.DEVNULL, check=False)


def found_by(core, where, config=CONFIG, names=NAMES):
    """What the reader finds at a path or an address. That is facts of the layer, and all points with their places in stored
    units and these attributes."""
    layer = core.QgsPointCloudLayer(str(where), "survey", "ept")
    if not layer.isValid():
        return {"valid": False}, Counter()
    facts = {"valid": True, "points": layer.pointCount(), "reference system": layer.crs().authid()}
    everywhere = core.QgsGeometry.fromRect(layer.extent().buffered(1))
    points = layer.dataProvider().identify(0, everywhere, core.QgsDoubleRange(), 2**31 - 1)
    unit, places = 10 ** config["scale"], config["offset"]
    found = Counter()
    for point in points:
        stored = [round((point[axis] - start) * unit) for axis, start in zip("XYZ", places)]
        found[(*stored, *(value_of(point, name) for name in names[3:]))] += 1
    return facts, found


def value_of(point, name):
    """An attribute of a point. The number of a record is in two, its lower and its upper 32 bits, where QGIS takes no whole one."""
    low, high = point.get(name), point.get("PointIdHigh")
    return low if name != "PointId" or high is None else low + (high << 32)


def differences(facts, found, wanted, config=CONFIG):
    """What the reader did not find as the scans have it, one line each."""
    system = config.get("srs")
    expected = {
        "valid": True,
        "points": sum(wanted.values()),
        "reference system": system["authority"] + ":" + system["horizontal"] if system else "",
    }
    for name, value in expected.items():
        if facts.get(name) != value:
            yield f"{name}: {facts.get(name)} in place of {value}"
    for kind, points in [("not found", wanted - found), ("found, but not in the scans", found - wanted)]:
        for point in sorted(points, key=str)[:3]:
            yield f"{kind}: " + " ".join(f"{name}={value}" for name, value in zip(NAMES, point))
        if points:
            yield f"{kind}: {sum(points.values())} in all"


def main():
    """Prints what this system's QGIS finds."""
    where, config, *names = sys.argv[1:]
    core = reader()
    if core is None:
        return "QGIS's Python library is missing"
    application = core.QgsApplication([], False)
    application.initQgis()
    facts, found = found_by(core, where, json.loads(Path(config).read_text()), names)
    application.exitQgis()
    print(json.dumps({"version": core.Qgis.QGIS_VERSION, "facts": facts, "points": list(found.items())}))
    return 0


if __name__ == "__main__":
    sys.exit(main())
