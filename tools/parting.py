"""What the checks of parts share: octants in words, divisions of a survey, parts copied into one folder, and what one build leaves.

A part is the number whose bit o is set for octant o, as in model_parts.py.
"""

import re
import shutil
import subprocess
from pathlib import Path

import model_work
from model import PROGRAM
from model_parts import folder_of

EVERY = range(8)
LINES = {"NoPart": "error 6 part {octants}", "PartDiffers": "error 6 differs {octants}", "PartDamaged": "error 8 part {octants}",
         "HasCheckpoint": "error 6 checkpoint", "Shallow": "error 6 shallow", "TooManyNodes": "error 5 nodes",
         "BadCheckpoint": "error 8 checkpoint {letter}"}


def are_offered():
    """Whether the program makes parts and merges them. It is asked for a merge by a configuration that is missing."""
    words = ["merge", "/none/none.json", "/none/none", ",".join(map(str, EVERY))]
    done = subprocess.run([PROGRAM, *words], capture_output=True, check=False)
    return done.stdout != b"error 2 usage\n"


def word_of(octants):
    """The octants of a part in a word of the command line."""
    return ",".join(str(o) for o in EVERY if octants >> o & 1)


def octants_of(word):
    """The part of a word, or None if it is none: digits from 0 to 7 that ascend, with commas."""
    numbers = [int(digit) for digit in word.split(",")] if re.fullmatch("[0-7](,[0-7])*", word) else []
    return sum(1 << o for o in numbers) if numbers and numbers == sorted(set(numbers)) else None


def is_division(parts):
    """Whether each octant is in exactly one of these parts."""
    return None not in parts and [sum(part >> o & 1 for part in parts) for o in EVERY] == [1] * len(EVERY)


def division(lot, most=len(EVERY)):
    """Parts at random, in random order, with each octant once."""
    count = lot.randint(1, most)
    places = [lot.randrange(count) for _ in EVERY]
    parts = [sum(1 << o for o in EVERY if places[o] == part) for part in range(count)]
    return lot.sample([part for part in parts if part], len([part for part in parts if part]))


def line_of(refused):
    """The line of a merge that the second implementation refuses."""
    name, *fields = re.findall(r"\w+", refused.line)
    values = dict(zip(fields[::2], fields[1::2]))
    octants = word_of(int(values.get("octants", 0)))
    return LINES[name].format(octants=octants, letter=values.get("letter", "").lower())


def files_below(folder):
    """The files below a folder, by name."""
    return {str(path.relative_to(folder)): path.read_bytes() for path in Path(folder).rglob("*") if path.is_file()}


def gather(source, octants, out):
    """Copies a part from a folder of its own into that of the dataset, the gate last."""
    part = folder_of(octants)
    (out / part).mkdir(parents=True, exist_ok=True)
    (out / part / "gate").unlink(missing_ok=True)
    shutil.copytree(source / part, out / part, dirs_exist_ok=True, ignore=shutil.ignore_patterns("gate"))
    shutil.copy(source / part / "gate", out / part / "gate")


def build_differences(found, whole):
    """What of a merged folder is not what one build leaves. Each file of the output is compared byte for byte, then the done
    gate. What the checkpoint says is compared except for its generation and letters, and so are the tiles that it names."""
    outputs = [{name: data for name, data in files.items() if model_work.is_output_name(name)} for files in (found, whole)]
    names = sorted(name for name in set().union(*outputs) if outputs[0].get(name) != outputs[1].get(name))
    faults = [f"{len(names)} files differ, as {names[0]}"] if names else []
    faults += [] if found.get(model_work.DONE) == whole.get(model_work.DONE) else ["the done gates differ"]
    ours, theirs = model_work.current(found), model_work.current(whole)
    if not ours or not theirs:
        return faults + ([] if ours == theirs else ["only one of the folders has a checkpoint"])
    if not model_work.same_checkpoint(ours[1] | {"generation": 0}, theirs[1] | {"generation": 0}):
        faults.append("the checkpoints differ")
    tile = lambda files, checkpoint, key: files.get(model_work.work_tile(checkpoint["nodes"][key][2], key))
    keys = [key for key in ours[1]["nodes"].keys() & theirs[1]["nodes"].keys() if tile(found, ours[1], key) != tile(whole, theirs[1], key)]
    return faults + ([f"{len(keys)} tiles of the checkpoints differ"] if keys else [])
