"""Folders that an earlier program left, with the scans and the configuration that they were made of.

They lie in tools/tests/before/, an archive each; tools/tests/make_before says how they were made. `tools/stops --before` has
the program of now take them over.
"""

import json
import shutil
import subprocess
import zipfile
from pathlib import Path

import model
import model_work

HERE = Path(__file__).resolve().parent / "tests/before"
OLD_DONE = "ept-work/done"
ALL = ",".join(["-2147483648"] * 3 + ["2147483647"] * 3)


def files_of(out):
    """The files below a folder, by name."""
    return {str(path.relative_to(out)): path.read_bytes() for path in out.rglob("*") if path.is_file()}


def paths_of(config):
    """The paths of the inputs of a configuration."""
    inputs = config["input"] if isinstance(config["input"], list) else [config["input"]]
    return [one if isinstance(one, str) else one["path"] for one in inputs]


class Before:
    """A folder of before: its name, its scans and its files by name, and its configuration."""

    def __init__(self, path):
        self.name = path.stem
        with zipfile.ZipFile(path) as archive:
            entries = {name: archive.read(name) for name in archive.namelist()}
        self.files = {name[4:]: data for name, data in entries.items() if name.startswith("out/")}
        self.scans = {name: data for name, data in entries.items() if name.endswith(".las")}
        self.config = json.loads(entries["config.json"])
        self.was_finished = self.files.get(OLD_DONE) == b"\1"
        found = model_work.current(self.files)
        self.generation, self.inserted = (found[1]["generation"], found[1]["inserted"]) if found else (0, 0)

    def more(self):
        """The configuration with a further flight; the same where the bounds have no room for one."""
        spare = [name for name in self.scans if name not in paths_of(self.config)]
        inputs = self.config["input"] if isinstance(self.config["input"], list) else [self.config["input"]]
        return self.config | {"input": inputs + spare[:1]} if "bounds" in self.config else self.config

    def write(self, folder):
        """Writes the files into a folder, and the scans, with links to them as inputs."""
        files = {f"scans/{name}": data for name, data in self.scans.items()} | {f"out/{name}": data for name, data in self.files.items()}
        for name, data in files.items():
            (folder / name).parent.mkdir(parents=True, exist_ok=True)
            (folder / name).write_bytes(data)
        for name in self.scans:
            (folder / name).symlink_to(f"scans/{name}")


def all_of_them():
    """The folders of before, by name."""
    return [Before(path) for path in sorted(HERE.glob("*.zip"))]


def run(folder, *words):
    """Standard output, status and standard error of the program in a folder."""
    done = subprocess.run([model.PROGRAM, *words], cwd=folder, capture_output=True, check=False)
    return done.stdout, done.returncode, done.stderr.decode()


def refusal_faults(folder):
    """What a query, a selection and a check of a folder do other than to refuse it, and say why and what to do."""
    for words, line in ((["query", "out", ALL, "0,32"], b""), (["select", "out", ALL, "0,32", "-", "-", "-"], b""),
                        (["check", "out"], b"error 6 complete\n")):
        said, status, sentence = run(folder, *words)
        if (said, status) != (line, 6) or not sentence.startswith("ept_tool: out has no complete dataset: run its build"):
            yield f"{words[0]}: status {status}, {said[:60]!r}, {sentence!r}"


class Whole:
    """What a new build leaves of a configuration."""

    def __init__(self, case, config, folder):
        folder.mkdir()
        for name, data in case.scans.items():
            (folder / name).write_bytes(data)
        (folder / "config.json").write_text(json.dumps(config | {"threads": 1, "cacheSize": 2 ** 20, "maxNodes": 65536}))
        said, self.status, _ = run(folder, "build", "config.json", "out")
        self.line, self.files = said.decode(), files_of(folder / "out")
        self.points = run(folder, "query", "out", ALL, "0,32")[0]
        self.generation = model_work.current(self.files)[1]["generation"]
        shutil.rmtree(folder)


def stopped_faults(case, files):
    """What of a folder is not sound, or has fewer points than before, after a build was stopped."""
    faults = model_work.soundness(files, case.scans)
    try:
        found = model_work.current(files)
    except model.Refused:
        return faults
    if (found[1]["inserted"] if found else 0) < case.inserted:
        faults.append(f"there were {case.inserted} points inserted, and are {found[1]['inserted'] if found else 0}")
    if files.get(OLD_DONE) != case.files.get(OLD_DONE):
        faults.append("the done gate of before was changed")
    return faults


def ended_faults(case, folder, whole, line, status):
    """What a build that ended by itself did not leave as a new build does."""
    files = files_of(folder / "out")
    faults = [] if (line, status) == (whole.line, 0) else [f"status {status}, {line!r}, and not {whole.line!r}"]
    names = sorted(name for name in files.keys() | whole.files.keys()
                   if model_work.is_output_name(name) and files.get(name) != whole.files.get(name))
    faults += [f"{len(names)} files differ, as {names[0]}"] if names else []
    faults += [f"{name} is left" for name in files if name.startswith("ept-spill/")][:1]
    faults += stopped_faults(case, files)
    if status == 0 and not faults:
        found, other = model_work.current(files), model_work.current(whole.files)
        is_same = model_work.same_checkpoint(found[1] | {"generation": 0}, other[1] | {"generation": 0})
        faults += [] if is_same else ["the checkpoint is not that of a build anew"]
        faults += [] if files.get(model_work.DONE) == b"\1" else ["the done gate is not open"]
        faults += [] if run(folder, "query", "out", ALL, "0,32") == (whole.points, 0, "") else ["a query for all finds other points"]
        faults += [] if run(folder, "check", "out")[1] == 0 else ["a check finds it unfit"]
    return faults


def standing(files):
    """How far a folder is taken over, in words."""
    try:
        found = model_work.current(files)
    except model.Refused:
        return "with a checkpoint that is none"
    if found is None:
        return "without a checkpoint"
    if found[1]["version"] == 1:
        return "not taken over yet"
    return "done" if files.get(model_work.DONE) == b"\1" else "taken over, and not done"
