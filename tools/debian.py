#!/usr/bin/env python3
"""Runs a program of another suite of Debian, in a system of its own in a folder.

Usage: tools/debian.py SUITE PACKAGE[,PACKAGE..] WORDS..

`debootstrap` makes the system of SUITE once, in EPT_SYSTEMS/SUITE (by default /var/tmp/ept-systems), and `apt-get` in it
installs the packages. WORDS are run in it, in the working directory. /tmp, the home folder and this repository are there under the
same paths, the repository read-only, so paths mean what they mean outside. The network is that of this machine.

The packages come from the mirror that debootstrap takes by itself, or from EPT_MIRROR: an old suite may be on an archive's.

It needs root, and installs debootstrap on this machine if it is missing. Nothing else outside the folder changes. A system
takes 0.3 to 2 GB; remove the folder to be rid of it. Status: that of WORDS, or 2 if the system cannot be had.
"""

import fcntl
import os
import shutil
import subprocess
import sys
from contextlib import contextmanager
from pathlib import Path

TOP = Path(__file__).resolve().parent.parent
SYSTEMS = Path(os.environ.get("EPT_SYSTEMS", "/var/tmp/ept-systems"))
MIRROR = [word for word in [os.environ.get("EPT_MIRROR")] if word]
STAMP = "var/lib/ept-packages"  # the packages that were installed; missing if the system is not whole
ENTER = """
set -e
root=$1 folder=$2; shift 2
mount -t proc proc "$root/proc"
mount --rbind /dev "$root/dev"
while [ "$1" != -- ]; do
  mkdir -p "$root$2"
  mount --bind "$2" "$root$2"
  [ "$1" = rw ] || mount -o remount,bind,ro "$root$2"
  shift 2
done
shift
exec chroot "$root" env --chdir="$folder" "$@"
"""
PLAIN = {"PATH": "/usr/local/sbin:/usr/local/bin:/usr/sbin:/usr/bin:/sbin:/bin", "HOME": "/root", "LC_ALL": "C.UTF-8",
         "DEBIAN_FRONTEND": "noninteractive", "QT_QPA_PLATFORM": "offscreen", "PYTHONDONTWRITEBYTECODE": "1"}


class Missing(Exception):
    """Why a system cannot be had."""


def words_in(root, words, folder="/", shown=()):
    """The words that run WORDS in a system: a folder of it, and pairs of `rw` or `ro` and a folder of this machine."""
    pairs = [word for kind, path in shown for word in (kind, str(path))]
    enter = ["unshare", "--mount", "--pid", "--fork", "--kill-child", "--propagation", "private"]
    values = [f"{name}={value}" for name, value in PLAIN.items()]
    return [*enter, "sh", "-c", ENTER, "sh", str(root), str(folder), *pairs, "--", "-i", *values, *map(str, words)]


def shown_here():
    """What of this machine a program sees: its scratch folders and this repository."""
    return [("rw", "/tmp"), ("ro", TOP)]


def run(*words):
    """Runs words of which only the outcome counts; what they print if they fail."""
    done = subprocess.run(words, stdout=subprocess.PIPE, stderr=subprocess.STDOUT, text=True, errors="replace", check=False)
    return None if done.returncode == 0 else done.stdout[-2000:]


@contextmanager
def locked(name):
    """One process at a time makes or changes this system."""
    SYSTEMS.mkdir(parents=True, exist_ok=True)
    with (SYSTEMS / f"{name}.lock").open("w") as lock:
        fcntl.flock(lock, fcntl.LOCK_EX)
        yield


def need_debootstrap():
    if os.geteuid():
        raise Missing("not root, so no other system can be made")
    if not shutil.which("debootstrap"):
        for words in ["update"], ["install", "-y", "--no-install-recommends", "debootstrap"]:
            run("apt-get", *words)
    if not shutil.which("debootstrap"):
        raise Missing("debootstrap is missing and cannot be installed")


def make(suite, root):
    """A system of a suite, with little in it."""
    shutil.rmtree(root, ignore_errors=True)
    said = run("debootstrap", "--variant=minbase", "--include=ca-certificates", suite, root, *MIRROR)
    if said is not None:
        raise Missing(f"no system of {suite} can be had: {said.strip().splitlines()[-1]}")
    (root / STAMP).write_text("")


def install(root, packages):
    """Installs packages in a system, of which no service is started."""
    policy = root / "usr/sbin/policy-rc.d"
    policy.write_text("#!/bin/sh\nexit 101\n")
    policy.chmod(0o755)
    shutil.copy("/etc/resolv.conf", root / "etc/resolv.conf")
    said = None
    for words in ["update"], ["install", "-y", "--no-install-recommends", *packages]:
        said = run(*words_in(root, ["apt-get", "-q", *words]))
    policy.unlink()
    run(*words_in(root, ["apt-get", "clean"]))
    if said:
        raise Missing(f"{', '.join(packages)} cannot be installed in {root}: {said.strip().splitlines()[-1]}")


def system(suite, packages, name=None):
    """The folder of a system of this suite with these packages; Missing if it cannot be had."""
    need_debootstrap()
    root = SYSTEMS / (name or suite)
    with locked(root.name):
        if not (root / STAMP).is_file():
            make(suite, root)
        there = (root / STAMP).read_text().split()
        if lacking := [package for package in packages if package not in there]:
            install(root, lacking)
            (root / STAMP).write_text("\n".join(there + lacking))
    return root


def command(suite, packages, words):
    """The words that run WORDS with the packages of a suite; Missing if these cannot be had."""
    here = Path.cwd()
    folder = here if here.is_relative_to("/tmp") or here.is_relative_to(TOP) else "/tmp"
    return words_in(system(suite, packages), words, folder, shown_here())


def main():
    if len(sys.argv) < 4 or "--help" in sys.argv[1:2]:
        print(__doc__.strip())
        return 0 if "--help" in sys.argv[1:2] else 2
    _, suite, packages, *words = sys.argv
    try:
        return subprocess.run(command(suite, packages.split(","), words), check=False).returncode
    except Missing as error:
        print(f"skipped: {error}", file=sys.stderr)
        return 2


if __name__ == "__main__":
    sys.exit(main())
