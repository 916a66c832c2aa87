"""What the tests share. The program that one runs is that which the variable of its name says, such as WITNESS, or the proved
one. The last line of each is "N passed, M failed"."""

import os
import pathlib
import re
import shutil
import subprocess
import sys

TESTS = pathlib.Path(__file__).resolve().parent
TOP = TESTS.parent


def program(name):
    path = pathlib.Path(os.environ.get(name.upper()) or TOP / f"crates/{name}/out/{name}")
    if not path.exists():
        end([f"{path} is not there: `rt run` in crates/{name} proves and builds it"])
    return path


def crates_of(*names):
    """All crates, or those that these are made of, by their lines in crates.txt: the lowest first."""
    lines = dict(re.findall(r"^(\w+):(.*)$", (TOP / "crates.txt").read_text(), re.M))
    found = set(names or lines)
    while below := {it for name in found & {*lines} for it in lines[name].split()} - found:
        found |= below
    return {name: lines[name] for name in lines if name in found}


def copy_sources(folder, crates, without=("out", "proofs")):
    """Copies the tests and crates, but for these folders; out/ is copied as links, since rt replaces its files."""
    shutil.copytree(TESTS, folder / "tests", ignore=shutil.ignore_patterns("__pycache__"))
    for name in ("HANDLES", "Makefile", "CHANGELOG.md"):
        shutil.copy(TOP / name, folder)
    (folder / "crates.txt").write_text("".join(f"{name}:{below}\n" for name, below in crates.items()))
    for name in crates:
        crate, copy = TOP / "crates" / name, folder / "crates" / name
        shutil.copytree(crate, copy, ignore=lambda at, _: {"out", *without} if at == str(crate) else ())
        if "out" not in without and (crate / "out").is_dir():
            shutil.copytree(crate / "out", copy / "out", copy_function=os.link)
    return folder


def crate_above(folder, name, *below):
    """Makes a crate of this name, with no file yet, above a copy of these crates, and returns its folder."""
    crate = copy_sources(folder, crates_of(*below)) / "crates" / name
    with open(folder / "crates.txt", "a") as lines:
        lines.write(f"{name}: {' '.join(below)}\n")
    (crate / "src").mkdir(parents=True)
    return crate


def said_by(command, **given):
    """What a command prints, and then what is on its standard error."""
    ran = subprocess.run(command, stdin=subprocess.DEVNULL, capture_output=True, text=True, errors="replace", **given)
    return ran.stdout + ran.stderr


def end(told):
    """Ends a test whose checks told what is wrong, or None."""
    faults = [it for it in told if it]
    print(*faults, f"{len(told) - len(faults)} passed, {len(faults)} failed", sep="\n")
    sys.exit(bool(faults) or not told)
