#!/usr/bin/env python3
"""Copies each module of half_uses into a new crate, by its copy.sh, and compiles these crates with nothing proved. Each file is
copied, none names half_uses then, and its page has the files of each module."""

import pathlib
import tempfile

import tools

USES = tools.TOP / "crates/half_uses"


def files_of(crate):
    found = (it for part in ("src", "specs", "proofs") for it in (crate / part).rglob("*.*"))
    return {it.relative_to(crate): it.read_text() for it in found if it.stem.lower() != "lib"}


def copied(module, crate):
    """What is wrong with the copy of a module in a crate."""
    (crate / "src").mkdir(parents=True)
    (crate / "src/lib.rt").write_text("#![tactic(auto)]\n")
    files, _, lacks = tools.said_by([USES / "copy.sh", module, crate]).partition("\n")
    yield None if f"\n    {files}\n" in (USES / "README.md").read_text() else f"README.md does not have: {files}"
    yield None if lacks == f"crates.txt has to have: {crate.name}: halfbrown\n" else f"{module}: {lacks}"
    yield from (f"{crate.name}/{path} names half_uses" for path, text in files_of(crate).items() if "half_uses" in text)


with tempfile.TemporaryDirectory() as folder:
    top = tools.copy_sources(pathlib.Path(folder), tools.crates_of("halfbrown"))
    modules = sorted(it.stem for it in USES.glob("src/*.rt") if it.stem != "lib")
    crates = {it: top / f"crates/my_{it}" for it in modules}
    told = [fault for it in modules for fault in copied(it, crates[it])]
    left = {*files_of(USES)}.difference(*map(files_of, crates.values()))
    told.append(f"These are copied with no module: {[*map(str, left)]}" if left else None)
    user = top / "crates/user"
    (user / "src").mkdir(parents=True)
    (user / "src/lib.rt").write_text("#![tactic(auto)]\n\n#[test]\nfn they_compile(_rt: HostRuntime) {}\n")
    with open(top / "crates.txt", "a") as lines:
        lines.writelines(f"{it.name}: halfbrown\n" for it in crates.values())
        print("user:", *(it.name for it in crates.values()), file=lines)
    said = tools.said_by(["rt", "try", "--test"], cwd=user)
told.append(None if "test result: ok. 1 passed" in said else said)
tools.end(told)
