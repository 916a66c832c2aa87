#!/usr/bin/env python3
"""What `make run`, `make archive` and `make unpack` do and say, in small trees in which nothing is proved.

Some bytes stand there for the libraries and for halfmap, under the stamps that rt compares. `make unpack` has to refuse each
archive that is not as it was packed, or not of this kit and these sources, and then to change nothing. It has to put the good
one in place, with the library that is named and the one below it, so that rt proves nothing anew, and `make run` takes halfmap
as proved."""

import hashlib
import io
import os
import pathlib
import re
import shutil
import subprocess
import sys
import tarfile
import tempfile

import tools

RT = pathlib.Path(shutil.which("rt")).resolve()
# The module of rt that makes its stamps.
sys.dont_write_bytecode = True
sys.path.append(str(RT.parent))
import rtlib

CRATES = tools.crates_of("halfmap", "half_laws")
HALFMAP, VERSION = tools.program("halfmap"), tools.said_by(["rt", "version"]).strip()
NOT_PROVED = "This halfmap is not proved; make prove proves it.\n"
HALF_STORE = "crates/half_store/out/rlib"


def said_in(tree, command, path=""):
    """What a command prints in a tree, but for make's own line on a recipe that fails."""
    given = {name: value for name, value in os.environ.items() if name not in ("MAKEFLAGS", "MAKELEVEL")}
    ran = subprocess.run(
        ["timeout", "100", "bash", "-c", command], cwd=tree, env={**given, "PATH": path + given["PATH"]}, text=True,
        stdin=subprocess.DEVNULL, stdout=subprocess.PIPE, stderr=subprocess.STDOUT,
    )
    return re.sub(r"^make: \*\*\* \[.*\n", "", ran.stdout, flags=re.M)


def stand_in(tree):
    """Writes what rt takes as proved."""
    for name in CRATES:
        made, stamp = tree / f"crates/{name}/out", rtlib.Crate(f"{tree}/crates/{name}", str(tree), {}).stamp()
        if name == "halfmap":
            made.mkdir()
            (made / name).write_text("#!/bin/sh\necho It is proved.\n")
            (made / name).chmod(0o755)
            (made / "halfmap.stamp").write_text(stamp + hashlib.sha256((made / name).read_bytes()).hexdigest())
        else:
            (made / f"rlib/{name}.rlib").mkdir(parents=True)
            (made / f"rlib/{name}.rlib/format").write_bytes(name.encode() * 9999)
            (made / "rlib/stamp").write_text(stamp)


def files(folder):
    """Each folder, and each file with its bytes and its time."""
    return {it: not it.is_dir() and (it.read_bytes(), it.stat().st_mtime_ns) for it in folder.rglob("*")}


def proved(tree):
    """The same of the proved files of a tree."""
    return {str(it.relative_to(tree)): both for it, both in files(tree / "crates").items() if both and "out" in it.parts}


def with_entry(archive, name, data=b"", kind=tarfile.REGTYPE, link=""):
    """A copy of an archive with one more entry."""
    copy = archive.with_name(f"{len(os.listdir(archive.parent))}.tar.gz")
    with tarfile.open(archive) as old, tarfile.open(copy, "w:gz", compresslevel=1) as new:
        for it in old:
            new.addfile(it, old.extractfile(it))
        more = tarfile.TarInfo(name)
        more.size, more.type, more.linkname = len(data), kind, link
        new.addfile(more, io.BytesIO(data))
    return copy


def run_unproved(tree):
    """What `make run` says of a halfmap that is not proved: to a line, if the reader of many answers goes away, and if nothing
    can be written."""
    (tree / "out/unproved").mkdir(parents=True)
    shutil.copy(HALFMAP, tree / "out/unproved/halfmap")
    yield said_in(tree, "echo f | make -s run; echo $?"), f"{NOT_PROVED}vec 0\n0\n"
    many = "yes f | head -n 1000000 | make -s run | head -n 1; echo ${PIPESTATUS[2]}"
    yield said_in(tree, many), f"{NOT_PROVED}vec 0\n0\n"
    shutil.rmtree(tree / "out")
    (tree / "out").touch()
    said = said_in(tree, "make run || echo failed")
    no_folder = "Nothing can be written to this folder: copy it, and run make in the copy.  Stop.\nfailed\n"
    yield said.partition("*** ")[2], no_folder
    (tree / "out").unlink()


def pack(tree):
    """Packs twice, and checks the name, and that equal trees make equal archives."""
    said_in(tree, "git init -q && git add -A")
    stand_in(tree)
    first = said_in(tree, "make -s archive WITH=half_laws")
    version = re.search(r"^## (.*)", (tree / "CHANGELOG.md").read_text(), re.M)[1]
    yield first.split()[-1], f"out/halfbrown-{version}-{VERSION.split()[0].split('-')[-1]}.tar.gz"
    (tree / "Makefile").touch()
    yield said_in(tree, "make -s archive WITH=half_laws").split()[-2:], first.split()[-2:]


def refuse(tree, good, folder):
    """Of each archive or tree that is not as it was, whether it is refused for its reason, with nothing changed."""
    top, sum_of = good.name.removesuffix(".tar.gz"), lambda it: hashlib.sha256(it.read_bytes()).hexdigest()
    changed, kit = folder / "changed", folder / "kit/rt"
    changed.write_bytes(good.read_bytes()[:-9] + bytes(9))
    kit.parent.mkdir()
    kit.write_text(f'#!/bin/sh\n[ "$1" != version ] || exec echo rattle-kit-0 logic 0\nexec {RT} "$@"\n')
    kit.chmod(0o755)
    odd = [
        (with_entry(good, f"{top}/{HALF_STORE}/link", kind=tarfile.SYMTYPE, link="/etc/passwd"), "/link"),
        (with_entry(good, f"{top}/{HALF_STORE}/link", kind=tarfile.LNKTYPE, link=f"{top}/Makefile"), "/link"),
        (with_entry(good, f"{top}/../../../escaped"), "leads out of it"),
        (with_entry(good, f"{folder}/escaped"), "was not made by make archive"),
        (with_entry(good, f"{top}/{HALF_STORE}/more"), "out/rlib/more"),
        (with_entry(good, f"{top}/crates/halfmap/out/halfmap", b"#!/bin/sh\n"), "sum than in its list: crates/halfmap/out/"),
    ]
    cases = [(it, sum_of(it), "", None, why) for it, why in odd] + [(changed, sum_of(good), "", None, f"not {sum_of(good)}")]
    cases += [(good, sum_of(good), f"{kit.parent}:", None, f"is of {VERSION}, and here is rattle-kit-0 logic 0")]
    for edited in ("crates/half_store/src/lib.rt", "crates/halfbrown/specs/More.antt", "Makefile"):
        cases.append((good, sum_of(good), "", tree / edited, edited))
    for archive, its_sum, path, edited, why in cases:
        text = edited and edited.exists() and edited.read_text()
        if edited:
            edited.write_text((text or "") + "\n")
        before = files(folder)
        said = said_in(tree, f"make -s unpack FILE={archive} SUM={its_sum} || echo failed", path)
        yield (why in said, said.endswith("failed\n"), files(folder) == before) == (True,) * 3 or said, True
        if edited:
            edited.write_text(text) if text else edited.unlink()


def unpack(tree, good, packed):
    yield said_in(tree, f"make -s unpack FILE={good} SUM=$(sha256sum <{good} | cut -c -64)"), ""
    found = proved(tree)
    yield {name: it[0] for name, it in found.items()}, {name: it[0] for name, it in packed.items()}
    yield said_in(tree, "make -s run"), "It is proved.\n"
    said = said_in(tree, "make -s prove || echo failed")
    anew = [name for name, it in proved(tree).items() if it != found.get(name) and not name.endswith("halfmap.stamp")]
    yield (anew, "failed\n" in said), ([], False)


with tempfile.TemporaryDirectory() as folder:
    folder = pathlib.Path(folder)
    packs, unpacks = (tools.copy_sources(folder / it, CRATES, without=("out",)) for it in ("packs", "unpacks"))
    checks = [*run_unproved(unpacks), *pack(packs)]
    good = next((packs / "out").glob("*.tar.gz"))
    # It gives way to the good one, and stays at a refusal.
    (unpacks / HALF_STORE).mkdir(parents=True)
    (unpacks / HALF_STORE / "older").touch()
    (unpacks / "out").mkdir()
    checks += [*refuse(unpacks, pathlib.Path(shutil.copy(good, folder)), folder), *unpack(unpacks, good, proved(packs))]
told = [None if found == wanted else f"{wanted} is wanted, and this is found: {found}" for found, wanted in checks]
tools.end([it and it[:1000] for it in told])
