#!/usr/bin/env python3
"""What the documentation names is there, and what it shows is proved or run.

    tests/documentation.py            runs the program HALFMAP, and the examples of the map and the set, with nothing proved
    tests/documentation.py --write    prints the clauses, words and lists of CALLING anew, as they stand in the sources

Users copy the folders of the crates of COPIED, so no link leads out of them. They have the licences, and a page with their line
of crates.txt. A path in backticks leads to a file or a folder, from anywhere in the tree: `map/find.rt` is in
crates/halfbrown/src. What CALLING, USING and PROOFS show stands in callers, which are proved, or, if it is no fenced code, in
examples. docs/speed.svg shows the figures of SPEED, and docs/tail.svg those of TABLE, of which some are computed.
"""

import os
import pathlib
import re
import shutil
import subprocess
import sys
import tempfile

import calling_page
import picture
import tools
from tools import TOP

STD = pathlib.Path(shutil.which("rt")).resolve().parent.parent / "rattle/std/src"
HALFMAP = os.environ.get("HALFMAP") or TOP / "out/unproved/halfmap"
CODE = re.compile(r"^```.*?^```|^    .*?$", re.M | re.S)
FENCED = re.compile(r"^```(\w+)\n(.*?)^```$", re.M | re.S)
SPAN = re.compile(r"`([^`]+)`")
LINK = re.compile(r"\[[^\]]*\]\(((?!\w+://)[^)\s]+)\)")
PATH = re.compile(r"[\w.-]+/[\w./-]*|[\w-]+\.(?:antt|c|edits|md|py|rt|sh|svg|txt)")
IMPORT = re.compile(r"^ *(?:ghost )?use ([\w.:]*\w)(?:\.|::)\{(.*)\};?\n", re.M)
CALLERS = ("half_c*/src/*.rt", "half_uses/s*/*.*", "json_value/src/*.rt", "half_callers/proofs/**/*.antt")
COPIED = "half_store halfbrown half_set half_serde half_uses json_value".split()
USES = {  # The crates whose examples run, and what their tests import.
    "halfbrown": "use halfbrown::{run::run, *}; use std::hash::{BuildHasher, RandomState}; use std::test::Fail;",
    "half_set": "use half_set::*; use std::test::Fail;",
}


def texts(*patterns):
    return [path.read_text() for pattern in patterns for path in TOP.glob(f"crates/{pattern}")]


def code_of(module):
    """The code of a module of the crates or of std, whose lib.rt has many inside."""
    files = texts(f"*/src/**/{module}.rt", f"{module}/src/lib.rt", f"{module}/src/main.rt")
    std = (STD / "lib.rt").read_text()
    inside = std if module == "std" else std.partition(f"mod {module} {{")[2]
    return "\n".join([inside, *files, *(path.read_text() for path in STD.glob(f"{module}.rt"))])


def named(page, tree):
    """The links, paths and names of a page, such as `counting::hash_one`, an item in a module, of a crate or of std."""
    prose = CODE.sub("", page.read_text())
    folder = next((it for it in page.parents if it.parent == TOP / "crates"), TOP)
    for link in LINK.findall(SPAN.sub("", prose)):
        name, _, heading = link.partition("#")
        target = page.parent / name if name else page
        headings = re.findall("^#+ (.*)$", CODE.sub("", target.read_text()), re.M) if target.is_file() else []
        anchors = ["", *(re.sub(r"[^\w -]", "", it.lower()).replace(" ", "-") for it in headings)]
        stays = folder in [target.resolve(), *target.resolve().parents]
        yield link, target.exists() and heading in anchors and stays
    for word in " ".join(SPAN.findall(prose)).split():
        if PATH.fullmatch(word) and "out" not in word.split("/"):
            wanted = re.sub("CRATE|FILE|PATH", "[^/]+", re.escape(word.strip("/")))  # These stand for any.
            yield word, re.search(rf"/{wanted}(/|$)", tree, re.M)
        parts = word.split("::") if re.fullmatch(r"[a-z]\w*(?:::\w+)+", word) else []
        for module, item in zip(parts, parts[1:]):
            declared = rf"\b(?:fn|mod|struct|enum|trait|type|const) {item}\b|\buse [^;]*\b{item}\b"
            yield f"{module}::{item}", re.search(declared, code_of(module))


def readme(page):
    """The first example, which is proved in half_conditions with its clause, what halfmap answers, and a crate of one's own."""
    proved = re.search(r"^ghost use.*?^}\n", *texts("half_conditions/src/first_example.rt"), re.M | re.S)[0]
    shown = [code for kind, code in FENCED.findall(page) if kind == "rust"]  # It is plain, and its clause is told below.
    contract = re.compile(r"^ghost use .*\n\n?|^    (ensures .*)\n", re.M)
    told = all(f"`{clause}`" in page for clause in contract.findall(proved) if clause)
    yield "the first example", told and shown == [contract.sub("", proved).replace("\n{", " {")]
    run = r"^    \$ printf '(.*)' \| make run \| tail -n (\d+)\n((?:    .*\n)+)"
    lines, last, answers = re.search(run, page, re.M).groups()
    ran = subprocess.run(["env", HALFMAP], input=lines.replace("\\n", "\n"), capture_output=True, text=True)
    yield "the answers of halfmap", ran.stdout.splitlines()[-int(last) :] == answers.replace("    ", "").splitlines()
    with tempfile.TemporaryDirectory() as folder:
        copy, empty = tools.copy_sources(pathlib.Path(folder, "copy"), tools.crates_of("halfbrown")), pathlib.Path(folder, "empty")
        empty.mkdir()
        # It reads the crates as `rt run` does, and proves nothing.
        lines = re.search(r"^From an empty folder.*\n\n((?:    .*\n)+)", page, re.M)[1].replace("rt run", "rt expand")
        said = tools.said_by(["bash", "-ec", f"{lines}\necho It ends."], cwd=empty, env={**os.environ, "HALFBROWN": str(copy)})
    yield "the lines for a crate of one's own", "It ends.\n" in said


def packed(text):
    """Code with no spaces, no comments, no tallies, and no comma before an end."""
    text = "".join(re.sub(r"(^|\s)(//|-- ).*", "", text, flags=re.M).split())
    text = text.replace("_counted(", "(").replace(",tally", "").replace("(tally)", "()")
    return re.sub(r",(?=[)\]}])", "", text)


def imports(page):
    sources = "\n".join(texts("*/src/**/*.rt", "*/specs/*.antt", "*/proofs/**/*.antt"))
    for module, names in IMPORT.findall(page):
        imported = "".join(re.findall(rf"use {module}(?:\.|::)(\{{.*\}})", sources))
        yield from ((it, re.search(rf"(?:\{{|, ){re.escape(it)}[,}}]", imported)) for it in names.split(", "))


def snippets(page):
    page = IMPORT.sub("", page)
    examples = re.findall("^ *//[/!](.*)", "\n".join(texts("half*/src/**/*.rt")), re.M)
    callers, either = (packed("\n".join(texts(*CALLERS) + more)) for more in ([], examples))
    yield from ((code, packed(code) in callers) for kind, code in FENCED.findall(page) if kind != "text")
    for code in re.findall("(?:^    .*\n)+", FENCED.sub("", page), re.M):
        if not re.search(r"\S {3,}(?!//)\S", code):  # A table has a second column.
            yield from ((it, packed(it) in either) for it in ([code] if "{" in code else code.splitlines()))


def lemmas(page):
    for module, listed in re.findall(r"^    ([A-Z]\w+)\n((?:      .*\n)+)", FENCED.sub("", page), re.M):
        defined = re.findall(r"^ *pub ([\w-]+) :", *texts(f"halfbrown/proofs/callers/{module}.antt"), re.M)
        names = ", ".join(line.strip().split("  ")[0] for line in listed.splitlines())
        yield from ((name, name in defined) for name in names.split(", "))


def copied():
    """What stands in the folder of each crate that users copy."""
    lines = tools.crates_of()
    for name in COPIED:
        page = TOP / f"crates/{name}/README.md"
        yield f"the page of {name}", page.exists() and f"\n    {name}:{lines[name]}\n" in page.read_text()
        for licence in ("LICENSE-APACHE", "LICENSE-MIT"):
            copy = page.with_name(licence)
            yield f"{name}: {licence}", copy.exists() and copy.read_bytes() == (TOP / licence).read_bytes()


def tests_of(path, tests, before):
    """The examples of a file as tests, each on its own lines, and what stands before the last: those of `//!`."""
    text = path.read_text()
    for it in re.finditer(r"^ *//([/!]) ```\n(.*?)(?:^ *//\1 ```|\Z)", text, re.M | re.S):
        line = text.count("\n", 0, it.start())
        code = re.sub("^ *//[/!] ?", "", it[2], flags=re.M)
        tests += "\n" * (line - tests.count("\n"))
        tests += f"#[test] fn line_{line + 1}(rt: HostRuntime) -> Result<(), Fail> {{ {before}\n{code}Ok(()) }}"
        before += code.replace("\n", " ") if it[1] == "!" else ""
    return tests, before


def examples():
    files = {}
    for name, uses in USES.items():
        sources = TOP / f"crates/{name}/src"
        before = tests_of(sources / "lib.rt", "", "")[1]
        for path in sources.rglob("*.rt"):
            files["_".join([name, *path.relative_to(sources).parts])[:-3]] = tests_of(path, uses, before)[0]
    with tempfile.TemporaryDirectory() as folder:
        crate = tools.crate_above(pathlib.Path(folder), "examples", *USES)
        files["calling"] = FENCED.search(CALLING.read_text())[2]
        files["lib"] = "#![tactic(auto)]\n" + "".join(f"#[cfg(test)]\nmod {name};\n" for name in files)
        for name, tests in files.items():
            (crate / f"src/{name}.rt").write_text(tests)
        said = tools.said_by(["rt", "try", "--test"], cwd=crate)
    print("" if "test result: ok" in said else said, end="")
    names = [f"{name}::{test}" for name, tests in files.items() for test in re.findall(r"fn (line_\d+)", tests)]
    yield from ((f"the example {name}", f"test {name} ... ok\n" in said) for name in names)


CALLING, USING, PROOFS = (TOP / f"crates/halfbrown/{it}.md" for it in ("CALLING", "USING", "PROOFS"))
if sys.argv[1:] == ["--write"]:
    sys.exit(not all(page.write_text(calling_page.written(page)) for page in calling_page.pages()))
git = tools.said_by(["git", "ls-files", "-co", "--exclude-standard"], cwd=TOP)
files = [it for it in git.splitlines() if (TOP / it).exists()]
tree = "\n".join(f"/{it}" for it in files)
claims = [(f"{it}: {what}", stands) for it in files if it.endswith(".md") for what, stands in named(TOP / it, tree)]
for page in (*calling_page.pages(), USING, PROOFS):
    claims += [it for shown in (imports, snippets, lemmas) for it in shown(page.read_text())]
claims += [it for page in calling_page.pages() for it in calling_page.claims(page)]
claims += [*readme((TOP / "README.md").read_text()), *copied(), *examples()]
claims += [(path.name, drawn == path.read_text()) for path, drawn in picture.pictures()]
table = (TOP / "docs/TABLE.md").read_text()
claims += [(row, f"{row}\n" in table) for load, _ in picture.LOADS.values() for row in picture.tail_rows(load)]
tools.end([None if stands else what for what, stands in claims])
