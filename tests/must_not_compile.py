#!/usr/bin/env python3
"""Programs that misuse what the map lends must not compile: those of tests/must_not_compile.txt.

All of them are put into one crate, as its modules, over a copy of the libraries' sources, and nothing is proved there. The
compiler stops after the first of its passes that finds errors. So those that it has found are taken out, and the rest is
compiled again until it finds none. These have to be the ones that compile, and they are run."""

import pathlib
import re
import shutil
import tempfile

import tools

CASE = re.compile(r"^(\w+): (.*)\n((?:    .*\n)+)", re.M)
ERROR = re.compile(r"^src/(\w+)\.rt:\d+:\d+: (error\[[^\]]*\])", re.M)
MODULE = """use halfbrown::{{DefaultHashBuilder, RawEntryMut, SizedHashMap}};

pub fn main(rt: &HostRuntime) {{
    let mut map = SizedHashMap::<u64, u64, DefaultHashBuilder, 5>::new(rt.alloc());
{}}}
"""


def compile_crate(bodies, crate):
    """Makes the crate of these programs, and returns what the compiler says and the run."""
    shutil.rmtree(crate / "src")
    (crate / "src").mkdir()
    for name, body in bodies.items():
        (crate / "src" / f"{name}.rt").write_text(MODULE.format(body))
    modules, calls = ("".join(text.format(it) for it in bodies) for text in ("mod {};\n", "    {}::main(&rt);\n"))
    (crate / "src/main.rt").write_text(f"#![tactic(auto)]\n\n{modules}\nfn main(rt: HostRuntime) {{\n{calls}}}\n")
    return tools.said_by(["rt", "try", "--steps", "1"], cwd=crate)


def judge(bodies, crate):
    """Returns what was found of each program, and what the compiler printed last."""
    found, said = {}, ""
    while rest := {name: body for name, body in bodies.items() if name not in found}:
        said = compile_crate(rest, crate)
        errors = {(name, code) for name, code in ERROR.findall(said) if name in rest}
        if not errors:
            # These compile, or the compiler stops at what is in none of them.
            return found | dict.fromkeys(rest, "compiles" if "run=ended status=0" in said else "no end"), said
        found |= {name: ", ".join(sorted(code for it, code in errors if it == name)) for name, _ in errors}
    return found, said


cases = CASE.findall((tools.TESTS / "must_not_compile.txt").read_text())
with tempfile.TemporaryDirectory() as folder:
    crate = tools.crate_above(pathlib.Path(folder), "misuse", "halfbrown")
    found, said = judge({name: body for name, _, body in cases}, crate)
told = [None if found.get(it) == wanted else f"{it}: wanted {wanted}, found {found.get(it)}" for it, wanted, _ in cases]
print(said[-2000:] if any(told) else "", end="")
tools.end(told)
