"""Whether a test finds edits that no contract can refuse, planted in a copy of the sources in which nothing is proved.

A program takes half a minute to compile, so edits of one finder are planted in one, and each has to show in a place of its own.
`found by:` names the finder, and the place if the finder has several:

    the random run N, PART of CALL       the `answer`, `work`, `state` or `drops` of this call differs. No other edit of its N
                                         shows there, as who writes it sees
    scripts/FILE.txt                     a call of this script has an answer that is not wanted
    the tests of half_tests, MODULE::TEST    this one fails
    coverage.py FUNCTION                 it has more blocks that no test enters than the list has
    instructions.py ROW SIZE             the row takes more instructions than with nothing planted
    forbidden_code.py                    a rule is broken in the edit's file

How a program ends, what it leaks, its requests for memory and its calls of closures do not count.
"""

import functools
import itertools
import os
import pathlib
import re
import tempfile

import instructions
import tools
from model.lines import name_of
from random_scripts import FIRST_LINES, LONG, make_script
from scripts import agrees, play

# The scripts of the random run that have to find an edit: their number, and their one kind of values and one limit, since each
# takes seconds to compile.
SCRIPTS, FIRST_LINE = 60, ("map", 5)
PARTS = ("answer", "work", "state", "drops")


def build(copy, name):
    """Builds a program of this copy, and returns where it is."""
    said = tools.said_by([copy / "tests/build_unproved.sh", name, copy / name])
    if not (copy / name).exists():
        raise ValueError(f"it does not compile: {said.strip()[-200:]}")
    return copy / name


def build_witness(copy, first_lines):
    """Builds `witness` for scripts with these first lines, such as ("map", "5"): with no other limits, and with `owning` maps
    only if they are named."""
    script = copy / "crates/witness/src/script.rt"
    kinds, limits = zip(*first_lines)
    arm = re.compile(r'^ +"(\d+)"(?: if .*)? => self\.\w+::<.*>\(.*\),\n', re.M)
    text = arm.sub(lambda it: it[0] if int(it[1]) in map(int, limits) else "", script.read_text())
    script.write_text(text if "owning" in kinds else re.sub(r'^ +"owning" => .*\n', "", text, flags=re.M))
    return build(copy, "witness")


def script_says(copy, edits):
    """What a script shows of a faulty program. One that fails for another reason shows nothing."""
    script = edits[0].found_by
    first_lines = re.findall(r"^(map|owning|unit|small) (\d+)\b", (tools.TESTS / script).read_text(), re.M)
    environment = os.environ | {"WITNESS": str(build_witness(copy, first_lines))}
    said = tools.said_by([tools.TESTS / "scripts.py", script], env=environment)
    return "" if re.search(r"no end within|ends badly", said) else said


def tests_say(copy, edits):
    said = tools.said_by(["rt", "try", "--test", "--steps", "1"], cwd=copy / "crates/half_tests")
    return re.sub(r"^test (.*) \.\.\. FAILED$", r"\1: it fails", said, flags=re.M)


def coverage_says(copy, edits):
    """What the scripts and the tests of half_tests never enter. All of the functions that these edits change is entered there."""
    programs = [copy / "covered" / it for it in ("witness", "half_tests")]
    for name, how in (("witness", "covered"), ("half_tests", "tests")):
        tools.said_by([copy / "tests/build_unproved.sh", name, copy / "covered" / name, how])
    tools.said_by([copy / "tests/scripts.py"], env=os.environ | {"WITNESS": str(programs[0])})
    return "\n".join(re.findall(r"^.* never entered .*$", tools.said_by([copy / "tests/coverage.py", *programs]), re.M))


def forbidden_code_says(copy, edits):
    return tools.said_by([copy / "tests/forbidden_code.py"])


def count_says(copy, edits):
    """How many instructions each row takes that takes more than when nothing is planted."""
    rows, said = [edit.mark.rpartition(" ") for edit in edits], ""
    with tempfile.TemporaryDirectory(prefix="counted-") as other:
        unedited = tools.copy_sources(pathlib.Path(other), tools.crates_of())
        programs = build(copy, "half_bench"), build(unedited, "half_bench")
        for row, _, size in rows:
            new, old = [instructions.count(program, row, size) for program in programs]
            said += f"{row} {size}: {new:.2f}, not {old:.2f}\n" if new > 1.01 * old else ""
    return said


@functools.cache
def scripts_at_random():
    indices = (it for it in itertools.count(len(LONG)) if FIRST_LINES[it % len(FIRST_LINES)] == FIRST_LINE)
    return [make_script(1, it) for it in itertools.islice(indices, SCRIPTS)]


def differences(script, printed):
    """A line for each part of a call's answer that differs from the model's, up to where the maps may differ too."""
    for line, found, wanted in zip(script.lines, printed, script.wanted):
        # How the program ended is no answer.
        if found.startswith(("status ", "no end ")):
            return
        said = zip(PARTS, found.split(" | "), wanted.split(" | "))
        parts = [part for part, *both in said if not agrees(*both)]
        # With another answer the rest differs.
        parts = parts[:1] if "answer" in parts else parts
        call = name_of(line.removeprefix("refused ").split(" "))
        yield from (f"{part} of {call}: {line}: {found}, not {wanted}" for part in parts)
        if {"answer", "state"} & {*parts}:
            return


def random_run_says(copy, edits):
    program = build_witness(copy, [FIRST_LINE])
    played = ((script, play(program, script.lines, script.refuse)) for script in scripts_at_random())
    return "\n".join(line for script, printed in played for line in differences(script, printed))


FINDERS = {"the random run": random_run_says, "scripts/": script_says, "the tests of": tests_say, "coverage.py": coverage_says}
FINDERS |= {"instructions.py": count_says, "forbidden_code.py": forbidden_code_says}


def mark_of(edit):
    """What finds an edit, and the places where it shows, or None if it is planted alone."""
    finder, place = re.fullmatch(r"(the random run \d+|the tests of \w+|\w+\.py)?,? ?(.*)", edit.found_by).groups()
    edit.mark = place or edit.place.replace("/", "/src/", 1)
    return finder or place, {edit.mark if finder else None}


def judge(edits, copy):
    """Whether each of these edits, which are planted in this copy, is found by what it names, and what shows it."""
    says = next(says for start, says in FINDERS.items() if edits[0].found_by.startswith(start))
    said = says(copy, edits)
    shown = [re.search(rf"^.*\b{re.escape(edit.mark)}(?::| has | does not have ).*", said, re.M) for edit in edits]
    return [(bool(it), it[0] if it else f"{edit.found_by} does not find it") for edit, it in zip(edits, shown)]
