#!/usr/bin/env python3
"""Plays the scripts of tests/scripts on the program `witness`, under allocator.c, and on the model.

    tests/scripts.py [WORD..]    plays all of them, or those whose name has one of the words

docs/SCRIPTS.md has the lines. `# ..` is a comment, and `<3: 8n n+1>` stands for its words with 0, 1, 2 for `n`: `0 1 8 2 16 3`.
`= WANTED` is the answer of the call above it, and may lack the fields after the form. Each first line begins anew, in a process
of its own. A line too many fails, such as `kept N blocks` of the allocator. If `refused` stands once between two first lines,
these lines are played with the first request of that call refused, with the second, and so on until none is. They are also
played with each two in a row refused, and with all. That call and later ones may then have other answers, `or WANTED`, and some
play must give each. If it stands more often, one play refuses all requests.

A call passes if each play meets a line that is wanted of it. One that fails is printed as scripts/FILE:LINE with what was found.
"""

import dataclasses
import functools
import os
import re
import subprocess
import sys
from concurrent.futures import ThreadPoolExecutor

import preloaded
import tools
from model.basics import ALL, NONE
from model.lines import LIMITS
from model.session import answers

SCRIPTS = tools.TESTS / "scripts"
SECONDS = 120
# The model searches a list, so it plays only parts of fewer characters.
MOST_ON_THE_MODEL = 2**18
REPEATED, TERM = re.compile(r"<(\d+): ([^<>]*)>"), re.compile(r"\b(\d*)n(?:\+(\d+))?\b")


@dataclasses.dataclass
class Call:
    """A line of a script, where it stands, and the texts one of which must be its answer."""

    text: str
    place: str
    wanted: list = dataclasses.field(default_factory=list)


def written_out(line):
    """The line in which `<3: 8n n+1>` stands for its words with 0, 1 and 2 for n: `0 1 8 2 16 3`."""

    def words(repeated, n):
        return TERM.sub(lambda it: str(int(it[1] or 1) * n + int(it[2] or 0)), repeated)

    return REPEATED.sub(lambda it: " ".join(words(it[2], n) for n in range(int(it[1]))), line)


def read_script(path):
    """The parts of a script, each the calls from a first line up to the next one."""
    parts = []
    for number, line in enumerate(map(written_out, path.read_text().split("\n")), 1):
        word, _, rest = line.partition(" ")
        if word in LIMITS:
            parts.append([])
        if word in ("=", "or"):
            parts[-1][-1].wanted.append(rest)
        elif word not in ("", "#"):
            parts[-1].append(Call(line, f"{path.relative_to(tools.TESTS).as_posix()}:{number}"))
    return parts


def play(program, lines, refuse=ALL):
    """What the program prints, and how it ended badly as one line more. Of a `refused` call these requests are refused."""
    text = "".join(f"{line}\n" for line in lines).encode()
    try:
        environment = preloaded.environment("allocator", REFUSE_FROM=refuse[0], REFUSE_TO=refuse[1])
        ran = subprocess.run([program], input=text, capture_output=True, env=environment, timeout=SECONDS)
    except subprocess.TimeoutExpired:
        return [f"no end within {SECONDS} seconds"]
    *printed, last = ran.stdout.decode(errors="replace").split("\n")
    ends_badly = [f"status {ran.returncode} {ran.stderr.decode(errors='replace').strip()}"] if ran.returncode else []
    return printed + ([last] if last else []) + ends_badly


def plays_of(part, program):
    """What each play of a part is called, and what it printed. Of one refused call each request is refused in turn, then each
    two in a row, then all."""
    lines = [call.text for call in part]
    refusing = [index for index, line in enumerate(lines) if line.startswith("refused ")]
    plays = [("the program", play(program, lines))]
    if sum(map(len, lines)) < MOST_ON_THE_MODEL:
        plays.append(("the model", answers(lines)))
    if len(refusing) == 1:
        granted = answers(lines, NONE)
        plays.append(("the model, no request refused", granted))
        requests = re.search(r"requests (\d+) ", granted[refusing[0]])
        most = int(requests[1]) if requests else 0
        for first, last in [(it, it) for it in range(1, most + 2)] + [(it, it + 1) for it in range(1, most + 1)]:
            plays.append((f"the program, requests {first} to {last} refused", play(program, lines, (first, last))))
    return plays


def agrees(exact, spanned):
    """Whether a line is as the model has it; a word LO..HI stands for each number from LO to HI."""

    def is_within(word, span):
        least, dots, most = span.partition("..")
        return word == span or (dots and word.isdigit() and int(least) <= int(word) <= int(most))

    words, spans = exact.split(" "), spanned.split(" ")
    return exact == spanned or (len(words) == len(spans) and all(map(is_within, words, spans)))


def shortened(found, wanted):
    """What was found, without the last fields that the wanted line lacks. None lacks the work and the state."""
    return " | ".join(found.split(" | ")[: max(3, wanted.count(" | ") + 1)])


def judge_call(call, found):
    """What is wrong with what was found in each play, or None."""
    place, unmet = f"{call.place}: {call.text[:100]}", set(call.wanted)
    for said, answer in found:
        # What the model says may be a span.
        met = {text for text in call.wanted if agrees(text, shortened(answer, text))}
        if not met:
            return f"{place}: wanted {' or '.join(call.wanted)}, found {answer} ({said})"
        unmet -= met if said.startswith("the program") else set()
    return f"{place}: no play of the program meets {unmet.pop()}" if unmet else None


def judge(program, part):
    """What is wrong with each call that has wanted lines, or None, and with each play's end."""
    plays, told = plays_of(part, program), []
    for index, call in enumerate(part):
        found = [(said, printed[index] if index < len(printed) else "nothing") for said, printed in plays]
        told += [judge_call(call, found)] if call.wanted else []
    told += [] if told else [f"{part[0].place}: no line of this part is wanted"]
    for said, printed in plays:
        if len(printed) != len(part):
            ends = printed[-1] if len(printed) > len(part) else f"{len(printed)} lines"
            told.append(f"{part[0].place}: this part ends badly: {ends} ({said})")
    return told


def main(words):
    known = sorted(SCRIPTS.rglob("*.txt"))
    paths = [path for path in known if not words or any(it in str(path.relative_to(tools.TESTS)) for it in words)]
    if not paths:
        sys.exit(f"no script has {' or '.join(words)} in its name: {' '.join(path.stem for path in known)}")
    parts = sum(map(read_script, paths), [])
    with ThreadPoolExecutor(os.cpu_count()) as pool:
        told = sum(pool.map(functools.partial(judge, tools.program("witness")), parts), [])
    tools.end([it and it[:1000] for it in told])


if __name__ == "__main__":
    main(sys.argv[1:])
