#!/usr/bin/env python3
"""Plays scripts of calls that are made at random on the program `witness`, and compares each line with the model's.

    tests/random_run.py [N] [SEED]    makes N scripts, 600 if not said, from a seed

The scripts are in the language of docs/SCRIPTS.md. Besides each answer its work, its drops and its memory are compared;
allocator.c refuses all requests of `refused` calls, or in some scripts one of each. If a script differs, lines are taken out as
long as it still differs, and what is left is printed with both answers.
"""

import functools
import itertools
import os
import sys
import time
from concurrent.futures import ProcessPoolExecutor

import tools
from model.basics import ALL
from model.session import NO_LINE, answers
from random_scripts import make_script
from scripts import agrees, play

# For this time a script that differs is made shorter.
SECONDS_TO_SHORTEN = 2


def differ(found, wanted):
    return len(found) != len(wanted) or not all(map(agrees, found, wanted))


def shortest(program, lines, refuse):
    """What is left of the lines when fewer and fewer at once are taken out, as long as they still differ."""
    end, size = time.monotonic() + SECONDS_TO_SHORTEN, len(lines)
    while size > 1:
        size, at = (size + 1) // 2, 0
        while at < len(lines) and time.monotonic() < end:
            shorter = lines[:at] + lines[at + size :]
            wanted = answers(shorter, refuse)
            if NO_LINE not in wanted and differ(play(program, shorter, refuse), wanted):
                lines = shorter
            else:
                at += size
    return lines


def report(program, seed, index):
    """What is left of the script of this index, and both answers where they differ; None if it does not."""
    script = make_script(seed, index)
    if not differ(play(program, script.lines, script.refuse), script.wanted):
        return None
    of_each = "" if script.refuse == ALL else f", request {script.refuse[0]} refused"
    lines, told = shortest(program, script.lines, script.refuse), [f"script {index}{of_each}, made short:"]
    both = play(program, lines, script.refuse), answers(lines, script.refuse)
    for line, found, wanted in itertools.zip_longest(lines, *both, fillvalue="nothing"):
        told.append(f"    {line}")
        if not agrees(found, wanted):
            told.append(f"        the program: {found}\n        the model:   {wanted}")
    return "\n".join(told)


def main(count=600, seed=1):
    began = time.monotonic()
    with ProcessPoolExecutor(os.cpu_count()) as pool:
        told = [*pool.map(functools.partial(report, tools.program("witness"), seed), range(int(count)))]
    print(f"{count} scripts of seed {seed} in {time.monotonic() - began:.1f} s")
    tools.end(told)


if __name__ == "__main__":
    main(*sys.argv[1:])
