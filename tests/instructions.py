#!/usr/bin/env python3
"""Counts the instructions of each call that does work, by callgrind, and compares them with those in tests/instructions.txt.

    tests/instructions.py [WORD..]    all rows, or those that have one of these words: half_bench has to be proved
    tests/instructions.py --write     stores what it counts

They are the same in each run, whatever the machine does besides: for one operation, or one pair of a map, in maps of 10, 1,000
and 30,000 pairs. A row fails if a number differs from the stored one by more than 1 %. It also fails if the last is more than
1.3 times the one before: then the call takes longer as its map grows. Only the program's own instructions count, since the C
library picks its routines by the processor.
"""

import concurrent.futures
import os
import pathlib
import re
import shutil
import subprocess
import sys
import tempfile

import tools

TABLE = tools.TESTS / "instructions.txt"
SIZES = 10, 1_000, 30_000
APART, GROWTH, ROUNDED = 0.01, 1.3, 0.005


def own(profile, program):
    """The instructions of the program's own functions. The line behind `calls=` has those of what is called."""
    total, is_own, is_called = 0, False, False
    for line in profile.splitlines():
        if line.startswith("ob="):
            is_own = line == f"ob={program}"
        elif line[:1] in "+-*0123456789" and line:
            total += int(line.split()[1]) if is_own and not is_called else 0
        is_called = line.startswith("calls=")
    return total


def count(program, row, size):
    """How many instructions an operation takes: those between the two looks at the clock."""
    *call, keys = row.split()
    with tempfile.TemporaryDirectory() as folder:
        options = [f"--callgrind-out-file={folder}/out", "--dump-before=clock_gettime*", "--compress-strings=no"]
        command = ["valgrind", "-q", "--tool=callgrind", *options, program, "count", keys, *call, str(size)]
        ran = subprocess.run(command, capture_output=True, text=True)
        if ran.returncode:
            raise ValueError(f"{row} {size}: {ran.stderr}")
        return own(pathlib.Path(folder, "out.2").read_text(), program) / int(ran.stdout.split()[0])


def stored_rows():
    """The rows of the table, each with its numbers. A line has those of a call, one for each type of keys."""
    for line in TABLE.read_text().splitlines():
        call, *parts = re.split(r" +(u64|String) ", line)
        yield from ((f"{call} {keys}", [*map(float, numbers.split())]) for keys, numbers in zip(parts[::2], parts[1::2]))


def main():
    words = {*sys.argv[1:]} - {"--write"}
    if not shutil.which("valgrind"):
        tools.end(["There is no valgrind, which counts the instructions."])
    rows = [(row, numbers) for row, numbers in stored_rows() if not words or words & {*row.split()}]
    program, told, written = tools.program("half_bench"), [], {}
    # As many programs run at once as there are processors.
    with concurrent.futures.ThreadPoolExecutor(os.cpu_count()) as pool:
        counts = [[pool.submit(count, program, row, size) for size in SIZES] for row, _ in rows]
        for (row, old), counting in zip(rows, counts):
            new = [it.result() for it in counting]
            differs = any(abs(after - before) > APART * before + ROUNDED for before, after in zip(old, new))
            said = ", differs" * differs + ", grows" * (new[2] > GROWTH * new[1])
            told.append(row + said if said else None)
            three = (f"{before:10.2f} {after:10.2f} {after / before:.3f}" for before, after in zip(old, new))
            print(f"{row:50}", *three, said[1:], flush=True)
            call, keys = row.rsplit(" ", 1)
            written[call] = written.get(call, f"{call:43}") + f"{keys:6}" + "".join(f"{it:11.2f}" for it in new) + "  "
    if sys.argv[1:] == ["--write"]:
        TABLE.write_text("".join(f"{line.rstrip()}\n" for line in written.values()))
    tools.end(told)


if __name__ == "__main__":
    main()
