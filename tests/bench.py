#!/usr/bin/env python3
"""What `make bench` runs. It proves and builds half_bench, if something has changed, and prints all figures; docs/SPEED.md has
a part of them. If it measured all, it draws docs/speed.svg.

    tests/bench.py [ROUNDS] [WORD..]                  9 rounds if none are given
    tests/bench.py --against DIR [ROUNDS] [WORD..]    half_bench of this tree and of one built there, 3 rounds in 6 orders each

Words pick rows of times: operations, `u64`, `String` and sizes; `memory` and `reads` those tables.
"""

import collections
import itertools
import os
import pathlib
import platform
import re
import shutil
import statistics
import subprocess
import sys
import tempfile
import time

import picture
import tools
from picture import BUCKETS

MAPS = ["halfbrown", "std", "indexmap"]
# The types of keys, each with the most pairs: texts in maps of a million pairs would take most of the time.
KEYS = {"u64": 1_000_000, "String": 100_000}
SIZES = [4, 16, 33, 100, 1_000, 100_000, 1_000_000]
OPERATIONS = "hit miss raw_hit build remove churn entry_few entry_many iter clone retain drain".split()
OTHERS = ["memory", "reads"]
# Pairs in all maps whose memory is measured, and in a full table, whose probes are counted.
PAIRS, FULL = 1_000_000, BUCKETS * 3 // 4
# In how many orders `--against` links the functions of each program: the order by itself changes a time by .8 to 1.25.
ORDERS = 6


def print_table(heads, rows):
    for row in itertools.chain([heads], rows):
        print(*(f"{cell!s:>{max(len(head), 10)}}" for head, cell in zip(heads, row)), flush=True)


def places(words):
    """The rows that the words pick: an operation, a type of keys, and a number of pairs."""
    picked = [[it for it in among if str(it) in words] or among for among in (OPERATIONS, KEYS, SIZES)]
    return [place for place in itertools.product(*picked) if place[2] <= KEYS[place[1]]]


def lines(program, *words):
    """The lines that the program prints, each as a list of words."""
    ran = subprocess.run([program, *map(str, words)], capture_output=True, text=True)
    return [line.split() for line in ran.stdout.splitlines()] if not ran.returncode else sys.exit(f"{words}: {ran.stderr}")


def times(program, place, rounds):
    """The nanoseconds of one operation in each round, for each map. All maps have to give the same answers."""
    operation, keys, pairs = place
    found, answers = {it: [] for it in MAPS}, set()
    for name, picoseconds, answer in lines(program, "times", keys, operation, pairs, rounds):
        found[name].append(int(picoseconds) / 1000)
        answers.add(answer)
    return found if len(answers) == 1 else sys.exit(f"{place}: the answers differ")


def time_rows(program, rounds, words, drawn):
    """The medians at each place, how far half of the times lie from them at most, and the ratios of the medians."""
    for place in places(words):
        found = times(program, place, rounds)
        medians = [max(statistics.median(found[name]), 0.1) for name in MAPS]
        apart = [statistics.median(abs(it / median - 1) for it in found[name]) for name, median in zip(MAPS, medians)]
        drawn[place] = [round(it, 1) for it in medians[:2]]
        ratios = [f"{medians[0] / other:.2f}" for other in medians[1:]]
        yield [*place, *(f"{it:.1f}" for it in medians), f"{max(apart):.0%}", *ratios]


def shuffled(program, order, folder):
    """Links a program anew, its functions in a random order, by the kit's linker with an lld that gets one flag more."""
    kit, links = pathlib.Path(shutil.which("rt")).resolve().parent.parent, tempfile.mkdtemp(dir=folder)
    shutil.copytree(kit / "toolchain", links, symlinks=True, copy_function=os.symlink, dirs_exist_ok=True)
    lld, output = pathlib.Path(links, "bin/ld.lld"), pathlib.Path(links, "program")
    lld.unlink()  # otherwise the file that it leads to would be written
    lld.write_text(f'#!/bin/sh\nexec "{kit}/toolchain/bin/ld.lld" "$@" "--shuffle-sections=.text*={order}"\n')
    lld.chmod(0o755)
    link = [kit / "bin/rattle-link", "--target", "x86_64-unknown-linux-gnu", "--toolchain", links, "-o", output]
    subprocess.run([*link, f"{program}.o", *(kit / "c" / it for it in ("libos_c.a", "liblibc_c.a"))], check=True)
    return output


def against_rows(program, other, rounds, words):
    """The least, mean and greatest ratio of two programs' medians. The means of std's and indexmap's should be about 1."""
    with tempfile.TemporaryDirectory() as folder:
        orders = [[shuffled(built, order, folder) for built in (program, other)] for order in range(1, ORDERS + 1)]
        # All run on one processor, so that none has a better one, and they take turns, also in which goes first.
        os.sched_setaffinity(0, {max(os.sched_getaffinity(0))})
        for place in places(words):
            found = collections.defaultdict(list)
            for turn, both in itertools.product(range(rounds), orders):
                for built in both if turn % 2 == 0 else reversed(both):
                    for name, nanoseconds in times(built, place, 1).items():
                        found[built, name] += nanoseconds
            median = {it: max(statistics.median(nanoseconds), 0.01) for it, nanoseconds in found.items()}
            ratios = [[median[ours, name] / median[theirs, name] for ours, theirs in orders] for name in MAPS]
            yield [*place, *(f"{min(it):.2f} {statistics.mean(it):.2f} {max(it):.2f}" for it in ratios)]


def peak_bytes(program, *words):
    """The most memory that the program had at once. It waits for the end of its input, so that this can be read."""
    command = [program, "memory", *map(str, words)]
    with subprocess.Popen(command, stdin=subprocess.PIPE, stdout=subprocess.PIPE, text=True) as running:
        running.stdout.readline()
        # What os.wait4 gives would count the pages of this process too, which the child had before it became the program.
        status = pathlib.Path(f"/proc/{running.pid}/status").read_text()
        running.communicate()
    return int(re.search(r"^VmHWM:\s*(\d+)", status, re.M)[1]) * 1024 if not running.returncode else sys.exit(f"memory {words}")


def memory_rows(program, drawn):
    """Bytes a pair of as many maps as hold a million pairs. A single map would be lost in the pages of the program."""
    empty = peak_bytes(program, "u64", "std", 0, 0)
    for keys, size in itertools.product(KEYS, SIZES):
        copies = PAIRS // size
        peaks = [peak_bytes(program, keys, name, size, copies) for name in MAPS]
        pair = [round((peak - empty) / (size * copies)) for peak in peaks]
        drawn[keys, size] = pair[:2]
        yield [keys, size, copies, *pair]


def reads_rows(program):
    """What probes read on average, at most and as measured, and of how many one reads more buckets than some number."""
    for keys in KEYS:
        found = collections.defaultdict(dict)
        for pairs, probes, read, many in lines(program, "reads", keys, FULL):
            found[int(pairs), probes][int(read)] = int(many)
        for (pairs, probes), counted in found.items():
            free, total = BUCKETS / (BUCKETS - pairs), sum(counted.values())
            most = (1 + free ** (2 if probes == "misses" else 1)) / 2
            mean = sum(read * many for read, many in counted.items()) / total
            longer = [sum(many for read, many in counted.items() if read > most) for most in picture.MANY]
            parts = [picture.one_in(it / total) for it in longer]
            yield [keys, f"{pairs / BUCKETS:.3f}", probes, f"{most:.2f}", f"{mean:.2f}", *parts]


def print_figures(program, rounds, words):
    """Prints what the words pick, or all, and draws that."""
    began, drawn, rows = time.monotonic(), {}, [it for it in words if it not in OTHERS]
    if rows or not words:
        print(f"Times of one operation in nanoseconds, and ratios, by the medians of {rounds} rounds:\n")
        heads = ["operation", "keys", "pairs", *MAPS, "spread", *(f"to {name}" for name in MAPS[1:])]
        print_table(heads, time_rows(program, rounds, rows, drawn))
    if not words or "memory" in words:
        print("\nMemory, in bytes a pair at the peak:\n")
        print_table(["keys", "pairs a map", "maps", *MAPS], memory_rows(program, drawn))
    if not words or "reads" in words:
        print(f"\nBuckets that a probe reads in a table of {BUCKETS:,}, and of how many probes one reads more:\n")
        heads = ["keys", "load", "probes", "at most", "on average", *(f"more than {it}" for it in picture.MANY)]
        print_table(heads, reads_rows(program))
    if not words:
        (picture.DOCS / "speed.svg").write_text(picture.picture(drawn))
    model = re.search(r"^model name\s*: (.*)$", pathlib.Path("/proc/cpuinfo").read_text(), re.M)
    minutes, machine = (time.monotonic() - began) / 60, model[1] if model else platform.machine()
    print(f"\nThis took {minutes:.0f} min on {len(os.sched_getaffinity(0))} processors ({machine}).")


def main():
    words, other = sys.argv[1:], None
    if words[:1] == ["--against"]:
        _, other, *words = words if len(words) > 1 else sys.exit("--against: with which tree? Give its folder")
        other = pathlib.Path(other).resolve() / "crates/half_bench/out/half_bench"
    # A size is a number too, so the rounds are told by their place.
    rounds = int(words.pop(0)) if words and words[0].isdigit() else 3 if other else 9
    known = [*OPERATIONS, *KEYS, *map(str, SIZES), *([] if other else OTHERS)]
    if unknown := [it for it in words if it not in known]:
        sys.exit(f"{unknown[0]}: not one of {' '.join(known)}")
    minutes = 0.6 * rounds * (2 * ORDERS if other else 1)
    print(f"After the proofs of half_bench, all rows take about {minutes:.0f} minutes", file=sys.stderr)
    if subprocess.run([tools.TESTS / "prove.sh", "half_bench", "run"]).returncode:
        sys.exit(1)
    program = tools.program("half_bench")
    if not other:
        return print_figures(program, rounds, words)
    print(f"How many times as long as there, by the medians of {rounds} rounds: least, mean and greatest of {ORDERS} orders\n")
    print_table(["operation", "keys", "pairs", *(f"{it:>14}" for it in MAPS)], against_rows(program, other, rounds, words))


main()
