#!/usr/bin/env python3
"""Puts one fault after another into the code, by the edits of tests/edits: the prover, or a test, has to find each.

    tests/edits.py [WORD..]    tries all of them, or those whose CRATE/PATH or name has one of the words

tests/edits/CRATE/PATH.edits has those of crates/CRATE/src/PATH.rt, each below a line `edit: NAME` that says its fault:

    once: TEXT           as git prints a word diff: of the text that stands once in that file [-this goes-] and {+this comes+}
    each: TEXT           the same for a text that stands several times
    file: PATH ..        from here on these files of the crate are meant
    refused by: CLAUSE   the goal that is not proved is of this clause; if a call has one clause, that of a return
    found by: ..         no contract can refuse the edit: a test finds it, by the head of found_by.py

The last is for edits that refuse memory, since no contract says that it is found; that do work past the count, in a call with
no tally or with another one; that drop in another way; or that print another debug form. A comment gives any other reason.

The crates that have most of them are proved first, if out/ lacks that, since a check begins with what was proved. Meanwhile
those are tried that a test finds. Several edits are planted in one copy of the sources if each shows in a place of its own. One
that does not show there is tried by itself.
"""

import os
import pathlib
import re
import signal
import subprocess
import sys
import tempfile
import time
from concurrent.futures import FIRST_COMPLETED, ThreadPoolExecutor, wait

import found_by
import refused_by
import tools

EDITS = tools.TESTS / "edits"
LINE = re.compile("(once|each|file|found by|refused by): ?(.*)")
REMOVED, ADDED = re.compile(r"\[-(.*?)-\]"), re.compile(r"\{\+(.*?)\+\}")
# What memory a check takes at most, and how many edits are tried in one.
MEMORY, MOST_TOGETHER = 2_000_000_000, 24
# The others have few edits: what these change is checked from nothing.
PROVED_FIRST = {"half_store": "lib", "halfbrown": "lib", "halfmap": "check"}


class Edit:
    """An edit: its crate, name and changes; what tries it, together with edits that show elsewhere, and where it shows."""

    def __init__(self, path, text):
        self.place = str(path.relative_to(EDITS).with_suffix(""))
        self.crate, _, module = self.place.partition("/")
        self.name, *lines = text.splitlines()
        self.changes, said = [], {"file": f"src/{module}.rt", "found by": "", "refused by": ""}
        for word, text in (LINE.fullmatch(it).groups() for it in lines if it and it[0] != "#"):
            if word in ("once", "each"):
                old, new = REMOVED.sub(r"\1", ADDED.sub("", text)), ADDED.sub(r"\1", REMOVED.sub("", text))
                self.changes += [(file, word, old, new) for file in said["file"].split()]
            else:
                said[word] = text
        self.found_by, self.clause = said["found by"], said["refused by"]
        self.functions = [] if self.found_by else [*map(self.function, self.changes)]
        if self.found_by:
            self.tried_by, self.marks = found_by.mark_of(self)
        else:
            self.tried_by, self.marks = self.crate, {it and it.name for it in self.functions}

    def __str__(self):
        return f"{self.place} {self.name}"

    def function(self, change):
        """The function that a change is in, or None."""
        file, _, old, new = change
        text = (tools.TOP / "crates" / self.crate / file).read_text()
        at = text[: text.find(old) + len(os.path.commonprefix([old, new]))].count("\n")
        return refused_by.function_at(file, text.split("\n"), at)

    def plant(self, copy):
        """Puts the edit into a copy of the sources."""
        for file, word, old, new in self.changes:
            path = copy / "crates" / self.crate / file
            text = path.read_text()
            if text.count(old) != 1 and (word == "once" or old not in text):
                raise ValueError(f"{file} has this text {text.count(old)} times: {old}")
            path.write_text(text.replace(old, new))


def in_batches(edits):
    """The edits in lists of those that are planted in one copy."""
    batches = []
    for edit in edits:
        for batch in batches:
            marks = set().union(*(it.marks for it in batch))
            is_free = len(batch) < MOST_TOGETHER and None not in marks | edit.marks and not marks & edit.marks
            if is_free and edit.tried_by == batch[0].tried_by:
                batch.append(edit)
                break
        else:
            batches.append([edit])
    return batches


def attempt(edits):
    """Whether each of these edits passes if they are planted in one copy, and why; and the seconds that each took."""
    began, crate, finder = time.monotonic(), edits[0].crate, found_by if edits[0].found_by else refused_by
    # Below out/, since links do not lead to another disk.
    with tempfile.TemporaryDirectory(prefix="edits.", dir=tools.TOP / "out") as folder:
        try:
            given = (tools.crates_of(crate), ()) if finder == refused_by else (tools.crates_of(),)
            copy = tools.copy_sources(pathlib.Path(folder), *given)
            for edit in edits:
                edit.plant(copy)
            found = finder.judge(edits, copy)
        except (OSError, ValueError) as error:
            found = [(False, str(error))] * len(edits)
    return found, (time.monotonic() - began) / len(edits)


def prove(edits):
    """Proves the crates that these edits need, with at most two jobs, since more of them do the same work several times."""
    needed = {name for it in edits for name in tools.crates_of(it.crate)}
    command = [word for it in PROVED_FIRST.items() if it[0] in needed for word in it]
    return not edits or not subprocess.run([tools.TESTS / "prove.sh", *command], env={"JOBS": "2"} | os.environ).returncode


def largest_first(batches):
    """So that no long one is the last. Those that run the tests of all crates take longest, whatever their number."""
    return sorted(batches, key=lambda batch: (batch[0].tried_by != "coverage.py", -len(batch)))


def try_all(edits, lanes):
    """Tries these edits, and returns for each what is wrong, or None."""
    told = []
    found_by_tests, refused = ([it for it in edits if bool(it.found_by) == is_found] for is_found in (True, False))
    with ThreadPoolExecutor(lanes) as pool:
        proof = pool.submit(prove, refused)
        tried = {proof: None} | {pool.submit(attempt, it): it for it in largest_first(in_batches(found_by_tests))}
        while tried:
            for done in wait(tried, return_when=FIRST_COMPLETED).done:
                batch = tried.pop(done)
                if done == proof:
                    if not done.result():
                        pool.shutdown(cancel_futures=True)
                        sys.exit("0 passed, 1 failed")
                    tried |= {pool.submit(attempt, it): it for it in largest_first(in_batches(refused))}
                    continue
                found, seconds = done.result()
                for edit, (passes, why) in zip(batch, found):
                    if not passes and len(batch) > 1:
                        tried[pool.submit(attempt, [edit])] = [edit]
                        continue
                    how = "FAILED" if not passes else "found" if edit.found_by else "refused"
                    told.append(None if passes else f"{edit}: {why}")
                    print(f"{len(told)} of {len(edits)}, {edit}: {how}, {seconds:.0f} s: {why[:180]}", flush=True)
    return told


def main(words):
    texts = {path: re.split(r"^edit: ", path.read_text(), flags=re.M)[1:] for path in sorted(EDITS.rglob("*.edits"))}
    known = [Edit(path, text) for path in texts for text in texts[path]]
    edits = [it for it in known if not words or any(word in str(it) for word in words)]
    if not edits:
        sys.exit("\n".join([*map(str, known), f"none of these edits has {' or '.join(words)} in its path or name"]))
    memory = 1024 * int(re.search(r"MemAvailable:\s+(\d+)", pathlib.Path("/proc/meminfo").read_text())[1])
    lanes, began = max(1, min(len(os.sched_getaffinity(0)), memory // MEMORY, len(edits))), time.monotonic()
    (tools.TOP / "out").mkdir(exist_ok=True)
    told = try_all(edits, lanes)
    print(f"{len(edits)} edits, {lanes} at a time: {(time.monotonic() - began) / 60:.1f} minutes")
    tools.end(told)


if __name__ == "__main__":
    signal.signal(signal.SIGTERM, lambda *_: sys.exit(1))
    main(sys.argv[1:])
