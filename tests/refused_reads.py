#!/usr/bin/env python3
"""Refuses each request for memory, one at a time, of the test of half_serde that reads a map twice. The refused read has to be
an error of memory, the other one whole, and all memory given back.

It takes the tests as `rt ci` has proved and built them."""

import re

import preloaded
import tools

PROGRAM = tools.TOP / "crates/half_serde/out/half_serde_tests"
TEST = "map::tests::a_refused_read_is_an_error_of_memory"
REFUSED = re.compile(r"no memory after (\d+) bytes")

told, places = [], set()
for printed, said, status in preloaded.each_request_refused([PROGRAM, TEST]):
    *reads, result = re.findall(".+", printed.decode()) or [""]
    is_refused, refused = b"refused\n" in said, [it for it in map(REFUSED.fullmatch, reads) if it]
    is_fine = (result, status, len(reads), len(refused)) == ("test result: ok", 0, 2, is_refused)
    is_fine = is_fine and reads.count("whole") == 2 - is_refused
    told.append(None if is_fine else f"request {len(told) + 1}: {[*reads, result]}, status {status}")
    places |= {int(it[1]) for it in refused if it[0] == reads[0]}
# The format asks for memory before the first entry, and the map behind some, since it grows twice at least.
if len([it for it in places if it > 1]) < 2:
    told.append(f"the map was not refused memory, which ran out after {sorted(places)} bytes")
tools.end(told)
