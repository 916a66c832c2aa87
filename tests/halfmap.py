#!/usr/bin/env python3
"""Runs halfmap over pipes that nobody should have, and takes its input, its output and its memory away. Its contract says what
it answers to a line. This shows when the answers come, and what is left if something fails."""

import os
import pathlib
import re
import subprocess
import tempfile
import threading
import time

import preloaded
import tools

PROGRAM = tools.program("halfmap")
# Far more than any run takes, so that only one that does not end meets it.
SECONDS = 60
# What the program may take of memory if it holds few pairs, with the C library: its buffers have 8 KiB each.
SMALL = 3 << 20
MEBI = 1 << 20
ALL_AT_ONCE = 1 << 20


class Run:
    """A run of the program, which is killed if it does not end. What is not as it should be is an AssertionError."""

    def __init__(self, streams="", **variables):
        """`streams` redirects streams as a shell does. With variables streams.c is preloaded, and reads them."""
        environment = preloaded.environment("streams", **variables) if variables else None
        pipes = {"stdin": subprocess.PIPE, "stdout": subprocess.PIPE, "stderr": subprocess.PIPE}
        self.program = subprocess.Popen(["sh", "-c", f'{streams} exec "$0"', PROGRAM], env=environment, **pipes)
        self.timer = threading.Timer(SECONDS, self.program.kill)
        self.timer.start()

    def send(self, text):
        """Sends all of a text. A program that has ended takes none."""
        try:
            self.program.stdin.write(text)
            self.program.stdin.flush()
        except BrokenPipeError:
            pass

    def send_beside(self, text):
        """The same while the answers are read."""
        sender = threading.Thread(target=self.send, args=[text])
        sender.start()
        return sender

    def read(self, wanted):
        """These are the next answers."""
        found = self.program.stdout.read(len(wanted))
        assert found == wanted, f"{found[:60]!r} came, not {wanted[:60]!r}"

    def ask(self, part, wanted):
        self.send(part)
        self.read(wanted)

    def has_little_memory(self):
        """So has it had until now, used or not. A program that has ended has no such line."""
        found = re.search(r"^VmPeak:\s+(\d+) kB$", pathlib.Path(f"/proc/{self.program.pid}/status").read_text(), re.M)
        assert found and 1024 * int(found[1]) <= SMALL, f"it has had {found and found[1]} KiB of memory"

    def end(self, text=b""):
        """Sends a last text, and ends the input. Returns the answers, what is on standard error, and the status."""
        answers, errors = self.program.communicate(text)
        self.timer.cancel()
        return answers, errors, self.program.returncode

    def ends(self, text, answers, status=0):
        """A last text is answered so, and the program ends so, with nothing on standard error."""
        found = self.end(text)
        assert found == (answers, b"", status), f"{text[:40]!r} gave {len(found[0])} bytes {found[0][:60]!r}, {found[1:]}"


# When answers come.


def each_answer_comes_before_more_is_read():
    """Both when parts are lines, and when lines end anywhere in them."""
    lines = [(b"i 1 10\n", b"none\n"), (b"i 1 11\n", b"was 10\n"), (b"g 1\n", b"11\n")]
    lines += [(line, b"bad line\n") for line in (b"i 1\n", b"g +1\n", b"g \xff\n")]
    parts = [(b"f\ni 2", b"vec 1\n"), (b" 10\r\n\ng", b"none\nbad line\n"), (b" 2\nf", b"10\n"), (b"\nr 1", b"vec 2\n")]
    run = Run()
    for part in [*lines, (b"f\n", b"vec 1\n"), *parts]:
        run.ask(*part)
    run.ends(b"", b"was 11\n")


def a_million_lines_take_seconds_and_little_memory():
    keys = range(250_000)
    run = Run()
    sender = run.send_beside(b"".join(b"i %d %d\ni %d 7\ng %d\nr %d\n" % (key, key, key, key, key) for key in keys))
    run.read(b"".join(b"none\nwas %d\n7\nwas 7\n" % key for key in keys))
    run.has_little_memory()
    sender.join()
    run.ends(b"f\n", b"vec 0\n")


def a_million_pairs_and_ten_million_lines():
    """Nothing is tested of more pairs, of more lines, nor of a line above a gigabyte."""
    keys, looks = 1_000_001, 9_000_000
    text = b"".join(b"i %d 7\n" % key for key in range(keys)) + b"g 1\n" * looks
    Run().ends(text + b"f", b"none\n" * keys + b"7\n" * looks + b"map %d\n" % keys)


def a_line_of_a_gigabyte_takes_little_memory():
    run = Run()
    run.send(b"i 1 10\ni 2 2")
    zeros = b"0" * MEBI
    for _ in range(1 << 10):
        run.send(zeros)
    run.ask(b"\ng 1\ng 2\n", b"none\nbad line\n10\nnone\n")
    run.has_little_memory()
    run.ends(b"f", b"vec 1\n")


def a_reader_that_is_slow():
    """The program waits for its reader, and holds back no more than its buffers do."""
    run = Run()
    sender = run.send_beside(b"i 1 1\n" * MEBI)
    time.sleep(0.5)
    assert sender.is_alive(), "it does not wait"
    run.has_little_memory()
    run.read(b"none\n" + b"was 1\n" * (MEBI - 1))
    sender.join()
    run.ends(b"", b"")


# Inputs and outputs that fail.


def bytes_that_come_in_any_way():
    """Some number of bytes at once, and with reads that are interrupted."""
    text = b"i 1 10\ni 01 007\r\n\ng 1\ni 00000000000000000001 00000000000000000002\r\ng 000000000000000000001\nx\nf"
    answers = b"none\nwas 10\nbad line\n7\nwas 7\nbad line\nbad line\nvec 1\n"
    for way in [{"READ_MOST": most} for most in (1, 2, 7, ALL_AT_ONCE)] + [{"READ_INTERRUPTED": 1, "READ_MOST": 1}]:
        Run(**way).ends(text, answers)


def a_read_that_fails():
    """Whole lines before the failure are answered. A line that is cut off is not."""
    for text, answers in [(b"", b""), (b"i 1 2\ng 1\n", b"none\n2\n"), (b"i 1 2\ng 1", b"none\n"), (b"f\n\r", b"vec 0\n")]:
        for most in (1, 3, ALL_AT_ONCE):
            Run(READ_FAILS=1, READ_MOST=most).ends(text, answers, status=1)


def a_write_that_fails():
    """The output takes a number of bytes, and these are the first ones of the answers."""
    text, answers = b"f\ni 1 10\ni 1 20\nx\n", b"vec 0\nnone\nwas 10\nbad line\n"
    for room in range(len(answers) + 1):
        for most in (1, ALL_AT_ONCE):
            run = Run(WRITE_ROOM=room, READ_MOST=most)
            run.ends(text, answers[:room], status=int(room < len(answers)))


def streams_that_are_closed_or_full():
    for out in (">&-", ">/dev/full"):
        Run(out).ends(b"f\n", b"", status=1)
        Run(out).ends(b"", b"")
    for given in ("<&-", "</"):
        Run(given).ends(b"", b"", status=1)


def a_device_that_is_full_in_the_middle():
    """The answers so far are written out while a line of a file is answered."""
    with tempfile.NamedTemporaryFile() as lines:
        lines.write(b"\n" * 8192)
        lines.flush()
        Run(f"<{lines.name} >/dev/full").ends(b"", b"", status=1)


def a_reader_that_goes_away():
    """The program ends while its input goes on, in the middle of what it has read. The answers until then are right."""
    run = Run()
    sender = run.send_beside(b"\n" * MEBI)
    run.read(b"bad line\n" * 10_000)
    run.program.stdout.close()
    sender.join()
    run.ends(b"", b"", status=1)


# Memory that runs out.


def each_request_for_memory_refused():
    """The two buffers and the line are refused as it starts. A later refusal leaves no room for one insertion, and changes
    nothing besides."""
    keys, full = 3000, [0, 5, *(6 * 2**size for size in range(9))]
    text = b"".join(b"i %d 1\n" % key for key in range(keys)) + b"f\n"
    *refused, whole = preloaded.each_request_refused([PROGRAM], text)
    assert whole == (b"none\n" * keys + b"map %d\n" % keys, b"", 0), f"{whole[1:]} with all memory"
    assert 3 + len(full) <= len(refused) < 3 + 4 * len(full), f"{len(refused)} requests"
    for request, (answers, _, status) in enumerate(refused, 1):
        at, said = answers.count(b"none\n", 0, max(0, answers.find(b"no room"))), f"request {request} refused"
        if request <= 3:
            assert (answers, status) == (b"", 1), f"{said}: {len(answers)} bytes of answers, status {status}"
        else:
            wanted = b"none\n" * at + b"no room\n" + b"none\n" * (keys - at - 1) + b"map %d\n" % (keys - 1)
            assert (answers, status) == (wanted, 0) and at in full, f"{said}: no room at {at} pairs, status {status}"


def a_limit_of_memory():
    """From one insertion on no new key finds room, and more than half are refused. What is held stays, is written and goes, and
    makes room as it goes. It takes no longer than with room for all, since no memory is filled before all is granted."""
    keys, times = 1_000_000, []
    text = b"".join(b"i %d 1\n" % key for key in range(keys)) + b"f\n"
    text += b"".join(b"i %d 2\n" % key for key in range(1000)) + b"r 7\ni 3000000 9\ng 3000000\ni 3000001 9\nf\n"
    for streams in ("", "ulimit -v 25000 &&"):
        # The processor's, since others may be busy: what children took that have ended.
        began = sum(os.times()[2:4])
        answers, errors, status = Run(streams).end(text)
        times.append(sum(os.times()[2:4]) - began)
    held = answers.find(b"no room") // 5
    wanted = b"none\n" * held + b"no room\n" * (keys - held) + b"map %d\n" % held
    wanted += b"was 1\n" * 1000 + b"was 2\nnone\n9\nno room\nmap %d\n" % held
    assert (answers, errors, status) == (wanted, b"", 0) and 1000 < held < keys / 2, f"no room at {held} pairs"
    # A program that is not proved refuses slowly.
    is_slow = times[1] >= 10 * times[0] and "HALFMAP" not in os.environ
    assert not is_slow, f"{times[1]:.1f} seconds where most are refused, and {times[0]:.1f} where none is"


def told(test):
    try:
        test()
    except AssertionError as fault:
        return f"{test.__name__}: {fault}"


tests = [it for name, it in list(globals().items()) if getattr(it, "__module__", "") == "__main__" and name.count("_") > 2]
tools.end([told(it) for it in tests])
