"""The parts of the gate, which gate.sh runs. It fails if a part does, and its last line adds up theirs. As many parts run at
once as there are processors, at most four. Each has its line when it ends, so their order differs.
"""

import os
import re
import signal
import subprocess
import sys
import tempfile
import threading
import time

import tools

MODE = sys.argv[1] if sys.argv[1:] else "test"
PROCESSORS = len(os.sched_getaffinity(0))
LANES = threading.Semaphore(min(4, PROCESSORS))
PROGRAMS = "witness", "halfmap", "json_at", "word_count"
TESTED = "half_tests", "half_serde", "halfmap"
ENTERED = " ".join(f"out/covered/{it}" for it in (*PROGRAMS, *(f"{it}_tests" for it in TESTED)))
# A check with two jobs takes an eighth more of the processors, and one beside more checks than there are processors a fifth. So
# each has one job, and `rt ci` leaves a processor to the other parts, which run in copies of the tree as it is now.
CI = f"RT_JOBS={max(1, PROCESSORS - 1)} rt ci"
COPY = (
    'mkdir "$FOLDER/{0}" && git ls-files -z | xargs -0 cp --parents -t "$FOLDER/{0}" && '
    'exec env JOBS=1 nice -n 10 "$FOLDER/{0}/tests/{1}"'
)
# The first letters of the modes that have a part, its name, what it waits for, and what it runs. The longest are first.
PARTS = [
    ("t", "proofs", None, "tests/prove.sh && echo 3 passed, 0 failed"),
    *(("tc", f"build of {it}", None, f"make --no-print-directory -s out/covered/{it}") for it in PROGRAMS),
    *(("tc", f"tests of {it}", None, f"tests/build_unproved.sh {it} out/covered/{it}_tests tests") for it in TESTED),
    ("tp", "must not compile", None, "tests/must_not_compile.py"),
    ("tp", "copied uses", None, "tests/copied_uses.py"),
    ("tpc", "random run", "build of witness", "tests/random_run.py"),
    ("tp", "documentation", "build of halfmap", "tests/documentation.py"),
    ("tpc", "scripts", "build of witness", "tests/scripts.py"),
    ("tp", "halfmap", "proofs", "env -u HALFMAP tests/halfmap.py"),
    ("tc", "unproved halfmap", "build of halfmap", "tests/halfmap.py"),
    ("tp", "make", "build of halfmap", "tests/make.py"),
    *(("tpc", it, f"build of {it}", f"tests/programs.py {it}") for it in PROGRAMS[2:]),
    ("tp", "forbidden code", None, "tests/forbidden_code.py"),
    # Its tests are built when all is proved.
    ("p", "refused reads", None, "tests/refused_reads.py"),
    ("a", "rt ci", None, CI),
    ("a", "covered", None, COPY.format("covered", "gate.sh") + " covered"),
    ("a", "edits", None, COPY.format("edits", "edits.py")),
    ("a", "instructions", "rt ci", "tests/instructions.py"),
    ("a", "make test", "rt ci", "tests/gate.sh proved"),
]


class Part(threading.Thread):
    """A part that runs, and how many of its tests have passed and failed. Until it ends, it has failed."""

    def __init__(self, name, before, command):
        super().__init__(daemon=True)
        self.name, self.before, self.command, self.process, self.counts = name, before, command, None, (0, 1)
        self.start()

    def run(self):
        if self.before:
            self.before.join()
        with LANES:
            began = time.monotonic()
            lines, status = self.output()
        counts = [it for it in (re.match(r"(?:test result: .* )?(\d+) passed[,;] (\d+) failed", line) for line in lines) if it]
        passed, failed = map(int, counts[-1].groups()) if counts else (0, 1) if status or MODE == "all" else (1, 0)
        self.counts = passed, max(failed, status != 0)
        if self.counts[1] and MODE != "all":
            print(*[line for line in lines if not re.match(r"\d+ passed,", line)], sep="", end="")
        print(f"{self.name}: {passed} passed, {self.counts[1]} failed, {time.monotonic() - began:.0f} s", flush=True)

    def output(self):
        """The lines that it prints, and its status. What the proofs say, and in `all` each line, is shown as it comes."""
        # Others give way to the proofs, which are long if something has changed, and to the longest build.
        nice = "" if MODE != "test" or self.name in ("proofs", "build of witness") else "renice -n 10 $$ >/dev/null; "
        errors = None if self.name == "proofs" else subprocess.STDOUT
        streams = {"stdin": subprocess.DEVNULL, "stdout": subprocess.PIPE, "stderr": errors, "text": True, "errors": "replace"}
        # In no session of its own: Linux shares processors among sessions alike, whatever their niceness.
        self.process = subprocess.Popen(nice + self.command, shell=True, process_group=0, **streams)
        lines = []
        for line in self.process.stdout:
            lines.append(line)
            if MODE == "all":
                print(f"{self.name}: {line}", end="", flush=True)
        return lines, self.process.wait()


def main():
    print(tools.said_by(["rt", "version"]), end="", flush=True)
    if MODE == "test":
        print("Beside the proofs the programs are built unproved, and tested.", flush=True)
    for name in PROGRAMS:
        os.environ[name.upper()] = str(tools.TOP / (f"crates/{name}/out" if MODE == "proved" else "out/covered") / name)
    # What other runs have entered does not count.
    for it in (tools.TOP / "out/covered").glob("*.entered"):
        it.unlink()
    for modes, name, before, command in PARTS:
        if MODE[0] in modes:
            running[name] = Part(name, running.get(before), command)
    for it in [*running.values()]:
        it.join()
    if MODE in ("test", "covered"):
        running["entered"] = Part("what was entered", None, f"tests/coverage.py {ENTERED}")
        running["entered"].join()
    passed, failed = map(sum, zip(*(it.counts for it in running.values())))
    print(f"{passed} passed, {failed} failed")
    sys.exit(failed > 0)


running = {}
os.chdir(tools.TOP)
signal.signal(signal.SIGTERM, lambda *_: sys.exit(1))
try:
    with tempfile.TemporaryDirectory() as folder:
        os.environ["FOLDER"] = folder
        main()
finally:
    for it in running.values():
        if it.process and it.process.poll() is None:
            os.killpg(it.process.pid, signal.SIGTERM)
