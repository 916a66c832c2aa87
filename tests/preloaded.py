"""Runs programs that allocator.c or streams.c is preloaded into. Both are compiled as this is imported."""

import os
import subprocess
import tempfile

import tools

LIBRARIES = tempfile.TemporaryDirectory()
# Far more requests for memory than any program makes that `each_request_refused` runs.
MOST_REQUESTS = 200
for name in ("allocator", "streams"):
    command = ["cc", "-O2", "-Wall", "-Wextra", "-fno-builtin", "-shared", "-fPIC", "-o", f"{LIBRARIES.name}/{name}.so"]
    subprocess.run([*command, tools.TESTS / f"{name}.c"], check=True)


def environment(library, **variables):
    """What a program is run in so that a library is preloaded, which reads these variables."""
    return os.environ | {"LD_PRELOAD": f"{LIBRARIES.name}/{library}.so"} | {name: str(it) for name, it in variables.items()}


def each_request_refused(command, text=b""):
    """What a program printed and said, and its status, when its first request for memory is refused, its second, and so on. The
    last is the first run that makes no such request. Of each refused request allocator.c says a line."""
    for request in range(1, MOST_REQUESTS):
        refusing = environment("allocator", REFUSE_UNMARKED=1, REFUSE_FROM=request, REFUSE_TO=request)
        ran = subprocess.run(command, input=text, capture_output=True, env=refusing, timeout=60)
        yield ran.stdout, ran.stderr, ran.returncode
        if b"refused\n" not in ran.stderr:
            return
