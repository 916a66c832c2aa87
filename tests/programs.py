#!/usr/bin/env python3
"""What json_at or word_count prints. If it refuses, that is only a line that says why, with status 1.

    tests/programs.py NAME

Its stored input is played, and each request for memory that it makes then is refused by itself. json_at is compared with
Python's json: on JSON files of the toolchain, and on documents made at random, whole and at paths."""

import contextlib
import json
import os
import pathlib
import random
import shutil
import subprocess
import sys

import preloaded
import tools

NAME = sys.argv[1]
PROGRAM = tools.program(NAME)
# An argument or none, an input, and what is said about it.
REFUSED = {
    "json_at": [
        ([], b'"\xff"', "the input is no UTF-8 text"),
        ([], b"[1", "this is no JSON"),
        (["/b"], b'{"a": 1}', "the path leads to no value"),
    ],
    "word_count": [([], b"a b\xff", "the input is no UTF-8 text: see byte 3")],
}
OUT_OF_MEMORY = ("out of memory", "memory could not be allocated")
KIT = pathlib.Path(shutil.which("rt")).resolve().parent.parent
FILES, DOCUMENTS, PATHS, LARGEST = 30, 100, 3, 1 << 17
NAMES = ["a", "b", "name", "", "é", "\u2028", "😀", 'say "hi"', "back\\slash", "line\nend", "tab\t", "\x01", "\x7f", "0"]
# Names that a path writes with escapes, and ends of paths that lead to nothing.
NAMES += ["/", "a/b", "~", "m~n", "~1", "~01"]
NOWHERE = ("/nowhere", "/~", "/m~n", "/~2", "/é~")
NUMBERS = ["0", "-0", "12", "1.50", "1E+9", "-2.5e-300", "123456789012345678901234567890", "1e999"]
NO_JSON = ["", "[1,]", '{"a" 1}', "[01]", '"\\x"', "[1] 2", "nul", "[" * 129 + "]" * 129, '"\n"', "\u00a0[]"]


def run(*arguments, stdout=subprocess.PIPE, **streams):
    """What is printed, what is said, and the status."""
    ran = subprocess.run([PROGRAM, *arguments], stdout=stdout, stderr=subprocess.PIPE, timeout=60, **streams)
    return ran.stdout or b"", ran.stderr, ran.returncode


def refusal(why, before=""):
    return b"", f"{before}{NAME}: {why}\n".encode(), 1


class Number(str):
    """A number as it is written."""


def read(text):
    return json.loads(text, parse_int=Number, parse_float=Number)


def written(value):
    """The text with no space, the members in order."""
    if isinstance(value, dict):
        return "{" + ",".join(f"{written(name)}:{written(member)}" for name, member in value.items()) + "}"
    if isinstance(value, list):
        return "[" + ",".join(map(written, value)) + "]"
    return value if isinstance(value, Number) else json.dumps(value, ensure_ascii=False)


def some_text(chance, depth=0):
    """The text of a document, in which names come twice, spaces stand anywhere, and texts are escaped or not."""
    space = lambda: chance.choice(["", "", " ", "\n", "\t\r"])
    quoted = lambda: json.dumps(chance.choice(NAMES), ensure_ascii=chance.random() < 0.5)
    kind = chance.randrange(8 if depth < 5 else 4)
    if kind < 4:
        inside = [chance.choice(["null", "true", "false"]), chance.choice(NUMBERS), quoted(), "[]"][kind]
    else:
        parts = [some_text(chance, depth + 1) for _ in range(chance.choice([1, 2, 3, 8, 40 if depth == 0 else 4]))]
        members = [f"{space()}{quoted()}:{part}" for part in parts] if kind >= 6 else []
        inside = f"{{{','.join(members)}}}" if members else f"[{','.join(parts)}]"
    return f"{space()}{inside}{space()}"


def some_path(chance, value):
    """A path, as JSON Pointer (RFC 6901) writes it, and the text of the value that it leads to, or None."""
    path = ""
    while isinstance(value, (dict, list)) and value and chance.random() < 0.8:
        part = chance.choice(list(value) if isinstance(value, dict) else range(len(value)))
        path, value = path + "/" + str(part).replace("~", "~0").replace("/", "~1"), value[part]
    return (path, written(value)) if chance.random() < 0.9 else (path + chance.choice(NOWHERE), None)


def files(chance):
    """Documents of the toolchain."""
    found = sorted(path for path in KIT.glob("rlibs/*/**/*.json") if 0 < path.stat().st_size < LARGEST)
    for path in chance.sample(found, min(FILES, len(found))):
        with contextlib.suppress(ValueError):
            read(path.read_text())
            yield path.read_text()


def documents(chance):
    """Texts, and paths and answers of each: those of the whole, and some."""
    some = [some_text(chance) for _ in range(DOCUMENTS)]
    large = written({f"m{number}": Number(number) for number in range(1000)} | {"items": [Number(123456789)] * 30000})
    for text in [*files(chance), *some, "[" * 128 + "]" * 128, large]:
        value = read(text)
        yield text, "", written(value)
        for _ in range(PATHS):
            yield text, *some_path(chance, value)
    yield from ((text, "", None) for text in NO_JSON)


def cases():
    """What is played, what is found, and what is wanted."""
    folder = tools.TOP / "crates" / NAME
    stored, answer = (folder / "stdin").read_bytes(), ((folder / "stdout").read_bytes(), b"", 0)
    *refused, whole = preloaded.each_request_refused([PROGRAM], stored)
    yield "with all memory", (whole, len(refused) > 0), (answer, True)
    no_memory = [refusal(why, "refused\n") for why in OUT_OF_MEMORY]
    yield from ((f"request {at} refused", found in no_memory or found, True) for at, found in enumerate(refused, 1))
    for arguments, text, why in REFUSED[NAME]:
        yield text, run(*arguments, input=text), refusal(why)
    with open("/dev/full", "wb") as full:
        yield "full", run(input=stored, stdout=full), refusal("No space left on device (os error 28)")
    yield "a folder", run(stdin=os.open("/", os.O_RDONLY)), refusal("Is a directory (os error 21)")
    if NAME == "word_count":
        # Two megabytes. The words are long, since a program that is not proved counts slowly.
        words = ["internationalization", "electroencephalographically", "otorhinolaryngological"]
        answer = "".join(f"{word} 28000\n" for word in words).encode(), b"", 0
        yield "many words", run(input=" ".join(words * 28_000).encode()), answer
    for text, path, wanted in documents(random.Random(1)) if NAME == "json_at" else []:
        printed, said, status = found = run(path, input=text.encode())
        if wanted is None:
            yield f"{path!r} of {text[:100]}", (printed, status, said.startswith(b"json_at: ")), (b"", 1, True)
        else:
            yield f"{path!r} of {text[:100]}", found, (f"{wanted}\n".encode(), b"", 0)


tools.end([None if found == wanted else f"{what}: {found}" for what, found, wanted in cases()])
