"""A script on the model, line by line."""

from model.basics import ALL, GREATEST, NONE, Pair, Refused, Work, list_of
from model.lines import BYTES, CALLS, CALLS_ON_A, WITH_TEXT, keys_in, read_call, read_first, values_in
from model.map import Map
from model.runs import written

# What the model says of a line that it cannot read, at which the program ends.
NO_LINE = "no line"


def refusal_of(pattern, said, why):
    """What a refused call is answered, with what it hands back."""
    if pattern.startswith("insert"):
        return f"refused {why} {Pair(*said)}"
    if pattern.startswith("entry"):
        return f"refused {why} {said[0]}"
    if pattern == "run COMMANDS":
        return f"refused {why} {list_of([written(*it) for it in said[0]], ', ')}"
    return "refused" if pattern in ("extend ITEMS", "extend_by ITEMS", "collect ITEMS") else f"refused {why}"


class Session:
    """A script that is being played, and its two maps. `refused` calls are refused these requests."""

    def __init__(self, refuse=ALL):
        self.refuse, self.kind, self.a, self.b = refuse, None, None, None

    def answer(self, line):
        try:
            return self.answer_call(line) if self.a else self.answer_first(line)
        except (LookupError, ValueError):
            return NO_LINE

    def answer_first(self, line):
        """Makes the maps."""
        self.kind, limit, rule, capacity = read_first(line)
        try:
            self.a, self.b = Map(limit, rule, capacity), Map(limit, rule)
            return f"made | 0 0 | {self.a} | dropped 0 0"
        except Refused as why:
            return f"refused {why}"

    def held(self):
        return len(self.a.pairs) + len(self.b.pairs)

    def answer_call(self, line):
        pattern, said = read_call(line, self.kind)
        refused = self.refuse if line.startswith("refused ") else NONE
        work = self.a.work = self.b.work = Work(refused, *BYTES[self.kind])
        held = self.held()
        try:
            answer = CALLS[pattern](self.a if pattern in CALLS_ON_A else self, *said)
            answer = "done" if answer is None else str(answer)
        except Refused as why:
            answer = refusal_of(pattern, said, why)
        gone = held + work.cloned - self.held()
        dropped = f"dropped {keys_in(said) + gone} {values_in(pattern, said) + gone if self.kind == 'owning' else 0}"
        called = f" | called {work.called}" if work.called else ""
        memory = f"requests {work.requests} | peak {work.peak_bytes()}"
        if pattern in WITH_TEXT:
            memory = f"requests 0..1000 | peak 0..{GREATEST}"
        return f"{answer} | {work} | {self.a} | {dropped}{called} | {memory}"


def answers(lines, refuse=ALL):
    """The answer to each line of a script."""
    session = Session(refuse)
    return [session.answer(line) for line in lines]
