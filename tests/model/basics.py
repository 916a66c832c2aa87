"""Keys, pairs, and the work that a line does, by docs/SCRIPTS.md."""

import dataclasses

GREATEST = 2**64 - 1
# A call that needs capacity for more pairs is refused.
MOST_PAIRS = 2**60
# A state of maps of 20 to 70 pairs, beside their form.
MANY = "20 to 70"
# Which requests for memory a `refused` call is refused, from one to another, counted from 1: all, or none.
ALL, NONE = (1, 2**62), (0, 0)
SMALL_BYTES = 8
RULES = {"plain": lambda key: key.id, "zero": lambda key: 0, "top": lambda key: GREATEST}


class Refused(Exception):
    """A call is refused for this reason, `size` or `memory`."""


@dataclasses.dataclass(frozen=True)
class Key:
    """Keys are equal where their IDs are equal. A query has no mark."""

    id: int
    mark: int = dataclasses.field(default=1, compare=False)

    def __str__(self):
        return f"{self.id}#{self.mark}"


class Nothing(int):
    """A value of no size: it is 0 whatever is added."""

    __add__ = __mod__ = lambda self, _: self


NOTHING = Nothing()


@dataclasses.dataclass(eq=False)
class Pair:
    key: Key
    value: int

    def __str__(self):
        return f"{self.key}={self.value}"

    def add(self, number):
        self.value = (self.value + number) % 2**64
        return self

    def write(self, value):
        old, self.value = self.value, value
        return f"was {old}"


@dataclasses.dataclass
class Work:
    """What one line does that is counted, which of its requests for memory are refused, and how large keys and values are."""

    refused: tuple = NONE
    key_bytes: int = 48
    value_bytes: int = 8
    hashes: int = 0
    # Of the comparisons of keys the least and the most are known.
    least: int = 0
    most: int = 0
    requests: int = 0
    # The bytes that are granted beside those before the line, the most that they were at least, and at most.
    granted: int = 0
    peak: int = 0
    most_peak: int = 0
    # How often the closure was called that the line hands in.
    called: int = 0
    # How many pairs were cloned.
    cloned: int = 0

    def __str__(self):
        return f"{self.hashes} {span(self.least, self.most)}"

    @property
    def are_small(self):
        return self.key_bytes == SMALL_BYTES

    def peak_bytes(self):
        """Small keys have boxes, whose bytes are not counted here."""
        return span(0, GREATEST) if self.are_small else span(self.peak, self.most_peak)

    def compare(self, least, most):
        self.least, self.most = self.least + least, self.most + most

    def try_to_request(self, count, in_all=0):
        """Makes requests for memory, of these bytes in all, up to the first that is refused. Returns whether none is."""
        first, last = max(self.refused[0], self.requests + 1), min(self.refused[1], self.requests + count)
        self.most_peak = max(self.most_peak, self.granted + in_all)
        if first > last:
            self.requests += count
            self.granted += in_all
            self.peak = max(self.peak, self.granted)
            return True
        self.requests = first
        return False

    def request(self, count, in_all):
        if not self.try_to_request(count, in_all):
            raise Refused("memory")

    def clone(self, pairs):
        """Counts clones. Small keys are in boxes, and what is in one is cloned before the box takes memory."""
        before = self.requests
        is_granted = not self.are_small or self.try_to_request(pairs)
        self.cloned += pairs if is_granted else self.requests - before
        if not is_granted:
            raise Refused("memory")

    def check_size(self, pairs):
        """Of as many pairs as there may be, no column fits into an allocation, and no request is made."""
        if pairs >= MOST_PAIRS:
            raise Refused("size" if pairs > MOST_PAIRS else "memory")


def text_of(is_true):
    return "true" if is_true else "false"


def span(least, most):
    return f"{least}..{most}" if most > least else str(least)


def list_of(items, between=" "):
    return f"[{between.join(map(str, items))}]"
