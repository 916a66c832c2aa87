"""The lines `walk KIND STEP ..`: an iterator, and calls on it."""

from model.all_pairs import debug_of_pairs, drop
from model.basics import list_of, text_of

PAIRS, KEYS, VALUES = str, (lambda pair: str(pair.key)), (lambda pair: str(pair.value))
# What an iterator of each kind gives of a pair.
KINDS = {"iter": PAIRS, "keys": KEYS, "values": VALUES, "iter_mut": PAIRS, "values_mut": VALUES, "into_iter": PAIRS}
KINDS |= {"drain": PAIRS, "for": PAIRS, "for_mut": PAIRS, "for_value": PAIRS}
ALL, BY_VALUE = set(KINDS), {"into_iter", "for_value"}


def take_next(left, shown, added=0):
    return shown(left.pop(0).add(added)) if left else "none"


def each(left, shown, most):
    return list_of([take_next(left, shown) for _ in left[:most]])


# The kinds that have a step, and what it does with the pairs that are left.
STEPS = {
    "next": (ALL, take_next),
    "len": (ALL - {"drain"}, lambda left, shown: len(left)),
    "hint": (ALL, lambda left, shown: f"{len(left)} {len(left)}"),
    "is_empty": (BY_VALUE, lambda left, shown: text_of(not left)),
    "add": ({"iter_mut", "values_mut"}, lambda left, shown: take_next(left, shown, 1)),
    "clone": ({"iter", "for", "for_mut", "keys", "values"}, lambda left, shown: list_of(map(shown, left))),
    "debug": ({"iter", "for", "for_mut"}, lambda left, shown: debug_of_pairs(left)),
    "each": (ALL, lambda left, shown: each(left, shown, len(left))),
    "each:N": (ALL, each),
}


def steps_of(kind):
    return [step for step, (kinds, _) in STEPS.items() if kind in kinds]


def walk_of(kind):
    def walk(maps, steps):
        left = list(maps.a.pairs)
        if kind == "drain":
            maps.a.pairs = []
        elif kind in BY_VALUE:
            drop(maps)
        return list_of([STEPS[step][1](left, KINDS[kind], *said) for step, said in steps], "; ")

    return walk


WALK_CALLS = {f"walk {kind} STEPS": walk_of(kind) for kind in KINDS}
