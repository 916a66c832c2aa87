"""The calls on all pairs, and on both maps. One that returns nothing is `done`."""

from model.basics import Refused, Work, list_of, text_of
from model.map import Map
from model.one_key import insert

HASH_MAP_LIMIT = 32


def state(a):
    forms = f"is_vec={text_of(a.is_vec)} is_map={text_of(not a.is_vec)}"
    return f"is_empty={text_of(not a.pairs)} {forms} rule={a.rule}"


def debug_of_pairs(pairs):
    """What an iterator is printed as that has these pairs left."""
    return list_of((f"({pair.key}, {pair.value})" for pair in pairs), ", ")


def pretty(a, opened, shown, closed):
    """A text of many lines, each pair as shown, and `\\n` for each end of a line."""
    lines = "".join(shown.format(key=pair.key, value=pair.value) for pair in a.pairs)
    return rf"{opened}\n{lines}{closed}" if a.pairs else opened + closed


def truncate(a, count=0):
    a.pairs = a.pairs[:count]


def add_to_values(a, number):
    for pair in a.pairs:
        pair.add(number)


def drain(a, count):
    drained, a.pairs = a.pairs[:count], []
    return list_of(drained)


def retain(a, divisor, number):
    add_to_values(a, number)
    a.work.called = len(a.pairs)
    a.pairs = [pair for pair in a.pairs if divisor == 0 or (pair.key.id + pair.value) % 2**64 % divisor != 0]
    return f"called {a.work.called}"


def extend(a, items):
    for key, value in items:
        insert(a, key, value)


def collect(a, items, limit=None, hint=None):
    """A map that is made for as many pairs as the hint says, and takes the items. Its searches are not counted."""
    try:
        made = Map(a.limit if limit is None else limit, a.rule, len(items) if hint is None else hint, a.work)
        extend(made, items)
    finally:
        a.work.hashes = a.work.least = a.work.most = 0
    return f"{made} {list_of(made.pairs)}"


def from_array(a, items, limit=None):
    """Its pairs first go into a vector, which takes memory unless there are none."""
    if items:
        a.work.request(1, len(items) * (a.work.key_bytes + a.work.value_bytes))
    return collect(a, items, limit)


def made(a, maker, items):
    """The form, length and capacity as made and after each pair, up to the first that is refused."""
    word, capacity = maker
    new = Map(a.limit, a.rule, min(capacity, a.limit) if word == "vec_with_capacity" else capacity, a.work)
    said = [str(new)]
    try:
        for item in items:
            insert(new, *item)
            said.append(str(new))
    except Refused as why:
        said.append(f"refused {why}")
    a.work.hashes = a.work.least = a.work.most = 0
    return "; ".join(said)


def drop(maps):
    maps.a = maps.a.anew()


def take_all(shown):
    """A call that takes `a`, and gives this of each pair."""

    def answer(maps):
        taken = maps.a.pairs
        drop(maps)
        return list_of(map(shown, taken))

    return answer


def clone(maps):
    maps.b = maps.a.clone()


def swap(maps):
    maps.a, maps.b = maps.b, maps.a


def other_map(maps, limit, rule):
    """A map of this limit and rule that has taken clones of the pairs of `b`, which is not counted."""
    maps.a.work.cloned += len(maps.b.pairs)
    other = Map(limit, rule, work=Work())
    extend(other, [(pair.key, pair.value) for pair in maps.b.pairs])
    other.work = maps.a.work
    return other


OF_A_CALLS = {
    "clear": truncate,
    "truncate SIZE": truncate,
    "reserve SIZE": Map.reserve,
    "shrink_to_fit": Map.shrink_to_fit,
    "state": state,
    "iter": lambda a: list_of(a.pairs),
    "keys": lambda a: list_of(pair.key for pair in a.pairs),
    "values": lambda a: list_of(pair.value for pair in a.pairs),
    **dict.fromkeys(("iter_mut N", "values_mut N", "values_slice_mut N"), add_to_values),
    "drain N": drain,
    "retain M N *": retain,
    "debug": lambda a: "{" + ", ".join(f"{pair.key}: {pair.value}" for pair in a.pairs) + "}",
    "debug_iter": lambda a: debug_of_pairs(a.pairs),
    "debug_pretty": lambda a: pretty(a, "{", r"    {key}: {value},\n", "}"),
    "debug_iter_pretty": lambda a: pretty(a, "[", r"    (\n        {key},\n        {value},\n    ),\n", "]"),
    "extend ITEMS": extend,
    "extend_by ITEMS": extend,
    "from_iter ITEMS": collect,
    "from_iter_hint SIZE ITEMS": lambda a, hint, items: collect(a, items, hint=hint),
    "from_array ITEMS": from_array,
    "hashmap ITEMS": lambda a, items: from_array(a, items, HASH_MAP_LIMIT),
    "collect ITEMS": collect,
    "made MAKER ITEMS": made,
}
BOTH_CALLS = {
    "pairs": lambda maps: " ".join(f"{name} {it.rule} {it} {list_of(it.pairs)}" for name, it in zip("ab", (maps.a, maps.b))),
    "into_iter": take_all(lambda pair: pair),
    "into_keys": take_all(lambda pair: pair.key),
    "into_values": take_all(lambda pair: pair.value),
    "drop": drop,
    "clone": clone,
    "swap": swap,
    **dict.fromkeys(("same", "eq"), lambda maps: text_of(maps.a.same_pairs(maps.b))),
    "same_as LIMIT RULE": lambda maps, *said: text_of(maps.a.same_pairs(other_map(maps, *said))),
    "same_from LIMIT RULE": lambda maps, *said: text_of(other_map(maps, *said).same_pairs(maps.a)),
}
