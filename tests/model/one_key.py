"""The calls on one key, or at one index. Each is handed `a` and what the line says; one that returns nothing is `done`."""

from model.basics import Refused
from model.map import Map


def by(search, found, missing):
    """A call that searches: what it does with the pair that was found, or with the key that was not, or what it answers."""

    def answer(a, key, *said):
        pair = search(a, key)
        action, it = (missing, key) if pair is None else (found, pair)
        return action if isinstance(action, str) else action(a, it, *said)

    return answer


def calling(action):
    """The same action by a closure, which is called once."""

    def answer(a, *said):
        a.work.called += 1
        return action(a, *said)

    return answer


def at_index(action):
    """What is done with the pair at an index, or `none` where there is none."""
    return lambda a, index, *said: action(a, a.pairs[index], *said) if 0 <= index < len(a.pairs) else "none"


def index_of(a, pair):
    return a.pairs.index(pair)


def insert_nocheck(a, key, value):
    return "held" if a.holds(key) else a.append_unchecked(key, value) or "added"


def find_match(a, hash_, which):
    return a.match(hash_, lambda held: which in ("any", held.id))


def raw_found(a, search, *said):
    a.make_ready()
    pair = search(a, *said)
    return f"occupied {pair}" if pair else "vacant"


def insert_key(a, pair, key):
    old, pair.key = pair.key, key
    return f"was {old}"


def fields(pair):
    return f"{{ key: {pair.key}, value: {pair.value} }}"


TEXTS = {"size": "more than 2^60 pairs", "memory": "memory could not be allocated"}


def error_of(call, shown, before=""):
    """A call of which only the error is printed: as `shown` with the key, the value and WHY, where TEXT is by `{}`."""

    def answer(a, *said):
        try:
            call(a, *said)
            return "granted"
        except Refused as refused:
            why = str(refused).capitalize()
            return shown.format(*said, why=why).replace("TEXT", before + TEXTS[str(refused)])

    return answer


insert = by(Map.entry, lambda a, pair, value: pair.write(value), lambda a, *pair: a.append(*pair) and "none")
insert_full = by(
    Map.entry,
    lambda a, pair, value: f"{index_of(a, pair)} {pair.write(value)}",
    lambda a, *pair: f"{index_of(a, a.append(*pair))} none",
)

BASIC_CALLS = {
    "insert KEY V": insert,
    "insert_full KEY V": insert_full,
    "insert_nocheck KEY V": insert_nocheck,
    "get QUERY": by(Map.find, lambda a, pair: pair.value, "none"),
    "get_mut QUERY V": by(Map.find, lambda a, pair, value: pair.write(value), "none"),
    "get_key_value QUERY": by(Map.find, lambda a, pair: pair, "none"),
    "contains_key QUERY": by(Map.find, "true", "false"),
    "index QUERY": lambda a, key: a.find(key).value if a.holds(key) else "not held",
    "remove QUERY": by(Map.find_to_remove, lambda a, pair: a.take_out(pair).value, "none"),
    "remove_entry QUERY": by(Map.find_to_remove, Map.take_out, "none"),
    "remove_entry_hashed QUERY": by(Map.find_to_remove_hashed, Map.take_out, "none"),
    "shift_remove QUERY": by(Map.find, lambda a, pair: a.shift_out(pair).value, "none"),
    "shift_remove_entry QUERY": by(Map.find, Map.shift_out, "none"),
    "get_index_of QUERY": by(Map.find, index_of, "none"),
    "get_index N": at_index(lambda a, pair: pair),
    **dict.fromkeys(("get_index_mut N V", "get_index_entry N V"), at_index(lambda a, pair, value: pair.write(value))),
    "first": lambda a: a.pairs[0] if a.pairs else "none",
    "last": lambda a: a.pairs[-1] if a.pairs else "none",
    "first_mut V": lambda a, value: a.pairs[0].write(value) if a.pairs else "none",
    "last_mut V": lambda a, value: a.pairs[-1].write(value) if a.pairs else "none",
    "pop": lambda a: a.pairs.pop() if a.pairs else "none",
    "swap_remove_index N": at_index(Map.take_out),
    "shift_remove_index N": at_index(Map.shift_out),
    "error insert KEY V": error_of(
        insert, "Refused {{ key: {0}, value: {1}, why: {why} }} / TEXT / {why}", "the pair was not inserted: "
    ),
    "error entry KEY": error_of(
        Map.entry, "RefusedKey {{ key: {0}, why: {why} }} / TEXT / {why}", "no entry was made: "
    ),
    "error reserve SIZE": error_of(Map.reserve, "{why} / TEXT"),
}
# What is done with the pair of an entry, and with the key of a vacant one.
ENTRY_CALLS = {
    "read": (lambda a, pair: f"occupied {pair}", lambda a, key: f"vacant {key}"),
    "key": (lambda a, pair: pair.key, lambda a, key: key),
    "index": (index_of, "vacant"),
    "or_insert V": (lambda a, pair, value: pair.value, lambda a, key, value: a.append(key, value).value),
    "or_insert_with V *": (lambda a, pair, value: pair.value, calling(lambda a, *pair: a.append(*pair).value)),
    "or_default": (lambda a, pair: pair.value, lambda a, key: a.append(key, 0).value),
    "and_modify N V *": (calling(lambda a, pair, n, _: pair.add(n).value), lambda a, key, _, v: a.append(key, v).value),
    "insert V": (lambda a, pair, value: pair.write(value), lambda a, *pair: f"added {a.append(*pair).value}"),
    **dict.fromkeys(("get_mut N", "into_mut N"), (lambda a, pair, number: pair.add(number).value, "vacant")),
    "remove": (lambda a, pair: a.take_out(pair).value, "vacant"),
    "remove_entry": (Map.take_out, "vacant"),
    "replace N *": (calling(lambda a, pair, number: f"occupied {a.put_back(pair.add(number))}"), "vacant"),
    "lose *": (calling(lambda a, pair: f"lost {a.take_out(pair).key}"), "vacant"),
    "lose_insert V *": (calling(lambda a, pair, v: f"added {a.append(a.take_out(pair).key, v).value}"), "vacant"),
    "handed *": (calling(lambda a, pair: f"handed {a.put_back(pair).key}"), "vacant"),
    "into_key": ("occupied", lambda a, key: key),
    "debug": (lambda a, pair: f"Entry(OccupiedEntry {fields(pair)})", lambda a, key: f"Entry(VacantEntry({key}))"),
}
# The same of a raw entry.
RAW_ENTRY_CALLS = {
    "read": (lambda a, pair: f"occupied {pair}", "vacant"),
    "index": (index_of, "vacant"),
    **dict.fromkeys(("or_insert V", "or_insert_entry V"), (lambda a, pair, value: pair, Map.append_hashing)),
    "or_insert_with V *": (lambda a, pair, value: pair, calling(Map.append_hashing)),
    "insert V": (lambda a, pair, value: pair.write(value) and pair, Map.append_hashing),
    "and_modify N *": (calling(lambda a, pair, number: f"occupied {pair.add(number)}"), "vacant"),
    "handed *": (calling(lambda a, pair: f"handed {pair}"), "vacant"),
    "write V": (lambda a, pair, value: pair.write(value), "vacant"),
    **dict.fromkeys(("get_mut N", "into_key_value N"), (lambda a, pair, number: pair.add(number), "vacant")),
    **dict.fromkeys(("value_mut N", "into_mut N"), (lambda a, pair, number: pair.add(number).value, "vacant")),
    **dict.fromkeys(("key_mut", "into_key"), (lambda a, pair: pair.key, "vacant")),
    "remove": (lambda a, pair: a.take_out(pair).value, "vacant"),
    "remove_entry": (Map.take_out, "vacant"),
    **dict.fromkeys(("add V", "add_entry V"), ("occupied", Map.append_hashing)),
    # The closure of the last hashes held keys where the table grows, and capacity is there.
    **dict.fromkeys(("add_hashed V", "add_hashed_entry V", "add_with_hasher V *"), ("occupied", Map.append)),
    "debug": (lambda a, pair: f"RawEntry(RawOccupiedEntryMut {fields(pair)})", "RawEntry(RawVacantEntryMut)"),
}
RAW_CALLS = {
    "raw_entry QUERY": by(Map.find, lambda a, pair: pair, "none"),
    "raw_entry_hashed QUERY": by(Map.find_hashed, lambda a, pair: pair, "none"),
    "raw_entry_match HASH WHICH": lambda a, *said: find_match(a, *said) or "none",
    "raw_find QUERY": lambda a, key: raw_found(a, Map.find, key),
    "raw_find_hashed QUERY": lambda a, key: raw_found(a, Map.find_hashed, key),
    "raw_find_match HASH WHICH": lambda a, *said: raw_found(a, find_match, *said),
    "raw_entry_debug": lambda a: "RawEntryBuilder",
    "raw_entry_mut": Map.make_ready,
    "raw_entry_mut_debug": lambda a: Map.make_ready(a) or "RawEntryBuilder",
    "raw KEY insert_key": lambda a, key: by(Map.raw_entry, insert_key, "vacant")(a, key, key),
}
ONE_KEY_CALLS = BASIC_CALLS | RAW_CALLS
ONE_KEY_CALLS |= {f"entry KEY {action}": by(Map.entry, *cases) for action, cases in ENTRY_CALLS.items()}
ONE_KEY_CALLS |= {f"raw KEY {action}": by(Map.raw_entry, *cases) for action, cases in RAW_ENTRY_CALLS.items()}
