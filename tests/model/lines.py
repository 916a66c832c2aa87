"""The lines of docs/SCRIPTS.md, as a table of calls, and how the words of a line are read.

A line makes the call of its name on `a`. A value that is lent for writing is set to V, or increased by N. These names
say too little:

    index QUERY                   map[&key]; not held, where it is not called
    insert_nocheck KEY V          held, where it is not called
    NAME_hashed QUERY             handed the builder's hash, which is not counted
    NAME_match HASH WHICH         from_hash; its match accepts the key of the ID WHICH, or `any`, and each call of it counts
                                  as a comparison
    raw_find QUERY                a search by raw_entry_mut()
    entry KEY ACTION              a call on the entry, or vacant or occupied, if ACTION is for the other kind
      and_modify N V              and_modify, and then or_insert(V)
      replace N, lose, handed     replace_entry_with, whose closure returns value + N, none, or value
      lose_insert V               lose, and then insert of the vacant entry
    raw KEY ACTION                the same by raw_entry_mut() and from_key
      get_mut N, value_mut N      get_key_value_mut, and get_mut
      handed                      and_modify, which changes nothing
      write V                     insert of the occupied entry
      add V, add_hashed V, ..     insert, insert_hashed_nocheck, .. of the vacant entry; a hash is the builder's
    swap, clone                   a and b are exchanged; b is a clone of a
    retain M N                    adds N to each value, and removes the pairs where M is not 0 and divides ID + value
    pairs                         both maps, and `lost KEY` for each key for which get gives another value
    same, eq                      a.same_pairs(&b), and a == b
    same_as, same_from LIMIT RULE    same_pairs of a and a map of clones of b's pairs, or of that and a
    extend, extend_by, collect    refused without WHY; the last two are Extend and FromIterator of std
    from_iter, made MAKER, ..     the map has the limit of a, or 32 for hashmap; its work counts as 0

`walk KIND STEP ..` makes an iterator, and lists what its steps gave: `[1#1=10; 2]`. The kinds `for`, `for_mut` and
`for_value` are `into_iter` of `&a`, `&mut a` and `a`. The step `add` is `next`, whose value is increased by 1, and
`each` or `each:N` is a `for` loop over what is left, or over N items.

`run COMMAND ..` lists the replies: `[Was(None), Length(1), Refused(Insert(1#1, 10), Memory)]`. It needs `map` or `small`, as
`or_default` does.
"""

from model.all_pairs import BOTH_CALLS, OF_A_CALLS
from model.basics import GREATEST, NOTHING, SMALL_BYTES, Key
from model.one_key import ONE_KEY_CALLS
from model.runs import COMMANDS, run
from model.walk import WALK_CALLS

# After `owning` values count their drops, after `unit` they have no size, and after `small` keys have 8 bytes.
LIMITS = {"map": (0, 1, 2, 3, 4, 5, 8, 32, 64, 2**60, GREATEST), "owning": (0, 1, 2, 3, 5, 32, GREATEST)}
LIMITS |= {"unit": (20,), "small": (3, 32, 64)}
# The bytes of a key and of a value.
BYTES = {"map": (48, 8), "owning": (48, 48), "unit": (48, 0), "small": (SMALL_BYTES, 8)}
# Their text takes memory of the program's own.
WITH_TEXT = ("debug_pretty", "debug_iter_pretty")
# Each is handed `a`, or the session, which has both maps, and what the line says. A pattern with `*` hands in a closure.
CALLS_ON_A = ONE_KEY_CALLS | OF_A_CALLS | {"run COMMANDS": run}
CALLS = CALLS_ON_A | BOTH_CALLS | WALK_CALLS


def places_of(pattern):
    """The words of a pattern. Those in capitals are the places of others. A SIZE is a number that may be refused."""
    return pattern.removesuffix(" *").split(" ")


def name_of(words):
    """What tells a call from others: its first word, and of some what is done with them."""
    if words[0] in ("entry", "raw"):
        return " ".join(words[:1] + words[2:3])
    return " ".join(words[:2]) if words[0] in ("error", "walk") else words[0]


PATTERNS = {name_of(places_of(pattern)): pattern for pattern in CALLS}
COMMAND_PATTERNS = {places_of(pattern)[0]: pattern for pattern in COMMANDS}


def keys_in(said):
    """How many keys are made of what the words say. `@ID` makes none."""
    if isinstance(said, (list, tuple)):
        return sum(map(keys_in, said))
    return isinstance(said, Key) and said.mark is not None


def values_in(pattern, said):
    """How many values are made of what the words of a call say."""
    places = places_of(pattern)
    return places.count("V") + (len(said[-1]) if places[-1] == "ITEMS" else 0)


def read_key(word):
    return Key(*map(int, word.split("#")))


def read_query(word):
    return Key(int(word[1:]), None) if word.startswith("@") else read_key(word)


def read_which(word):
    return word if word == "any" else int(word)


def read_maker(word):
    """The name, and the capacity that it is asked for."""
    name, _, capacity = word.partition(":")
    return name, int(capacity or 0)


PLACES = dict.fromkeys(("V", "N", "M", "SIZE", "HASH", "LIMIT"), int) | {"KEY": read_key, "QUERY": read_query}
PLACES |= {"WHICH": read_which, "MAKER": read_maker, "RULE": str}


def read_places(places, words):
    """What the words say in the place of the words in capitals."""
    return [PLACES[place](word) for place, word in zip(places, words, strict=True) if place in PLACES]


def read_items(words):
    """The pairs of KEY V KEY V .."""
    return [(read_key(key), int(value)) for key, value in zip(words[::2], words[1::2], strict=True)]


def read_commands(words):
    """The commands, each by its pattern and what it says."""
    commands = []
    while words:
        pattern = COMMAND_PATTERNS[words[0]]
        places = places_of(pattern)
        commands.append((pattern, read_places(places, words[: len(places)])))
        words = words[len(places) :]
    return commands


def read_steps(words):
    """The steps, each by its pattern and what it says."""
    steps = [word.partition(":") for word in words]
    return [(f"{name}:N", [int(number)]) if colon else (name, []) for name, colon, number in steps]


def no_value(place, said):
    """What is said in this place, where values have no size."""
    return NOTHING if place == "V" else [(key, NOTHING) for key, _ in said] if place == "ITEMS" else said


# What reads the words from the last place on.
REST = {"ITEMS": read_items, "COMMANDS": read_commands, "STEPS": read_steps}


def read_call(line, kind):
    """The pattern of a line's call, which `refused` may stand before, and what it says, on maps of this kind."""
    words = line.removeprefix("refused ").split(" ")
    pattern = PATTERNS[name_of(words)]
    *places, last = places_of(pattern)
    if last in REST:
        said = read_places(places, words[: len(places)]) + [REST[last](words[len(places) :])]
    else:
        said = read_places([*places, last], words)
    if kind == "unit":
        said = [no_value(place, it) for place, it in zip(filter(str.isupper, [*places, last]), said)]
    return pattern, said


def read_first(line):
    """The kind, the limit, the rule and the capacity."""
    kind, limit, rule, *capacity = line.split(" ")
    if int(limit) not in LIMITS[kind]:
        raise ValueError
    return kind, int(limit), rule, int(*capacity)
