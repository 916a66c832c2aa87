"""The line `run`: commands, which are handed `a` and what each says, and their replies as `{:?}` prints them."""

from model.all_pairs import truncate
from model.basics import Refused, list_of, text_of
from model.map import Map
from model.one_key import by


def insert_new(a, key, value):
    if a.find(key):
        return f"Present({key}, {value})"
    return a.append_unchecked(key, value) or "Added"


def insert(a, pair, value):
    old, pair.value = pair.value, value
    return f"Was(Some({old}))"


def value_or(search, append):
    return by(search, lambda a, pair, _: f"Value({pair.value})", lambda a, *pair: f"Value({append(a, *pair).value})")


def remove(a, pair):
    a.take_out(pair)
    return f"Removed(Some(({pair.key}, {pair.value})))"


COMMANDS = {
    "insert KEY V": by(Map.entry, insert, lambda a, *pair: a.append(*pair) and "Was(None)"),
    "insert_new KEY V": insert_new,
    "entry_or_insert KEY V": value_or(Map.entry, Map.append),
    "raw_or_insert KEY V": value_or(Map.raw_entry, Map.append_hashing),
    "get KEY": by(Map.find, lambda a, pair: f"Found(Some({pair.value}))", "Found(None)"),
    "remove KEY": by(Map.find_to_remove, remove, "Removed(None)"),
    "clear": truncate,
    "reserve SIZE": Map.reserve,
    "shrink": lambda a: a.shrink_to_fit() or f"Form({text_of(a.is_vec)})",
    "is_vec": lambda a: f"Form({text_of(a.is_vec)})",
    "len": lambda a: f"Length({len(a.pairs)})",
}


def written(command, said):
    """A command, as it comes back if it is refused."""
    name = command.split(" ")[0].title().replace("_", "")
    return f"{name}({', '.join(map(str, said))})" if said else name


def reply(a, command, said):
    try:
        return COMMANDS[command](a, *said) or "Done"
    except Refused as why:
        return f"Refused({written(command, said)}, {str(why).capitalize()})"


def run(a, commands):
    """The replies are memory that is had first. Each takes 24 bytes beside a key and a value."""
    if commands:
        a.work.request(1, len(commands) * (a.work.key_bytes + a.work.value_bytes + 24))
    return list_of([reply(a, *command) for command in commands], ", ")
