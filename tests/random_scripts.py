"""Scripts of calls that are made at random, in the language of docs/SCRIPTS.md. The model is played meanwhile, and says what is
held. So a script can bring the map into each state, and make any call of the table there."""

import bisect
import collections
import itertools
import random

from model.basics import ALL, GREATEST, MANY, MOST_PAIRS, RULES, Key
from model.lines import CALLS, COMMANDS, LIMITS, WITH_TEXT, places_of
from model.session import Session
from model.walk import steps_of

LINES = 200
# A tight vector has room for no pair, and fewer pairs than its limit; a full one has as many. One that went back was a table.
STATES = ("vec", "tight vec", "full vec", "table", "full table", "went back", MANY)
PLAIN_MAKERS = ("new", "default", "with_hasher")
MAKERS_FOR = ("with_capacity", "with_capacity_and_hasher", "vec_with_capacity")
# Calls that need numbers as values, and the maps that have these.
OF_NUMBERS, WITH_NUMBERS = ("run COMMANDS", "entry KEY or_default"), ("map", "small")
COMPARING = ("same", "eq", "same_as LIMIT RULE", "same_from LIMIT RULE")
# Some limits, rules and states are chosen more often than others.
OFTEN = (5, 5, 2, 3, 20, 32, 32, 64)
FIRST_LINES = [(kind, limit) for kind in LIMITS for limit in (*LIMITS[kind], *(it for it in OFTEN if it in LIMITS[kind]))]
RULES_OFTEN = ("plain", *RULES)
STATES_OFTEN = ("vec", "vec", "table", *["tight vec"] * 4, *["full vec"] * 3, *["full table"] * 5, *["went back"] * 4)
NUMBERS = (0, 0, 0, 1, 1, 2, 3, 4, 5, 7, 12, 31, 32, 100, GREATEST)
SIZES = (0, 1, 2, 3, 5, 6, 7, 12, 13, 33, 50)
# No key has it.
NO_ID = 10**15
# Sizes that are refused.
TOO_GREAT = (MOST_PAIRS, MOST_PAIRS + 1, 2**63, GREATEST)
ADDING = ("insert KEY V", "insert_nocheck KEY V", "entry KEY or_insert V", "raw KEY add V", "run insert_new KEY V is_vec")
REMOVING = ("remove QUERY", "remove_entry_hashed QUERY", "entry KEY remove", "raw KEY remove", "run remove KEY")
ANEW = ("drop", "into_iter", "walk for_value STEPS", "walk into_iter STEPS")
BACK = ("shrink_to_fit", "shrink_to_fit", "run shrink len")
# Those that empty the map come less often, and those that have many cases, or are no calls on some maps, more often.
EMPTYING = ("clear", "drain N", "walk drain STEPS", *ANEW)
MORE_OFTEN = ("clone", "made MAKER ITEMS", "from_iter_hint SIZE ITEMS", "extend ITEMS", "shrink_to_fit", "reserve SIZE")
MORE_OFTEN += ("error reserve SIZE", "entry KEY or_default", "from_iter ITEMS", "from_array ITEMS", "collect ITEMS")
MORE_OFTEN += ("extend_by ITEMS", "hashmap ITEMS")
WEIGHTS = dict.fromkeys(CALLS, 1) | dict.fromkeys(EMPTYING, 0.7) | dict.fromkeys(MORE_OFTEN, 3) | {"run COMMANDS": 10}
# Each with a held key and with a new one, refused memory and not.
DECK = list(itertools.product(CALLS, (True, False), (True, False)))
SUMS = list(itertools.accumulate(WEIGHTS[pattern] for pattern, *_ in DECK))
GOLDEN = (5**0.5 - 1) / 2
# In a tenth of the scripts most calls are refused the request of one of these numbers. In the others fewer are refused all.
REQUESTS = (1, 2, 2, 3, 3, 3, 4, 4, 5, 5, 6)
# The calls after which a map of many pairs has many still.
KEEPING = tuple(pattern for pattern in CALLS if pattern not in (*EMPTYING, "swap", "retain M N *"))


class Script:
    """A script that is being made: its lines, and what each is answered. Its keys come again: they are few, in steps."""

    def __init__(self, chance, index, kind, limit, rule, keys):
        self.chance, self.kind, self.limit, self.rule = chance, kind, limit, rule
        refuses_one = chance.random() < 0.1
        self.refuse, self.share_refused = ((chance.choice(REQUESTS),) * 2, 0.7) if refuses_one else (ALL, 0.1)
        self.lines, self.wanted, self.session = [], [], Session(self.refuse)
        self.drawn = collections.Counter(dict.fromkeys(STATES, 12 * index))
        self.keys, self.stride = keys, chance.choice((1, 1, 4, 8, 16, 37))
        self.first = chance.choice((0, 0, 3, 1000, GREATEST - 2 * self.stride * keys))
        if chance.random() < 0.5:
            self.add(f"{kind} {limit} {rule} {chance.choice(TOO_GREAT)}")
        self.add(f"{kind} {limit} {rule}" + chance.choice(("", "", f" {chance.choice(SIZES)}")))

    @property
    def a(self):
        return self.session.a

    def add(self, line):
        self.lines.append(line)
        self.wanted.append(self.session.answer(line))

    def any_id(self):
        return self.first + self.stride * self.chance.randrange(self.keys)

    def held_id(self):
        return self.chance.choice(self.a.pairs).key.id if self.a.pairs else self.any_id()

    def new_id(self):
        id_ = self.any_id()
        while self.a.holds(Key(id_)):
            id_ = (id_ + self.stride) % 2**64
        return id_

    def key(self, id_):
        return f"{id_}{self.chance.choice(('', '', '#2', '#3'))}"

    def size(self):
        return self.chance.choice(TOO_GREAT if self.chance.random() < 0.1 else SIZES)

    def which(self, id_):
        """What a match accepts. In a table `any` is determined if no two keys have one hash."""
        is_determined = self.rule == "plain" or self.limit >= MOST_PAIRS
        return self.chance.choice((id_, id_, id_, NO_ID, "any" if is_determined else NO_ID))

    def items(self, most):
        ids = [self.chance.choice((self.any_id, self.held_id))() for _ in range(self.chance.randrange(most + 1))]
        return " ".join(f"{self.key(id_)} {self.chance.randrange(1000)}" for id_ in ids)

    def steps(self, kind):
        """Some steps that this kind of iterator has."""
        steps = self.chance.choices([*steps_of(kind), "next", "next"], k=self.chance.randrange(8))
        steps.sort(key=lambda step: step.startswith("each"))
        while len(steps) > 1 and steps[-2].startswith("each"):
            steps.pop()
        return " ".join(step.replace(":N", f":{self.chance.randrange(5)}") for step in steps)

    def written(self, pattern, id_=None):
        """A line of this pattern. A given ID is that of its keys."""
        choice, places = self.chance.choice, places_of(pattern)
        id_ = choice((self.any_id, self.held_id))() if id_ is None else id_
        words = {
            "KEY": lambda: self.key(id_),
            "QUERY": lambda: choice((f"@{id_}", self.key(id_), self.key(id_))),
            "V": lambda: self.chance.randrange(1000),
            "N": lambda: choice(NUMBERS),
            "M": lambda: choice((0, 1, 2, 2, 3, 3, 5, 7)),
            "SIZE": self.size,
            "HASH": lambda: choice((*[RULES[self.rule](Key(id_))] * 6, 0, 5, GREATEST)),
            "WHICH": lambda: self.which(id_),
            "LIMIT": lambda: choice((0, 5, GREATEST)),
            "RULE": lambda: choice(tuple(RULES)),
            "MAKER": lambda: choice((*PLAIN_MAKERS, *(f"{maker}:{self.size()}" for maker in MAKERS_FOR))),
            "ITEMS": lambda: self.items(3 if pattern.startswith("hashmap") else 4),
            "COMMANDS": lambda: " ".join(self.written(choice(tuple(COMMANDS))) for _ in range(self.chance.randrange(9))),
            "STEPS": lambda: self.steps(places[1]),
        }
        said = [str(words[place]()) if place in words else place for place in places]
        return " ".join(word for word in said if word)

    def call(self, patterns, id_=None, may_be_refused=False):
        before = "refused " * (may_be_refused and self.chance.random() < self.share_refused)
        patterns = [pattern for pattern in patterns if self.kind in WITH_NUMBERS or not pattern.startswith("run")]
        self.add(before + self.written(self.chance.choice(patterns), id_))

    def draw(self):
        """A call of the deck. In each state all come evenly: each lies apart from those before it, by the golden ratio."""
        state = self.a.state()
        self.drawn[state] += 1
        return DECK[bisect.bisect(SUMS, self.drawn[state] * GOLDEN % 1 * SUMS[-1])]

    def any_call(self, pattern, is_held, is_refused):
        """A call, and often all pairs after it."""
        if pattern in OF_NUMBERS and self.kind not in WITH_NUMBERS:
            return
        chance, id_ = self.chance, self.held_id() if is_held else self.new_id()
        is_refused = (is_refused or self.refuse != ALL) and pattern not in WITH_TEXT
        self.add("refused " * is_refused + self.written(pattern, id_))
        if self.wanted[-1].startswith("refused") or chance.random() < 0.15:
            self.add("pairs")
        if pattern == "clone":
            self.change_one()
        if pattern == "clone" or chance.random() < 0.01:
            self.call(COMPARING)

    def change_one(self):
        """Changes a pair, its place or its key, or nothing."""
        to_the_end = "entry {0.key} lose_insert {0.value}"
        change = self.chance.choice(("", to_the_end, to_the_end, "entry {0.key} into_mut 1", "remove {0.key}"))
        if change and self.a.pairs:
            self.add(change.format(self.chance.choice(self.a.pairs)))
        if change.startswith("remove"):
            self.call(ADDING, self.new_id())

    def fill(self, count):
        """Adds pairs until there are this number."""
        while len(self.a.pairs) < count:
            if self.chance.random() < 0.6:
                before = "refused " * (self.chance.random() < self.share_refused)
                self.add(f"{before}extend {self.items(count - len(self.a.pairs))}".strip())
            else:
                self.call(ADDING, self.new_id(), may_be_refused=True)

    def empty(self, count):
        """Removes pairs until there are this number."""
        while len(self.a.pairs) > count:
            if count == 0 and self.chance.random() < 0.2:
                self.add(self.chance.choice(("clear", "retain 1 0", "drain 3")))
            else:
                self.call(REMOVING, self.held_id(), may_be_refused=True)

    def reach(self, state):
        """Brings the map into this state, if its limit allows that."""
        state = "vec" if self.limit >= MOST_PAIRS and state != "tight vec" else state
        if state.endswith("vec") and (not self.a.is_vec or self.a.has_gone_back):
            self.call(ANEW)
        if state in ("table", "full table", "went back") and self.a.is_vec:
            self.fill(self.limit)
            self.call(ADDING, self.new_id())
        if state == "went back":
            self.empty(self.limit)
            self.call(BACK)
        elif state == "full table":
            self.fill(self.limit + 1)
            self.add("shrink_to_fit")
            self.fill(self.a.capacity)
        else:
            count = self.chance.randrange(8) if self.limit < 20 else self.chance.randrange(20, 71)
            if state.endswith("vec") and self.limit < MOST_PAIRS:
                count = self.limit if state == "full vec" or self.limit < 2 else 1 + count % (self.limit - 1)
            self.fill(count)
            self.empty(count)
            if state == "tight vec":
                self.add("shrink_to_fit")

    def flood(self, count, stride):
        """Many pairs, and any call then. The keys collide if the rule has one hash, or the stride is that of buckets."""
        for start in range(0, count, 50):
            self.add("extend " + " ".join(f"{number * stride} {number}" for number in range(start, start + 50)))
        self.keys, self.stride, self.first = 2 * count, stride, 0
        for _ in range(LINES // 8):
            self.any_call(self.chance.choice(KEEPING), self.chance.random() < 0.5, self.chance.random() < 0.3)

    def run_at_length(self, count):
        """One run of as many commands, which seldom clear the map."""
        patterns = [pattern for pattern in COMMANDS for _ in range(1 if pattern == "clear" else 10)]
        self.add("run " + " ".join(self.written(patterns[37 * number % len(patterns)]) for number in range(count)))


# Long scripts: a first line, and what is done.
LONG = [((*first, "plain"), lambda script: script.flood(2000, 1)) for first in (("owning", 32), ("unit", 20))]
LONG += [((*first, rule), lambda script: script.flood(300, 2**14)) for first in (("map", 0), ("owning", 5)) for rule in RULES]
LONG += [(("map", limit, rule), lambda script: script.run_at_length(1000)) for limit in (0, 1, 2, 32) for rule in RULES]


def make_script(seed, index):
    """The script of this index. The first ones are long."""
    chance = random.Random(f"{seed} {index}")
    if index < len(LONG):
        first, fill = LONG[index]
        script = Script(chance, index, *first, 40)
        fill(script)
    else:
        kind, limit = FIRST_LINES[index % len(FIRST_LINES)]
        script = Script(chance, index, kind, limit, chance.choice(RULES_OFTEN), max(8, 3 * limit if limit < 100 else 40))
        while len(script.lines) < LINES:
            script.reach(chance.choice(STATES_OFTEN))
            for _ in range(chance.choice((1, 1, 1, 2, 5))):
                script.any_call(*script.draw())
    script.add("pairs")
    return script
