"""The map as a list of pairs with a form, a capacity, a limit and a rule. Buckets decide no answer, so it has none."""

import dataclasses
import functools

from model.basics import MANY, RULES, Pair, Refused, Work

# How many requests for memory the columns make, of keys and of values, and beside them the arrays of a table, and the block in
# which it stands.
COLUMNS, ARRAYS, BLOCK = 2, 2, 1
# The bytes of a hash, of the word of a bucket, and of that block.
HASH_BYTES, WORD_BYTES, BLOCK_BYTES = 8, 4, 56
# How many small keys of a vector are compared at a time.
KEYS_IN_BLOCK = 16


def table_capacity(pairs):
    """The least that is enough: three quarters of no buckets, or of a power of two from 4 on."""
    buckets = 0
    while buckets // 4 * 3 < pairs:
        buckets = max(4, 2 * buckets)
    return buckets // 4 * 3


class Map:
    """A map as `with_hasher` makes it, or, for a capacity, as `with_capacity_and_hasher` does."""

    def __init__(self, limit, rule, capacity=0, work=None):
        self.limit, self.rule, self.pairs, self.work = limit, rule, [], work or Work()
        self.is_vec, self.has_gone_back = True, False
        self.capacity = 0
        self.work.check_size(capacity)
        if capacity > 0:
            is_vec = capacity <= limit
            self.grow(capacity if is_vec else table_capacity(capacity), is_vec)

    def __str__(self):
        return f"{'vec' if self.is_vec else 'map'} {len(self.pairs)} {self.capacity}"

    def state(self):
        """The form, as the random scripts tell forms apart, or that there are many pairs."""
        if 20 <= len(self.pairs) <= 70:
            return MANY
        if self.has_gone_back:
            return "went back"
        if self.is_vec:
            full = "full " if len(self.pairs) == self.limit else "tight " if len(self.pairs) == self.capacity else ""
            return f"{full}vec"
        return "full table" if len(self.pairs) == self.capacity else "table"

    def anew(self):
        """A map that `with_hasher` makes with the same limit and rule."""
        return Map(self.limit, self.rule, work=self.work)

    def bytes_of(self, capacity, is_vec):
        """What a map of this form takes. A column of values without a size takes one byte."""
        columns = capacity * self.work.key_bytes + max(1, capacity * self.work.value_bytes)
        table = BLOCK_BYTES + capacity * HASH_BYTES + capacity // 3 * 4 * WORD_BYTES
        return capacity and columns + (0 if is_vec else table)

    def try_to_move(self, capacity, is_vec):
        """Makes all arrays anew, and then frees the old ones. A vector that becomes a table gets a block for it, which a table
        keeps. Returns whether all memory is granted. For no capacity none is needed."""
        kept = 0 if self.is_vec or is_vec else BLOCK_BYTES
        count = COLUMNS if is_vec else COLUMNS + ARRAYS + (BLOCK if self.is_vec else 0)
        if not self.work.try_to_request(count if capacity else 0, self.bytes_of(capacity, is_vec) - kept):
            return False
        self.work.granted -= self.bytes_of(self.capacity, self.is_vec) - kept
        self.is_vec, self.capacity = is_vec, capacity
        return True

    def grow(self, capacity, is_vec):
        if not self.try_to_move(capacity, is_vec):
            raise Refused("memory")

    def require(self, pairs):
        """Makes the capacity enough for this number of pairs. A vector's doubles, from eight on, up to the limit."""
        if pairs > self.capacity:
            self.work.check_size(pairs)
            grown = min(max(2 * self.capacity, 8, pairs), self.limit)
            self.grow(grown if self.is_vec else table_capacity(pairs), self.is_vec)

    def reserve(self, more):
        total = len(self.pairs) + more
        self.require(min(total, self.limit) if self.is_vec else total)

    def switch_if_full(self):
        """A vector of as many pairs as the limit becomes a table, which hashes each key once."""
        if self.is_vec and len(self.pairs) == self.limit:
            self.grow(table_capacity(self.limit + 1), is_vec=False)
            self.has_gone_back = False
            self.work.hashes += self.limit

    def shrink_to_fit(self):
        """A table of no more pairs than the limit becomes a vector of the same pairs. Refused memory changes nothing."""
        needed, was_vec = len(self.pairs), self.is_vec
        is_vec = was_vec or needed <= self.limit
        capacity = needed if is_vec else table_capacity(needed)
        if capacity != self.capacity and self.try_to_move(capacity, is_vec) and is_vec and not was_vec:
            self.has_gone_back = True

    def candidates(self, hash_):
        """The pairs whose keys a search may compare: in a table those of the hash alone."""
        hash_of = RULES[self.rule]
        return self.pairs if self.is_vec else [pair for pair in self.pairs if hash_of(pair.key) == hash_]

    def match(self, hash_, accepts, block=1):
        """The pair that is found, or None. A vector is searched in order, a block of keys at a time. A table compares the keys
        of the hash, and in which order is left open."""
        candidates = self.candidates(hash_)
        for index, pair in enumerate(candidates):
            if accepts(pair.key):
                most = min(index - index % block + block, len(candidates)) if self.is_vec else len(candidates)
                self.work.compare(most if self.is_vec else 1, most)
                return pair
        self.work.compare(len(candidates), len(candidates))
        return None

    def find_hashed(self, key, block=KEYS_IN_BLOCK):
        """The search for a key whose hash is handed in. Only small keys are compared in blocks."""
        return self.match(RULES[self.rule](key), lambda held: held.id == key.id, block if self.work.are_small else 1)

    def count_hash(self):
        """A key is hashed, which only a table needs."""
        self.work.hashes += 0 if self.is_vec else 1

    def find(self, key, block=KEYS_IN_BLOCK):
        self.count_hash()
        return self.find_hashed(key, block)

    # A removal compares key by key.
    find_to_remove = functools.partialmethod(find, block=1)
    find_to_remove_hashed = functools.partialmethod(find_hashed, block=1)

    def holds(self, key):
        """Whether a key is held, as the program asks before a call: it is not counted."""
        return any(pair.key.id == key.id for pair in self.pairs)

    def entry(self, key):
        """For `insert` and `entry`: the switch, the search, and capacity only where the key is not held."""
        self.switch_if_full()
        found = self.find(key)
        if found is None:
            self.require(len(self.pairs) + 1)
        return found

    def make_ready(self):
        """For `raw_entry_mut`: the switch, and capacity whatever is searched."""
        self.switch_if_full()
        self.require(len(self.pairs) + 1)

    def raw_entry(self, key):
        self.make_ready()
        return self.find(key)

    def append(self, key, value):
        self.pairs.append(Pair(key, value))
        return self.pairs[-1]

    def append_hashing(self, key, value):
        """The same where the hash of the key is not handed in."""
        self.count_hash()
        return self.append(key, value)

    def append_unchecked(self, key, value):
        """The addition of `insert_nocheck`, which hashes before it grows."""
        self.switch_if_full()
        self.count_hash()
        self.require(len(self.pairs) + 1)
        self.append(key, value)

    def take_out(self, pair):
        """The last pair takes the index of the one that is removed."""
        index, last = self.pairs.index(pair), self.pairs.pop()
        if pair is not last:
            self.pairs[index] = last
        return pair

    def shift_out(self, pair):
        """Each pair behind the one that is removed gets the index before its own."""
        return self.pairs.pop(self.pairs.index(pair))

    def put_back(self, pair):
        """A pair that is replaced is taken out of a vector and goes last. In a table it keeps its index."""
        if self.is_vec:
            self.pairs.append(self.take_out(pair))
        return pair

    def clone(self):
        """The capacity of a table's clone is that of the table. A vector's clone has none to spare."""
        clone = self.anew()
        if self.pairs or not self.is_vec:
            clone.grow(len(self.pairs) if self.is_vec else self.capacity, self.is_vec)
        clone.pairs = [dataclasses.replace(pair) for pair in self.pairs]
        self.work.clone(len(self.pairs))
        return clone

    def same_pairs(self, other):
        """Searches in the other map, in order, up to the first pair that it does not hold."""
        other.work = self.work
        found = ((pair, other.find(pair.key)) for pair in self.pairs)
        return len(self.pairs) == len(other.pairs) and all(it and it.value == pair.value for pair, it in found)
