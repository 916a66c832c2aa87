#!/usr/bin/env python3
"""Searches the sources of what users take for what neither a proof nor a run shows: values that are forgotten, and work that is
done but not counted.

A rule is a sentence, a pattern that stands nowhere, and the files that are allowed to have it. Comments, clauses, `use` lines
and tests are left out. So is each plain call whose body is its counted call in `uncounted!`. White space is one space. Each
line of QUOTED stands once, word for word; `..` is the rest of a signature.
"""

import re

import tools

TOP = tools.TOP / "crates"
CRATES = "half_store halfbrown half_set half_serde json_value half_uses word_count halfmap".split()

RULES = (
    ("Nothing is forgotten.", r"\bforget\b|ManuallyDrop|\bleak|\binto_raw", ()),
    ("Only the macro `uncounted` makes a tally, and no tally is copied or has another name.",
     r"(?<!&mut )\bTally\b|\bTally::|\bCount\b|\bTally as\b", ("half_store/src/tally",)),
    ("A counted call is a method, except for `from_iter_counted` and `run_counted`.",
     r"fn (?!(?:from_iter|run)_counted)\w+_counted\b(?:<(?:[^()]|\([^()]*\))*?>)?\((?! ?&?(?:mut )?self\b)", ()),
    ("`uncounted!` lends its spare tally to one of these functions, which does what no clause counts.",
     r"uncounted!\((?!(?:table\.(?:bucket_of\(index|(?:shift_)?remove_at\(found\.index, found\.bucket|add\(hash)"
     r"|first_empty\(buckets, &hashes\[\.\.index\], hashes\[index\]"
     r"|LimitedHashMap::collect\(alloc, N, pairs\.into_iter\(\))\)\))", ()),
    ("Only `hash_one` builds a hasher.", r"(?:\.|::)(?:hash(?:_slice)?\(|build_hasher\b)|::hash\b", ()),
    ("Only `compare` calls what compares keys.", r"\b(?:matches|is_match)\)?\(", ("half_store/src/counting",)),
)

# Through these goes all that is counted, or no clause says what they leave.
QUOTED = """
half_store/src/counting hash_one..{ tally.asked = tally.asked.plus_one(); builder.hash_one(key) }
half_store/src/counting compare..{ tally.compared = tally.compared.plus_one(); matches(key) }
half_store/src/words word_at..{ tally.looked = tally.looked.plus_one(); self.words[bucket] as usize }
half_store/src/words word_at..{ tally.looked = tally.looked.plus_one(); self.words[bucket] }
half_store/src/tally uncounted { ($of:ident.$call:ident($($given:expr),*)) => { \
$of.$call($($given,)* &mut $crate::Tally::new()) }; ($($call:ident)::+($($given:expr),*)) => { \
$($call)::+($($given,)* &mut $crate::Tally::new()) }; }
half_store/src/words of_either_size { ($array:expr, $words:ident => $call:expr) => { match $array { \
$crate::words::WordArray::FourBytes($words) => $call, $crate::words::WordArray::EightBytes($words) => $call, } }; }
half_set/src/hash_set is_subset..{ self.iter().all(|value| other.contains(value)) }
halfbrown/src/key_hasher hash_key..{ counting::hash_one(self, key, tally) }
halfbrown/src/equivalent same_text..{ left == right }
halfbrown/src/map/capacity shrink_to_fit..{ let _ = self.store.shrink_to_fit(L::LIMIT); }
halfbrown/src/entry/occupied into_key(..{ self.into_key_value().0 }
halfbrown/src/entry/occupied into_key_value..{ let map = self.map; map.pair_at_mut(self.index) }
halfbrown/src/entry drop..{ let VacantEntry { map: _, key, vacancy: _, } = self; drop(key); }
halfbrown/src/drain drop..{ let Drain { map, pairs } = self; map.store = pairs.into_store(); }
halfbrown/src/iter/column drop..{ let Column { items, other: _ } = self; drop(items); }
halfbrown/src/map drop..{ let LimitedHashMap { store, builder, limit: _, } = self; drop(store); drop(builder); }
"""

BRACES = r"\{(?:[^{}]|\{(?:[^{}]|\{[^{}]*\})*\})*\}"
LEFT_OUT = (
    r"^\s*(?://.*|#!?\[tactic\([^\[\]]*\)\])$",
    rf"^ *(?:ghost use [^;]*;|(?:requires|ensures|ghost)\b[^{{}}();]*{BRACES}(?: by {BRACES})?[,;]?)",
    r"^(?:pub )?use (?:(?! as )[^;])*;$",
    r"\bfn (\w+)\b[^{}]*\{\s*uncounted!\((?:\w+(?:\.|::))?\1_counted\([\w, ]*\)\)\s*\}",
)


def code_of(text):
    """The text of a file on one line, without what is left out."""
    for left_out in LEFT_OUT:
        text = re.sub(left_out, "", text, flags=re.M)
    return re.sub(r"\s+", " ", text)


paths = [path for crate in CRATES for path in sorted((TOP / crate / "src").rglob("*.rt"))]
above = {it: [*it.parent.glob("main.rt"), it.parent.with_suffix(".rt")][0] for it in paths if it.stem == "tests"}
paths = [it for it in paths if it not in above or "#[cfg(test)]\nmod tests;" not in above[it].read_text()]
codes, told = {path.relative_to(TOP).with_suffix("").as_posix(): code_of(path.read_text()) for path in paths}, []
for sentence, pattern, allowed in RULES:
    found = {name: re.search(pattern, code) for name, code in codes.items() if name not in allowed}
    places = [f"\n  {name} has {code.string[code.start() - 20 : code.end() + 20]}" for name, code in found.items() if code]
    told.append(sentence + "".join(places) if places else None)
for name, text in (it.split(" ", 1) for it in QUOTED.strip().split("\n")):
    is_there = len(re.findall(re.escape(text).replace(r"\.\.", "[^{}]*", 1), codes.get(name, ""))) == 1
    told.append(None if is_there else f"{name} does not have this once, word for word: {text}")
tools.end(told)
