"""What a page CALLING shows as it stands in the sources: the clauses of its calls, the words and values that these name, and a
list of all calls.

A word is a record, a data type or a name for what holds. If only clauses name it, or only one other word, it stands below the
first of these, and otherwise in the list of words. A value is a number, a list or a test, and stands with its comment.
"""

import collections
import pathlib
import re
import textwrap

CRATES = pathlib.Path(__file__).resolve().parent.parent / "crates"
# The crates that have such a page, and the type of each whose calls stand there without its name.
TYPES = {"halfbrown": "LimitedHashMap", "half_set": "HashSet", "json_value": "Value"}
# No clause or field of such a name is printed, and no starred clause.
LEFT_OUT = re.compile(r"(?:(?:requires|ensures) ?)?(?:\*|(?:cost|keeps|runs|same_map|small|valid|values_run)\b)")
# Such a word is not printed: a line by hand says in short what it says, or no caller has to know it.
NOT_OPENED = """ArePairClones ClonesAreCopies ClonesEqualKeys CollectIterRefused Collects CollectsIter Extends HashesAlike
    HasSetBy InsertsAll InsertsAllOfIter InsertsUntilRefused IsCloneOf IsDefaultBuilder IsEmptyFor IsGrantable IsNew
    IsRefusal IsReserved IsShrunk ModifiesEntry PutsNewKeyOrHandsBack PutsOrHandsBackWithIndex SameEntry
    ShiftRemoves ShrinkingNeedsMemory ShrinksOrStays State WithPairs""".split()
DEFINITION = re.compile(
    r"^((?: *--.*\n)*)( *)(pub record|pub data|abbrev pub|unfoldable pub) (\w+)(.*)\n((?:\2 +\S.*\n|\2\4 .*\n)*)", re.M
)
CALL = re.compile(r"^fn ([\w:]+).*\n(?:(?!fn |```).*\n)*", re.M)
LIST = re.compile(r"(^## (Words|Values|All calls)\n(?:[^`]|`(?!``))*```text\n)([^`]*)", re.M)


def wrapped(line, indent="", further="    "):
    return textwrap.fill(line, 120, initial_indent=indent, subsequent_indent=indent + further, break_on_hyphens=False) + "\n"


def modules(it):
    """The modules that a definition stands in, and the parameters of each."""
    last = {found[1]: found for found in re.finditer(r"^( *)module _ (.*) where$", it.string[: it.start()], re.M)}
    return [(last[indent].start(), explicit(last[indent][2])) for indent in sorted(last) if len(indent) < len(it[2])]


def explicit(binders):
    return [name for names in re.findall(r"\(([\w' ]+) : ", binders) for name in names.split()]


def in_full(line, name, known):
    """A line of a definition, in which those of the same modules have the parameters that they share with it."""
    def full(it):
        shared = [own for own, other in zip(known[name], known[it[0]]) if own == other]
        text = " ".join([it[0], *(parameter for _, parameters in shared for parameter in parameters)])
        is_argument = re.search(r"(?:^|[^\w'])(?!then|else|if)[\w']+ $|[)\]] $", line[: it.start()])
        return f"({text})" if text != it[0] and is_argument else text
    return re.sub(rf"(?<![\w.'])(?:{'|'.join(known)})(?![\w':])", full, line)


def definitions(crate):
    """The words of the specs, and of the store's on capacity, by name: what each line says. The values: their comments."""
    words, values = {}, {}
    of_store = [CRATES / f"half_store/specs/{it}.antt" for it in ("Capacity", "Refusal")]
    for path in of_store + sorted(crate.glob("specs/*.antt")):
        found = {it[4]: it for it in DEFINITION.finditer(path.read_text())}
        known = {name: modules(it) for name, it in found.items()}
        for name, (comment, _, kind, _, binders, text) in ((name, it.groups()) for name, it in found.items()):
            head = " ".join([name, *(parameter for _, parameters in known[name] for parameter in parameters)])
            text = re.sub(r"^ *--.*\n", "", text, flags=re.M)
            lines = [" ".join(line.split()) for line in re.split(rf"^{re.match(' *', text)[0]}(?=\S)", text, flags=re.M)[1:]]
            if name[0].isupper():
                fields = [in_full(re.sub(r"^(?:pub )?(\w+) : ", r"\1: ", line), name, known) for line in lines]
                heads = [] if kind.startswith("abbrev") else [" ".join([head, *explicit(binders)])]
                words[name] = heads + [field for field in fields if not LEFT_OUT.match(field)]
            elif comment and lines:
                own = re.match(rf"{name}((?: [\w']+)*) =", lines[0])
                said = " ".join(line.strip(" -").replace("`", "") for line in comment.splitlines())
                values[name] = f"{head}{own[1] if own else ''}: {said}"
    return {name: lines for name, lines in words.items() if name not in NOT_OPENED}, values


def sources(crate):
    return sorted(crate.glob("src/**/*.rt"), key=lambda it: it.with_suffix("").parts)


def quoted(crate, call):
    """The signature of a call, and each of its clauses that the page shows."""
    kind, _, name = call.rpartition("::")
    impls = (it for path in sources(crate) for it in re.split(r"^(?=impl\b)", path.read_text(), flags=re.M)[1:])
    owned = (it for it in impls if re.match(rf"impl(<[^{{]*?>)? {kind or TYPES[crate.name]}\b", it))
    found = next(filter(None, (re.search(rf"^    pub fn {name}\b(.*?)^    {{$", it, re.M | re.S) for it in owned)))[1]
    head, *clauses = re.split(r"(?=\b(?:requires|ensures)\b)", " ".join(re.sub("//.*", "", found).split()))
    yield f"fn {call}{head.rstrip(', ')}".replace("( ", "(").replace(", )", ")")
    for clause in clauses:
        if not LEFT_OUT.match(clause):
            yield re.sub(r"^(\w+(?: \w+)?) { (.*) } ?$", r"\1: \2", clause)


class Page:
    """What the page has to show."""

    def __init__(self, text, crate):
        self.crate = crate
        self.words, self.values = definitions(crate)
        self.clauses = {it[1]: [*quoted(crate, it[1])] for it in CALL.finditer(text)}
        found = {name for clauses in self.clauses.values() for name in self.named(clauses[1:])}
        namers = collections.Counter(found)  # The clauses count as one.
        while found:
            leads = [{*self.named(self.words[name])} - {name} for name in found]
            found = set().union(*leads) - namers.keys()
            namers.update(name for names in leads for name in names)
        self.listed = sorted(name for name in namers if namers[name] > 1)
        self.left = namers.keys() - self.listed  # Each is taken out as it is printed.

    def named(self, lines):
        return [it for it in re.findall(r"\w+", " ".join(lines)) if it in self.words]

    def word(self, name, indent=""):
        """A word, and below it those that only it names."""
        head, *fields = self.words[name]
        text = wrapped(head, indent) + "".join(wrapped(it, indent + "  ") for it in fields)
        return text + self.below(self.words[name], indent)

    def below(self, lines, indent):
        """The words that are left and that these lines name."""
        text = ""
        for name in self.named(lines):
            if name in self.left:
                self.left.remove(name)
                text += self.word(name, indent)
        return text

    def call(self, found):
        """A call of the page, quoted anew around the lines by hand."""
        head, *clauses = self.clauses[found[1]]
        said = re.findall(r"^  \|.*\n", found[0], re.M)
        return "".join([wrapped(head), *said, *(wrapped(it, "  ") + self.below([it], "    ") for it in clauses)])

    def list(self, found):
        """A list of the page, made anew."""
        lists = {"Words": map(self.word, self.listed), "Values": self.named_values(found.string)}
        return found[1] + "".join(lists.get(found[2]) or all_calls(self.crate))

    def named_values(self, text):
        """The values that the clauses and words of the page name."""
        shown = text[: text.find("\n## Values")]
        for name in sorted(self.values):
            if re.search(rf"(?<![\w.]){name}(?![\w:`])", shown):
                yield wrapped(self.values[name])


def all_calls(crate):
    """The calls of each module, by the type that has them; a star stands behind each that has a counted call."""
    for path in sources(crate):
        text, calls = path.read_text(), {}
        for it in re.finditer(r"^( *)pub fn (\w+)", text, re.M):
            owner = re.findall(r"^impl\b[^{]*?> (\w+)<", text[: it.start()], re.M)[-1] if it[1] else ""
            calls.setdefault(owner.replace("LimitedHashMap", ""), []).append(it[2])
        for owner, names in calls.items():
            plain = [it for it in names if it.removesuffix("_counted") not in {*names} - {it}]
            stars = [f"{it}{'*' * (f'{it}_counted' in names)}" for it in plain]
            module = path.relative_to(crate / "src").with_suffix("").as_posix()
            yield wrapped(f"{module:<18}{owner}{': ' * bool(owner)}{' '.join(stars)}", further=" " * 20)


def pages():
    return [CRATES / crate / "CALLING.md" for crate in TYPES]


def written(page):
    """The page, printed anew but for what is written by hand."""
    text = page.read_text()
    shown = Page(text, page.parent)
    return LIST.sub(shown.list, CALL.sub(shown.call, text))


def claims(page):
    """Of each call and each list of the page, whether it stands there as it is printed."""
    text = page.read_text()
    shown, printed = ([*CALL.finditer(it), *LIST.finditer(it)] for it in (text, written(page)))
    yield from ((f"{page.parent.name}: {old[0].splitlines()[0]}", old[0] == new[0]) for old, new in zip(shown, printed))
    if page.parent.name == "halfbrown":
        yield "CALLING: its lists", [it[2] for it in LIST.finditer(text)] == ["Words", "All calls"]
    else:  # It has every call.
        calls = [name for path in sources(page.parent) for name in re.findall(r"^    pub fn (\w+)", path.read_text(), re.M)]
        yield f"{page.parent.name}: its calls", {*calls} == {it[1] for it in CALL.finditer(text)}
        yield f"{page.parent.name}: its words", bool(Page(text, page.parent).listed) == ("\n## Words\n" in text)
