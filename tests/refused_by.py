"""Whether the prover refuses edits: whether a goal of a function that an edit changes is not proved then.

A caller is proved by the contracts of what it calls, so no edit shows in another's function. So one check tries several that
change functions of different names. An edit that is tried by itself may also show in a caller. It fails if the prover is not
reached, if only a proof lost a name, or if all is proved.
"""

import collections
import itertools
import re

import tools

FUNCTION = re.compile(r"( *)(?:pub(?:\([^)]*\))? )?(?:const |unsafe )*fn (\w+)")
# A message of a check: the file, the line, after `error: ` the name of a declaration, and the text. What it says of a function.
PLACED = re.compile(r"(?:note: )?(?:\./)?((?:src|specs|proofs)/\S+?):(\d+):\d+: ?(?:error: (`[^`]*`: )?)?(.*)")
NOT_PROVED = re.compile(r"fn \S*?(\w+): .*did not prove.*")
# A proof misses a name, or was not read, which says nothing of a contract.
NO_NAME = re.compile(r"has no field|is not in scope|has no `|was not admitted|is no name")
UNREAD = re.compile(r"was rejected, (?:was|were) not checked")
ENDS = "logic=proved", "logic=not-proved", "only="

INHERENT = re.compile(r"impl(?:<(.*)>)? (\w+)(?:<([\w', ]+)>)? \{")

# A function's path is what a check calls it, or its module if it is a method of a trait, or of a type with known parameters.
Function = collections.namedtuple("Function", "name path file lines")


def path_of(name, indent, file, above):
    """The path of the function of this name, with this indent, above which its file has these lines."""
    module = file.removeprefix("src/").removesuffix(".rt").replace("/", "::")
    if not indent:
        return name if module in ("lib", "main") else f"{module}::{name}"
    found = INHERENT.match(next((it for it in reversed(above) if it[:1].strip()), ""))
    is_of_all = found and all(re.search(rf"\b{it}\b", found[1] or "") for it in re.findall(r"\w+", found[3] or ""))
    return f"{found[2]}::{name}" if is_of_all else module


def function_at(file, lines, at):
    """The function around this line of a file, or None."""
    first = next((it for it in range(at, -1, -1) if FUNCTION.match(lines[it])), None)
    if first is None:
        return None
    indent, name = FUNCTION.match(lines[first]).groups()
    is_end = re.compile(rf"{indent}}}|{indent}\S.*{{.*}}$").match
    last = next((it for it in range(first, len(lines)) if is_end(lines[it])), len(lines))
    # A goal of a return is placed at the first attribute above the function, if there is one.
    attributes = [*itertools.takewhile(lambda line: line.lstrip().startswith("#["), lines[first - 1 :: -1] if first else [])]
    path = path_of(name, indent, file, lines[:first])
    return Function(name, path, file, range(first - len(attributes), last + 1)) if at <= last else None


class Check:
    """What a check says of the functions of these paths, or of the whole crate if there are none."""

    def __init__(self, crate, paths=()):
        said = tools.said_by(["rt", "check", "--jobs", "1", *(f"--only={it}" for it in paths)], cwd=crate)
        # A message may go on in indented lines.
        self.lines = re.sub(r"\n {2,}", " ", said).splitlines()
        told = [it for it in self.lines if ": error" in it or it.startswith("note: ")]
        self.told = [it for it in map(PLACED.fullmatch, told) if it]
        self.unread = None if any(it.startswith(ENDS) for it in self.lines) else (self.lines or ["nothing was said"])[-1]
        for it in self.told:
            if ": error" in it[0] and not it[1].startswith("proofs/") and (not it[3] or NO_NAME.search(it[4])):
                self.unread = self.unread or it[0]

    def goal_of(self, functions, clause):
        """What names a goal that is not proved, or None. The goal is of this clause, or of any if it is empty, and of one of
        these functions, or of any if they are None."""
        is_of = re.compile(rf"`[^`]*{re.escape(clause)}`").search if clause else bool

        def is_in(file, line):
            folder = file.startswith("proofs/") and file.split("/")[-2]
            return any(folder == it.name or file == it.file and int(line) - 1 in it.lines for it in functions)

        for it in [] if self.unread else self.told:
            is_goal = is_of(it[0]) and not NO_NAME.search(it[4]) and not UNREAD.search(it[4])
            if is_goal and (functions is None or is_in(it[1], it[2])):
                return it[0].removeprefix("note: ")
        said = [it for it in map(NOT_PROVED.fullmatch, self.lines) if it and is_of(it[0]) and not self.unread]
        return next((it[0] for it in said if not functions or it[1] in [each.name for each in functions]), None)


def judge(edits, copy):
    """Whether each of these edits, which are planted in this copy of their crate, is refused, and by which goal."""
    crate = copy / "crates" / edits[0].crate
    changed = [[it for it in edit.functions if it] for edit in edits]
    # The callers of what is changed cost time, and seldom say more.
    paths = {it.path for it in sum(changed, [])}
    check = Check(crate, paths)
    goals = [check.goal_of(it, edit.clause) for it, edit in zip(changed, edits)]
    if len(edits) == 1 and not goals[0]:
        check = Check(crate) if paths else check
        goals = [check.goal_of(None, edits[0].clause)]
    lost = f"only a proof lost a name: {check.told[0][0]}" if check.told else "all is proved"
    return [(bool(goal), goal or check.unread or lost) for goal in goals]
