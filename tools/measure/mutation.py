"""Mutants, and over which code each was judged.

A mutant is a function with one change that makes it wrong. `mutants/CRATE.txt` has a section for each mutant of a crate:

    ordered_list_ends_as_bullets
      why: what the change breaks, if the name doesn't say it
      file: src/event.rt
      old: TagOf::List(start) => TagEnd::List(start.is_some()),
      new: TagOf::List(start) => TagEnd::List(start.is_none()),

The old text is in that file of the crate exactly once. Further pairs of `old:` and `new:` apply to what the earlier ones made.
A text of several lines goes on in lines that begin with `     | `.

`results/mutants.md` has a section for each crate, with a sum of the code over which its mutants were judged, and a row for
each mutant, with a sum of its own text.
"""
import glob
import hashlib
import os
import re

ROOT = os.path.dirname(os.path.dirname(os.path.dirname(os.path.realpath(__file__))))
RESULT = f"{ROOT}/results/mutants.md"

FIELD = re.compile(r"  (why|file|old|new):(?: (.*))?")
HEADER = re.compile(r"(?P<indent> *)(?:pub(?:\([^)]*\))? )?(?:const )?(?:unsafe )?fn (?P<name>\w+)")
FILES = re.compile(r"^Files `([0-9a-f]+)`", re.M)


def read(file):
    with open(file, encoding="utf-8") as it:
        return it.read()


class Fault(Exception):
    """Why a file of mutants can't be read."""


class Mutant:
    """A wrong body. `pairs` has the file, the old text and the new text of each change."""

    def __init__(self, crate, name):
        self.crate, self.name, self.why, self.pairs = crate, name, "", []

    def key(self):
        """A short sum of the changes."""
        return hashlib.sha256(repr(self.pairs).encode()).hexdigest()[:8]

    def apply(self, texts):
        """Changes the texts of the crate's files by path, or says why it can't be done."""
        made = dict(texts)
        for path, old, new in self.pairs:
            if path not in made:
                file = f"{ROOT}/crates/{self.crate}/{path}"
                if not path.startswith("src/") or not os.path.isfile(file):
                    return f"there is no file {path}"
                made[path] = read(file)
            if not old or made[path].count(old) != 1:
                return f"the text `{old}` is in {path} {made[path].count(old)} times"
            made[path] = made[path].replace(old, new)
        if not self.pairs:
            return "it has no pair of old: and new:"
        texts.update(made)
        return ""


def mutants_of(crate, make=Mutant):
    """The mutants of a crate, in the order of their names."""
    path = f"{ROOT}/mutants/{crate}.txt"
    return sorted(parsed(crate, read(path), make), key=lambda it: it.name) if os.path.isfile(path) else []


def parsed(crate, text, make=Mutant):
    """The mutants that the text of a file has."""
    found, file, texts, before = [], "", {}, ""
    for number, line in enumerate(text.split("\n"), 1):
        field = FIELD.fullmatch(line)
        if re.fullmatch(r"\w+", line) and before != "old":
            if line in [it.name for it in found]:
                raise Fault(f"mutants/{crate}.txt:{number}: a second {line}")
            found.append(make(crate, line))
            file, before = "", "name"
        elif field and found and (field[1] == "new") == (before == "old"):
            before, words = field[1], field[2] or ""
            if before == "why":
                found[-1].why = words
            elif before == "file":
                file = words
            elif before == "old":
                texts = {"old": words}
            else:
                found[-1].pairs.append((file, texts["old"], words))
        elif re.match(r"     \|( |$)", line) and before == "old":
            texts["old"] += "\n" + line[7:]
        elif re.match(r"     \|( |$)", line) and before == "new":
            path, old, new = found[-1].pairs.pop()
            found[-1].pairs.append((path, old, f"{new}\n{line[7:]}"))
        elif line:
            raise Fault(f"mutants/{crate}.txt:{number}: this line has no meaning here: {line}")
    if before == "old":
        raise Fault(f"mutants/{crate}.txt: the last mutant has no new text")
    return found


def crates_below():
    """The repository's crates, lowest first, each with all crates below it."""
    below = {}
    for line in read(f"{ROOT}/crates.txt").split("\n"):
        name, colon, words = line.partition("#")[0].partition(":")
        if colon:
            below[name.split()[0]] = words.split()
    closed = {}
    for name in below:
        direct = [it for it in below[name] if it in below]
        closed[name] = {*direct, *(low for it in direct for low in closed[it])}
    return closed


class Sums:
    """Sums of the code over which mutants are judged."""

    def __init__(self, root=ROOT):
        self.root, self.known = root, {}

    def of(self, crate, below):
        """The sum of what decides whether a mutant of the crate is refused: its own code and definitions, and what the crates
        below declare and define. Comments don't count, nor do bodies below: a caller's proof has the callee's clauses alone."""
        parts = [self.part(crate, False), *(self.part(it, True) for it in sorted(below))]
        return hashlib.sha256(repr(parts).encode()).hexdigest()[:12]

    def part(self, crate, is_below):
        if (crate, is_below) not in self.known:
            home = f"{self.root}/crates/{crate}"
            files = sorted([*glob.glob(f"{home}/src/**/*.rt", recursive=True), *glob.glob(f"{home}/specs/**/*.antt", recursive=True)])
            code = [(it.removeprefix(home), (declarations if is_below else code_of)(read(it))) for it in files]
            self.known[crate, is_below] = hashlib.sha256(repr((crate, code)).encode()).hexdigest()
        return self.known[crate, is_below]


def code_of(text):
    """The lines of a text that aren't empty, and no comments as a whole."""
    return [it for it in text.split("\n") if it.strip() and not it.lstrip().startswith(("//", "--"))]


def declarations(text):
    """The code of a file without the bodies of functions that have clauses, but for constant functions. Such a body is between
    braces that are alone on their lines, below the clauses, at the function's indentation."""
    lines, kept, at = code_of(text), [], 0
    while at < len(lines):
        header = HEADER.match(lines[at])
        kept.append(lines[at])
        at += 1
        if not header or "const fn" in header[0] or lines[at - 1].endswith(("{", ";", "}")):
            continue
        opens, ends = header["indent"] + "{", header["indent"] + "}"
        has_clauses = False
        while at < len(lines) and lines[at] not in (opens, ends) and not HEADER.match(lines[at]):
            has_clauses = has_clauses or lines[at].lstrip().startswith("ensures")
            kept.append(lines[at])
            at += 1
        if has_clauses and at < len(lines) and lines[at] == opens and ends in lines[at:]:
            at = lines.index(ends, at) + 1
    return kept


def sections():
    """The sections of the result file, by crate."""
    found = re.split(r"^(?=## )", read(RESULT), flags=re.M)[1:] if os.path.isfile(RESULT) else []
    return {it.split("\n")[0].removeprefix("## ").strip(): it.rstrip("\n") + "\n" for it in found}


def rows_of(section):
    """The rows of a section, by the names of their mutants."""
    return {it.split("`")[1]: it for it in section.split("\n") if it.startswith("| `")}


def files_of(section):
    """The sum of the code over which a section's mutants were judged."""
    found = FILES.search(section)
    return found[1] if found else ""


def unjudged(crate, files, section, mutants):
    """The mutants of which the section of a crate doesn't say that they are refused over this code."""
    rows = rows_of(section) if files_of(section) == files else {}
    return [it for it in mutants if not is_refused(rows.get(it.name, ""), it)]


def is_refused(row, mutant):
    cells = row.split(" | ")
    return len(cells) > 3 and cells[1] == f"`{mutant.key()}`" and not cells[3].startswith("not refused")
