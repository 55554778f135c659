"""Wrong bodies: where they stand, what each changes in its crate, and which clause of which function has to refuse it."""
import glob
import itertools
import os
import re

from declared import INVARIANT, UNNAMED, declared
from repository import TOP, crates_in, read_text

# The bodies of a crate stand in one file of this folder, and one more file there names those that are tried whenever something lands.
BODIES, ALWAYS = "wrong-bodies", "wrong-bodies/always.txt"
# A body's heading. A function is named by its path below its crate. One that it calls may be of another crate, and its path begins with that.
HEAD = re.compile(r"refused by (?P<clause>\S+) of (?P<of>\S+)(?: in (?P<caller>\S+))?")
HEADING = re.compile(r"(?P<name>[a-z0-9-]+): (?P<refused>refused by .*)")
FORM = "`refused by CLAUSE of FUNCTION`, or `refused by CLAUSE of CALLED in FUNCTION`"
# What refuses a body that is proved, and whose function may wait then: none of its crate may, by crates.txt.
COUNT = "may_wait"
# The kinds of lines that may follow one another below a heading; "" stands before the first and behind the last.
KINDS = {"": ("file",), "file": ("old",), "old": ("new",), "new": ("old", "file", "")}
# What stands in a clause, and in no body.
GHOST = re.compile(r"\b(ensures|requires|ghost)\b|[≡λ∷×→⊤⟦]")
IMPORT = re.compile(r"\s*(pub(\([^)]*\))? )?(ghost )?use\b")
# An import of words: a crate, its part, a module there, and the words.
WORDS = re.compile(r"\buse Rattle\.(\w+)\.(specs|proofs)\.(?!declared\b)([\w.]+?)\.\{([^}]*)\}")


class Unfit(Exception):
    """An edit cannot be laid in; says why."""


def told(names):
    return ", ".join(f"`{it}`" for it in sorted(names)) or "there is none"


def clause_of(goal):
    """Returns the clause that a goal is of: one of the function, or `CLAUSE of CALLED`. A goal of a loop or of a safe step is of none, and is returned."""
    clause = goal.partition("-clause-")[2]
    if called := re.match(r"([\w+]+?)(-\S+?)??-requires(-|$)", goal):
        return f"{clause or UNNAMED['requires']} of {called[1]}"
    if goal.startswith("invariant_of-"):
        return INVARIANT
    if re.match(r"returns(-|$)", goal):
        return clause or UNNAMED["ensures"]
    return goal


class Edit:
    """A wrong body of a crate: what refuses it, and its lines. Its text is both, without its name."""

    def __init__(self, crate, name, refused, lines, place):
        self.crate, self.name, self.place = crate, f"{crate}/{name}", place
        self.text = "".join(f"{line}\n" for line in (refused, *lines))
        head = HEAD.fullmatch(refused)
        self.clause = head and head["clause"]
        # The function whose body is wrong; and what it calls, if a call of that is what is refused.
        self.function = head and (head["caller"] or head["of"])
        self.called = head["of"] if head and head["caller"] else None
        self.is_counted = self.clause == COUNT
        self.turns_a_clause = any(GHOST.search(old + new) for _, old, new in self.changes())

    def changes(self):
        """Yields each change: a file of the crate, the text there, and what stands in its place."""
        file = old = None
        for line in self.text.splitlines():
            kind, _, rest = line.partition(":")
            if kind == "file":
                file = rest.strip()
            elif kind == "old":
                old = rest.removeprefix(" ")
            elif kind == "new":
                yield file, old, rest.removeprefix(" ")

    def unknown_words(self):
        """Yields each word that it imports from a module of a crate that does not have it. Without the word it would be refused, whatever it says."""
        for crate, part, module, names in (it for _, _, new in self.changes() for it in WORDS.findall(new)):
            path = f"{TOP}/crates/{crate}/{part}/{module.replace('.', '/')}.antt"
            there = set(re.findall(r"[^\s(){},:;]+", read_text(path))) if os.path.isfile(path) else set()
            if crate in crates_in(TOP):
                yield from (f"{crate}/{part}/{module}.{name.strip()}" for name in names.split(",") if name.split()[0] not in there)

    def fault_in_head(self):
        """Returns what is wrong in the heading: it has another form, or it names no clause that is declared. None if nothing is."""
        if not self.clause:
            return f"its heading does not say {FORM}"
        if self.is_counted:
            return f"by crates.txt functions of {self.crate} may wait" if crates_in(TOP)[self.crate].may_wait else None
        if self.called:
            crate, _, path = self.called.partition("::")
            names = (declared(crate, path) if crate in crates_in(TOP) else declared(self.crate, self.called)).requires
            return None if self.clause in names else f"`{self.clause}` is nothing that `{self.called}` requires: {told(names)}"
        names = declared(self.crate, self.function).names
        return None if self.clause in names else f"`{self.clause}` is no clause of `{self.function}`, nor of its impl or its trait: {told(names)}"

    def is_proved_by_hand(self):
        """Returns whether the clause has a proof by hand in that function: an answer, a whole proof, or an invariant of a loop before it."""
        if self.is_counted:
            return False
        folder = f"{TOP}/crates/{self.crate}/proofs/{self.function.replace('::', '/')}"
        if os.path.isfile(f"{folder}/Proof.antt") or os.path.isfile(f"{folder}/Invariants.antt"):
            return True
        answers = read_text(f"{folder}/Answers.antt") if os.path.isfile(f"{folder}/Answers.antt") else ""
        clauses = {clause_of(it) for it in re.findall(r"^(?:pub )?(\S+) : goal\.", answers, re.MULTILINE)}
        return bool(clauses & {self.wanted, UNNAMED["ensures"]})

    @property
    def wanted(self):
        """The clause of an open goal that refuses it, as `clause_of` has it."""
        return f"{self.clause} of {self.called.rpartition('::')[2]}" if self.called else self.clause

    def laid(self, folder):
        """Returns the files of the crate in the folder that it changes, with their texts then; each change is looked for in what those before it made."""
        texts = {}
        for file, old, new in self.changes():
            if not os.path.isfile(f"{folder}/{file}"):
                raise Unfit(f"there is no {file} in the crate")
            text = texts[file] if file in texts else read_text(f"{folder}/{file}")
            if not old or text.count(old) != 1:
                raise Unfit(f"this text stands {text.count(old) if old else 0} times, and not once: {old}")
            texts[file] = text.replace(old, new)
        if not texts:
            raise Unfit("it has no 'file:', 'old:' and 'new:'")
        return texts

    def lay(self, folder):
        """Changes the crate in the folder."""
        for file, text in self.laid(folder).items():
            with open(f"{folder}/{file}", "w", encoding="utf-8") as to:
                to.write(text)


def faults_in_lines(rows):
    """Yields what is wrong in the order of the lines below a heading, at the number of a line."""
    at, kind = rows[0][0], ""
    for number, line in [*rows[1:], (rows[-1][0], ":")]:
        after = line.partition(":")[0]
        if line.startswith("#"):
            continue
        if after not in KINDS:
            yield number, f"this begins with none of `file:`, `old:` and `new:`: {line}"
            continue
        if after not in KINDS[kind]:
            if kind in ("file", "old"):
                yield at, f"a line `{kind}:` without a line `{KINDS[kind][0]}:` below it"
            elif after:
                yield number, f"a line `{after}:` without a line `{'old' if after == 'new' else 'file'}:` above it"
            else:
                yield at, "a body that changes nothing"
        at, kind = number, after


def blocks_in(text):
    """Yields the lines between two empty lines, each with its number."""
    numbered = enumerate(text.splitlines(), 1)
    for is_body, rows in itertools.groupby(numbered, lambda row: bool(row[1].strip())):
        if is_body:
            yield list(rows)


class Bodies:
    """The wrong bodies of a crate by its file in wrong-bodies/, and what is wrong in their form: pairs of a place and a sentence."""

    def __init__(self, crate):
        self.crate, self.edits, self.faults = crate, [], []
        if os.path.isfile(f"{TOP}/{BODIES}/{crate}.txt"):
            self.read_file(f"{BODIES}/{crate}.txt", read_text(f"{TOP}/{BODIES}/{crate}.txt"))

    def read_file(self, file, text):
        before = ""
        for rows in blocks_in(text):
            place, first = f"{file}:{rows[0][0]}", rows[0][1]
            heading = HEADING.fullmatch(first)
            if not heading:
                self.faults.append((place, f"this is no heading `NAME: ..` with {FORM}: {first}"))
                continue
            name = heading["name"]
            if name < before:
                self.faults.append((place, f"{name} stands behind {before}, and the bodies stand in the order of their names"))
            before = name
            self.add(name, heading["refused"], rows, file)

    def add(self, name, refused, rows, file):
        edit = Edit(self.crate, name, refused, [line for _, line in rows[1:]], f"{file}:{rows[0][0]}")
        if other := next((it for it in self.edits if it.name == edit.name), None):
            self.faults.append((edit.place, f"two bodies have the name {name}; the other is in {other.place}"))
        self.edits.append(edit)
        self.faults += [(f"{file}:{at}", what) for at, what in faults_in_lines(rows)]


def crates_with_bodies():
    """Returns the names of the crates that have wrong bodies, in their order."""
    files = glob.glob(f"{TOP}/{BODIES}/*.txt")
    return sorted(os.path.splitext(os.path.basename(it))[0] for it in files if it != f"{TOP}/{ALWAYS}")


def listed_in(text):
    """Yields the names CRATE/NAME of a list of wrong bodies, each with the number of its line; an empty line has none, and neither has a comment."""
    for number, line in enumerate(text.splitlines(), 1):
        if name := line.partition("#")[0].strip():
            yield number, name


def tried_always():
    """Returns the names of the wrong bodies that are tried whenever something lands."""
    return [name for _, name in listed_in(read_text(f"{TOP}/{ALWAYS}"))]


def faults_in_list(text, names):
    """Yields what is wrong in a list of wrong bodies, of which these are the names that it may have, at the number of a line."""
    seen = set()
    for number, name in listed_in(text):
        if name not in names:
            yield number, f"there is no wrong body {name}"
        elif name in seen:
            yield number, f"{name} stands twice"
        seen.add(name)
