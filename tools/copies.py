"""A copy of the library in another repository: what was copied there, and how other texts take its place.

A thing is a file, by its path from the top of that repository, or a line of its crates.txt, by `crates.txt: NAME`. The record beside the facade has
the sum of each, so that a text which only its user changed is told from one that this version changed. What an update replaces, git has there.
"""
import hashlib
import os
import shutil
import subprocess

from repository import FACADE, PARTS, TOP, Crate, crates_in, files_of, read_text

OWN = f"crates/{FACADE}"
RECORD = f"{OWN}/COPIED"
LINES, LINE = "crates.txt", "crates.txt: "
HEAD = f"# {FACADE} and the libraries below it, lowest first.\n"
# What proofs, builds and tools leave.
IGNORED = ("/crates/*/out/", "__pycache__/")


def sum_of_text(text):
    return hashlib.sha256(text).hexdigest()


def text_at(path):
    """Returns the bytes of a file, or None where nothing is; of a folder a text that no file of the library has."""
    if not os.path.lexists(path):
        return None
    if not os.path.isfile(path):
        return b"\0"
    with open(path, "rb") as it:
        return it.read()


def told_in(row):
    """Returns a row of crates.txt without its comment."""
    return row.partition("#")[0].strip()


def as_thing(line):
    """Returns a line of crates.txt as a thing, and its text, in which spaces do not count."""
    return f"{LINE}{Crate(line).name}", " ".join(line.split()).encode()


class Change:
    """What has to be done so that a copy has the wanted things: the names of those that it lacks, that are replaced and that go. `changed` are those of
    these which the user had changed, `kept` those that the user alone changed, and `others` those of the user by the name of a wanted one."""

    def __init__(self, copy, wanted):
        self.wanted, self.missing, self.replaced, self.removed = wanted, [], [], []
        self.changed, self.kept, self.others = [], [], []
        there = copy.there({*wanted, *copy.sums})
        for name in sorted({*wanted, *copy.sums}):
            new, now = (sum_of_text(it[name]) if name in it else None for it in (wanted, there))
            old = copy.sums.get(name)
            if now == new:
                continue
            kind = self.missing if now is None else self.others if old is None else self.kept if new == old else self.replaced if new else self.removed
            kind.append(name)
            if now not in (None, old) and kind in (self.replaced, self.removed):
                self.changed.append(name)
        # (a crate that no version copied is the user's)
        crates = {it.split("/")[1] for it in wanted if it.startswith("crates/")} - {it.split("/")[1] for it in copy.sums if it.startswith("crates/")}
        files = (f"crates/{name}/{part}/{it}" for name in sorted(crates) for part in PARTS for it in files_of(f"{copy.folder}/crates/{name}/{part}"))
        self.others += [it for it in files if it not in wanted]

    def files(self):
        """Returns the files that are replaced or removed."""
        return sorted({LINES if it.startswith(LINE) else it for it in [*self.replaced, *self.removed]})

    def lines(self, text):
        """Returns the text of crates.txt after the change. A comment stays where it is."""
        rows = []
        for row in text.splitlines():
            line = told_in(row)
            name = f"{LINE}{Crate(line).name}" if line else None
            if name in self.replaced:
                row = row.replace(line, self.wanted[name].decode())
            elif name in self.removed:
                row = row[len(row.partition("#")[0]) :]
            if row or not line:
                rows.append(row)
        new = [self.wanted[it].decode() for it in self.wanted if it in self.missing and it.startswith(LINE)]
        head = [HEAD.strip()] if new and HEAD.strip() not in rows else []
        return "".join(f"{row}\n" for row in [*rows, *head, *new])


class Copy:
    """The copy in a folder, by its record."""

    def __init__(self, folder):
        self.folder, self.version, self.taken, self.sums = folder, None, [], {}
        if os.path.isfile(f"{folder}/{RECORD}"):
            head, *rows = read_text(f"{folder}/{RECORD}").splitlines()
            self.version, _, taken = head.removeprefix(f"# {FACADE} ").partition(": ")
            self.taken = taken.split()
            for row in rows:
                sum, _, name = row.partition("  ")
                if row.startswith(f"# {LINE}"):
                    name, line = as_thing(row.removeprefix(f"# {LINE}"))
                    sum = sum_of_text(line)
                self.sums[name] = sum

    def there(self, names):
        """Returns the texts of those things that the folder has."""
        found = {it: text_at(f"{self.folder}/{it}") for it in names if not it.startswith(LINE)}
        if os.path.isfile(f"{self.folder}/{LINES}"):
            found |= dict(as_thing(it.line) for it in crates_in(self.folder).values())
        return {name: text for name, text in found.items() if text is not None}

    def not_in_git(self, files):
        """Returns those of the files whose texts git has not; None if it has nothing, since the folder is in no repository."""
        if not files:
            return []
        words = ["git", "-C", self.folder, "status", "--porcelain", "--untracked-files=all", "--ignored", "--", *files]
        ran = subprocess.run(words, capture_output=True, encoding="utf-8")
        return None if ran.returncode else [it[3:] for it in ran.stdout.splitlines()]

    def text_of(self, file):
        return read_text(f"{self.folder}/{file}") if os.path.isfile(f"{self.folder}/{file}") else ""

    def ignored(self):
        """Returns the text of .gitignore with the lines that it lacks."""
        text = self.text_of(".gitignore")
        gap = "\n" if text and not text.endswith("\n") else ""
        lacks = [it for it in IGNORED if it not in text.splitlines()]
        return text + gap * bool(lacks) + "".join(f"{it}\n" for it in lacks)

    def make(self, change, record):
        """Makes the change, a file at a time, and the record last, so that the next run goes on with one that was cut off."""
        for name in (it for it in [*change.missing, *change.replaced] if not it.startswith(LINE)):
            self.put(name, change.wanted[name])
        for name, text in ((LINES, change.lines(self.text_of(LINES))), (".gitignore", self.ignored())):
            if text != self.text_of(name):
                self.put(name, text.encode())
        self.remove(change)
        if record != self.text_of(RECORD):
            self.put(RECORD, record.encode())

    def put(self, file, text):
        """Writes a file at once, so that none is there in part; one that stands here by its path may be run as here."""
        path = f"{self.folder}/{file}"
        os.makedirs(os.path.dirname(path), exist_ok=True)
        with open(f"{path}.part", "wb") as to:
            to.write(text)
        if os.path.isfile(f"{TOP}/{file}"):
            shutil.copymode(f"{TOP}/{file}", f"{path}.part")
        os.replace(f"{path}.part", path)

    def remove(self, change):
        """Removes what goes, and the folders that are empty then; of a crate that goes also what was built of it."""
        gone = [it for it in self.sums if it not in change.wanted and not it.startswith(LINE)]
        for name in (it for it in change.removed if not it.startswith(LINE)):
            os.remove(f"{self.folder}/{name}")
        for at in map(os.path.dirname, gone):
            while at and os.path.isdir(f"{self.folder}/{at}") and not os.listdir(f"{self.folder}/{at}"):
                os.rmdir(f"{self.folder}/{at}")
                at = os.path.dirname(at)
        for crate in {"/".join(it.split("/")[:2]) for it in gone if it.startswith("crates/")}:
            if os.path.isdir(f"{self.folder}/{crate}") and os.listdir(f"{self.folder}/{crate}") == ["out"]:
                shutil.rmtree(f"{self.folder}/{crate}")


def record_of(version, taken, wanted):
    """Returns the record of a whole copy, which `sha256sum -c` reads."""
    lines = [f"# {LINE}{wanted[it].decode()}" for it in wanted if it.startswith(LINE)]
    sums = [f"{sum_of_text(text)}  {it}" for it, text in sorted(wanted.items()) if not it.startswith(LINE)]
    return "".join(f"{row}\n" for row in [f"# {FACADE} {version}: {' '.join(taken)}", *lines, *sums])
