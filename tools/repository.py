"""What the tools share: where the repository is, its crates by the lines of crates.txt, and how a tool stops at bad words."""
import argparse
import functools
import hashlib
import json
import os
import re
import shutil
import signal
import subprocess
import sys

TOP = os.path.dirname(os.path.dirname(os.path.abspath(__file__)))
# The folders of a crate that its proof reads.
PARTS = ("src", "specs", "proofs")
FACADE = "futures_lite"
# Crates that stand on the facade, and that users list beside it. Each has a part of docs/INDEX.md.
BESIDE = ("framed", "serving", "compat")
# The crates of tests stand below one folder, with their lines. What they share stands there too, so that no gate proves it.
TESTS, TEST_LINES = "tests", "tests/lines.txt"
# The suffixes in a crate of those of a program beside the crates: `rt ci` takes a file of a crate's kind in a crate alone.
IN_A_CRATE = {".rs": ".rt", ".txt": ".antt"}
# In the root of a program: its `main`, and the name of each item.
MAIN, ITEM = re.compile(r"^fn main\(.*?^\}\n", re.M | re.S), re.compile(r"^(?:const|enum|fn|mod|struct|type) (\w+)", re.M)

# A line of crates.txt, as `rt` takes it.
ROW = re.compile(r"[^\s:=]+( +(staticlib|wasm64|[^\s:=]+=[^\s:]+))*\s*(:.*)?")

# What a check prints of an error; indented lines below it belong to it.
ERROR = re.compile(r"(?:\S+: )?error\b")
# What it prints beside: a goal that stays open, what it has to show, and what is not proved. If that only calls what is not proved, the error is there.
OPEN = re.compile(
    r"note: (?:\./)?src/\S+: |note: `[^`]+` of \S+ must prove: |"
    r"(?:fn|impl|struct|enum|trait) \S+: (?!proved)(?!no proof: it (?:calls|passes) [^;]*$)"
)
# How many lines of a log are printed, and how many of its end if it tells no error.
MOST_ERRORS, LOG_END = 40, 30


def errors_in(log):
    """Returns the lines of a check's log that tell what is wrong, the errors first, and how many more there are; the last lines if none tells it."""
    errors, others, belongs = [], [], False
    for line in log.splitlines():
        belongs = bool(ERROR.match(line)) or belongs and line.startswith(" ")
        if belongs:
            errors.append(line)
        elif OPEN.match(line):
            others.append(line)
    found = errors + others
    if len(found) > MOST_ERRORS:
        found[MOST_ERRORS - 1 :] = [f"({len(found) - MOST_ERRORS + 1} more lines)"]
    return found or log.splitlines()[-LOG_END:]


def stop(why):
    """Ends the tool with one line on standard error."""
    print(f"{os.path.relpath(os.path.realpath(sys.argv[0]), os.path.realpath(TOP))}: {why}", file=sys.stderr)
    sys.exit(2)


def end_with(main):
    """Ends the tool with the status that `main` returns. It says nothing if someone interrupts it, or reads no more of what it prints."""
    signal.signal(signal.SIGPIPE, signal.SIG_DFL)
    try:
        sys.exit(main())
    except KeyboardInterrupt:
        sys.exit(128 + signal.SIGINT)


def tell_counts(passed, failed):
    """Prints the last line of a tool of tests, and returns its status."""
    print(f"{passed} passed, {failed} failed", flush=True)
    return 1 if failed else 0


class Words(argparse.ArgumentParser):
    """What a tool is called with; its help is the tool's docstring."""

    def __init__(self, told):
        super().__init__(description=told, formatter_class=argparse.RawDescriptionHelpFormatter, allow_abbrev=False)

    def error(self, message):
        stop(f"{message}; --help says more")


class Crate:
    """A line of crates.txt."""

    def __init__(self, line):
        head, _, below = line.partition(":")
        self.line = line
        self.name = head.split()[0]
        self.below = below.split()
        # (a line says how many functions of the crate may wait, where any may)
        self.may_wait = sum(map(int, re.findall(r"\bmay_wait=(\d+)", head)))


def read_text(path):
    with open(path, encoding="utf-8") as file:
        return file.read()


def version():
    """Returns the number of this version."""
    return read_text(f"{TOP}/VERSION").strip()


def crates_in(top, lines="crates.txt"):
    """Returns the crates that a file of top lists, in its order, by name. Stops the tool if there is no such file, or a line that `rt` refuses."""
    if not os.path.isfile(f"{top}/{lines}"):
        stop(f"{top} has no file {lines}")
    rows = [row.split("#")[0].strip() for row in read_text(f"{top}/{lines}").splitlines()]
    for row in filter(None, rows):
        if not ROW.fullmatch(row):
            stop(f"{top}/{lines}: a line is NAME [may_wait=N] [: LIBRARY ..], and not {row}")
    return {it.name: it for it in map(Crate, filter(None, rows))}


def with_below(crates, names):
    """Returns the names and those of all crates of the repository below them, in the order of crates.txt."""
    found, left = set(), list(names)
    while left:
        name = left.pop()
        if name in crates and name not in found:
            found.add(name)
            left += crates[name].below
    return [name for name in crates if name in found]


def files_of(folder):
    """Returns the files below the folder that a proof may read or a check look at, by their paths from there."""
    walked = ((at, name) for at, _, names in os.walk(folder) for name in names)
    return sorted(os.path.relpath(f"{at}/{name}", folder) for at, name in walked)


def link(source, to):
    try:
        os.link(source, to)
    except OSError:
        shutil.copy2(source, to)


def link_kept(source, to):
    """Copies a file of what a check kept. A checked module is never written again, so a second name is enough."""
    return link(source, to) if source.endswith(".oantt") else shutil.copy2(source, to)


def built_in(place, name):
    """Returns the stamp of what is built of a crate in a place, and the format of its library; None where nothing is. One text may have two formats."""
    folder = f"{place}/crates/{name}/out/rlib"
    found = [read_text(it) if os.path.isfile(it) else None for it in (f"{folder}/stamp", f"{folder}/{name}.rlib/format")]
    return found if found[0] else None


def hand_on(name, place, to):
    """Gives what is built of the crate in one place to another, where `rt` takes it by the sum of what it was made from."""
    here = built_in(place, name)
    if here and here != built_in(to, name):
        built, there = (f"{it}/crates/{name}/out/rlib" for it in (place, to))
        shutil.rmtree(f"{there}.part", ignore_errors=True)
        shutil.copytree(built, f"{there}.part", copy_function=link)
        shutil.rmtree(there, ignore_errors=True)
        os.rename(f"{there}.part", there)


def lay_sources(copy):
    """Copies the crates."""
    shutil.copytree(f"{TOP}/crates", f"{copy}/crates", ignore=shutil.ignore_patterns("out"))
    for file in ("crates.txt", "HANDLES"):
        if os.path.isfile(f"{TOP}/{file}"):
            shutil.copy(f"{TOP}/{file}", copy)


def lay_crates(copy):
    """Copies the crates, with what is built of them."""
    lay_sources(copy)
    for name in os.listdir(f"{TOP}/crates"):
        hand_on(name, TOP, copy)


def make_library(copy, name):
    """Makes a library of a program in the copy: it has no `main` there, and its other items are public. A library stays as it is."""
    program, library = (f"{copy}/crates/{name}/src/{it}.rt" for it in ("main", "lib"))
    if os.path.isfile(program):
        with open(library, "w", encoding="utf-8") as write:
            write.write(ITEM.sub(r"pub \g<0>", MAIN.sub("", read_text(program))))
        os.remove(program)


def lay_texts(copy, texts, line):
    """Writes a crate that stands beside the others, by its line for crates.txt and its files, into the copy; returns its folder there. What it uses is a
    library there, also a program."""
    at = f"{copy}/crates/{Crate(line).name}"
    for file, text in texts.items():
        stem, suffix = os.path.splitext(file)
        to = f"{at}/{stem}{IN_A_CRATE.get(suffix, suffix)}"
        os.makedirs(os.path.dirname(to), exist_ok=True)
        with open(to, "w", encoding="utf-8") as write:
            write.write(text)
    with open(f"{copy}/crates.txt", "a", encoding="utf-8") as lines:
        lines.write(f"{line}\n")
    for name in Crate(line).below:
        make_library(copy, name)
    return at


def shared_below(line):
    """Returns the crates of tests that a crate uses, by its line, and those that they use."""
    tests = crates_in(TOP, TEST_LINES)
    return [tests[it] for it in with_below(tests, Crate(line).below)]


def crates_with_tests():
    """Returns the names of the crates of tests but those that others of them use, which have no tests."""
    tests = crates_in(TOP, TEST_LINES).values()
    return [it.name for it in tests if not any(it.name in other.below for other in tests)]


def lay_beside(copy, folder, line):
    """Copies a crate that stands beside the others, by its line for crates.txt, into the copy, and the crates of tests that it uses. One that is there
    already stays. Returns the crate's folder there."""
    at = f"{copy}/crates/{Crate(line).name}"
    if not os.path.isdir(at):
        for it in shared_below(line):
            lay_beside(copy, f"{TESTS}/{it.name}", it.line)
        lay_texts(copy, {file: read_text(f"{TOP}/{folder}/{file}") for file in files_of(f"{TOP}/{folder}")}, line)
    return at


@functools.cache
def kit():
    """Returns the folder of the toolchain."""
    return os.path.dirname(subprocess.run(["rt", "doc"], stdout=subprocess.PIPE, encoding="utf-8").stdout.strip())


@functools.cache
def toolchain():
    """The line of the toolchain, as bytes."""
    return subprocess.run(["rt", "version"], capture_output=True).stdout


@functools.cache
def sum_of_folder(folder, top=TOP):
    """The sum of the files below a folder, by its path from the top."""
    found = hashlib.sha256()
    for file in files_of(f"{top}/{folder}"):
        with open(f"{top}/{folder}/{file}", "rb") as read:
            found.update(f"{file}\0".encode() + read.read())
    return found.digest()


def sum_of_crates(crates, names, parts=PARTS, top=TOP):
    """The sum of the toolchain, and of these parts of these crates and of those below them."""
    found = hashlib.sha256(toolchain())
    for it in with_below(crates, names):
        # (how many functions may wait is no part of what a proof reads)
        found.update(re.sub(r" may_wait=\d+", "", crates[it].line).encode())
        for part in parts:
            found.update(sum_of_folder(f"crates/{it}/{part}", top))
    return found.hexdigest()


def sum_of(crates, name, top=TOP):
    """The sum of all that a crate's proof reads of a repository."""
    return sum_of_crates(crates, [name], top=top)


def made_from(name, top=TOP):
    """The file with the sum of what the crate's library in out/ was made from, as tools/prove left it."""
    return f"{top}/crates/{name}/out/made_from"


def tell_made_from(name, sum, top=TOP):
    if os.path.isdir(f"{top}/crates/{name}/out"):
        with open(made_from(name, top), "w", encoding="utf-8") as to:
            to.write(sum)


def is_made_from(name, sum, top=TOP):
    return os.path.isfile(made_from(name, top)) and read_text(made_from(name, top)) == sum


def left_by_ci(name):
    """The file with the sum of what `rt ci` made the crate's library in out/ from. What replaces this library removes the file. The library fits those below
    that the same run left, and no others."""
    return f"{TOP}/crates/{name}/out/rlib/left_by_ci"


def tell_left_by_ci(name, sum):
    with open(left_by_ci(name), "w", encoding="utf-8") as to:
        to.write(sum)


def is_left_by_ci(name, sum):
    return os.path.isfile(left_by_ci(name)) and read_text(left_by_ci(name)) == sum


def in_cache(name):
    """The path of what the tools keep by this name in the user's cache folder."""
    cache = os.environ.get("XDG_CACHE_HOME") or os.path.expanduser("~/.cache")
    return f"{cache}/sidzkura-{name}"


def counts_at():
    """The file with the counts of functions that may wait, of the crates that were proved on this machine, by their sums."""
    return in_cache("waits.json")


def read_counts():
    try:
        return json.loads(read_text(counts_at()))
    except (OSError, ValueError):
        return {}
