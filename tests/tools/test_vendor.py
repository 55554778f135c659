"""Tests of tools/vendor, with a made-up library and without `rt`. `tools/lists` runs them, as `python3 -m unittest discover tests/tools` does."""
import itertools
import os
import shutil
import signal
import subprocess
import sys
import tempfile
import time
import unittest

# (the tools that are tested)
sys.path.insert(0, os.path.join(os.path.dirname(os.path.abspath(__file__)), "..", "..", "tools"))

from copies import LINES, Change, Copy, as_thing, record_of
from repository import BESIDE, FACADE, TOP, files_of, read_text

ABOVE = BESIDE[0]
# The status of a process that was killed.
KILLED = 9
FIRST = {
    "VERSION": "1.0.0\n",
    "README.md": "[rules](docs/RULES.md), [code](crates/low/src/lib.rt)\n",
    "docs/RULES.md": "[top](../README.md)\n",
    **dict.fromkeys(("CHANGELOG.md", "LICENSE-APACHE", "LICENSE-MIT", "LICENSE-THIRD-PARTY"), "As it is.\n"),
    LINES: f"low may_wait=1: std\nold: low\n{FACADE}: old low # what users list\n{ABOVE}: {FACADE}\nprogram: {ABOVE}\n",
    "crates/low/src/lib.rt": "one\n",
    "crates/low/src/stays.rt": "stays\n",
    "crates/low/src/goes.rt": "goes\n",
    "crates/low/proofs/Lib.antt": "proved\n",
    "crates/low/stdout": "printed\n",
    "crates/old/src/lib.rt": "old\n",
    f"crates/{FACADE}/src/lib.rt": "facade\n",
    f"crates/{ABOVE}/src/lib.rt": "frames\n",
    "crates/program/src/main.rt": "program\n",
}
# A file and a crate more, one each that goes, and a file and lines that change.
SECOND = {name: text for name, text in FIRST.items() if not name.startswith("crates/old/") and name != "crates/low/src/goes.rt"} | {
    "VERSION": "1.1.0\n",
    LINES: f"low may_wait=2: std\nnew: low\n{FACADE}: new low # what users list\n{ABOVE}: {FACADE}\n",
    "crates/low/src/lib.rt": "two\n",
    "crates/low/src/comes.rt": "comes\n",
    "crates/new/src/lib.rt": "new\n",
}


def write(top, texts):
    for file, text in texts.items():
        os.makedirs(os.path.dirname(f"{top}/{file}"), exist_ok=True)
        with open(f"{top}/{file}", "w", encoding="utf-8") as to:
            to.write(text)


def read(top):
    """Returns the texts below a folder, but for what git has there."""
    return {file: read_text(f"{top}/{file}") for file in files_of(top) if not file.startswith(".git/")}


def commit(top):
    """Lets git have what is below a folder."""
    who = ["-c", "user.name=A user", "-c", "user.email=user@example.org"]
    for words in (["init", "-q"], ["add", "-A"], [*who, "commit", "-q", "--allow-empty", "-m", "All"]):
        subprocess.run(["git", "-C", top, *words], check=True, capture_output=True)


class InAFolder(unittest.TestCase):
    def setUp(self):
        room = tempfile.TemporaryDirectory(prefix="vendor-tests-")
        self.addCleanup(room.cleanup)
        self.room = os.path.realpath(room.name)
        self.folder = f"{self.room}/other"
        os.mkdir(self.folder)


class Taking(InAFolder):
    """The tool as a program, of a library that has one version and then another."""

    def setUp(self):
        super().setUp()
        self.be(FIRST)
        write(self.room, {"bin/rt": "#!/bin/sh\necho made-up\n"})
        os.chmod(f"{self.room}/bin/rt", 0o700)

    def be(self, texts):
        """Makes the library have these texts."""
        shutil.rmtree(f"{self.room}/library", ignore_errors=True)
        write(f"{self.room}/library", texts)
        os.mkdir(f"{self.room}/library/tools")
        for tool in files_of(f"{TOP}/tools"):
            if not tool.startswith("__pycache__"):
                shutil.copy(f"{TOP}/tools/{tool}", f"{self.room}/library/tools")

    def begin(self, *words):
        """Begins the tool, which an interrupt ends also if a shell began these tests in the background."""
        words = [sys.executable, f"{self.room}/library/tools/vendor", *words]
        how = {"stdout": subprocess.PIPE, "stderr": subprocess.PIPE, "encoding": "utf-8", "preexec_fn": interruptible}
        return subprocess.Popen(words, env={"PATH": f"{self.room}/bin:/usr/bin:/bin", "PYTHONDONTWRITEBYTECODE": "1"}, **how)

    def vendor(self, *words, status=0):
        """Runs the tool, which has to end so; returns what it says."""
        ran = self.begin(*words)
        said = "".join(ran.communicate())
        self.assertEqual(ran.returncode, status, said)
        return said

    def be_proved(self, top, *names):
        """Makes a repository look as tools/prove leaves it, which proved these crates as they stand here."""
        sums = f"from repository import *; crates = crates_in(TOP); print(*(sum_of(crates, it) for it in {names}))"
        how = {"env": {"PATH": f"{self.room}/bin", "PYTHONDONTWRITEBYTECODE": "1"}, "cwd": f"{self.room}/library/tools"}
        told = subprocess.run([sys.executable, "-c", sums], **how, stdout=subprocess.PIPE, encoding="utf-8", check=True).stdout
        for name, sum in zip(names, told.split()):
            write(top, {f"crates/{name}/out/made_from": sum, f"crates/{name}/out/rlib/stamp": f"{sum}, of {os.path.basename(top)}"})

    def test_a_copy_has_what_proofs_read_and_says_which_version_it_is(self):
        self.assertEqual(self.vendor("--version"), "1.0.0\n")
        write(self.folder, {LINES: "mine:\n", ".gitignore": "mine", "crates/mine/src/lib.rt": "mine\n"})
        self.assertIn("has version 1.0.0: ", self.vendor(self.folder))
        there = read(self.folder)
        wanted = {it: FIRST[it] for it in FIRST if it.startswith("crates/") and it not in ("crates/low/stdout", "crates/program/src/main.rt")}
        self.assertLessEqual(wanted.items(), there.items())
        self.assertEqual({it.split("/")[1] for it in there if it.startswith("crates/")}, {"mine", "low", "old", FACADE, ABOVE})
        self.assertEqual(there[".gitignore"], "mine\n/crates/*/out/\n__pycache__/\n")
        self.assertEqual(there[LINES].splitlines()[0::2], ["mine:", "low may_wait=1: std", f"{FACADE}: old low"])
        self.assertTrue(there[f"crates/{FACADE}/README.md"].startswith(f"# {FACADE} 1.0.0\n"))
        self.assertTrue(os.access(f"{self.folder}/tools/prove", os.X_OK))
        self.assertFalse(any(it.startswith("docs/") for it in there))

    def test_a_second_run_does_nothing(self):
        self.vendor(self.folder)
        times = {it: os.stat(f"{self.folder}/{it}").st_mtime_ns for it in files_of(self.folder)}
        for words in ([], ["--update"]):
            self.assertIn(": 0 files and lines copied, 0 replaced, 0 removed\n", self.vendor(self.folder, *words))
        self.assertEqual({it: os.stat(f"{self.folder}/{it}").st_mtime_ns for it in files_of(self.folder)}, times)

    def test_an_update_leaves_what_a_first_copy_has_and_what_is_the_users(self):
        write(self.folder, {LINES: "mine: # a comment\n", "crates/mine/src/lib.rt": "mine\n"})
        self.vendor(self.folder)
        write(self.folder, {"crates/old/out/built": "", "crates/low/out/built": ""})
        write(self.folder, {LINES: read_text(f"{self.folder}/{LINES}").replace("std\n", "std # first\n").replace("old: low\n", "old: low # second\n")})
        commit(self.folder)
        before = read(self.folder)
        self.be(SECOND)
        self.assertIn(f"{self.folder} has version 1.0.0; --update puts version 1.1.0 in its place", self.vendor(self.folder, status=2))
        self.assertEqual(read(self.folder), before)
        self.assertIn("has version 1.1.0, and had 1.0.0: ", self.vendor(self.folder, "--update"))
        there = read(self.folder)
        self.assertEqual(there.pop("crates/low/out/built"), "")
        rows = there.pop(LINES).splitlines()
        os.mkdir(f"{self.room}/fresh")
        write(f"{self.room}/fresh", {"crates/mine/src/lib.rt": "mine\n"})
        self.vendor(f"{self.room}/fresh")
        fresh = read(f"{self.room}/fresh")
        of_fresh = fresh.pop(LINES).replace("std\n", "std # first\n").splitlines()
        self.assertEqual(sorted(rows), sorted(["mine: # a comment", "# second", *of_fresh]))
        self.assertEqual(there, fresh)
        self.assertFalse(os.path.exists(f"{self.folder}/crates/old"))

    def test_a_text_that_git_has_not_is_not_replaced(self):
        self.vendor(self.folder)
        self.be(SECOND)
        before = read(self.folder)
        self.assertIn("is in no git repository", self.vendor(self.folder, "--update", status=2))
        commit(self.folder)
        changed = {"crates/low/src/lib.rt": "mine\n", "crates/old/src/lib.rt": "mine\n"}
        write(self.folder, changed)
        self.assertTrue(self.vendor(self.folder, "--update", status=2).endswith(f"; commit them and run this again: {', '.join(changed)}\n"))
        self.assertEqual(read(self.folder), {**before, **changed})
        commit(self.folder)
        told = self.vendor(self.folder, "--update")
        self.assertIn("".join(f"you had changed it, and git has your text: {it}\n" for it in changed), told)
        self.assertEqual(read(self.folder)["crates/low/src/lib.rt"], "two\n")

    def test_what_the_user_alone_changed_is_kept(self):
        self.vendor(self.folder)
        write(self.folder, {"crates/low/src/stays.rt": "mine\n", "crates/low/src/mine.rt": "mine\n"})
        commit(self.folder)
        self.be(SECOND)
        self.assertIn("kept as you have it: crates/low/src/stays.rt\n", self.vendor(self.folder, "--update"))
        there = read(self.folder)
        self.assertEqual([there[f"crates/low/src/{it}.rt"] for it in ("lib", "mine", "stays", "comes")], ["two\n", "mine\n", "mine\n", "comes\n"])

    def test_a_file_by_the_name_of_a_new_one_stays(self):
        self.vendor(self.folder)
        write(self.folder, {"crates/low/src/comes.rt": "mine\n"})
        commit(self.folder)
        before = read(self.folder)
        self.be(SECOND)
        self.assertTrue(self.vendor(self.folder, "--update", status=2).endswith(": crates/low/src/comes.rt\n"))
        self.assertEqual(read(self.folder), before)

    def test_a_crate_by_a_name_of_the_library_stays(self):
        write(self.folder, {"crates/low/src/lib.rt": "one\n", "crates/low/src/mine.rt": "mine\n"})
        before = read(self.folder)
        self.assertTrue(self.vendor(self.folder, status=2).endswith(": crates/low\n"))
        self.assertIn("no copy of the library", self.vendor(self.folder, "--update", status=2))
        self.assertEqual(read(self.folder), before)

    def test_the_facade_may_be_taken_alone_and_a_crate_beside_it_later(self):
        self.vendor(self.folder, FACADE)
        self.assertFalse(os.path.exists(f"{self.folder}/crates/{ABOVE}"))
        commit(self.folder)
        self.be(SECOND)
        self.vendor(self.folder, "--update")
        self.assertFalse(os.path.exists(f"{self.folder}/crates/{ABOVE}"))
        self.vendor(self.folder, ABOVE)
        self.assertEqual(read(self.folder)[f"crates/{ABOVE}/src/lib.rt"], "frames\n")
        self.assertIn("program is none of", self.vendor(self.folder, "program", status=2))

    def test_it_names_what_is_not_proved_in_the_folder(self):
        library, told = f"{self.room}/library", f"not proved yet in {self.folder}, where tools/prove does that: "
        self.assertIn(f"{told}low, old, {FACADE}, {ABOVE}\n", self.vendor(self.folder))
        self.be_proved(library, "low", "old", FACADE)
        self.assertIn(f"{told}{ABOVE}\n", self.vendor(self.folder))
        self.be_proved(self.folder, ABOVE)
        self.assertNotIn(told, self.vendor(self.folder))
        commit(self.folder)
        # (a newer version of one crate alone, which nobody proved)
        self.be({**FIRST, "VERSION": "1.1.0", f"crates/{ABOVE}/src/lib.rt": "other frames\n"})
        self.assertIn(f"{told}{ABOVE}\n", self.vendor(self.folder, "--update"))
        stamps = [read_text(f"{self.folder}/crates/{it}/out/rlib/stamp").partition(", ")[2] for it in ("low", ABOVE)]
        self.assertEqual(stamps, ["of library", "of other"])

    def test_a_crate_with_a_text_of_the_user_and_those_above_keep_their_proofs(self):
        self.vendor(self.folder)
        write(self.folder, {"crates/old/src/mine.rt": "mine\n", "crates/old/out/rlib/stamp": "of mine"})
        self.be_proved(f"{self.room}/library", "low", "old", FACADE, ABOVE)
        self.assertIn(f": old, {FACADE}, {ABOVE}\n", self.vendor(self.folder))
        self.assertEqual(read_text(f"{self.folder}/crates/old/out/rlib/stamp"), "of mine")
        self.assertFalse(os.path.exists(f"{self.folder}/crates/{FACADE}/out"))

    def test_it_ends_quietly_if_nobody_reads_what_it_prints(self):
        ran = self.begin(self.folder)
        ran.stdout.close()
        self.assertEqual((ran.stderr.read(), ran.wait()), ("", -signal.SIGPIPE))
        ran.stderr.close()
        self.assertIn(": 0 files and lines copied", self.vendor(self.folder))

    def test_it_ends_quietly_if_it_is_interrupted(self):
        # (it asks `rt` for the version of the toolchain behind the copy)
        write(self.room, {"bin/rt": f"#!/bin/sh\n: > {self.room}/begun\nexec /bin/sleep 60\n"})
        ran = self.begin(self.folder)
        while not os.path.exists(f"{self.room}/begun"):
            self.assertIsNone(ran.poll())
            time.sleep(0.01)
        ran.send_signal(signal.SIGINT)
        self.assertEqual((ran.communicate(), ran.returncode), (("", ""), 128 + signal.SIGINT))

    def test_pages_are_taken_and_updated_with_links_that_lead_somewhere(self):
        self.vendor(self.folder, "--docs")
        there = read(self.folder)
        self.assertEqual(there[f"docs/{FACADE}/README.md"], "[rules](RULES.md), [code](../../crates/low/src/lib.rt)\n")
        self.assertEqual(there[f"docs/{FACADE}/RULES.md"], "[top](README.md)\n")
        self.assertIn("[TABLES](../TABLES.md#which", there[f"docs/{FACADE}/reference/README.md"])
        commit(self.folder)
        self.be({**SECOND, "docs/RULES.md": "Other rules.\n"})
        self.vendor(self.folder, "--update")
        self.assertEqual(read(self.folder)[f"docs/{FACADE}/RULES.md"], "Other rules.\n")


def interruptible():
    signal.signal(signal.SIGINT, signal.SIG_DFL)


def things(texts):
    """Returns what a copy of these texts has."""
    lines = dict(as_thing(row.partition("#")[0]) for row in texts[LINES].splitlines())
    return lines | {it: texts[it].encode() for it in texts if it.startswith("crates/")}


def make(folder, texts):
    """Makes the folder a copy of these texts."""
    wanted, copy = things(texts), Copy(folder)
    copy.make(Change(copy, wanted), record_of(texts["VERSION"].strip(), [FACADE], wanted))


def status_of(steps, folder, texts):
    """Makes the folder a copy of these texts in a process that ends before a move or a removal, behind so many of them. Returns its status."""
    process = os.fork()
    if process:
        return os.waitstatus_to_exitcode(os.waitpid(process, 0)[1])
    left = itertools.count(steps, -1)
    try:
        for name in ("replace", "remove"):
            setattr(os, name, lambda *words, act=getattr(os, name): act(*words) if next(left) else os._exit(KILLED))
        make(folder, texts)
        os._exit(0)
    finally:
        os._exit(1)


class Killed(InAFolder):
    """The change of a copy, killed before each of its moves and removals."""

    def are_ended(self, texts):
        """Tells that the next run ends each run that was killed, on the way from what the folder has to a copy of these texts."""
        for steps in itertools.count():
            folder = f"{self.room}/{steps}"
            shutil.copytree(self.folder, folder)
            if (status := status_of(steps, folder, texts)) != KILLED:
                self.assertEqual((status, steps > 5), (0, True))
                break
            self.assertEqual(Copy(folder).not_in_git(Change(Copy(folder), things(texts)).files()), [])
            make(folder, texts)
        make(self.folder, texts)
        for it in range(steps):
            self.assertEqual(read(f"{self.room}/{it}"), read(self.folder))

    def test_the_next_run_ends_a_first_copy(self):
        commit(self.folder)
        self.are_ended(FIRST)

    def test_the_next_run_ends_an_update(self):
        make(self.folder, FIRST)
        commit(self.folder)
        self.are_ended(SECOND)
