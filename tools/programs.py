"""The programs that tools run: each is compiled once, with checks, without a proof and with tools/faults.c, and kept in the user's cache folder.

It is kept by the sum of what it was made from, so that tools that run beside one another, and the next run, share it.
"""
import contextlib
import fcntl
import hashlib
import os
import re
import subprocess
import tempfile
import time
from concurrent.futures import ThreadPoolExecutor

import examples
import together
from compiled import KEEP, NotBuilt, compile_at
from repository import (
    PARTS,
    TESTS,
    TEST_LINES,
    TOP,
    Crate,
    crates_in,
    in_cache,
    lay_beside,
    lay_sources,
    lay_texts,
    shared_below,
    stop,
    sum_of_crates,
    sum_of_folder,
)

FAULTS = f"{TOP}/tools/faults.c"
# The programs beside the crates, with their lines for crates.txt.
REPLAY, BENCH = "replay", "bench"
BESIDE = {
    REPLAY: "replay: framed futures_lite lite_mock bytes futures itoa rand_core tokio_util",
    BENCH: "bench may_wait=26: serving framed futures_lite futures bytes tokio_util rand_core rand_pcg",
}
# A program that no tool ran for so many seconds is removed.
KEPT_FOR = 3 * 24 * 3600
# How many seconds a program may run that nothing goes wrong in, on a busy machine.
PATIENCE = 600
# The status of a run that uses memory wrongly or keeps some at its end. No program and no test ends so by itself.
MISUSED = 99


def place():
    return in_cache("programs")


def is_test(name):
    return name == examples.NAME or name in crates_in(TOP, TEST_LINES)


def written(name):
    """Returns the files of a program that a tool writes, or None."""
    by = {examples.NAME: examples.tests, together.NAME: together.texts}.get(name)
    return by and by()


def line_and_folder(name):
    """Returns a program's line for crates.txt and its folder, from the top; one that a tool writes has none."""
    if name in (examples.NAME, together.NAME):
        return examples.LINE if name == examples.NAME else together.line(), None
    if name in BESIDE:
        return BESIDE[name], name
    return (crates_in(TOP, TEST_LINES)[name].line, f"{TESTS}/{name}") if is_test(name) else (crates_in(TOP)[name].line, f"crates/{name}")


def sum_of_program(name):
    """The sum of all that a program is made from."""
    line, folder = line_and_folder(name)
    shared = shared_below(line)
    below = [name for it in (Crate(line), *shared) for name in it.below]
    found = hashlib.sha256(sum_of_crates(crates_in(TOP), below, PARTS[:2]).encode() + "".join([line, *(it.line for it in shared)]).encode())
    for at in (*(f"{TESTS}/{it.name}" for it in shared), *[folder] * bool(folder)):
        for part in PARTS[:2]:
            found.update(sum_of_folder(f"{at}/{part}"))
    if not folder:
        found.update("".join(written(name).values()).encode())
    for file in (KEEP, FAULTS):
        with open(file, "rb") as it:
            found.update(it.read())
    return found.hexdigest()


def try_at(at, made, has_tests=False):
    """Compiles the crate in the folder with checks and with tools/faults.c; the program is left at `made`."""
    compile_at(at, made, [FAULTS], has_tests)


def compile_program(name, kept):
    """Compiles a program in a copy of the working tree, and leaves it where it is kept."""
    with tempfile.TemporaryDirectory(prefix=f"{name}-", dir=place()) as copy:
        lay_sources(copy)
        line, folder = line_and_folder(name)
        if not folder:
            at = lay_texts(copy, written(name), line)
        else:
            at = f"{copy}/crates/{name}" if folder == f"crates/{name}" else lay_beside(copy, folder, line)
        made = f"{copy}/made"
        try_at(at, made, is_test(name))
        os.rename(made, kept)


@contextlib.contextmanager
def slot():
    """Waits until fewer programs are being compiled than there are processors, by all tools together."""
    with contextlib.ExitStack() as held:
        while True:
            for number in range(len(os.sched_getaffinity(0))):
                lock = held.enter_context(open(f"{place()}/slot-{number}", "w", encoding="utf-8"))
                with contextlib.suppress(BlockingIOError):
                    fcntl.flock(lock, fcntl.LOCK_EX | fcntl.LOCK_NB)
                    yield
                    return
            held.close()
            time.sleep(0.2)


def built(name):
    """Returns where the program is, once it is compiled. A tool that asks for it meanwhile waits."""
    os.makedirs(place(), exist_ok=True)
    kept = f"{place()}/{name}-{sum_of_program(name)}"
    with open(f"{kept}.lock", "w", encoding="utf-8") as lock:
        fcntl.flock(lock, fcntl.LOCK_EX)
        if not os.path.exists(kept):
            with slot():
                compile_program(name, kept)
        os.utime(kept)
    return kept


def remove_old():
    """Removes the programs that no tool ran of late."""
    with contextlib.suppress(FileNotFoundError):
        for it in os.scandir(place()):
            if it.is_file() and it.stat().st_mtime < time.time() - KEPT_FOR:
                os.remove(it.path)


def build(names):
    """Compiles these programs side by side; returns where each will be, as futures by their names."""
    remove_old()
    lanes = ThreadPoolExecutor(len(os.sched_getaffinity(0)))
    found = {name: lanes.submit(built, name) for name in names}
    lanes.shutdown(wait=False)
    return found


def environment(program, fault="none:0:0"):
    """The environment of a run; a fault is as tools/faults.c has it."""
    return {"FAULT": fault, "TMPDIR": os.path.dirname(program), "ASAN_OPTIONS": f"detect_leaks=1:exitcode={MISUSED}"}


def run(program, words=(), given=""):
    """Runs a program in which nothing goes wrong."""
    how = {"env": environment(program), "input": given, "capture_output": True, "encoding": "utf-8", "errors": "replace"}
    return subprocess.run([program, *words], timeout=PATIENCE, **how)


def tests_in(program):
    """Returns the names of the tests in a program of tests, which runs one at a time."""
    return re.findall(r"^(\S+): test$", run(program, ["--list"]).stdout, re.M)


def answered(name, words=(), given=""):
    """Returns the lines that a program prints, and whether it ended well, if not with a line of ours that says so. A program that is not built stops the tool."""
    try:
        ran = run(built(name), words, given)
    except NotBuilt as why:
        stop(why)
    if ran.returncode:
        print(f"{name} ended with status {ran.returncode}:\n{ran.stderr[-3000:]}")
    return ran.stdout.splitlines(), not ran.returncode
