"""A tool as a part of another one: what it printed, how long it took, and how many of what it tries passed and failed."""
import os
import re
import subprocess
import time

from repository import TOP

NICE = ("nice", "-n", "5")
COUNTS = re.compile(r"(\d+) passed, (\d+) failed$")


class Part:
    """A tool that ran, in the background if another one is to have the processors. Its last line, with the counts, is held back."""

    def __init__(self, name, *words, quiet=False, in_background=False):
        self.name, begun = name, time.time()
        how = {"cwd": TOP, "stdin": subprocess.DEVNULL, "stdout": subprocess.PIPE, "stderr": subprocess.STDOUT, "text": True, "errors": "replace"}
        self.printed, self.passed, self.failed = [], 0, 0
        command = [*(NICE if in_background else ()), f"{TOP}/tools/{name}", *words]
        with subprocess.Popen(command, **how) as ran:
            for line in map(str.rstrip, ran.stdout):
                if found := COUNTS.match(line):
                    self.passed, self.failed = map(int, found.groups())
                    continue
                self.printed.append(line)
                if not quiet:
                    print(line, flush=True)
        # (a part that was cut off has told no count)
        self.failed = max(self.failed, int(ran.returncode != 0))
        self.seconds = time.time() - begun


def tell_times(rows):
    """Prints a table of how long each part took, by its name and its seconds."""
    print(f"on {len(os.sched_getaffinity(0))} processors:")
    for name, seconds in rows:
        print(f"  {seconds:6.0f} s  {name}")
