"""Runs of a program in which a call goes wrong, as tools/faults.c has it: of a request for memory, or of a read or a write of the standard streams."""
import contextlib
import io
import signal
import subprocess
import tempfile
from typing import NamedTuple

# How many seconds a run has, and one with all its copies, which are made one after the other; the status of a run that takes longer.
SECONDS, MOST_SECONDS, NO_END = 60, 600, "no end"


class Subject(NamedTuple):
    """A program with what it is run with. `earlier` requests for memory come before the first that counts."""

    path: str
    words: list
    given: bytes
    env: dict
    earlier: int = 0


class Run(NamedTuple):
    """How a run ended in which the Nth call of a kind went wrong; None for none."""

    words: list
    kind: str
    n: "int | None"
    status: "int | str"
    out: str
    err: str
    is_met: bool

    def printed(self):
        return self.status, self.out, self.err

    def told(self):
        return f"{self.status}\n  {self.out[:300]!r}\n  {self.err[:600]!r}"


def ran(subject, fault, seconds):
    """Runs a program; returns its status, what it printed on either stream, and what tools/faults.c told of the fault."""
    with contextlib.ExitStack() as files:
        # (files and no pipes, since a copy of the process has to find what was read and printed before it)
        given, out, err, told = (files.enter_context(tempfile.TemporaryFile()) for _ in range(4))
        given.write(subject.given)
        given.seek(0)
        how = {"stdin": given, "stdout": out, "stderr": err, "pass_fds": [told.fileno()], "timeout": seconds}
        try:
            status = subprocess.run([subject.path, *subject.words], env={**subject.env, "FAULT": f"{fault}:{told.fileno()}"}, **how).returncode
        except subprocess.TimeoutExpired:
            status = NO_END
        for it in (out, err, told):
            it.seek(0)
        return status, out.read(), err.read(), told.read()


def text(*printed):
    return (it.decode(errors="replace") for it in printed)


def run(subject, kind, n):
    """Runs a program in a process of its own. In a run by 0 the last request for memory is refused that does not count."""
    earlier = subject.earlier if kind == "refuses" else 0
    status, out, err, told = ran(subject, "none:0" if n is None else f"{kind}:{earlier + n}", SECONDS)
    return Run(subject.words, kind, n, status, *text(out, err), bool(told))


def run_copies(subject, plain):
    """Runs a program once, and a copy of its process at each request for memory, where that is refused. Returns how the copies ended; None if the process
    cannot be copied, or did not end as `plain`."""
    status, out, err, told = ran(subject, f"each:{SECONDS}", MOST_SECONDS)
    if (status, *text(out, err)) != plain.printed():
        return None
    found, told = [], io.BytesIO(told)
    while line := told.readline():
        status, *lengths = map(int, line.split())
        streams = text(*(told.read(it) for it in lengths))
        found.append(Run(subject.words, "refuses", len(found) + 1, NO_END if status == -signal.SIGALRM else status, *streams, True))
    return [it._replace(n=it.n - subject.earlier) for it in found if it.n > subject.earlier]
