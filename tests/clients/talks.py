"""A program behind a socket, and what a client says to it. All stays on the loopback address, and each wait is bounded."""
import contextlib
import glob
import os
import re
import shutil
import socket
import struct
import subprocess
import threading
import time

from repository import read_text

HOST = "127.0.0.1"
# How many seconds a client waits for a reply.
PATIENCE = 60
# How many bytes a client sends or takes at once.
PIECE = 1 << 16
# What is run for a connection. It becomes the program, so that nothing stands between its end and what waits for that.
SCRIPT = """#!/bin/sh
{limit}
exec {program} 2>>{folder}/errors
"""
# What socat tells of a process that ended, if it is to tell much.
ENDED = re.compile(r"waitpid\(\): child \d+ exited with status (\d+)")
# How a document calls socat: the words for its listener, before and behind the port, and those for the program.
BY_SOCAT = r"socat (TCP-LISTEN:)\d+(,\S+) (EXEC:out/{name}\b[^\s`]*)"


class Wrong(Exception):
    """A run did not go as it has to; says what was wrong."""


def short(said):
    """Returns the bytes as they are printed: their beginning and their end."""
    return repr(said) if len(said) <= 160 else f"{said[:80]!r} .. {said[-60:]!r} ({len(said)} bytes)"


def agree(got, wanted):
    """Stops a run whose replies are not these."""
    if got != wanted:
        at = next((n for n, (one, other) in enumerate(zip(got, wanted)) if one != other), min(len(got), len(wanted)))
        raise Wrong(f"at byte {at} of {len(wanted)} wanted {short(wanted[at:])}, got {short(got[at:])}")


def agrees(is_so, what):
    if not is_so:
        raise Wrong(what)


def within(seconds, is_so):
    """Waits until something is so, for so many seconds at most. Returns whether it is."""
    end = time.monotonic() + seconds
    while not (found := is_so()) and time.monotonic() < end:
        time.sleep(0.005)
    return found


def free_port():
    with socket.socket() as one:
        one.bind((HOST, 0))
        return one.getsockname()[1]


def is_open(port):
    with contextlib.suppress(OSError), socket.create_connection((HOST, port), timeout=1):
        return True
    return False


def processes_of(program):
    """Returns the numbers of the processes that run the program."""
    found = []
    for link in glob.glob("/proc/[0-9]*/exe"):
        with contextlib.suppress(OSError):
            if os.readlink(link) == program:
                found.append(int(link.split("/")[2]))
    return found


def peak_of(process):
    """Returns the most memory that a process held, in KiB; 0 once it is gone."""
    with contextlib.suppress(OSError), open(f"/proc/{process}/status", encoding="utf-8") as status:
        for line in status:
            if line.startswith("VmHWM:"):
                return int(line.split()[1])
    return 0


class Peak:
    """The most memory that a process of the program holds within the block, in KiB."""

    def __init__(self, program):
        self.program, self.kib, self.is_over = program, 0, threading.Event()
        self.looks = threading.Thread(target=self.look, daemon=True)

    def look(self):
        while not self.is_over.wait(0.002):
            self.kib = max([self.kib, *map(peak_of, processes_of(self.program))])

    def __enter__(self):
        self.looks.start()
        return self

    def __exit__(self, *_):
        self.is_over.set()
        self.looks.join()


class Served:
    """A program that serves one connection a process, in an empty folder. With `most_kib` it has no more memory than that."""

    def __init__(self, program, folder, most_kib=None):
        self.folder, self.program, self.port = folder, f"{folder}/program", free_port()
        # (a copy, so that no other process runs this file)
        shutil.copy2(program, self.program)
        limit = f"ulimit -v {most_kib}" if most_kib else ""
        with open(f"{folder}/begin", "w", encoding="utf-8") as script:
            script.write(SCRIPT.format(program=self.program, folder=folder, limit=limit))
        os.chmod(f"{folder}/begin", 0o700)

    def is_idle(self):
        return not processes_of(self.program)

    def taken(self, name):
        """Returns what the processes wrote into a file since the last call."""
        if not os.path.exists(f"{self.folder}/{name}"):
            return ""
        os.rename(f"{self.folder}/{name}", f"{self.folder}/{name}-taken")
        with open(f"{self.folder}/{name}-taken", encoding="utf-8", errors="replace") as read:
            return read.read()

    def statuses(self):
        """Returns the status of each process that has ended since the last call; waits for those that run."""
        agrees(within(PATIENCE, self.is_idle), "a process of the server goes on without its client")
        # (its status is told behind its end)
        time.sleep(0.1)
        return self.ended()

    def errors(self):
        """Returns what the processes wrote to standard error since the last call."""
        return self.taken("errors")


def socat_words(documents, name):
    """Returns the words by which the documents say that socat serves a program: those before its port, behind it, and of the program.

    Each document has to have them, and all of them the same.
    """
    found = {it: set(re.findall(BY_SOCAT.format(name=name), read_text(it))) for it in documents}
    lacking = [it for it, lines in found.items() if len(lines) != 1]
    agrees(not lacking, f"not one line of socat for {name}: {', '.join(lacking)}")
    agrees(len(set.union(*found.values())) == 1, f"the lines of socat for {name} differ")
    return found[documents[0]].pop()


class Behind(Served):
    """A program behind socat, by the line of the documents. In its folder the program is what the line calls."""

    def __init__(self, program, folder, environment, most_kib, documents, name):
        super().__init__(program, folder, most_kib)
        os.mkdir(f"{folder}/out")
        os.symlink(f"{folder}/begin", f"{folder}/out/{name}")
        before, behind, program_words = socat_words(documents, name)
        words = ["socat", "-d", "-d", "-d", f"{before}{self.port}{behind}", program_words]
        self.told = 0
        with open(f"{folder}/socat", "w", encoding="utf-8") as log:
            self.socat = subprocess.Popen(words, cwd=folder, env=environment, stdin=subprocess.DEVNULL, stdout=log, stderr=log)
        agrees(within(PATIENCE, lambda: is_open(self.port)), "socat does not listen")
        self.statuses()

    def ended(self):
        """Returns the statuses that socat told since the last call."""
        found = [int(it) for it in ENDED.findall(read_text(f"{self.folder}/socat"))]
        new, self.told = found[self.told :], len(found)
        return new

    def stop(self):
        self.socat.terminate()
        self.socat.wait(PATIENCE)


class Handed(Served):
    """A program that is handed each connection as its standard input and output, so that nothing stands between it and its client."""

    def __init__(self, program, folder, environment, most_kib=None):
        super().__init__(program, folder, most_kib)
        self.listener, self.environment, self.found = socket.create_server((HOST, self.port)), environment, []
        threading.Thread(target=self.accept, daemon=True).start()

    def accept(self):
        with contextlib.suppress(OSError):
            while True:
                one, _ = self.listener.accept()
                with one:
                    one.setsockopt(socket.IPPROTO_TCP, socket.TCP_NODELAY, 1)
                    ran = subprocess.Popen([f"{self.folder}/begin"], env=self.environment, stdin=one, stdout=one)
                threading.Thread(target=lambda ran=ran: self.found.append(ran.wait()), daemon=True).start()

    def ended(self):
        """Returns the statuses of the processes that have ended since the last call."""
        found, self.found = self.found, []
        return found

    def stop(self):
        self.listener.close()


class Talk:
    """A connection of a client."""

    def __init__(self, port, options=()):
        """Connects. Each option is a level, a name and a number."""
        self.socket = socket.socket()
        for option in (*options, (socket.IPPROTO_TCP, socket.TCP_NODELAY, 1)):
            self.socket.setsockopt(*option)
        self.socket.settimeout(PATIENCE)
        self.socket.connect((HOST, port))

    def __enter__(self):
        return self

    def __exit__(self, *_):
        self.socket.close()

    def say(self, bytes_of):
        self.socket.sendall(bytes_of)

    def say_aside(self, pieces):
        """Sends these pieces in a thread, until the server does not take them any more. Returns the thread."""

        def send():
            with contextlib.suppress(OSError):
                for piece in pieces:
                    self.socket.sendall(piece)

        sends = threading.Thread(target=send, daemon=True)
        sends.start()
        return sends

    def say_what_is_taken(self, piece, count):
        """Sends the piece so many times, or until the server takes no more of it."""
        self.socket.setblocking(False)
        with contextlib.suppress(BlockingIOError, ConnectionError):
            for _ in range(count):
                self.socket.send(piece)
        self.socket.settimeout(PATIENCE)

    def hear(self, count, seconds=PATIENCE):
        """Returns so many bytes of the server; fewer if it ends before, or sends nothing for so many seconds."""
        heard = bytearray()
        self.socket.settimeout(seconds)
        with contextlib.suppress(OSError):
            while len(heard) < count and (piece := self.socket.recv(min(PIECE, count - len(heard)))):
                heard += piece
        self.socket.settimeout(PATIENCE)
        return bytes(heard)

    def hear_all(self, seconds=PATIENCE):
        """Returns the bytes of the server up to its end."""
        heard, end = bytearray(), time.monotonic() + seconds
        try:
            while piece := self.socket.recv(PIECE):
                heard += piece
                agrees(time.monotonic() < end, f"no end after {seconds} s")
        except ConnectionError:
            pass
        except TimeoutError as late:
            raise Wrong(f"the server neither replies nor ends; it said {short(bytes(heard))}") from late
        return bytes(heard)

    def end(self):
        """Ends what the client sends, and goes on to listen."""
        self.socket.shutdown(socket.SHUT_WR)

    def reset(self):
        """Ends the connection by a reset."""
        self.socket.setsockopt(socket.SOL_SOCKET, socket.SO_LINGER, struct.pack("ii", 1, 0))
        self.socket.close()
