"""Programs that listen on a socket themselves, in a repository of their own."""
import os
import re
import subprocess

from programs import NotBuilt, environment, try_at
from repository import PARTS, TOP, Crate, crates_in, files_of, lay_beside, lay_texts, read_text, stop, with_below
from talks import HOST, Wrong, peak_of, within

HANDLES = "Handles allowed: Threads, Wait, Net.\n"


def number_in(file, name):
    """Returns what a source has for a constant, by its path from the top."""
    words = re.search(rf"^(?:pub )?const {name}: \w+ = (\d[\d_]*)(?: << (\d+))?;$", read_text(f"{TOP}/{file}"), re.M)
    return int(words[1]) << int(words[2] or 0)


def lay_programs(folder, lines):
    """Copies the programs of this repository that crates use, by their lines for crates.txt, and what these programs use; the library is there."""
    every, there = crates_in(TOP), crates_in(folder)
    for name in with_below(every, [it for line in lines for it in Crate(line).below]):
        if name not in there:
            files = [f"{part}/{it}" for part in PARTS for it in files_of(f"{TOP}/crates/{name}/{part}")]
            lay_texts(folder, {it: read_text(f"{TOP}/crates/{name}/{it}") for it in files}, every[name].line)


class Crates:
    """The crates of a server, lowest first, with its clients: a folder and a line for crates.txt each. The last one is the server.

    A program of this repository that they use is a library there.
    """

    def __init__(self, *crates):
        self.crates = crates
        self.name = crates[-1][1].split()[0].rstrip(":")

    def lay(self, folder):
        """Makes the repository."""
        ran = subprocess.run([f"{TOP}/tools/vendor", folder], capture_output=True, encoding="utf-8")
        if ran.returncode:
            stop(f"tools/vendor failed: {ran.stderr}")
        with open(f"{folder}/HANDLES", "w", encoding="utf-8") as to:
            to.write(HANDLES)
        lay_programs(folder, [it for _, it in self.crates])
        self.places = {lay_beside(folder, *it): it[0] for it in self.crates}

    def is_laid_out(self):
        """Lays the crates out by `rt fmt`. Returns whether they were so."""
        for at in self.places:
            subprocess.run(["rt", "fmt"], cwd=at, stdin=subprocess.DEVNULL, capture_output=True)
        return all(self.is_same(at, folder, it) for at, folder in self.places.items() for it in files_of(f"{TOP}/{folder}") if it.endswith(".rs"))

    def is_same(self, at, folder, file):
        return read_text(f"{at}/{file.removesuffix('.rs')}.rt") == read_text(f"{TOP}/{folder}/{file}")

    def programs(self):
        """Returns the folders of the programs by their names."""
        return {os.path.basename(at): at for at in self.places if os.path.isfile(f"{at}/src/main.rt")}

    def tried(self, folder):
        """Compiles the programs without a proof; returns where each is."""
        made = {name: f"{folder}/made-{name}" for name in self.programs()}
        try:
            for name, at in self.programs().items():
                try_at(at, made[name])
        except NotBuilt as why:
            stop(why)
        return made

    def proved(self, _):
        """Proves the crates; returns where each program is. Says what each check said last."""
        for at in self.places:
            ran = subprocess.run(["rt", "check"], cwd=at, stdin=subprocess.DEVNULL, capture_output=True, encoding="utf-8")
            if ran.returncode:
                stop(f"{os.path.basename(at)} was not proved:\n{(ran.stdout + ran.stderr)[-6000:]}")
            print(f"{os.path.basename(at)}: {(ran.stdout + ran.stderr).strip().splitlines()[-1]}", flush=True)
        return {name: self.built(name, at) for name, at in self.programs().items()}

    def built(self, name, at):
        """Builds a program that is proved; returns where it is."""
        # (without an address it ends at once)
        subprocess.run(["rt", "run"], cwd=at, stdin=subprocess.DEVNULL, capture_output=True)
        if not os.path.exists(f"{at}/out/{name}"):
            stop(f"{name} was not built")
        return f"{at}/out/{name}"


class Server:
    """A program that listens, at a port that the system picks, with the others that it was built with."""

    def __init__(self, name, programs, most_kib, soak):
        """Starts the program of this name. A soak against it takes so many seconds."""
        program = programs[name]
        around = {**os.environ, **environment(program)}
        # (what is freed is to be used again soon, so that memory that grows shows)
        around["ASAN_OPTIONS"] += ":quarantine_size_mb=4"
        words = [program, f"{HOST}:0"]
        self.name, self.programs, self.most_kib, self.soak = name, programs, most_kib, soak
        self.ran = subprocess.Popen(words, env=around, stdin=subprocess.DEVNULL, stdout=subprocess.PIPE, stderr=subprocess.STDOUT, text=True)
        told = self.ran.stdout.readline()
        if not (found := re.fullmatch(rf"listening at {HOST}:(\d+)\n", told)):
            stop(f"the program does not listen: {told}{self.ran.stdout.read()}")
        self.port, self.at_rest = int(found[1]), self.descriptors()

    def threads(self):
        return len(os.listdir(f"/proc/{self.ran.pid}/task"))

    def descriptors(self):
        return len(os.listdir(f"/proc/{self.ran.pid}/fd"))

    def busy(self):
        """Returns how many seconds of a processor the server has had."""
        return sum(map(int, read_text(f"/proc/{self.ran.pid}/stat").rpartition(")")[2].split()[11:13])) / os.sysconf("SC_CLK_TCK")

    def is_idle(self):
        """Whether no connection and no thread of one is left."""
        return self.threads() == 1 and self.descriptors() <= self.at_rest

    def held(self):
        """Returns how much memory the server holds now, in KiB."""
        return int(re.search(r"^VmRSS:\s+(\d+)", read_text(f"/proc/{self.ran.pid}/status"), re.M)[1])

    def fault(self, run, seconds):
        """Makes a run, and waits until its connections are gone; returns what was wrong, or nothing."""
        fault = ""
        try:
            run(self)
        except (Wrong, OSError) as why:
            fault = str(why) or repr(why)
        if self.ran.poll() is not None:
            return f"the server ended with {self.ran.returncode}: {self.ran.stdout.read()}"
        if not within(seconds, self.is_idle):
            return fault or "a connection that has ended keeps its thread or its descriptor"
        kib = peak_of(self.ran.pid)
        return fault or ("" if kib < self.most_kib else f"the server holds {kib} KiB")

    def stop(self):
        self.ran.kill()
        self.ran.wait()
