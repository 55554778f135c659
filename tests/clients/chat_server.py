"""What clients say to each other by the chat server, and what each has to be told: every line of another one, once and in order."""
import contextlib
import random
import selectors
import threading
import time

from on_a_socket import NARROW
from servers import Crates, number_in
from talks import PATIENCE, Talk, Wrong, agree, agrees, short, within

HALL = "docs/guide/on-one-thread"
CRATES = Crates(
    (f"{HALL}/chat_room", "chat_room: bytes"),
    (f"{HALL}/chat_session", "chat_session: chat_room framed futures_lite bytes futures"),
    (f"{HALL}/chat_server", "chat_server may_wait=3: chat_session chat_room compat framed futures_lite bytes futures tokio"),
)
# How many members there may be, how many lines may wait for one, and how many bytes a line has.
MEMBERS, WAITING = (number_in(f"{HALL}/chat_server/src/hall.rs", it) for it in ("MEMBERS", "WAITING"))
LONGEST = number_in(f"{HALL}/chat_server/src/arrivals.rs", "LINE")
# In how many seconds a connection ends whose client is gone.
ENDS_IN = 5
# The most memory that the server may hold, in KiB; a checked build holds more.
MOST_KIB = 1 << 18
# How many members talk, and how many lines they say together.
TALKERS, LINES = 50, 10_000
# How many lines a fast sender sends without a wait.
FAST = 10_000
# How many lines are said beside a member that takes nothing, of so many bytes, and how many at a time.
LOUD, LOUD_LINE, LOUD_TURN = 20_000, 900, 500
# By how many KiB the server may grow in a soak.
GROWS = 1 << 13


class Member(Talk):
    """A client that is seated, and the lines that it was told so far."""

    def __init__(self, port, options=()):
        super().__init__(port, options)
        self.name = b"%s:%d" % tuple(it if isinstance(it, int) else it.encode() for it in self.socket.getsockname())
        self.told, self.open, self.is_over = [], b"", False
        # How many lines of others it was told, and how many of them left.
        self.lines, self.gone = 0, 0

    def take(self):
        """Takes what was told by now."""
        try:
            piece = self.socket.recv(1 << 18)
        except BlockingIOError:
            return
        except ConnectionError:
            piece = b""
        self.is_over = not piece
        *lines, self.open = (self.open + piece).split(b"\n")
        self.told += lines
        self.lines += sum(b": " in it for it in lines)
        self.gone += sum(it.endswith(b" has left") for it in lines)

    def heard(self):
        """Returns what was told of each other member, in order, by its name."""
        found = {}
        for name, between, text in (it.partition(b": ") for it in self.told):
            if between:
                found.setdefault(name, []).append(text)
        return found


@contextlib.contextmanager
def members(at, count, options=()):
    """So many members, each of which knows that all are seated."""
    with contextlib.ExitStack() as held:
        found = []
        for _ in range(count):
            found.append(held.enter_context(Member(at.port, options)))
            if len(found) > 1:
                listen(found[:1], lambda: found[-1].name + b" has joined" in found[0].told)
        yield found


def listen(found, is_enough, seconds=PATIENCE):
    """Takes what the members are told until that is enough."""
    end = time.monotonic() + seconds
    with selectors.DefaultSelector() as ready:
        for it in found:
            it.socket.setblocking(False)
            if not it.is_over:
                ready.register(it.socket, selectors.EVENT_READ, it)
        while not is_enough():
            agrees(time.monotonic() < end, f"not all was told; the last was told {short(b'|'.join(found[-1].told[-2:]))}")
            for key, _ in ready.select(0.1):
                key.data.take()
                if key.data.is_over:
                    ready.unregister(key.fileobj)
    for it in found:
        it.socket.settimeout(PATIENCE)


def say_aside(talk, lines):
    """Says the lines in a thread, with a wait wherever the server does not take them yet."""

    def send():
        with contextlib.suppress(OSError):
            talk.socket.settimeout(PATIENCE)
            for n in range(0, len(lines), 100):
                talk.socket.sendall(b"".join(it + b"\n" for it in lines[n : n + 100]))

    sends = threading.Thread(target=send, daemon=True)
    sends.start()
    return sends


def compare(found, said):
    """Each member was told what each other one said, once and in order, and nothing of itself."""
    for it in found:
        agrees(not it.is_over, "a member lost its connection")
        heard = it.heard()
        for name, lines in said.items():
            agree(heard.get(name, []), [] if name == it.name else lines)


def tell(at, count, said_by):
    """Members say lines, at once; each is told all others' lines. Returns how many lines were told."""
    with members(at, count) as found:
        said = {it.name: said_by(n) for n, it in enumerate(found)}
        lanes = [say_aside(it, said[it.name]) for it in found]
        wanted = {it.name: sum(len(lines) for name, lines in said.items() if name != it.name) for it in found}
        listen(found, lambda: all(it.lines >= wanted[it.name] for it in found))
        for it in lanes:
            it.join(PATIENCE)
        compare(found, said)
    return sum(wanted.values())


def all_talk(at):
    each = LINES // TALKERS
    count = tell(at, TALKERS, lambda n: [b"line %d of %d" % (it, n) for it in range(each)])
    agree(count, (TALKERS - 1) * LINES)


def one_talks(at):
    """One member sends as fast as it can; no other falls behind."""
    count = tell(at, TALKERS, lambda n: [b"line %d" % it for it in range(FAST)] if n == 0 else [])
    agree(count, (TALKERS - 1) * FAST)


def some_read_nothing(at):
    """A member that reads nothing loses its seat, and the others are told all."""
    lines = [b"%06d" % it + b"x" * (LOUD_LINE - 6) for it in range(LOUD)]
    with members(at, 10) as found, Member(at.port, NARROW) as full:
        speaker, *others = found
        for n in range(0, LOUD, LOUD_TURN):
            sends = say_aside(speaker, lines[n : n + LOUD_TURN])
            listen(others, lambda: all(it.lines >= n + LOUD_TURN for it in others))
            sends.join(PATIENCE)
        gone = full.name + b" has left"
        listen(others, lambda: all(gone in it.told for it in others))
        compare(others, {speaker.name: lines})
        is_ended(full)


def is_ended(talk):
    """Whether the server ends the connection, after what is on its way."""
    talk.hear_all()


def come_and_go(at):
    """Who comes and who leaves is told to all others, and a seat is taken again."""
    with members(at, 2) as found:
        for _ in range(3):
            with Member(at.port) as guest:
                listen(found, lambda: all(guest.name + b" has joined" in it.told for it in found))
                guest.say(b"here\n")
            listen(found, lambda: all(guest.name + b" has left" in it.told for it in found))
            for it in found:
                agree(it.heard()[guest.name], [b"here"])


def is_refused(at):
    with members(at, 2) as (one, other):
        with Member(at.port) as guest:
            guest.say(b"before\n" + b"x" * (LONGEST + 1))
            agree(guest.hear_all()[-len(b"the line is too long\n") :], b"the line is too long\n")
        with Member(at.port) as guest:
            guest.say(b"half a line")
            guest.end()
            agree(guest.hear_all(), b"")
        with Member(at.port) as guest:
            guest.say(b"reset\nhalf")
            listen([one], lambda: one.heard().get(guest.name) == [b"reset"])
            guest.reset()
        listen([one, other], lambda: all(it.gone == 3 for it in (one, other)))


def is_slow(at):
    """A member that sends byte by byte is heard like the others."""
    with members(at, 3) as found:
        lines = [b"slow line %d" % it for it in range(20)]
        for byte in b"".join(it + b"\n" for it in lines):
            found[0].say(bytes([byte]))
        listen(found[1:], lambda: all(it.lines == 20 for it in found[1:]))
        compare(found, {found[0].name: lines})


def is_full(at):
    """One member more than there are seats is not seated."""
    with contextlib.ExitStack() as held:
        talks = [held.enter_context(Member(at.port)) for _ in range(MEMBERS)]
        listen(talks[:1], lambda: sum(b" has joined" in it for it in talks[0].told) == MEMBERS - 1)
        with Member(at.port) as late:
            agree(late.hear_all(), b"")
    agrees(within(PATIENCE, at.is_idle), "members that left keep their connections")


class Guests:
    """Guests who come, talk, and go in every way, beside members who have to be told all."""

    def __init__(self, at, seconds):
        self.at, self.end, self.said, self.visits, self.wrong = at, time.monotonic() + seconds, {}, [], []

    def lane(self, n):
        kinds = random.Random(n)
        try:
            while time.monotonic() < self.end and not self.wrong:
                self.visit(kinds)
        except (Wrong, OSError) as why:
            self.wrong.append(repr(why))

    def visit(self, kinds):
        lines = [b"%d" % kinds.randrange(10**9) for _ in range(kinds.randrange(1, 30))]
        with Member(self.at.port) as guest:
            said = b"".join(it + b"\n" for it in lines)
            if kinds.random() < 0.3:
                said = said[: kinds.randrange(len(said))]
            # (a port may come twice)
            self.said.setdefault(guest.name, []).extend(said.split(b"\n")[:-1])
            self.visits.append(guest.name)
            guest.say(said)
            if kinds.random() < 0.3:
                time.sleep(kinds.random() / 10)
            guest.end()
            guest.hear_all()


def soaks(at):
    guests = Guests(at, at.soak)
    with members(at, 3) as found:
        lanes = [threading.Thread(target=guests.lane, args=[n]) for n in range(8)]
        for it in lanes:
            it.start()
        listen(found, lambda: time.monotonic() > guests.end - 2 * at.soak / 3)
        begun = at.held()
        listen(found, lambda: not any(it.is_alive() for it in lanes), at.soak + PATIENCE)
        agrees(not guests.wrong, "; ".join(guests.wrong[:3]))
        listen(found, lambda: all(it.gone == len(guests.visits) for it in found))
        for it in found:
            agree(it.heard(), {name: lines for name, lines in guests.said.items() if lines})
        grown = at.held() - begun
        agrees(grown < GROWS, f"the server grew by {grown} KiB")


RUNS = {
    "members come and go": come_and_go,
    f"{TALKERS} members say {LINES:,} lines": all_talk,
    f"one member says {FAST:,} lines at once": one_talks,
    "a member that reads nothing": some_read_nothing,
    "a line that is too long, half a line, and a reset": is_refused,
    "a line byte by byte": is_slow,
    "one member too many": is_full,
    "guests of all kinds": soaks,
}
