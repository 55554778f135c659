"""What is said to the line server of one thread, and what it has to reply: each reply is compared, and none may be lost or come twice."""
import contextlib
import os
import random
import socket
import subprocess
import threading
import time

from on_a_socket import NARROW, has_no_descriptor, is_cut, of_a_page, shares
from programs import environment
from servers import Crates, Server, number_in
from talks import HOST, PATIENCE, Talk, Wrong, agree, agrees, within

FOLDER = "docs/guide/on-one-thread/line_server"
CLIENT = "line_client"
CONNECTIONS = "docs/guide/on-one-thread/connections"
CRATES = Crates(
    (f"docs/guide/on-one-thread/{CLIENT}", f"{CLIENT} may_wait=3: compat futures_lite bytes tokio"),
    (CONNECTIONS, "connections: futures_lite futures tokio"),
    (FOLDER, "line_server may_wait=3: connections compat framed futures_lite bytes futures tokio"),
)


def number(file, name):
    return number_in(f"{FOLDER}/src/{file}.rs", name)


# How many connections there may be, and bytes of a line.
SEATS, LONGEST = number("arrivals", "SEATS"), number("arrivals", "LINE")
# How many seconds a client has for a request, and then for its replies, and the server to stop.
WAIT, LAST, GRACE = number("connection", "PATIENCE"), number("connection", "LAST"), number("main", "GRACE")
# In how many seconds a connection ends whose client is gone.
ENDS_IN = 3 * WAIT + LAST
# The most memory that the server may hold, in KiB; a checked build holds more.
MOST_KIB = 1 << 18
# How many connections there are at once, and how many one after another.
AT_ONCE, IN_TURN = 1_000, 10_000
# How many connect before one is served: the system keeps a short queue of those that come.
BURST = 50
NO_SEAT, LATE = b"ERROR too many connections\n", b"ERROR no request came in time\n"
STOPS, CUT_OFF = b"ERROR the server stops\n", b"ERROR the last line has no newline\n"
# How many clients a soak has at once, and by how many KiB the server may grow in it.
CLIENTS, GROWS = 16, 1 << 13


def asked(talk, request, reply):
    talk.say(request)
    agree(talk.hear(len(reply)), reply)


def connected(at, count, request=b"GET nothing\n", reply=b"NONE\n"):
    """Returns so many connections, each of which was served once."""
    talks = []
    while len(talks) < count:
        fresh = [Talk(at.port) for _ in range(min(BURST, count - len(talks)))]
        for talk in fresh:
            asked(talk, request, reply)
        talks += fresh
    return talks


def leave(talks):
    for talk in talks:
        talk.socket.close()


def client(at, port, *requests):
    """Runs the client; returns its status, and what it prints."""
    words = [at.programs[CLIENT], f"{HOST}:{port}", str(WAIT), *requests]
    how = {"stdin": subprocess.DEVNULL, "stdout": subprocess.PIPE, "stderr": subprocess.DEVNULL, "env": {**os.environ, **environment(words[0])}}
    ran = subprocess.run(words, timeout=PATIENCE, check=False, **how)
    return ran.returncode, ran.stdout


def is_asked(at):
    """The client prints the replies. If none comes in time, it fails."""
    asked_for = client(at, at.port, "SET client a text", "GET client", "DELETE client", "GET client")
    agree(asked_for, (0, b"OK\na text\nOK\nNONE\n"))
    with socket.create_server((HOST, 0)) as silent:
        begun = time.monotonic()
        agree(client(at, silent.getsockname()[1], "COUNT"), (1, b""))
        agrees(WAIT <= time.monotonic() - begun < 2 * WAIT, "the client does not keep its time")


def at_once(at):
    """All connections have requests on their way at the same time, each about a key of its own and one of all."""
    talks = connected(at, AT_ONCE)
    for turn in range(3):
        for n, talk in enumerate(talks):
            talk.say(b"SET %d %d\nGET %d\nSET all %d\nGET %d:no\n" % (n, turn, n, n, n))
        for n, talk in enumerate(talks):
            agree(talk.hear(len(b"OK\n%d\nOK\nNONE\n" % turn)), b"OK\n%d\nOK\nNONE\n" % turn)
    asked(talks[0], b"COUNT\n", b"%d\n" % (AT_ONCE + 1))
    for n, talk in enumerate(talks):
        talk.say(b"DELETE %d\nQUIT\n" % n)
    for talk in talks:
        agree(talk.hear_all(), b"OK\nOK\n")
    leave(talks)


def in_turn(at):
    for n in range(IN_TURN):
        with Talk(at.port) as talk:
            talk.say(b"SET turn %d\nGET turn\nQUIT\n" % n)
            agree(talk.hear_all(), b"OK\n%d\nOK\n" % n)


def limits(at):
    talks = connected(at, SEATS)
    for _ in range(3):
        with Talk(at.port) as talk:
            agree(talk.hear_all(), NO_SEAT)
    talks.pop().socket.close()
    agrees(within(WAIT, lambda: is_served(at)), "a seat that was given back is not free")
    leave(talks)


def is_served(at):
    """Whether a new connection has a seat."""
    with Talk(at.port) as talk:
        talk.say(b"QUIT\n")
        return talk.hear_all() == b"OK\n"


def idles(at):
    idle, busy = connected(at, 2)
    begun = time.monotonic()
    while time.monotonic() < begun + 2 * WAIT + 1:
        asked(busy, b"GET nothing\n", b"NONE\n")
        time.sleep(WAIT / 4)
    agree(idle.hear_all(), LATE)
    with Talk(at.port) as half:
        half.say(b"GET nothing\nGET no")
        agree(half.hear_all(), b"NONE\n" + LATE)
    agrees(time.monotonic() - begun < 6 * WAIT, "that took too long")
    leave([idle, busy])


def refuses(at):
    with Talk(at.port) as talk:
        asked(talk, b"GET nothing\n", b"NONE\n")
        talk.say_aside([b"x" * 100 * LONGEST])
        agree(talk.hear_all(), b"ERROR the line is too long\n")
    with Talk(at.port) as talk:
        asked(talk, b"GET \xff\nGET nothing\r\r\nSET key\n", b"ERROR the line is no text\n" * 2 + b"ERROR a key and a text are missing\n")
        asked(talk, b"GET %b\n" % (b"x" * (LONGEST - 4)), b"NONE\n")


def heard_whole(talk):
    """Returns the bytes of the server up to its end, which no reset may be."""
    heard = b""
    while piece := talk.socket.recv(1 << 16):
        heard += piece
    return heard


def has_unread(at):
    """Each connection ends, or is refused, while its client still sends more than the system holds."""
    rest = b"COUNT\n" * 1_000_000
    for _ in range(3):
        with Talk(at.port) as talk:
            sends = talk.say_aside([b"QUIT\n" + rest])
            agree(heard_whole(talk), b"OK\n")
            sends.join(PATIENCE)
    talks = connected(at, SEATS)
    for _ in range(3):
        with Talk(at.port) as talk:
            sends = talk.say_aside([rest])
            agree(heard_whole(talk), NO_SEAT)
            sends.join(PATIENCE)
    leave(talks)


def takes_nothing(at):
    """Clients that send and take nothing lose their connections, and others are served meanwhile."""
    asked_for = b"GET long\n" * 2_000
    with Talk(at.port) as talk:
        asked(talk, b"SET long %b\n" % (b"x" * (LONGEST - 9)), b"OK\n")
    full = [Talk(at.port, NARROW) for _ in range(20)]
    for talk in full:
        talk.say_aside([asked_for] * 5)
    begun = time.monotonic()
    while time.monotonic() < begun + 2 * WAIT + LAST:
        agrees(is_served(at), "a connection is not served beside clients that take nothing")
        time.sleep(0.1)
    agrees(within(ENDS_IN, lambda: at.descriptors() <= at.at_rest), "a client that takes nothing keeps its connection")
    leave(full)


class Soaking:
    """Clients of all kinds, each with keys of its own."""

    def __init__(self, at, seconds):
        self.at, self.end, self.wrong, self.count = at, time.monotonic() + seconds, [], 0

    def run(self):
        lanes = [threading.Thread(target=self.lane, args=[n]) for n in range(CLIENTS)]
        for it in lanes:
            it.start()
        time.sleep(max(0, (self.end - time.monotonic()) / 3))
        begun = self.at.held()
        for it in lanes:
            it.join(self.end - time.monotonic() + PATIENCE)
        agrees(not self.wrong, "; ".join(self.wrong[:3]))
        agrees(not any(it.is_alive() for it in lanes), "a client is not served")
        grown = self.at.held() - begun
        agrees(grown < GROWS, f"the server grew by {grown} KiB")

    def lane(self, n):
        kinds = random.Random(n)
        try:
            while time.monotonic() < self.end and not self.wrong:
                kinds.choice((self.whole, self.whole, self.reset, self.half, self.slow, self.silent))(n, kinds)
                self.count += 1
        except (Wrong, OSError) as why:
            self.wrong.append(f"client {n}: {why!r}")

    def requests(self, n, kinds):
        """Returns requests and their replies."""
        texts = [b"%d" % kinds.randrange(10**6) * kinds.randrange(1, 30) for _ in range(kinds.randrange(1, 100))]
        said = b"".join(b"SET soak:%d %b\nGET soak:%d\n" % (n, it, n) for it in texts)
        return said, b"".join(b"OK\n%b\n" % it for it in texts)

    def whole(self, n, kinds):
        said, replies = self.requests(n, kinds)
        with Talk(self.at.port) as talk:
            cut = kinds.randrange(len(said))
            talk.say(said[:cut])
            talk.say(said[cut:] + b"QUIT\n")
            agree(talk.hear_all(), replies + b"OK\n")

    def reset(self, n, kinds):
        said, replies = self.requests(n, kinds)
        with Talk(self.at.port) as talk:
            talk.say(said)
            talk.hear(kinds.randrange(len(replies)))
            talk.reset()

    def half(self, n, kinds):
        said, replies = self.requests(n, kinds)
        with Talk(self.at.port) as talk:
            talk.say(said + b"GET so")
            talk.end()
            agree(talk.hear_all(), replies + CUT_OFF)

    def slow(self, n, kinds):
        said, replies = self.requests(n, kinds)
        with Talk(self.at.port) as talk:
            for byte in said[:200]:
                talk.say(bytes([byte]))
            talk.say(said[200:] + b"QUIT\n")
            agree(talk.hear_all(), replies + b"OK\n")

    def silent(self, n, kinds):
        with Talk(self.at.port) as talk:
            agree(talk.hear(1, kinds.random() / 2), b"")


def soaks(at):
    soaking = Soaking(at, at.soak)
    soaking.run()
    agrees(soaking.count > CLIENTS, "too few clients came")


def stops(at):
    """A server that is stopped replies to what it has read, says so to each client, and ends."""
    other = Server(at.name, at.programs, MOST_KIB, 0)
    try:
        idle, busy, stopping = connected(other, 3)
        busy.say(b"SET kept text\n")
        agree(busy.hear(3), b"OK\n")
        stopping.say(b"COUNT\nSTOP\nCOUNT\n")
        agree(stopping.hear_all(), b"1\nOK\n")
        agree(idle.hear_all(), STOPS)
        agree(busy.hear_all(), STOPS)
        with contextlib.suppress(OSError), Talk(other.port) as late:
            agree(late.hear_all(), b"")
        leave([idle, busy, stopping])
        other.ran.wait(GRACE + LAST)
        agree(other.ran.returncode, 0)
    finally:
        other.stop()


RUNS = {
    "two connections share the store": shares,
    "a client of this library": is_asked,
    f"{AT_ONCE:,} connections at once": at_once,
    f"{IN_TURN:,} connections one after another": in_turn,
    "one connection too many": limits,
    "an idle connection, a busy one, and half a request": idles,
    "a line that is too long, and one that is no text": refuses,
    "a request of a web page": of_a_page,
    "a request that is cut off": is_cut,
    "an end, or no seat, while the client sends": has_unread,
    "clients that take nothing": takes_nothing,
    "no descriptor for a connection": has_no_descriptor,
    "clients of all kinds": soaks,
    "a server that stops": stops,
}
