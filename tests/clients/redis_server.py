"""What is said to the Redis server of one thread, and what it has to reply: each reply is compared, and none may be lost or come twice."""
import contextlib
import random
import shutil
import subprocess
import threading
import time

from line_server import CONNECTIONS, heard_whole, leave
from line_server import connected as connected_by
from on_a_socket import NARROW
from servers import Crates, Server, number_in
from talks import HOST, PATIENCE, Talk, Wrong, agree, agrees, short, within

HALL = "docs/guide/on-one-thread"
CRATES = Crates(
    (CONNECTIONS, "connections: futures_lite futures tokio"),
    (f"{HALL}/redis_session", "redis_session: example_redis serving lent_frames framed futures_lite bytes futures itoa memchr tokio_util thiserror"),
    (f"{HALL}/redis_server", "redis_server may_wait=3: redis_session connections example_redis compat serving framed futures_lite bytes futures tokio"),
)


def number(file, name):
    return number_in(f"{HALL}/redis_server/src/{file}.rs", name)


# How many connections there may be; how many bytes a line, a word and a request have; how many bytes of replies wait.
SEATS, LINE, WORD, REQUEST, WAITING = (number("arrivals", it) for it in ("SEATS", "LINE", "WORD", "REQUEST", "WAITING"))
# How many seconds a client has for a request, and then for its replies, and the server to stop.
WAIT, LAST, GRACE = number("connection", "PATIENCE"), number("connection", "LAST"), number("main", "GRACE")
# In how many seconds a connection ends whose client is gone.
ENDS_IN = 3 * WAIT + LAST
# The most memory that the server may hold, in KiB; a checked build holds more.
MOST_KIB = 1 << 19
# How many connections there are at once, and how many one after another.
AT_ONCE, IN_TURN = 1_000, 10_000
# How many requests a client sends before it reads a reply.
PIPELINED = 200_000
NO_SEAT, LATE, STOPS = b"-ERR max number of clients reached\r\n", b"-ERR no request came in time\r\n", b"-ERR the server stops\r\n"
# How many clients a soak has at once, and by how many KiB the server may grow in it.
CLIENTS, GROWS = 16, 1 << 13
# The Python that has Debian's packages.
PYTHON = "/usr/bin/python3"


def words_of(*words):
    """Returns a request as redis-cli sends it."""
    return b"*%d\r\n" % len(words) + b"".join(b"$%d\r\n%b\r\n" % (len(it), it) for it in words)


def bulk(text):
    return b"$%d\r\n%b\r\n" % (len(text), text)


def refused(why):
    return b"-ERR Protocol error: %b\r\n" % why


def asked(talk, request, reply):
    talk.say(request)
    agree(talk.hear(len(reply)), reply)


def connected(at, count):
    """Returns so many connections, each of which was served once."""
    return connected_by(at, count, words_of(b"GET", b"nothing"), b"$-1\r\n")


def shares(at):
    one, other = connected(at, 2)
    asked(one, words_of(b"SET", b"here", b"a\r\ntext") + b"GET here\r\n", b"+OK\r\n" + bulk(b"a\r\ntext"))
    asked(other, b"get here\nDEL here here\nGET here\nNO\n", bulk(b"a\r\ntext") + b":1\r\n$-1\r\n-ERR unknown command 'NO', with args beginning with: \r\n")
    asked(one, b"DBSIZE\r\n\r\nPING\r\nQUIT\r\nPING\r\n", b":0\r\n+PONG\r\n+OK\r\n")
    agree(one.hear_all(), b"")
    leave([one, other])


def transactions(at):
    """A transaction that is refused is one of its client alone."""
    one, other = connected(at, 2)
    asked(one, b"MULTI\n", b"-ERR MULTI is not supported: nothing is performed up to EXEC or DISCARD\r\n")
    asked(one, b"SET a 1\n", b"-ERR not performed, since MULTI was refused\r\n")
    asked(other, b"SET a 2\nGET a\nDEL a\nEXEC\n", b"+OK\r\n" + bulk(b"2") + b":1\r\n-ERR EXEC without MULTI\r\n")
    asked(one, b"EXEC\nGET a\n", b"-EXECABORT Transaction discarded because of previous errors.\r\n$-1\r\n")
    leave([one, other])


def at_once(at):
    """All connections have requests on their way at the same time, each about a key of its own and one of all."""
    talks = connected(at, AT_ONCE)
    for turn in range(3):
        for n, talk in enumerate(talks):
            talk.say(b"SET %d %d\nGET %d\nSET all %d\n" % (n, turn, n, n) + words_of(b"GET", b"%d:no" % n))
        for talk in talks:
            replies = b"+OK\r\n" + bulk(b"%d" % turn) + b"+OK\r\n$-1\r\n"
            agree(talk.hear(len(replies)), replies)
    asked(talks[0], b"DBSIZE\n", b":%d\r\n" % (AT_ONCE + 1))
    for n, talk in enumerate(talks):
        talk.say(b"DEL %d\nQUIT\n" % n)
    for talk in talks:
        agree(talk.hear_all(), b":1\r\n+OK\r\n")
    leave(talks)


def in_turn(at):
    for n in range(IN_TURN):
        with Talk(at.port) as talk:
            talk.say(b"SET turn %d\nGET turn\nQUIT\n" % n)
            agree(talk.hear_all(), b"+OK\r\n" + bulk(b"%d" % n) + b"+OK\r\n")


def is_served(at):
    """Whether a new connection has a seat."""
    with Talk(at.port) as talk:
        talk.say(b"QUIT\n")
        return talk.hear_all() == b"+OK\r\n"


def limits(at):
    talks = connected(at, SEATS)
    for _ in range(3):
        with Talk(at.port) as talk:
            agree(talk.hear_all(), NO_SEAT)
    talks.pop().socket.close()
    agrees(within(WAIT, lambda: is_served(at)), "a seat that was given back is not free")
    leave(talks)


def idles(at):
    idle, busy = connected(at, 2)
    begun = time.monotonic()
    while time.monotonic() < begun + 2 * WAIT + 1:
        asked(busy, b"PING\n", b"+PONG\r\n")
        time.sleep(WAIT / 4)
    agree(idle.hear_all(), LATE)
    with Talk(at.port) as half:
        half.say(b"PING\n*2\r\n$3\r\nGET\r\n$2\r\nn")
        agree(half.hear_all(), b"+PONG\r\n" + LATE)
    agrees(time.monotonic() - begun < 6 * WAIT, "that took too long")
    leave([idle, busy])


# Requests that are refused, and why.
REFUSED = (
    (b"*a\r\n", b"malformed request"),
    (b"*-1\r\n", b"malformed request"),
    (b"*01\r\n", b"malformed request"),
    (b"*1\r\n*1\r\n$4\r\nPING\r\n", b"malformed request"),
    (b"*1\r\n$4\r\nPINGxx", b"malformed request"),
    (b"*1025", b"too many words"),
    (b"*1\r\n$65537", b"a word is too long"),
    (b"*3\r\n$60000\r\n%b\r\n$60000\r\n%b\r\n$60000" % (b"x" * 60000, b"y" * 60000), b"the request is too long"),
    (b"x" * (LINE + 1), b"the line is too long"),
)


def refuses(at):
    """The client reads its error, also if it goes on to send more than the system holds."""
    for request, why in REFUSED:
        for rest in (b"", b"PING\r\n" * 1_000_000):
            with Talk(at.port) as talk:
                asked(talk, b"PING\r\n", b"+PONG\r\n")
                sends = talk.say_aside([request + rest])
                agree(heard_whole(talk), refused(why))
                talk.socket.close()
                sends.join(PATIENCE)


def limits_of_requests(at):
    """What is just within the limits is performed."""
    with Talk(at.port) as talk:
        text = b"x" * WORD
        asked(talk, words_of(b"ECHO", text), bulk(text))
        asked(talk, words_of(b"DEL", *[b"%d" % n for n in range(1023)]), b":0\r\n")
        line = b"PING " + b"x" * (LINE - 5)
        asked(talk, line + b"\n", bulk(line[5:]))
        # (each word counts as its bytes and 16 more)
        rest = REQUEST - (3 + 1 + WORD + 4 * 16)
        asked(talk, words_of(b"DEL", b"x", b"y" * WORD, b"z" * rest), b":0\r\n")
    with Talk(at.port) as talk:
        talk.say(words_of(b"DEL", b"x", b"y" * WORD, b"z" * (rest + 1)))
        agree(talk.hear_all(), refused(b"the request is too long"))


def of_a_page(at):
    """A web page's request ends the session before its body, and nothing is written."""
    for head in (b"POST / HTTP/1.1\r\n", b"PUT / HTTP/1.1\r\nHost: a\r\n"):
        with Talk(at.port) as talk:
            talk.say(head + b"content-type: text/plain\r\n\r\nSET evil page\r\n")
            agrees(b"OK" not in talk.hear_all(), "a web page is served")
    with Talk(at.port) as talk:
        asked(talk, b"GET evil\n", b"$-1\r\n")


def is_cut(at):
    """A half-close behind whole requests, and within one."""
    with Talk(at.port) as talk:
        talk.say(b"SET kept text\nGET kept\n" * 1000)
        talk.end()
        agree(talk.hear_all(), (b"+OK\r\n" + bulk(b"text")) * 1000)
    with Talk(at.port) as talk:
        talk.say(b"GET kept\n" + words_of(b"DEL", b"kept")[:-1])
        talk.end()
        agree(talk.hear_all(), bulk(b"text"))
    with Talk(at.port) as talk:
        asked(talk, b"DEL kept\n", b":1\r\n")


def has_unread(at):
    """Each connection ends, or is refused, while its client still sends more than the system holds."""
    rest = b"DBSIZE\n" * 1_000_000
    for _ in range(3):
        with Talk(at.port) as talk:
            sends = talk.say_aside([b"QUIT\n" + rest])
            agree(heard_whole(talk), b"+OK\r\n")
            talk.socket.close()
            sends.join(PATIENCE)


def lingers(at):
    """What a client sends behind the last reply is taken for a while, since a reset could lose that reply."""
    for request, reply in ((b"QUIT\n", b"+OK\r\n"), (b"*a\r\n", refused(b"malformed request"))):
        with Talk(at.port) as talk:
            talk.say(request + b"PING\n" * 1000)
            agree(heard_whole(talk), reply)
            for _ in range(5):
                talk.say(b"PING\n" * 1000)
                time.sleep(LAST / 10)


def takes_nothing(at):
    """Clients that send and take nothing lose their connections, and others are served meanwhile."""
    text = b"x" * 10_000
    with Talk(at.port) as talk:
        asked(talk, words_of(b"SET", b"long", text), b"+OK\r\n")
    full = [Talk(at.port, NARROW) for _ in range(20)]
    for talk in full:
        talk.say_aside([b"GET long\n" * 10_000] * 5)
    begun = time.monotonic()
    while time.monotonic() < begun + 2 * WAIT + LAST:
        agrees(is_served(at), "a connection is not served beside clients that take nothing")
        time.sleep(0.1)
    agrees(within(ENDS_IN, lambda: at.descriptors() <= at.at_rest), "a client that takes nothing keeps its connection")
    leave(full)


def pipelines(at):
    """All requests are sent before a reply is read, which the limit of the server allows for short replies."""
    with Talk(at.port) as talk:
        asked(talk, b"SET short 12345\n", b"+OK\r\n")
        request, reply = words_of(b"GET", b"short"), bulk(b"12345")
        agrees(WAITING > 1000 * len(reply), "the limit is too low for the run")
        talk.say(request * PIPELINED)
        agree(talk.hear(len(reply) * PIPELINED), reply * PIPELINED)


def pipelines_too_much(at):
    """Above the limit the server reads no more, until the client reads. Then it goes on, and no reply is lost."""
    text = b"x" * 10_000
    with Talk(at.port) as talk:
        asked(talk, words_of(b"SET", b"long", text), b"+OK\r\n")
        request, reply = words_of(b"GET", b"long"), bulk(text)
        count = 64 * WAITING // len(reply)
        sends = talk.say_aside([request * count])
        time.sleep(1)
        kib = at.held()
        agree(talk.hear(len(reply) * count), reply * count)
        sends.join(PATIENCE)
    agrees(kib < 64 * WAITING >> 10, f"the server held {kib} KiB of a client that does not read")


def resets(at):
    for n in range(100):
        with Talk(at.port) as talk:
            talk.say_what_is_taken(b"PING\n" * 100, 100)
            talk.hear(n, 1)
            talk.reset()
    agrees(within(ENDS_IN, lambda: at.descriptors() <= at.at_rest), "a reset leaves a connection")


class Soaking:
    """Clients of all kinds, each with keys of its own."""

    def __init__(self, at, seconds):
        self.at, self.end, self.wrong, self.count = at, time.monotonic() + seconds, [], 0

    def run(self):
        lanes = [threading.Thread(target=self.lane, args=[n]) for n in range(CLIENTS)]
        for it in lanes:
            it.start()
        time.sleep(max(0, (self.end - time.monotonic()) / 3))
        begun = self.at.held()
        for it in lanes:
            it.join(self.end - time.monotonic() + PATIENCE)
        agrees(not self.wrong, "; ".join(self.wrong[:3]))
        agrees(not any(it.is_alive() for it in lanes), "a client is not served")
        grown = self.at.held() - begun
        agrees(grown < GROWS, f"the server grew by {grown} KiB")

    def lane(self, n):
        kinds = random.Random(n)
        try:
            while time.monotonic() < self.end and not self.wrong:
                kinds.choice((self.whole, self.whole, self.reset, self.half, self.slow, self.wild))(n, kinds)
                self.count += 1
        except (Wrong, OSError) as why:
            self.wrong.append(f"client {n}: {why!r}")

    def requests(self, n, kinds):
        """Returns requests, as arrays and as lines, and their replies."""
        said, replies = b"", b""
        for _ in range(kinds.randrange(1, 100)):
            text = b"%d" % kinds.randrange(10**6) * kinds.randrange(1, 30)
            said += kinds.choice((words_of(b"SET", b"soak:%d" % n, text), b"SET soak:%d %b\n" % (n, text)))
            said += kinds.choice((words_of(b"GET", b"soak:%d" % n), b"GET soak:%d\r\n" % n))
            replies += b"+OK\r\n" + bulk(text)
        return said, replies

    def whole(self, n, kinds):
        said, replies = self.requests(n, kinds)
        with Talk(self.at.port) as talk:
            cut = kinds.randrange(len(said))
            talk.say(said[:cut])
            talk.say(said[cut:] + b"QUIT\n")
            agree(talk.hear_all(), replies + b"+OK\r\n")

    def reset(self, n, kinds):
        said, replies = self.requests(n, kinds)
        with Talk(self.at.port) as talk:
            talk.say(said)
            talk.hear(kinds.randrange(len(replies)))
            talk.reset()

    def half(self, n, kinds):
        said, replies = self.requests(n, kinds)
        with Talk(self.at.port) as talk:
            talk.say(said + kinds.choice((b"", b"GET so", b"*2\r\n$3\r\nGET\r\n$")))
            talk.end()
            agree(talk.hear_all(), replies)

    def slow(self, n, kinds):
        said, replies = self.requests(n, kinds)
        with Talk(self.at.port) as talk:
            for byte in said[:200]:
                talk.say(bytes([byte]))
            talk.say(said[200:] + b"QUIT\n")
            agree(talk.hear_all(), replies + b"+OK\r\n")

    def wild(self, n, kinds):
        said, replies = self.requests(n, kinds)
        request, why = kinds.choice(REFUSED)
        with Talk(self.at.port) as talk:
            talk.say(said + request)
            agree(talk.hear_all(), replies + refused(why))


def soaks(at):
    soaking = Soaking(at, at.soak)
    soaking.run()
    agrees(soaking.count > CLIENTS, "too few clients came")


def stops(at):
    """A server that is stopped replies to what it has read, says so to each client, and ends."""
    other = Server(at.name, at.programs, MOST_KIB, 0)
    try:
        idle, busy, stopping = connected(other, 3)
        asked(busy, b"SET kept text\n", b"+OK\r\n")
        stopping.say(b"DBSIZE\nshutdown\nDBSIZE\n")
        agree(stopping.hear_all(), b":1\r\n")
        agree(idle.hear_all(), STOPS)
        agree(busy.hear_all(), STOPS)
        with contextlib.suppress(OSError), Talk(other.port) as late:
            agree(late.hear_all(), b"")
        leave([idle, busy, stopping])
        other.ran.wait(GRACE + LAST)
        agree(other.ran.returncode, 0)
    finally:
        other.stop()


def told_by(words, given=b"", seconds=5 * PATIENCE):
    """Runs a client; returns what it prints."""
    try:
        ran = subprocess.run(words, input=given, capture_output=True, timeout=seconds)
    except subprocess.TimeoutExpired as late:
        raise Wrong(f"{words[0]} did not end in {seconds} s") from late
    agrees(ran.returncode == 0, f"{words[0]} ended with status {ran.returncode}: {short(ran.stdout[-200:] + ran.stderr[-300:])}")
    return ran.stdout


def by_cli(at):
    cli = ["redis-cli", "-h", HOST, "-p", str(at.port)]
    said = told_by(cli, b'PING\nSET a 1\nGET a\nSET "a\\r\\nb" "\\x00\\xff"\nGET "a\\r\\nb"\nDEL a none "a\\r\\nb"\nGET a\nECHO hi\n')
    agree(said, b"PONG\nOK\n1\nOK\n\x00\xff\n2\n\nhi\n")
    given = b"".join(words_of(b"SET", b"key:%d" % n, b"text %d" % n) for n in range(10_000))
    agrees(b"errors: 0, replies: 10000" in told_by([*cli, "--pipe"], given), "redis-cli --pipe lost replies")


BY_PYTHON = """
import sys, redis
r = redis.Redis(sys.argv[1], int(sys.argv[2]))
assert r.ping() and r.echo("hi") == b"hi"
assert r.set("a", bytes(range(256))) and r.get("a") == bytes(range(256)) and r.get("none") is None
several = r.pipeline(transaction=False)
for n in range(10_000):
    several.set(f"key:{n}", n).get(f"key:{n}")
assert several.execute() == [it for n in range(10_000) for it in (True, str(n).encode())]
assert r.set("short", "12345")
for n in range(int(sys.argv[3])):
    several.get("short")
assert several.execute() == [b"12345"] * int(sys.argv[3])
"""


def by_python(at):
    told_by([PYTHON, "-c", BY_PYTHON, HOST, str(at.port), str(PIPELINED)])


def by_benchmark(at):
    for words in (["-n", "20000", "-c", "50"], ["-n", "200000", "-c", "50", "-P", "16", "-r", "1000"]):
        said = told_by(["redis-benchmark", "-h", HOST, "-p", str(at.port), "-t", "ping,set,get", "--csv", *words])
        agrees(said.count(b"\n") >= 4 and b"rror" not in said, f"it said {short(said)}")


RUNS = {
    "two connections share the store": shares,
    "a transaction beside another client": transactions,
    f"{AT_ONCE:,} connections at once": at_once,
    f"{IN_TURN:,} connections one after another": in_turn,
    "one connection too many": limits,
    "an idle connection, a busy one, and half a request": idles,
    "requests that are refused": refuses,
    "requests just within the limits": limits_of_requests,
    "a request of a web page": of_a_page,
    "half-closes": is_cut,
    "an end while the client sends": has_unread,
    "bytes behind the last reply": lingers,
    "clients that take nothing": takes_nothing,
    f"{PIPELINED:,} requests before a reply is read": pipelines,
    "more requests than the limit lets wait": pipelines_too_much,
    "resets": resets,
    "clients of all kinds": soaks,
    "a server that stops": stops,
}

# The runs of clients that a machine may lack.
if shutil.which("redis-cli"):
    RUNS |= {"redis-cli": by_cli, "redis-benchmark": by_benchmark}
if subprocess.run([PYTHON, "-c", "import redis"], capture_output=True).returncode == 0:
    RUNS |= {f"python3-redis, and {PIPELINED:,} requests in a pipeline": by_python}
