"""What is said to the program of chapter 20, a thread for each connection, and what it has to reply."""
import contextlib
import resource
import socket
import threading
import time

from servers import Crates, number_in
from talks import PATIENCE, Talk, agree, agrees, within

FOLDER = "docs/guide/on-a-socket"
CRATES = Crates((FOLDER, "on_a_socket may_wait=9: framed futures_lite bytes"))


def number(file, name):
    return number_in(f"{FOLDER}/src/{file}.rs", name)


# How many connections there may be, and bytes of a line.
SEATS, LONGEST = number("seat", "SEATS"), number("connection", "LINE")
# How many seconds a wait has, a connection's requests, and then its replies.
WAIT, LIFE, LAST = number("timed", "PATIENCE"), number("connection", "LIFE"), number("connection", "LAST")
# In how many seconds a connection ends whose client is gone.
ENDS_IN = 3 * WAIT
# The most memory that the server may hold, in KiB; a checked build holds more.
MOST_KIB = 1 << 17
# How many requests a connection sends without a wait for their replies; they take a small part of its time.
PIPELINED = 1_200
NO_SEAT = b"ERROR too many connections\n"
# The options of a client that takes little at once.
NARROW = (socket.SOL_SOCKET, socket.SO_RCVBUF, 1 << 12), (socket.IPPROTO_TCP, socket.TCP_MAXSEG, 536)
LATE = b"ERROR no request came in time\n"


def seated(at):
    """Returns a connection that was served once, or nothing if there is no seat."""
    talk = Talk(at.port)
    talk.say(b"COUNT\n")
    if talk.hear(1).isdigit():
        while talk.hear(1) != b"\n":
            pass
        return talk
    talk.socket.close()
    return None


def talks_with(at, count):
    """Returns so many connections that have a seat. One that has just ended may have it for a moment."""
    talks = [within(2 * WAIT, lambda: seated(at)) for _ in range(count)]
    agrees(all(talks), "a connection has no seat")
    return talks


def leave(talks):
    for talk in talks:
        talk.socket.close()


def are_free(at):
    """Whether each seat is free for a new connection."""
    talks = [seated(at) for _ in range(SEATS)]
    leave(filter(None, talks))
    return all(talks)


def asked(talk, request, reply):
    talk.say(request)
    agree(talk.hear(len(reply)), reply)


def is_served(at):
    """Whether a new connection has a seat."""
    with Talk(at.port) as talk:
        talk.say(b"QUIT\n")
        return talk.hear_all() == b"OK\n"


def shares(at):
    one, other = talks_with(at, 2)
    asked(one, b"SET here a text with spaces\nGET here\n", b"OK\na text with spaces\n")
    asked(other, b"GET here\nDELETE here\nDELETE here\nGET here\nNO\n", b"a text with spaces\nOK\nNONE\nNONE\nERROR unknown request\n")
    asked(one, b"GET here\r\nCOUNT\r\nQUIT\nCOUNT\n", b"NONE\n0\nOK\n")
    agree(one.hear_all(), b"")
    leave([one, other])


def at_once(at):
    """Each connection sets keys of its own, and all of them one key, all at once."""
    talks, said = talks_with(at, SEATS), {}

    def speak(n):
        requests = b"".join(b"SET %d:%d %d\nGET %d:%d\nSET all %d\n" % (n, it, it, n, it, it) for it in range(PIPELINED // 3))
        talks[n].say_aside([requests])
        wanted = b"".join(b"OK\n%d\nOK\n" % it for it in range(PIPELINED // 3))
        said[n] = talks[n].hear(len(wanted)) == wanted

    speakers = [threading.Thread(target=speak, args=[n]) for n in range(SEATS)]
    for it in speakers:
        it.start()
    for it in speakers:
        it.join(PATIENCE)
    agrees(said == dict.fromkeys(range(SEATS), True), f"the replies are not right: {said}")
    count = b"%d\n" % (SEATS * (PIPELINED // 3) + 1)
    asked(talks[0], b"COUNT\n", count)
    leave(talks)


def limits(at):
    talks = talks_with(at, SEATS)
    for _ in range(3):
        with Talk(at.port) as talk:
            agree(talk.hear_all(), NO_SEAT)
    talks.pop().socket.close()
    agrees(within(WAIT, lambda: is_served(at)), "a seat that was given back is not free")
    leave(talks)


def idles(at):
    idle, busy = talks_with(at, 2)
    begun = time.monotonic()
    while time.monotonic() < begun + 2 * WAIT:
        asked(busy, b"GET none\n", b"NONE\n")
        time.sleep(WAIT / 4)
    agree(idle.hear_all(), LATE)
    with Talk(at.port) as half:
        half.say(b"GET none\nGET no")
        agree(half.hear_all(), b"NONE\n" + LATE)
    agrees(time.monotonic() - begun < 6 * WAIT, "that took too long")
    leave([idle, busy])


def refuses(at):
    with Talk(at.port) as talk:
        talk.say(b"GET none\n")
        agree(talk.hear(5), b"NONE\n")
        talk.say_aside([b"x" * 100 * LONGEST])
        agree(talk.hear_all(), b"ERROR the line is too long\n")
    with Talk(at.port) as talk:
        asked(talk, b"GET \xff\nGET none\r\r\n", b"ERROR the line is no text\n" * 2)
        asked(talk, b"GET %b\n" % (b"x" * (LONGEST - 4)), b"NONE\n")


def of_a_page(at):
    """A web page's request ends the session before its body, and nothing is written."""
    for head in (b"POST / HTTP/1.1\r\n", b"PUT /\xff HTTP/1.1\r\nHost: a\r\n", b"GET / HTTP/1.1\r\nHost: a\r\n"):
        with Talk(at.port) as talk:
            talk.say(head + b"content-type: text/plain\r\n\r\nSET evil from a page\n")
            agree(talk.hear_all().splitlines()[-1:], [b"ERROR this is no web server"])
    with Talk(at.port) as talk:
        asked(talk, b"GET evil\n", b"NONE\n")


def is_cut(at):
    with Talk(at.port) as talk:
        talk.say(b"SET kept text\nDELETE kept")
        talk.end()
        agree(talk.hear_all(), b"OK\nERROR the last line has no newline\n")
    with Talk(at.port) as talk:
        asked(talk, b"GET kept\nDELETE kept\n", b"text\nOK\n")


def breaks(at):
    for _ in range(20):
        with Talk(at.port) as talk:
            talk.say_what_is_taken(b"GET none\n" * 100, 100)
            talk.hear(100, 1)
            talk.reset()
    agrees(within(2 * WAIT, lambda: are_free(at)), "the seats are not given back")


def is_slow(at):
    """On each seat but one a client sends a byte a second. On that one a client takes replies so slowly that each write is just in time."""
    talks, ends, over = talks_with(at, SEATS - 1), {}, threading.Event()
    narrow = Talk(at.port, NARROW)

    def send(n):
        with contextlib.suppress(OSError):
            while not (heard := talks[n].hear(len(LATE), 1)):
                talks[n].say(b"x")
            ends[n] = heard == LATE

    def take():
        while not over.wait(0.5) and narrow.hear(1 << 13, WAIT):
            pass

    asked(narrow, b"SET long %b\n" % (b"x" * (LONGEST - 9)), b"OK\n")
    narrow.say_aside([b"GET long\n" * 100] * 1000)
    clients = [threading.Thread(target=take), *(threading.Thread(target=send, args=[n]) for n in range(SEATS - 1))]
    for it in clients:
        it.start()
    time.sleep(LIFE - 2)
    kept = not is_served(at)
    freed = within(2 + LAST + 1, lambda: are_free(at))
    over.set()
    for it in clients:
        it.join(2 * WAIT)
    leave([*talks, narrow])
    agrees(kept, "a slow client lost its seat before its time")
    agrees(freed, "slow clients keep their seats")
    agrees(ends == dict.fromkeys(range(SEATS - 1), True), f"a slow client is not told why its connection ends: {ends}")


def heard_whole(talk):
    """Returns the bytes of the server up to its end, which no reset may be."""
    heard = b""
    while piece := talk.socket.recv(1 << 16):
        heard += piece
    return heard


def has_unread(at):
    """Each connection ends, or is refused, while its client still sends more than the system holds."""
    rest = b"COUNT\n" * 1_000_000
    for _ in range(3):
        with Talk(at.port) as talk:
            talk.say(b"QUIT\n" + rest)
            agree(heard_whole(talk), b"OK\n")
    talks = talks_with(at, SEATS)
    for _ in range(3):
        with Talk(at.port) as talk:
            talk.say(rest)
            agree(heard_whole(talk), NO_SEAT)
    leave(talks)


def has_no_descriptor(at):
    """While no connection can be accepted, the server is at rest; then those that wait are served."""
    limit = resource.prlimit(at.ran.pid, resource.RLIMIT_NOFILE)
    used = at.descriptors()
    resource.prlimit(at.ran.pid, resource.RLIMIT_NOFILE, (used, limit[1]))
    try:
        # (an accept that waits already has its descriptor)
        with Talk(at.port) as first, Talk(at.port) as other:
            first.say(b"QUIT\n")
            other.say(b"QUIT\n")
            begun = at.busy()
            agree(other.hear(1, 1), b"")
            agrees(at.busy() - begun < 0.2, "the server spins")
            resource.prlimit(at.ran.pid, resource.RLIMIT_NOFILE, limit)
            agree(first.hear_all() + other.hear_all(), b"OK\n" * 2)
    finally:
        resource.prlimit(at.ran.pid, resource.RLIMIT_NOFILE, limit)


RUNS = {
    "two connections share the store": shares,
    "all connections at once": at_once,
    "one connection too many": limits,
    "an idle connection, a busy one, and half a request": idles,
    "a line that is too long, and one that is no text": refuses,
    "a request of a web page": of_a_page,
    "a request that is cut off": is_cut,
    "resets": breaks,
    "slow clients on all seats": is_slow,
    "an end, or no seat, while the client sends": has_unread,
    "no descriptor for a connection": has_no_descriptor,
}
