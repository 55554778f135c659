"""What a case may answer if one of its requests for memory is refused: as with all its memory, except for the one call that was refused."""
from cases import keeps_all, without_pendings

REFUSED = "!OutOfMemory"
# An item that was refused, of a stream of numbers.
REFUSED_ITEM = "-999999"
# The modes of streams that an error ends, a refusal too.
FRAMES = ("frames", "whole_lines", "framed_lines")
# How many words a call of a journal or of its halves has.
CALLS = {"r": 2, "rv": 3, "w": 2, "wv": 3, "f": 1, "c": 1}


def pairs_of(answers):
    answers = without_pendings(answers)
    return list(zip(answers[::2], answers[1::2]))


def polls_of(answers):
    """Returns how many polls were made: one for each pending and one for each pair. None: half of a pair is missing."""
    halves = len(without_pendings(answers))
    return answers.count("P") + halves // 2 if halves % 2 == 0 else None


def is_as_long(plain, harsh):
    polls = polls_of(harsh)
    return polls is not None and polls == polls_of(plain)


def begins(longer, shorter):
    return longer[: len(shorter)] == shorter


def is_one_more(plain, harsh):
    """Whether a stream gives the refusal at one poll and the same items as ever at the others: it keeps what it had."""
    places = [n for n, it in enumerate(harsh) if it in (REFUSED, REFUSED_ITEM)]
    return len(harsh) == len(plain) and len(places) == 1 and begins(plain, harsh[: places[0]] + harsh[places[0] + 1 :])


def is_ended(plain, harsh):
    """Whether a stream gives the same as ever, the refusal at one poll, and its end at each poll behind it."""
    n = harsh.index(REFUSED) if REFUSED in harsh else 0
    return harsh == plain[:n] + [REFUSED] + ["E"] * (len(plain) - n - 1)


def is_read_on(plain, harsh):
    """Whether the read after the refused one gives what that one had not read yet. Each reads into an empty vector or text."""
    read, left, refusals = [], "", 0
    for shown, value in pairs_of(harsh):
        if value == REFUSED:
            left, refusals = left + shown[2:], refusals + 1
        elif not value.isdigit():
            return False
        else:
            read.append((f"=x{left}{shown[2:]}", str(int(value) + len(left) // 2)))
            left = ""
    return refusals == 1 and is_as_long(plain, harsh) and begins(pairs_of(plain), read)


def is_read_behind(start, plain, harsh):
    """Whether the refused read keeps what it has read, and the one after it gives the rest. All read behind what is there."""
    shown, left, read, refusals = f"x{start.replace('-', '')}", 0, [], 0
    for value, then in pairs_of(harsh):
        if not then.startswith(shown):
            return False
        if value == f"={REFUSED}":
            left, refusals = left + (len(then) - len(shown)) // 2, refusals + 1
        else:
            read.append((f"={int(value[1:]) + left}" if value[1:].isdigit() else value, then))
            left = 0
        shown = then
    return refusals == 1 and is_as_long(plain, harsh) and begins(pairs_of(plain), read)


def is_the_value(plain, harsh):
    """Whether a future that collects waits as ever, and its value is the refusal."""
    return harsh[-1:] == [f"={REFUSED}"] and begins(plain, harsh[:-1])


def keeps_copied(plain, harsh):
    """Whether a copy to a buffered writer ends with the refusal, and what was taken and is held is a beginning of what it copies."""
    has_waited = harsh.count("P") <= plain.count("P")
    plain, harsh = without_pendings(plain), without_pendings(harsh)
    if not has_waited or len(harsh) != 3 or harsh[0] != f"={REFUSED}":
        return False
    return (plain[2] + plain[1][1:]).startswith(harsh[2] + harsh[1][1:])


def without_call(words, n, and_later):
    """Returns the words of a case of a journal without its nth call, or also without those behind it."""
    left = list(words)
    first = 5 if words[3] == "mem" else 7
    kept, calls = left[:first], 0
    left = left[first:]
    while left:
        size = CALLS.get(left[0], 0)
        if not size or calls < n or calls > n and not and_later:
            kept += left[: size or 1]
        left, calls = left[size or 1 :], calls + bool(size)
    return kept


def is_left_out(words, plain, harsh, ask):
    """Whether the answers are those to the case without the call that was refused. A list of calls ends at that call."""
    sign = "refused" if words[2] == "drive" else REFUSED
    if harsh.count(sign) != 1:
        return False
    n = harsh.index(sign)
    return harsh[:n] + harsh[n + 1 :] == ask(" ".join(without_call(words, n, words[2] == "drive")))


def is_refusal(words, plain, harsh, ask):
    """Whether the answers `harsh` to the case tell one refusal, and what it leaves; `ask` gives the answers to another case."""
    mode = words[2] if words[1] == "io" else words[1]
    if mode in ("poll", "lines", "split", "values"):
        return is_one_more(plain, harsh)
    if words[1] != "io":
        return False
    if mode in FRAMES:
        return is_ended(plain, harsh)
    if mode in ("until", "line", "string"):
        return is_read_on(plain, harsh)
    if mode.endswith("_onto"):
        return is_read_behind(words[3], plain, harsh)
    if mode in ("collect", "collectbuf", "pieces"):
        return is_the_value(plain, harsh)
    if mode == "copybuf":
        return keeps_copied(plain, harsh)
    if mode == "writes":
        return harsh.count(REFUSED) == 1 and len(harsh) == len(plain) and keeps_all(words, harsh)
    return mode in ("journal", "drive", "halves") and is_left_out(words, plain, harsh, ask)
