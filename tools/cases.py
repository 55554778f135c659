"""What the tools share that read cases: their words, and the answers to them."""
from repository import stop

# What the program of cases prints of words that are no case.
NO_CASE = "bad words"
# The words of errors, and all words of a script's marks but chunks.
ERRORS = ("FO", "FI", "FT", "FM")
OTHERS = ("P", "E", *ERRORS)


def marks_of(word):
    return [it for it in word[2:].split(",") if it]


def bytes_of(mark):
    """Returns the bytes of a mark, of a word after `mem` too; of none where it is a chunk of none."""
    return b"" if mark in OTHERS or mark == "-" else bytes.fromhex(mark)


def answers_in(line):
    return line.split(",")[:-1]


def without_pendings(answers):
    return [it for it in answers if it != "P"]


def offered_by(calls):
    """Yields the bytes that each call of a buffered writer offers."""
    words = iter(calls)
    for word in words:
        yield b"".join(bytes_of(next(words)) for _ in range(len(word) if word in ("w", "wv") else 0))


def keeps_all(words, answers):
    """Whether a buffered writer has lost no byte and doubled none, and told no error twice."""
    accepted, errors = b"", ",".join(words[4:7]).split(",").count("FO")
    for offered, answer, held, taken in zip(offered_by(words[7:]), answers[::3], answers[1::3], answers[2::3]):
        accepted += offered[: int(answer)] if answer.isdigit() else b""
        # (at a pending what is held has its written beginning too)
        if answer != "P" and taken[1:] + held[1:] != accepted.hex():
            return False
    return answers.count("!Other") <= errors


def words_in(file):
    """Yields the words of each case of the file."""
    try:
        with open(file, encoding="utf-8") as lines:
            yield from (line.partition(" =>")[0].split() for line in lines if line.strip() and not line.startswith("#"))
    except (OSError, UnicodeDecodeError) as error:
        stop(f"{file} cannot be read: {getattr(error, 'strerror', None) or error}")
