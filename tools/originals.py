"""The public names of futures-lite's modules, from tools/original.txt, each with what differs here, as the tables of docs/FROM-FUTURES-LITE.md.

A line is `MODULE::TITLE`, or `MODULE::TITLE: NOTE`, with what differs or why it is not here. An item that is here is found by its name.
"""
import functools
import re

from repository import TOP, read_text
from sources import Sources
from vocabulary import wrapped

PAGE = "docs/FROM-FUTURES-LITE.md"
# How a note begins of what is not here.
NOT_HERE = "Not here"
LINE = re.compile(r"(?P<module>future|stream|io)::(?P<title>\w+(?:::\w+)?)(?:: (?P<note>.*))?")


def lines():
    """Yields the module, the title and the note of each line; of a line that is none, it."""
    for line in read_text(f"{TOP}/tools/original.txt").splitlines():
        if line and not line.startswith("#"):
            found = LINE.fullmatch(line)
            yield (found["module"], found["title"], found["note"]) if found else (None, line, None)


def names():
    """Returns the names of the public items of futures-lite, a method's without its type or trait."""
    return {title.rpartition("::")[2] for _, title, _ in lines()}


@functools.cache
def sources():
    return Sources()


def tables():
    """Returns of each module, by the name of its marker, the table of what differs, and the names that are as in the original."""
    found = {}
    for module, title, note in lines():
        if module:
            found.setdefault(module, []).append((f"`{title}`", note))
    return {module: part(rows) for module, rows in found.items()}


def part(rows):
    """Returns the table of the names that have a note, and the names without one."""
    told = [f"| {name} | {note} |" for name, note in rows if note]
    same = wrapped(f"The same as there: {', '.join(name for name, note in rows if not note)}.")
    return "\n".join(["\n\n| futures-lite | What differs |", "|---|---|", *told, "", f"{same}\n\n"])


def added():
    """Returns the items of each module that futures-lite has not, by the name of their marker."""
    there = {(module, title) for module, title, _ in lines()}
    found = {}
    for module in ("future", "stream", "io"):
        items = [it for title, it in sources().items_of(module).items() if not it.owner and (module, title) not in there]
        found[f"{module} added"] = f"\n{wrapped(', '.join(f'`{it.title}`' for it in items))}\n"
    return found


def faults():
    """Yields each line that is none, each name that is not here without a note that says why, and each that is here although its note says that it is not."""
    for module, title, note in lines():
        if not module:
            yield "tools/original.txt", f"this is no line of it: {title}"
            continue
        is_here = title in sources().items_of(module)
        if not note and not is_here:
            yield "tools/original.txt", f"`{module}::{title}` is not here, and no note says why"
        if is_here and note and note.startswith(NOT_HERE):
            yield "tools/original.txt", f"`{module}::{title}` is here"
