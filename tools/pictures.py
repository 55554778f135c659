"""Tables of what adapters return: a row for each source with what it returned in each poll, and a row with what came out.

A table is made from a case of the mode `polls`, whose answers `tools/replay` holds to the program.
"""
import functools
import os
import re

from repository import TOP, read_text

CASES = ("cases/adapters.txt", "cases/merging.txt")
# The line over a case says which item it shows, and how its nest is written as a call.
ABOUT = re.compile(r"# (?P<item>\w+::[\w:]+): `(?P<call>.*)`")
ANSWER = re.compile(r"(\S+?),\(((?:\d+,)*)\)")
NAMES = ("a", "b", "c", "d")


# What yields pairs: a pair x, y is 1000 x + y in a case.
PAIRS = ("::zip", "::enumerate")


def pair_of(word):
    """Returns the pair that a number stands for."""
    return f"({int(word) // 1000}, {int(word) % 1000})" if word.isdigit() else word


class Table:
    """The polls of a nest over scripts."""

    def __init__(self, item, call, case, answers):
        self.item, self.call = item, call
        scripts = [word.removeprefix("S:").split(",") if word != "S:" else [] for word in case.split() if word.startswith("S:")]
        polls = ANSWER.findall(answers)
        self.out = [word for word, _ in polls]
        counts = [[int(it) for it in told.split(",")[:-1]] for _, told in polls]
        before = [[0] * len(scripts), *counts[:-1]]
        # What each script returned in each poll; after its last answer it ends at every poll.
        self.given = [
            [[script[at] if at < len(script) else "E" for at in range(first[number], last[number])] for first, last in zip(before, counts)]
            for number, script in enumerate(scripts)
        ]

    def rows(self):
        """Yields the label and the cells of each row."""
        for name, cells in zip(NAMES, self.given):
            yield name, cells
        yield self.call, [[pair_of(it) if self.item.endswith(PAIRS) else it] for it in self.out]

    def lines(self):
        """Returns the table, one column a poll."""
        rows = [("poll", [str(number + 1) for number in range(len(self.out))]), *((label, [" ".join(it) for it in cells]) for label, cells in self.rows())]
        label = max(len(it) for it, _ in rows)
        widths = [max(len(cells[at]) for _, cells in rows) for at in range(len(self.out))]
        return [f"{name:<{label}} | {' | '.join(f'{it:<{width}}' for it, width in zip(cells, widths))}".rstrip() for name, cells in rows]


@functools.cache
def by_item():
    """Returns the tables by their items: the module of the facade and the title."""
    found, about = {}, None
    for line in (line for it in CASES if os.path.isfile(f"{TOP}/{it}") for line in read_text(f"{TOP}/{it}").splitlines()):
        if it := ABOUT.match(line):
            about = it
        elif " => " in line and about:
            found[about["item"]] = Table(about["item"], about["call"], *line.split(" => "))
            about = None
    return found
