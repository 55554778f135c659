"""The tables of docs/SPEED.md and a plot of them, from bench/measured.txt and bench/large.txt.

A line there is a case, its size N, the instructions of a run at N and at 10 N, those that making its bytes takes for each item, and the
instructions of an item in the two builds of the original, without those of its bytes. `tools/bench FOLDER --measure` writes all but the
last two, and `tools/bench FOLDER --original` those. The line that begins with BUILD says of what build they are.

A line of bench/large.txt is a case, its size, and the seconds and the megabytes of a run here, of the two builds of the original, and over std.
"""
import math
import textwrap

from repository import TOP, read_text
from sources import REFERENCE

PAGE, FILE, PLOT = "docs/SPEED.md", f"{TOP}/bench/measured.txt", f"{REFERENCE}/speed.svg"
HEAD = "| Case | here | original | original, LTO |\n|---|---|---|---|\n"
BAR, STEP, LABEL, WIDTH = 6, 18, 170, 420
BUILD = "# The original's columns are of one build: "
# For each case that makes bytes first: the case that makes as many, and how many of its items an item needs.
NOISE = (
    "cursor_read buf_reader chain_read bytes held_read blocking_read waits_read fill take_fill chain_fill take_read asserted_read with_budget_read as_sync_read "
    "read_to_end copy journal half"
).split()
TEXT = (
    "lines split read_until read_line read_line_growing read_exact served_lines wait_serving wait_read wait_read_exact wait_read_until wait_read_until_limited"
).split()
MADE = {
    **dict.fromkeys(NOISE, ("made_noise", 1)),
    **dict.fromkeys(TEXT, ("made_text", 1)),
    **dict.fromkeys(("lines_8", "wide_lines_8"), ("made_lines_8", 1)),
    **dict.fromkeys(("lines_2000", "wide_lines_2000"), ("made_lines_2000", 1)),
    **dict.fromkeys(("read_to_string", "read_wide_to_string"), ("made_lines_16", 1)),
    **dict.fromkeys(("values", "values_by_hand", "poll_advance", "wait_frame", "collect_frames"), ("made_values", 1)),
    "take_body": ("made_chunks", 1),
    **dict.fromkeys(("copied", "cloned"), ("made_numbers", 1)),
    **dict.fromkeys(("cursor_overwrite", "vectored_read"), ("made_noise", 16)),
}
# The cases that are run in the large, with their sizes; and the case that has the same work over std, in the original's program.
LARGE_FILE = f"{TOP}/bench/large.txt"
LARGE_HEAD = "| Case | Size | here, s | original, s | LTO, s | std, s | here, MB | original, MB | std, MB |\n|---|---|---|---|---|---|---|---|---|\n"
ITEMS, LINES, BYTES = 10_000_000, 12_500_000, 200_000_000
LARGE = {
    **dict.fromkeys(("nest_of_eight", "collect", "or_streams", "race_streams"), ITEMS),
    **dict.fromkeys(("lines", "split"), LINES),
    **dict.fromkeys(("copy", "read_to_end", "read_to_string"), BYTES),
    **dict.fromkeys(("values", "poll_advance", "collect_frames", "served_lines", "wait_serving"), ITEMS),
}
OVER_STD = {it: f"std_{it}" for it in ("lines", "split", "copy", "read_to_end", "read_to_string")}
# The plot has ratios from the least to the most; what is beyond is drawn at its edge.
LEAST, MOST = 0.25, 4.0


class Row:
    """What was measured of a case."""

    def __init__(self, line):
        self.case, size, first, last, *others = line.split()
        self.size, self.first, self.last = int(size), int(first), int(last)
        self.made, self.original, self.lto = map(float, others)

    @property
    def here(self):
        """The instructions of an item."""
        return (self.last - self.first) / (9 * self.size) - self.made

    def ratio(self, other):
        return self.here / other


def rows():
    return [Row(it) for it in read_text(FILE).splitlines() if it and not it.startswith("#")]


def shown(number):
    """Returns a number of instructions with the digits that tell; of one that was not measured a dash."""
    return "-" if not number else f"{number:,.0f}" if number >= 100 else f"{number:.1f}" if number >= 4 else f"{number:.2f}" if number >= 1 else f"{number:.3f}"


def build():
    """Returns of what build the original's columns are."""
    return next(it for it in read_text(FILE).splitlines() if it.startswith(BUILD)).removeprefix("# ")


def table():
    """Returns the table of the page, and of what build the original is."""
    lines = [f"| `{it.case}` | " + " | ".join(shown(number) for number in (it.here, it.original, it.lto)) + " |" for it in rows()]
    return "\n\n" + HEAD + "\n".join(lines) + "\n\n" + textwrap.fill(build(), 120) + "\n\n"


def large_table():
    """Returns the table of the page on large sizes."""
    lines = []
    for line in (it for it in read_text(LARGE_FILE).splitlines() if not it.startswith("#")):
        case, size, *told = line.split()
        seconds, megabytes = told[::2], told[1::2]
        peaks = [megabytes[it] for it in (0, 1, 3)]
        lines.append(f"| `{case}` | {int(size):,} | " + " | ".join("-" if it == "0" else it for it in (*seconds, *peaks)) + " |")
    return "\n\n" + LARGE_HEAD + "\n".join(lines) + "\n\n"


def across(ratio):
    """Returns how far from the left a ratio stands, by its logarithm."""
    bounded = min(MOST, max(LEAST, ratio))
    return LABEL + WIDTH * math.log(bounded / LEAST) / math.log(MOST / LEAST)


def plot():
    """Returns a plot of the instructions here, by those of each build of the original: a bar to the left of 1 is fewer."""
    measured = rows()
    height = STEP * len(measured) + 60
    shapes = [
        f'<svg xmlns="http://www.w3.org/2000/svg" width="{LABEL + WIDTH + 60}" height="{height}" viewBox="0 0 {LABEL + WIDTH + 60} {height}">',
        "<style>text { font: 12px monospace; fill: #222 } .plain { fill: #225588 } .lto { fill: #e0a040 } line { stroke: #888 }</style>",
        '<rect width="100%" height="100%" fill="#fff"/>',
        f'<text x="8" y="16">instructions here / there: <tspan class="plain">release build</tspan>, <tspan class="lto">with LTO</tspan></text>',
    ]
    for mark in (0.25, 0.5, 1, 2, 4):
        x = across(mark)
        shapes.append(f'<line x1="{x:.1f}" y1="34" x2="{x:.1f}" y2="{height - 8}"/><text x="{x - 8:.1f}" y="30">{mark:g}</text>')
    for number, it in enumerate(measured):
        y = 42 + STEP * number
        shapes.append(f'<text x="8" y="{y + 10}">{it.case}</text>')
        for offset, kind, other in ((0, "plain", it.original), (BAR, "lto", it.lto)):
            if not other:
                continue
            start, end = sorted((across(1), across(it.ratio(other))))
            shapes.append(f'<rect class="{kind}" x="{start:.1f}" y="{y + offset}" width="{max(1.5, end - start):.1f}" height="{BAR - 1}"/>')
    return "\n".join([*shapes, "</svg>", ""])
