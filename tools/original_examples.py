"""What became of each example of futures-lite's documentation, by tools/original-examples.txt.

A line is `MODULE::TITLE`, the item in whose documentation an example stands. After `=` follows the item here whose example says the same, if it
has another name. After a colon follows what of the example's assertions is not proved, or why none is. Why an example is not here tools/original.txt says.
"""
import re

import examples
import originals
from repository import TOP, read_text
from sources import MODULES

LIST = "tools/original-examples.txt"
LINE = re.compile(r"(?P<name>[\w:!]+)(?: = (?P<here>[\w:]+))?(?:: (?P<note>.*))?")


def faults():
    """Yields each example of which nothing is proved and no note says why."""
    items = {module: originals.sources().items_of(module) for module in MODULES}
    notes = {f"{module}::{title}" for module, title, note in originals.lines() if note}
    for line in (it for it in read_text(f"{TOP}/{LIST}").splitlines() if it and not it.startswith("#")):
        found = LINE.fullmatch(line)
        module, _, title = (found["here"] or found["name"]).partition("::")
        item = items.get(module, {}).get(title)
        is_here = bool(item and item.examples)
        is_proved = is_here and any(examples.proved_in(it) for it in item.examples)
        if not is_proved and not found["note"] and (is_here or found["name"] not in notes):
            yield LIST, f"nothing of the example of `{found['name']}` is proved, and no note says why"
