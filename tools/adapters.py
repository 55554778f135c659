"""What is told of each adapter: the list that it yields (docs/NESTS.md), and its family (docs/guide/02-nests.md, specs/Families.antt of the facade)."""
import re

from repository import TOP, read_text
from sources import Sources
from vocabulary import calls, module_path

NESTS, GUIDE, FAMILIES = "docs/NESTS.md", "docs/guide/02-nests.md", "crates/futures_lite/specs/Families.antt"
# The relations that several adapters share.
RELATIONS = ("Replaces", "Exchanges", "LeavesOut", "Cuts")
# The last argument of `ListsAs`: a word, or parentheses that may hold others.
YIELDS = re.compile(r"ListsAs [^{]*? result (?:\(((?:[^()]|\((?:[^()]|\([^()]*\))*\))*)\)|([^\s()]+))")


def list_told(clause):
    """Returns the list that a clause `lists` says that an adapter yields; of one that asks for a fact of inner streams, futures or clones nothing."""
    flat = " ".join(clause.split())
    found = YIELDS.search(flat)
    return found and "→ ((" not in flat and (found[1] or found[2])


def lists():
    """Returns the table of lists, by the name of its markers in the page."""
    told = {it.name: [list_told(said) for said in it.gives if said.startswith("ensures lists ")] for it in Sources().items_of("stream").values() if it.owner}
    rows = [f"| `{name}` | `{found[0]}` |" for name, found in told.items() if found and found[0]]
    return {"lists": "\n".join(["", "", "| Adapter | The list that it yields |", "|---|---|", *rows, "", ""])}


def bounded():
    """Returns the adapters whose list is no longer than that of their source, by the name of the markers in the page."""
    names = (it.name for it in Sources().items_of("stream").values() if it.owner and any("≤ length xs" in said for said in it.gives))
    return {"bounded": ", ".join(f"`{it}`" for it in sorted(names))}


def relations():
    """Returns the adapters of each relation that several share."""
    found = {it: [] for it in RELATIONS}
    for _, made, _, trait, _, (crate, module, word), _ in calls():
        said = re.search(rf"^ *{word} .*= Through run \(?(\w+)", read_text(f"{TOP}/{module_path(crate, module)}"), re.M)
        if trait == "Stream" and said and said[1] in found:
            found[said[1]] += made
    return found


def families():
    """Returns the adapters of each relation, by the name of their markers in the guide."""
    return {relation: ", ".join(f"`{it}`" for it in names) for relation, names in relations().items()}


def with_families(text, found):
    """Returns a text whose comments name the adapters of each relation: one that is missing comes behind the last that is there."""
    for names in found.values():
        ends = {it: named.end() for it in names for named in [re.search(rf"\b{it}\b", text)] if named}
        at = max(ends.values())
        text = f"{text[:at]}{''.join(f', {it}' for it in names if it not in ends)}{text[at:]}"
    return text
