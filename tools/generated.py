"""What is generated: files that git has, whole or in part, and the reference, which it has not."""
import glob
import os
import re

import adapters
import examples
import lookup
import markers
import originals
import properties
import speed
import vocabulary
from reference import INDEX, Reference
from repository import TOP, files_of, read_text
from sources import REFERENCE
from words import WRITTEN

# The folders in which every file is generated.
WHOLE = (REFERENCE, *(f"crates/{it}/src" for it in dict.fromkeys(examples.PROVED.values())))

# The list of crates; the count of functions that may wait in a line of it; and such a function.
CRATES, COUNT, WAITS = "crates.txt", r"(?m)^({} may_wait=)\d+", re.compile(r"\bfn \w+<[^{]*\bWait\b")
# A line of an index of modules.
MODULE = re.compile(r"^(?:pub )?mod (\w+)\n", re.M)


def with_waits(crates, proofs):
    """Returns the list of crates in which each crate of examples has the count of its functions that may wait."""
    for name in dict.fromkeys(examples.PROVED.values()):
        count = sum(len(WAITS.findall(text)) for file, text in proofs.items() if file.startswith(f"{name}/"))
        crates = re.sub(COUNT.format(name), rf"\g<1>{count}", crates)
    return crates


def indexed(index, modules):
    """Returns an index with a line for each of these modules, and for no other. The lines that stay keep their order."""
    index = MODULE.sub(lambda it: it[0] if it[1] in modules else "", index)
    for name in sorted(modules - set(MODULE.findall(index))):
        at = next((it.start() for it in MODULE.finditer(index) if it[1] > name), len(index))
        index = f"{index[:at]}pub mod {name}\n{index[at:]}"
    return index


def indexes():
    """Yields the path and the text of each index of modules: the `Lib` of specs/ or of proofs/ in a crate, and a module beside the folder of its own."""
    for top in sorted(glob.glob(f"{TOP}/crates/*/specs") + glob.glob(f"{TOP}/crates/*/proofs")):
        for folder, _, there in os.walk(top):
            modules = {os.path.splitext(it)[0] for it in there if it.endswith(".antt")} - {"Lib"}
            path = f"{top}/Lib.antt" if folder == top else f"{folder}.antt"
            # (a folder without an index has answers)
            if os.path.isfile(path) or modules and folder == top:
                yield os.path.relpath(path, TOP), indexed(read_text(path) if os.path.isfile(path) else "", modules)


def reference():
    """Yields the path of each file of the reference, which git has not, and its text."""
    yield from Reference().pages()
    yield speed.PLOT, speed.plot()


def files():
    """Yields the path of each file in git that has generated text, and what it has to be."""
    yield INDEX, Reference().index()
    yield from indexes()
    proofs = examples.proofs()
    for file, text in proofs.items():
        yield f"crates/{file}", text
    yield CRATES, with_waits(read_text(f"{TOP}/{CRATES}"), proofs)
    yield adapters.FAMILIES, adapters.with_families(read_text(f"{TOP}/{adapters.FAMILIES}"), adapters.relations())
    for page, parts in ((adapters.NESTS, adapters.lists() | adapters.bounded()), (adapters.GUIDE, adapters.families())):
        yield page, markers.filled(read_text(f"{TOP}/{page}"), parts)
    # (the answer of tools/find quotes pages)
    parts_of = {
        originals.PAGE: {**originals.tables(), **originals.added()},
        properties.PAGE: properties.tables(),
        vocabulary.PAGE: vocabulary.list_of_calls(),
        speed.PAGE: {"speed": speed.table(), "large": speed.large_table()},
        lookup.EXAMPLE_PAGE: {"find": lookup.example()},
    }
    for page, parts in parts_of.items():
        yield page, markers.filled(read_text(f"{TOP}/{page}"), parts)


def count_words(text):
    """Returns how many words a text has: a word has a letter or a digit, so the bars of a table are none."""
    return sum(bool(re.search(r"\w", it)) for it in text.split())


def stale(there):
    """Yields each file of the folders in which every file is generated that is not one of these."""
    for folder in WHOLE:
        yield from (path for path in (f"{folder}/{file}" for file in files_of(f"{TOP}/{folder}")) if path not in there)


def faults():
    """Yields each file in git that is not what it has to be, each in its folders that nothing writes, and what the reference does not explain."""
    yield from Reference().faults()
    there = dict(files())
    for path, text in there.items():
        if not os.path.isfile(f"{TOP}/{path}") or read_text(f"{TOP}/{path}") != text:
            yield path, "it is not what tools/documents writes"
    for path in stale(there):
        if not path.startswith(REFERENCE):
            yield path, "tools/documents writes no such file"
