"""The examples in the comments of the public items, as a crate of tests and a crate of proofs.

Each block is the body of a test. A function in it that has a clause is also proved: in a crate of its own, with no proof file.
"""
import functools
import os
import re
import subprocess
import tempfile
import textwrap

import properties
from repository import read_text
from sources import MODULES, USE as SOURCE_USE, Sources, called, leaves
from vocabulary import snake

# The crate that the tests are compiled in, and its line for crates.txt.
NAME = "examples"
LINE = f"{NAME} tests_may=Threads+Wait: futures_lite framed serving compat futures tokio bytes tokio_util rand_core rand_pcg"
# The crates in crates.txt that have the functions with clauses, which are proved side by side. A part is a module of the library, or is of the methods of
# `StreamExt`.
EXTENSION, ADAPTERS, CONSUMING = "StreamExt", "adapters", "consuming"
PROVED = dict.fromkeys(MODULES, "proved_examples_others") | dict.fromkeys((ADAPTERS, CONSUMING), "proved_examples_stream_ext")
ABOUT = {ADAPTERS: f"`{EXTENSION}` that return a stream", CONSUMING: f"`{EXTENSION}` that consume a stream"}
# What an example may name with no import of its own: the words of a clause, and what a function that waits takes.
GHOST = {
    "Rattle.std.specs.Prelude": (
        *("◌≡◌", "◌⊎◌", "◌==◌", "◌≤◌", "◌%◌", "◌/◌", "◌*◌", "◌+◌", "◌-◌", "◌++◌", "◌^◌", "◌∷◌", "[]", "if◌then◌else◌"),
        *("Err", "IfOk", "IsOk", "None", "Ok", "Some", "drop", "flat_map", "length", "map", "nat_lt", "not", "replicate", "string_bytes", "take"),
    ),
    "Rattle.std.specs.List": (
        *("enumerate_from", "filter", "filter_map", "find", "fold", "last_or", "list_all", "list_any", "position", "prefix_len"),
        *("range_with_len", "slice_get", "zip"),
    ),
    "Rattle.std.specs.Option": ("option_transpose",),
    "Rattle.futures_lite.specs.Lines": ("byte_lines", "byte_pieces", "through_first"),
    "Rattle.futures_lite.specs.Lists": ("map_while", "scan", "step_from", "try_pair"),
    "Rattle.futures_lite.specs.Uses": ("first_error", "try_fold"),
    "Rattle.futures_lite.specs.Writers.BufWriter": ("unwritten", "writer_inner"),
}
STD = {"alloc": ("AllocError", "AllocGlobal"), "random": ("RandomSource",), "sync": ("Wait",)}
# A function of a block that stands at its margin, with its comment.
FUNCTION = re.compile(r"^(?:///.*\n)*fn \w+.*?^\}\n?", re.M | re.S)
USE = re.compile(r"^use .*?;\n", re.M | re.S)
# A clause, which may go over several lines: another clause or the body follows.
CLAUSES = re.compile(r"(?:requires|ensures)\b[^{\n]*(\{.*?\})\n(?=\s*(?:requires\b|ensures\b|\{\n))", re.S)


def name_of(item, number):
    """Returns the name of the test that is an item's example."""
    word = snake(item.title.replace("::", "_")).replace("__", "_")
    return f"{word}{'' if item.kind == 'fn' else '_type'}{f'_{number + 1}' if number else ''}"


def test_of(item, number, block):
    """Returns the test that is an item's example; it may fail with any error of the library."""
    body = textwrap.indent(block, "    ")
    return f"#[test]\nfn {name_of(item, number)}(rt: HostRuntime) -> Result<(), Fail> {{\n{body}\n    Ok(())\n}}\n"


def blocks(module):
    """Returns each example of a module: its item, its number among the item's, and its text."""
    return [(item, number, block) for item in Sources().items_of(module).values() for number, block in enumerate(item.examples)]


def named(word, text):
    """Tells whether a text names a word, or an operator by its parts."""
    parts = [re.escape(it) if re.search(r"\W", it) else rf"\b{it}\b" for it in word.split("◌") if it]
    return bool(re.search(".*".join(parts), text))


def imports(text, uses=""):
    """Returns the imports of what a text names and these do not import."""
    clauses = " ".join(CLAUSES.findall(text))
    ghost = {module: [it for it in words if named(it, clauses)] for module, words in GHOST.items()}
    std = {module: [it for it in words if named(it, text) and not named(it, uses)] for module, words in STD.items()}
    lines = [f"ghost use {module}.{{{', '.join(words)}}};" for module, words in ghost.items() if words]
    lines += [f"use std::{module}::{{{', '.join(words)}}};" for module, words in std.items() if words]
    lines += ["use futures_lite::Poll;"] if named("Poll", text) and not named("Poll", uses) else []
    return "".join(f"{it}\n" for it in lines)


@functools.cache
def tests():
    """Returns the files of the crate of tests, by their paths in it."""
    files = {"src/lib.rt": "//! The examples of the documentation.\n\n" + "".join(f"mod {it};\n" for it in MODULES)}
    for module in MODULES:
        written = "\n".join(test_of(*it) for it in blocks(module))
        files[f"src/{module}.rt"] = f"//! The examples of `{called(module)}`.\n{imports(written)}use std::test::Fail;\n\n{written}"
    return files


def proved_in(block):
    """Returns the functions of an example that have a clause."""
    return [it for it in FUNCTION.findall(f"{block}\n") if re.search(r"^ +ensures\b", it, re.M)]


def merged(uses):
    """Returns these imports, each name once."""
    found = {(name, path) for use in uses for it in SOURCE_USE.finditer(use) for name, path in leaves(it["tree"])}
    return "".join(f"use {'::'.join(path)}{'' if path[-1] == name else f' as {name}'};\n" for name, path in sorted(found, key=lambda it: it[1]))


@functools.cache
def part_of(item, module):
    """Returns the crate's part that an item's examples belong to: its module, or the kind of a method of `StreamExt`."""
    if not item.owner or item.owner.name != EXTENSION:
        return module
    result = re.search(r"-> (?:Result<)?(\w+)", item.head)
    return ADAPTERS if result and result[1] in properties.of_kind("Stream") else CONSUMING


def proofs():
    """Returns the files of the crates of proofs, by their paths below crates/, as `rt fmt` lays them out."""
    functions, uses = {it: [] for it in PROVED}, {it: [] for it in PROVED}
    for module in MODULES:
        for item, number, block in blocks(module):
            found = proved_in(block)
            part = part_of(item, module)
            uses[part] += USE.findall(block) if found else []
            # (two examples may have functions of one name)
            functions[part] += [re.sub(r"^fn (\w+)", rf"pub fn {name_of(item, number)}_\1", it, flags=re.M) for it in found]
    files, parts = {}, {it: [part for part in PROVED if PROVED[part] == it and functions[part]] for it in PROVED.values()}
    for crate, there in parts.items():
        if there:
            about = "//! Written by tools/documents: the functions with clauses in the examples of doc comments.\n#![tactic(auto)]\n\n"
            files[f"{crate}/src/lib.rt"] = about + "".join(f"pub mod {it};\n" for it in sorted(there))
        for part in there:
            files[f"{crate}/src/{part}.rt"] = text_of(part, functions[part], merged(uses[part]))
    return files


def text_of(part, functions, uses):
    """Returns a module of a crate of proofs: these functions, behind these imports and what else they name."""
    text = "\n".join(functions)
    told = f"in the examples of the methods of {ABOUT[part]}" if part in ABOUT else f"in the examples of `futures_lite::{part}`"
    return laid_out(f"//! Written by tools/documents: the functions with clauses {told}.\n{imports(text, uses)}{uses}\n{text}")


def laid_out(text):
    """Returns the text of a module as `rt fmt` writes it."""
    with tempfile.TemporaryDirectory(prefix="layout-") as place:
        os.makedirs(f"{place}/src")
        root = f"{place}/src/lib.rt"
        with open(root, "w", encoding="utf-8") as file:
            file.write(text)
        subprocess.run(["rt", "fmt"], cwd=place, stdin=subprocess.DEVNULL, stdout=subprocess.DEVNULL, check=True)
        return read_text(root)


def calls(item, block):
    """Tells whether an example calls its item, or makes or names a value of its type."""
    plain = re.sub(r"//.*", "", block)
    if item.kind != "fn":
        return bool(re.search(rf"\b{item.name}\b", plain)) or bool(item.made_by and re.search(rf"\b{item.made_by}\(", plain))
    if item.is_method:
        return bool(re.search(rf"\.{item.name}(?:::<[^;]*?>)?\(|\b{item.owner.name}::{item.name}\b", plain))
    if item.owner:
        return bool(re.search(rf"\b{item.owner.name}(?:::<[^;]*?>)?::{item.name}\(", plain))
    return bool(re.search(rf"(?<![.\w]){item.name}(?:::<[^;]*?>)?\(", plain))


def asked(item):
    """Tells whether an item has to have an example: each function and method that does something, and each type that no method makes."""
    if item.kind == "fn":
        return not item.does_nothing
    return item.kind in ("struct", "enum") and not item.made_by


def faults(sources=None):
    """Yields each item without an example, and each example that does not call its item."""
    sources = sources or Sources()
    for module in MODULES:
        for title, item in sources.items_of(module).items():
            at = f"{item.path}:{item.line}"
            if asked(item) and not item.examples:
                yield at, f"`{module}::{title}` has no example"
            for block in item.examples:
                if not calls(item, block):
                    yield at, f"the example of `{module}::{title}` does not call it"
