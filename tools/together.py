"""All programs of crates.txt in one, so that the libraries below them are compiled once. Its `main` runs the program that the variable CHOICE names.

The `main` of each is a closure there, since no other function may wait by the runtime. Its names are whole paths, into what the program imports and into its
own library (make_library in tools/repository.py).
"""
import os
import re

from repository import ITEM, MAIN, TOP, crates_in, read_text
from sources import USE, leaves

NAME, CHOICE = "all_programs", "PROGRAM"
# The status if no program is chosen, and how many requests for memory the choice makes before the program's first.
UNCHOSEN, REQUESTS = 70, 1
TEXT = """//! All programs in one.
#![tactic(auto)]

use futures_lite::StreamExt;

fn main(rt: HostRuntime) -> std::io::Result<std::process::ExitCode> {
    let Ok(name) = std::env::var(&rt, "%s") else {
        return Ok(std::process::ExitCode::from(%d));
    };
    match name.as_str() {
%s        _ => Ok(std::process::ExitCode::from(%d)),
    }
}
"""
# The type that a `main` returns and its body; and what the arm ends with, by that type.
RETURNED = re.compile(r"-> (.*?) (\{.*\})", re.S)
ENDS = {"ExitCode": "Ok(run())", "io::Result<()>": "run()?; Ok(std::process::ExitCode::from(0))"}
# A comment, a text, or a name that begins a path: a small one is called or has a path behind it, else it is a variable.
WORD = re.compile(r'//.*|"(?:[^"\\]|\\.)*"|(?<![\w.:])(?:[A-Z]\w*|[a-z]\w*(?=\(|::))')


def paths_in(name, root):
    """Returns the whole path of each name that the root of a program has, or brings in."""
    found = {item: (name, item) for item in ITEM.findall(root)}
    own = {"crate": (name,), **found}
    for use in USE.finditer(root):
        for here, (first, *rest) in leaves(use["tree"]):
            found[here] = (*own.get(first, (first,)), *rest)
    return found


def arm(name, root):
    """Returns the arm of the match that runs a program, by the text of its root."""
    returned, body = RETURNED.search(MAIN.search(root)[0]).groups()
    paths = paths_in(name, root)
    run = WORD.sub(lambda word: "::".join(paths.get(word[0], (word[0],))), f"|| -> {returned} {body}")
    return f'"{name}" => {{ let run = {run}; {ENDS[returned]} }}\n'


def programs():
    return [it for it in crates_in(TOP) if os.path.isfile(f"{TOP}/crates/{it}/src/main.rt")]


def line():
    return f"{NAME}: {' '.join(programs())} futures_lite futures"


def texts():
    """Returns the files of the crate."""
    arms = "".join(arm(it, read_text(f"{TOP}/crates/{it}/src/main.rt")) for it in programs())
    return {"src/main.rs": TEXT % (CHOICE, UNCHOSEN, arms, UNCHOSEN)}
