"""The words of contracts: those that an entry of the reference does not explain by itself, and what the table of its page says of them."""
import functools
import re

from contracts import clauses_of
from repository import TOP, files_of, read_text
from vocabulary import MEMBER, TRAIT, libraries

# What says the words of std and of the language.
LEGEND = "tools/legend.txt"
NAME = r"[^\W\d](?:[\w']|-(?=\w))*"
CLAUSE_NAME = re.compile(rf"^(requires|ensures)\*? {NAME} \{{", re.M)
# The names that a function and a quantifier bind, and the fields that a record has.
BINDERS = (re.compile(r"λ ([^.]*)\."), re.compile(rf"\(({NAME}(?: {NAME})*) : "), re.compile(rf"(?<!\S)({NAME}) = "), re.compile(rf"\{{({NAME}) = "))
# A value with its fields: a parameter or a name that is bound, or what stands in brackets.
FIELDS = re.compile(r"(?<![\w⟧.'])([a-z_][\w']*|\))((?:\.\w+)+)")
# The fields that need a word: of std's types, and those that tell how a value stands to a call.
WITH_MEANING = {"entry", "ghost_name", "items", "new", "now", "old"}
# What a value is at the beginning and at the end of a call.
PHASES = {"entry", "new", "now", "old"}
# A variant by its type's name.
VARIANT = re.compile(rf"(?<![\w.])([A-Z]\w*)\.({NAME})")
FIELD = re.compile(rf"^ +(?:pub(?:\([^)]*\))? )?({NAME}) ?: ", re.M)


def text_of(item):
    """Returns an item's contract as it is printed, without the comments in it and the names of its clauses."""
    return CLAUSE_NAME.sub(r"\1 {", re.sub(r"//.*", "", "\n".join(clauses_of(item))))


def arguments(text):
    """Returns the parts of a text between the commas that stand in no brackets."""
    parts, depth = [""], 0
    for it in text:
        depth += (it in "<([") - (it in ">)]")
        parts = [*parts, ""] if it == "," and not depth else [*parts[:-1], parts[-1] + it]
    return [it.strip() for it in parts if it.strip()]


@functools.cache
def fields():
    """Returns the names of the fields of the library's types and records."""
    folders = [f"{TOP}/crates/{crate}/{part}" for crate in libraries() for part in ("src", "specs")]
    return {name for folder in folders for file in files_of(folder) for name in FIELD.findall(read_text(f"{folder}/{file}"))}


def unexplained(item, listed):
    """Returns the words of an item's contract that are no parameter, type, bound, field or name that is bound, and not listed in its entry; one
    that is a member of a type or a part of a value with the dot before it."""
    text = text_of(item)
    # (a method may have the name of a function of lists that its contract means; `Self`, and a type that a type has, are no parameters)
    head = re.sub(r"\b([A-Z]\w*)::\w+|\w+ = ", r"\1 ", f"{re.sub(r'fn [^(<]*', '', item.head)} {item.impl}")
    head = set(re.findall(NAME, head)) - {"Self"}
    bound = {name for it in BINDERS for names in it.findall(text) for name in re.findall(NAME, names)}
    known, plain = {*head, *bound, *listed, "_", "λ"}, fields() - WITH_MEANING
    text = FIELDS.sub(lambda it: f"{it[1]} {' '.join(f'.{name}' for name in it[2].split('.') if name and name not in plain)}", text)
    text = VARIANT.sub(lambda it: it[1] if it[1] in {*listed, *legend()} else it[0], text)
    words = dict.fromkeys(re.findall(rf"\.?{NAME}", text))
    return [it for it in words if (it[1:] not in head if it.startswith(".") else it not in known)]


@functools.cache
def legend():
    """Returns what the list says of each of its words."""
    lines = [it for it in read_text(f"{TOP}/{LEGEND}").splitlines() if it and not it.startswith("#")]
    return dict(it.split(": ", 1) for it in lines)


@functools.cache
def members():
    """Returns the ghost members of the library's traits by their names: each with its trait, and the comment just over it."""
    found = {}
    for crate in libraries():
        for file in files_of(f"{TOP}/crates/{crate}/src"):
            for trait in TRAIT.finditer(read_text(f"{TOP}/crates/{crate}/src/{file}")):
                for member in MEMBER.finditer(trait[0]):
                    above = re.search(r"((?:^ *///.*\n)*)\Z", trait[0][: member.start()], re.M)
                    says = " ".join(line.strip(" /") for line in above[1].splitlines())
                    if says:
                        found.setdefault(member["word"], []).append((trait["name"], says))
    return found
