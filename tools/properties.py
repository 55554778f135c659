"""Which properties each public type of the library has, read from the impls in its sources; the lists of docs/TABLES.md."""
import functools
import glob
import itertools
import re

from repository import FACADE, TOP, crates_in, read_text, with_below
from vocabulary import wrapped

PAGE = "docs/TABLES.md"
# The trait that makes a type one of a kind, and the properties of that kind.
PROPERTIES = {
    "AsyncRead": ("CountedRead", "SteadyRead", "CalmRead", "ArmedRead"),
    "AsyncWrite": ("SteadyWrite", "CalmWrite", "ArmedWrite"),
    "Stream": ("Counted", "OkCounted", "SteadyStream", "CalmStream", "ArmedStream"),
    "Future": ("SteadyFuture", "CalmFuture", "ArmedFuture"),
}
IMPL = re.compile(r"^impl\b([^{]*?)\s(\w+)\s+for\s+([^{]+?)\s*(?:\bwhere\b[^{]*)?\{", re.M)
DECLARED = re.compile(r"^(pub\b\S* )?(?:struct|enum) (\w+)", re.M)
# What `alike` says of two values in an impl; a struct and its fields; the relation of two values of a field, or of two: of parts, of closures and of items
# that are kept; and the equation of two.
ALIKE = re.compile(r"^impl\b[^{]*?\sSteadyStream\s+for\s+(\w+)[^{]*\{\n.*?ghost alike = \{(.*?)\};", re.M | re.S)
STRUCT = re.compile(r"^pub struct (\w+)[^{;]*\{\n(.*?)^\}", re.M | re.S)
FIELD = re.compile(r"^    (?:pub(?:\(crate\))? )?(\w+):", re.M)
RELATED = re.compile(r"(?:\w+\.alike|Agree\w+ .*|OptionBy (?:\S+|\((?:Agree|SameItem).*\))|SameHeld \S+) (?:x\.[\w.]+|\(x\..*?\)) (?:y\.[\w.]+|\(y\..*\))")
EQUAL = re.compile(r"y\.(\w+) ≡ x\.\1")


def type_of(parameters, written):
    """Returns the type that an impl is for, without its lifetimes, and without arguments that are the impl's parameters."""
    bare_type = re.sub(r"<>", "", re.sub(r"'\w+(?:, | )?", "", written))
    name, _, arguments = bare_type.partition("<")
    any_of = set(re.findall(r"\b[A-Z]\w*", parameters)) | {"Result"}
    return name if set(re.findall(r"\w+", arguments)) <= any_of else bare_type


@functools.cache
def impls():
    """Returns each public type of the library with a trait that it has, and the crate of that impl."""
    found = []
    for crate in with_below(crates_in(TOP), [FACADE]):
        texts = [read_text(it) for it in sorted(glob.glob(f"{TOP}/crates/{crate}/src/**/*.rt", recursive=True))]
        hidden = {name for text in texts for public, name in DECLARED.findall(text) if public.strip() != "pub"}
        every = ((type_of(parameters, written), trait) for text in texts for parameters, trait, written in IMPL.findall(text))
        found += [(name, trait, crate) for name, trait in every if name not in hidden]
    return found


@functools.cache
def of_kind(kind):
    """Returns the properties of each type of a kind. A type whose impls name its argument stands once for each of these arguments."""
    traits = {name: {trait for it, trait, _ in impls() if it == name} for name, trait, _ in impls() if trait in (kind, *PROPERTIES[kind])}
    every = (name for name in traits if not any(other.startswith(f"{name}<") for other in traits))
    return {name: traits[name].intersection(PROPERTIES[kind]) for name in sorted(every, key=lambda it: (it.startswith("&"), it))}


def rows(kind):
    """Returns the rows of the table of a kind, as cells; the first is its head."""
    heads = [f"`{it}`" for it in (kind, *PROPERTIES[kind])]
    return [heads, *([f"`{name}`", *("yes" if it in there else "-" for it in PROPERTIES[kind])] for name, there in of_kind(kind).items())]


def tables():
    """Returns of each kind, by the name of its markers in the page, its types by their crates, and those that lack a property."""
    found = {}
    for kind in PROPERTIES:
        there = of_kind(kind)
        crates = {name: crate for name, trait, crate in impls() if trait in (kind, *PROPERTIES[kind]) and name in there}
        types = [f"- `{crate}`: {', '.join(f'`{name}`' for name in there if crates[name] == crate)}." for crate in dict.fromkeys(crates.values())]
        lacks = {it: [f"`{name}`" for name, has in there.items() if it not in has] for it in PROPERTIES[kind]}
        lines = ["Types by their crates:", "", *types, "", "Properties:", "", *(f"- `{it}`: all but {', '.join(names)}." for it, names in lacks.items())]
        found[kind] = "\n".join(["", "", *(wrapped(it, "  ") for it in lines), "", ""])
    return found


def depths(said):
    """Returns how many parentheses are open behind each character."""
    return list(itertools.accumulate((it == "(") - (it == ")") for it in said))


def factors(said):
    """Returns the factors of a product, also of one that is a factor in parentheses."""
    said = said.strip()
    open_at = depths(said)
    if said.startswith("(") and 0 not in open_at[:-1]:
        return factors(said[1:-1])
    at = next((at for at, it in enumerate(said) if it == "×" and not open_at[at]), None)
    return [said] if at is None else factors(said[:at]) + factors(said[at + 1 :])


def is_alike_by_rule(said, fields):
    """Whether two values are alike as the rule in docs/TABLES.md says: each field of the one is as that of the other, and nothing else counts."""
    every = factors(" ".join(said.split()).removeprefix("λ x y. "))
    named = set(re.findall(r"\bx\.(\w+)", said))
    return named == set(fields) and all(RELATED.fullmatch(it) or EQUAL.fullmatch(it) or it == "⊤" for it in every)


def alike_otherwise(text):
    """Returns the streams of a source that are alike by another rule than that of docs/TABLES.md."""
    fields = {name: FIELD.findall(body) for name, body in STRUCT.findall(text)}
    return {name for name, said in ALIKE.findall(text) if not is_alike_by_rule(said, fields[name])}
