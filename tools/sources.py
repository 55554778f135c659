"""The public items of the library: each by the module of the facade that it is called in, and found by the imports of the sources."""
import functools
import itertools
import os
import re
import textwrap

from repository import BESIDE, FACADE, TOP, files_of, read_text
from vocabulary import libraries, snake

# The modules of the facade, and the crates beside it.
MODULES = ("future", "stream", "io", "laws", *BESIDE)


# The folder of the reference, which tools/documents writes and git has not.
REFERENCE = "out/reference"


def relative(here, to, anchor=""):
    """Returns how a link in a file names another file, or a heading of one; of the file itself the heading alone."""
    file = "" if here == to else os.path.relpath(to, os.path.dirname(here))
    return f"{file}#{anchor}" if anchor else file


def called(module):
    """Returns what users call a module: by the facade, or by its crate."""
    return module if module in BESIDE else f"{FACADE}::{module}"


HEAD = re.compile(r"(?P<indent> *)(?P<public>pub |final )?(?:const )?(?P<kind>fn|struct|enum|trait|type) (?P<name>\w+)")
BLOCK = re.compile(r"(?P<impl>impl)\b(?P<types>.*)|pub trait (?P<trait>\w+)")
CLAUSE = re.compile(r" +(requires|ensures)\b")
USE = re.compile(r"^(?P<public>pub )?use (?P<tree>[^;]*);", re.M | re.S)
# The parameters of an impl, which may hold arguments of their own.
PARAMETERS = re.compile(r"^<(?:[^<>]|<(?:[^<>]|<[^<>]*>)*>)*>")
EXAMPLES = "# Examples"
# What stands behind the public fields of a struct that has others.
MORE_FIELDS = "    // some fields are private"
# The traits that every stream, future, reader or writer has.
EXTENSIONS = ("StreamExt", "FutureExt", "AsyncReadExt", "AsyncBufReadExt", "AsyncWriteExt", "AsyncSeekExt")
# The sentence of a type's comment that says which calls return it.
MAKERS = re.compile(r"(Returned|Made) by \[`[^.]*\.")
# A link in a comment.
LINKED = re.compile(r"\[`([^`]*)`\](?:\(([^)]*)\))?")


class Item:
    """A public item: its source, its owner's and its own name, its comment, its signature and its contract."""

    def __init__(self, path, line, kind, name, comment, head, said):
        self.path, self.line, self.kind, self.name = path, line, kind, name
        # The type or the trait that it is a method of, once it is known.
        self.owner = None
        text, _, examples = "\n".join(comment).partition(EXAMPLES)
        self.says = text.strip()
        self.examples = [textwrap.dedent(it).strip("\n") for it in re.findall(r"^```\n(.*?)^```$", examples, re.M | re.S)]
        self.head = re.sub(r"^(?:pub |final )| where$|,$", "", re.sub(r",? where$", "", " ".join(" ".join(head).split())))
        made = re.search(r"(?:Made|Returned) by \[`(?:\w+::)*(\w+)`\]", self.says)
        self.made_by = made and made[1]
        self.asks, self.gives = ([it for it in clauses(said) if it.startswith(word)] for word in ("requires", "ensures"))
        # The variants of an enum, the public fields of a struct, or the ghost members of a trait, with their comments; of a method the head of the impl
        # that it stands in, with its bounds.
        self.variants, self.impl = [], ""
        # All fields of a struct, with their types.
        self.fields = {}

    @property
    def title(self):
        return f"{self.owner.name}::{self.name}" if self.owner else self.name

    @property
    def is_method(self):
        return self.kind == "fn" and bool(re.match(r"(?:const )?fn \w+(?:<[^(]*>)?\(\s*(?:&(?:'\w+ )?)?(?:mut )?self\b", self.head))

    @property
    def heading(self):
        """The heading of the item's entry in the reference."""
        return f"{'method' if self.owner and self.kind == 'fn' else self.kind} `{self.title}`"

    @property
    def anchor(self):
        return re.sub(r"[^a-z0-9_-]", "", self.heading.lower().replace(" ", "-"))

    @property
    def does_nothing(self):
        return self.says.startswith(("Does nothing.", "States that ", "States what "))


def plain(comment):
    """Returns a comment without its links, which name sources that are not here."""
    return LINKED.sub(r"`\1`", comment)


def first_sentence(comment):
    """Returns the first sentence of a comment. One that ends with its paragraph, before a list, ends with a full stop too."""
    paragraph = " ".join(plain(comment).partition("\n\n")[0].split())
    found = re.match(r".*?\.(?=\s|$)", paragraph)
    return found[0] if found else f"{paragraph.rstrip(':')}."


def clauses(lines):
    """Returns the clauses of a contract, each with its lines."""
    found = []
    for line in lines:
        if CLAUSE.match(line):
            found.append([line])
        elif found and line.strip() and not line.lstrip().startswith("//"):
            found[-1].append(line)
    return [textwrap.dedent("\n".join(it)).strip() for it in found]


def leaves(tree, before=()):
    """Yields each path that a `use` names, with the name that it has here."""
    depth, parts, start = 0, [], 0
    for at, it in enumerate(tree):
        depth += (it == "{") - (it == "}")
        if it == "," and not depth:
            parts.append(tree[start:at])
            start = at + 1
    for part in filter(None, map(str.strip, [*parts, tree[start:]])):
        path, brace, inner = part.partition("{")
        if brace:
            yield from leaves(inner.rpartition("}")[0], (*before, *filter(None, path.split("::"))))
        else:
            path, _, named = part.partition(" as ")
            path = (*before, *path.split("::"))
            path = path[:-1] if path[-1] == "self" and len(path) > 1 else path
            yield named.strip() or path[-1], path


class Source:
    """A file of a crate: what it declares, and what the names are that it imports."""

    def __init__(self, crate, file, text):
        self.crate, self.path, self.text = crate, f"crates/{crate}/src/{file}", text
        stem = os.path.splitext(file)[0]
        self.module = () if stem in ("lib", "main") else tuple(stem.split("/"))
        self.uses = {name: path for it in USE.finditer(text) for name, path in leaves(it["tree"])}
        self.passed_on = [name for it in USE.finditer(text) if it["public"] for name, _ in leaves(it["tree"])]
        # Each public item, and the impl or the trait whose block a method stands in.
        self.items, self.methods = {}, []
        for item, block in items_in(self.path, text.splitlines()):
            if block is None:
                self.items[item.name] = item
            else:
                self.methods.append((item, block))


def block_of(line):
    """Returns the name of the type or the trait whose functions stand in the block that a line opens; None where they are of a trait's impl."""
    found = BLOCK.match(line)
    if not found or found["impl"] and re.search(r"\bfor\b", line):
        return None
    return found["trait"] or re.match(r"\w*", PARAMETERS.sub("", found["types"]).strip())[0]


def field_in(line):
    """Returns the name and the type of the field that a line of a struct declares, if it does."""
    found = re.match(r"    (?:pub(?:\([^)]*\))? )?(\w+): (.*),$", line)
    return found and found.groups()


def with_comments(lines, is_shown):
    """Returns the lines of a block that are shown, each with the comment over it."""
    found, comment = [], []
    for line in lines:
        comment = [*comment, line] if line.startswith("    ///") else comment
        if is_shown(line):
            found += [*comment, line]
        if not line.startswith("    ///"):
            comment = []
    return found


def is_ghost(line):
    """Tells whether a line of a trait declares a ghost member."""
    return line.startswith("    ghost ") and not line.startswith("    ghost use ")


def is_public_field(line):
    return line.startswith("    pub ") and bool(field_in(line))


def block_below(lines, at):
    """Returns the lines of the block that a line opens, whose end stands at the margin."""
    return list(itertools.takewhile(lambda it: it != "}", lines[at + 1 :]))


def head_of_impl(lines, at):
    """Returns the head of an impl that begins in a line, as one line: its parameters, its type and its bounds."""
    end = next((number for number in range(at, len(lines)) if lines[number].endswith(("{", "{}"))), at)
    return re.sub(r",? ?\{\}?$", "", " ".join(" ".join(lines[at : end + 1]).split()))


def end_of_head(lines, at):
    """Returns the line with which an item's signature and contract end: they stand before its body, or before a semicolon."""
    depth = 0
    for number in range(at, len(lines)):
        ended = re.search(r"(?:[{;]|\{\})$", lines[number])
        inner = lines[number][: ended.start()] if ended else lines[number]
        depth += inner.count("{") - inner.count("}")
        if ended and not depth:
            return number
        depth += bool(ended) and ended[0] == "{"
    return len(lines) - 1


def items_in(path, lines):
    """Yields the public items of a source, and the functions and types of its types and traits, each with the block that it stands in."""
    block, is_trait, impl, comment, at = None, False, "", [], 0
    while at < len(lines):
        line, first = lines[at], at
        found = HEAD.match(line)
        if BLOCK.match(line):
            block, is_trait = block_of(line), line.startswith("pub trait")
            impl = head_of_impl(lines, at) if line.startswith("impl<") else ""
        if line.strip().startswith("///"):
            comment.append(line.strip().removeprefix("///").removeprefix(" "))
        elif found:
            at = end_of_head(lines, at)
            said = [*lines[first:at], re.sub(r"(?:[{;]|\{\})$", "", lines[at])]
            clause = next((number for number, it in enumerate(said) if CLAUSE.match(it)), len(said))
            inner = len(found["indent"]) == 4
            if found["public"] and not inner or inner and block and (found["public"] or is_trait):
                item = Item(path, first + 1, found["kind"], found["name"], comment, said[:clause], said[clause:])
                if item.kind == "enum":
                    item.variants = block_below(lines, at)
                if item.kind == "trait" and lines[at].endswith("{"):
                    item.variants = with_comments(block_below(lines, at), is_ghost)
                if item.kind == "struct" and lines[at].endswith("{"):
                    item.fields = dict(filter(None, map(field_in, block_below(lines, at))))
                    item.variants = with_comments(block_below(lines, at), is_public_field)
                    if item.variants and len(item.fields) > sum(map(is_public_field, item.variants)):
                        item.variants.append(MORE_FIELDS)
                item.impl = impl if inner else ""
                yield item, block if inner else None
            comment = []
        elif not line.strip().startswith("#["):
            comment = []
        at += 1


def sources_of_library():
    """Yields the crate, the file and the text of each source of the library."""
    for crate in libraries():
        for file in files_of(f"{TOP}/crates/{crate}/src"):
            yield crate, file, read_text(f"{TOP}/crates/{crate}/src/{file}")


class Sources:
    """Sources, each with its crate and its file in it, and what a name means in each."""

    def __init__(self, texts=None):
        every = [Source(*it) for it in texts or sources_of_library()]
        self.by_module = {(it.crate, it.module): it for it in every}
        self.by_path = {it.path: it for it in every}
        # The methods of each type and trait, by its item.
        self.methods = {}
        for source in every:
            for item, block in source.methods:
                owner = self.resolve(source, block)
                if owner:
                    item.owner = owner
                    self.methods.setdefault(owner, []).append(item)

    def resolve(self, source, name):
        """Returns the item that a name means in a source; None where it is of no source of the library."""
        if name in source.items:
            return source.items[name]
        path = source.uses.get(name)
        return self.at(source, path) if path and path != (name,) else None

    def at(self, source, path):
        """Returns the item at a path, as a source names it."""
        crate, module, rest = source.crate, source.module, list(path)
        if rest[0] == "crate":
            module = ()
        elif rest[0] == "super":
            module = module[:-1]
        elif (crate, (*module, rest[0])) in self.by_module:
            module = (*module, rest[0])
        elif (rest[0], ()) in self.by_module:
            crate, module = rest[0], ()
        elif rest[0] in source.uses and source.uses[rest[0]] != (rest[0],):
            return self.at(source, (*source.uses[rest[0]], *rest[1:]))
        elif rest[0] != "self":
            return None
        while len(rest) > 2 and rest[1] == "super":
            module, rest = module[:-1], rest[1:]
        there = self.by_module.get((crate, (*module, *rest[1:-1])))
        return self.resolve(there, rest[-1]) if there else None

    def source_of(self, module):
        """Returns the source of a module of the facade, or the root of a crate beside it."""
        return self.by_module.get((module, ()) if module in BESIDE else (FACADE, (module,)))

    @functools.cache
    def items_of(self, module):
        """Returns the public items of a module of the facade, or of a crate beside it, by their titles, with the methods of their types and traits."""
        source = self.source_of(module)
        if not source:
            return {}
        found = [*source.items.values(), *(self.resolve(source, it) for it in source.passed_on)]
        found = [it for it in found if it]
        found += [it for owner in found for it in self.methods.get(owner, ())]
        return {it.title: it for it in sorted(found, key=lambda it: (it.title.lower(), it.title))}

    def made_by(self, item):
        """Returns the item that a call's result is made of."""
        source = self.by_path[item.path]
        found = re.search(r"\) -> (.*?)(?: where |$)", item.head)
        named = (self.resolve(source, name) for name in re.findall(r"\w+", found[1] if found else ""))
        return next((it for it in named if it and it.kind not in ("trait", "fn")), None)

    def home(self, item, module):
        """Returns the item that another one of a module belongs to: the type that it returns, if that names its calls, or its type or trait."""
        if item.owner and item.owner.name not in EXTENSIONS:
            return item.owner
        made = self.made_by(item) if item.kind == "fn" else None
        return made if made and MAKERS.search(made.says) and self.items_of(module).get(made.name) is made else item

    def page_of(self, item, module):
        """Returns the page of the reference that has an item's entry: that of the call, of the type or of the trait that the item belongs to."""
        name = snake(self.home(item, module).name)
        short = name.removesuffix("_future")
        is_of_call = any(it.kind == "fn" and it.name == short for it in self.items_of(module).values())
        return f"{REFERENCE}/{module}/{short if is_of_call else name}.md"
