"""The reference: for each public item its signature, its comment, an example, its contract and a table of polls, by its module and its title. And the
index of docs/, which has a line for each item."""
import functools
import itertools
import os
import re
import textwrap

import pictures
import properties
import see_also
from contracts import clauses_of, in_a_row, sentences
from examples import CLAUSES, GHOST
from legend import FIELDS, LEGEND, NAME, PHASES, WITH_MEANING, arguments, fields, legend, members, text_of, unexplained
from repository import FACADE, TOP, read_text, version
from sources import EXTENSIONS, LINKED, MAKERS, MODULES, REFERENCE, Sources, called, first_sentence, head_of_impl, plain, relative
from vocabulary import PLAIN, WIDTH, Word, bullet, cited, definitions, imported, libraries, wrapped
from words import PAGE as WORDS, WRITTEN, Words

# The clause of a call that lends what it has: the field that is lent, and what `self` is after that.
WRITES_BACK = re.compile(r"^ensures\* (\w+) .*record self\.old \{ (\w+) = (record)?", re.S)
AFTERWARDS = re.compile(r"^ensures\* (\w+) .*\(Afterwards ", re.S)
IMPL = re.compile(r"^impl\b(?P<types>[^{]*?)\s(?P<trait>\w+)(?:<[^{]*?>)?\s+for\s+(?P<type>\w+)", re.M)
ALIAS = re.compile(r"type \w+(?:<.*?>)? = (?P<type>\w+)(?P<arguments><.*>)?")
# The first page of the reference, and the index that git has.
FIRST, INDEX = f"{REFERENCE}/README.md", "docs/INDEX.md"
TRAITS = "Traits"
# The groups of a page, with where the code of their items stands, or the item in a file; the longest path decides.
GROUPS = {
    "future": {
        "Waiting on this thread": (
            "futures_lite/src/future.rt block_on",
            "futures_lite/src/future.rt wait_for",
            "lite_base/src/future/block_on.rt",
            "lite_base/src/future/waits.rt",
            "lite_consume/src/blocking.rt",
        ),
        "Polling once": ("lite_base/src/future/armed.rt",),
        "Making a future": tuple(f"lite_future/src/{it}.rt" for it in ("pending", "poll_fn", "ready", "yield_now")),
        "Combining futures": tuple(
            f"lite_future/src/{it}.rt" for it in ("either", "fuse", "or", "poll_limited", "poll_once", "race", "zip", "try_zip")
        ),
    },
    "stream": {
        "Polling once": ("lite_base/src/armed.rt",),
        "Sources": ("lite_source",),
        "Adapters": ("lite_stream", "lite_reshape"),
        "Merging and stopping": ("lite_merge",),
        "Consuming": ("lite_consume",),
        "Collecting": ("lite_gather",),
        "Waiting on this thread": ("lite_consume/src/block_on.rt",),
    },
    "io": {
        "Readers and writers": ("lite_buffered", "lite_io_base"),
        "Reading": ("lite_read",),
        "Writing": ("lite_write",),
        "Waiting for one call": ("lite_theorems/src/waits.rt",),
        "Bridges to std": ("lite_bridge",),
        "Halves and journals": ("lite_halves",),
    },
    "framed": {
        "Frames of a reader": tuple(f"framed/src/{it}.rt" for it in ("collect", "collect_error", "framed_read", "held_frame", "make", "next_frame", "send_future", "waiting")),
        "Frames that are lent": ("lent_frames", "framed/src/cut_error.rt"),
        "Codecs": ("framed/src/length_delimited.rt", "framed/src/line_delimited.rt", "framed/src/frame_error.rt"),
        "Parts of a codec": tuple(f"framed/src/{it}.rt" for it in ("delimiter", "head", "hexadecimal")),
        "Serving": ("framed/src/server.rt", "framed/src/service.rt", "framed/src/serve_error.rt"),
    },
    "serving": {
        "Serving": tuple(f"serving/src/{it}.rt" for it in ("serving", "responder", "serving_error", "waiting")),
    },
    "compat": {
        "Wrapping": ("compat/src/compat.rt",),
        "Waiting on this thread": ("compat/src/wait.rt",),
        "Laws as calls": ("compat/src/laws.rt",),
    },
    "laws": {
        "Recording runs": ("lite_laws",),
        "Calls that carry a theorem": ("lite_theorems",),
        "Laws as calls": ("lite_base", "lite_bridge", "lite_buffered", "lite_io_base"),
    },
}
ABOUT_EXAMPLES = (
    "An example is the body of a function `fn example(rt: HostRuntime) -> Result<(), Fail>`: `rt` is the runtime that `main` is given, `Poll` is `futures_lite::Poll`, and `?` returns"
    " an allocation failure or an I/O error. `tools/tests` runs each of them. A function of an example that has an `ensures` is proved with no proof"
    " file, in a crate that begins with `#![tactic(auto)]`. It needs the imports of that crate, as those of"
    f" [proved_examples_others]({relative(INDEX, 'crates/proved_examples_others/src/io.rt')})."
)


def laid_out(comment):
    """Returns a comment as it stands on a page. What is no paragraph, such as a list or code, stays as it is."""
    parts = [it for it in re.split(r"\n\s*\n", comment) if it.strip()]
    return "\n\n".join(f"**{it.removeprefix('# ')}**" if it.startswith("# ") else it if re.match(r"[-*|`\d]", it) else wrapped(it) for it in parts)


# Words that stand in most contracts, so that no page lists them.
IN_MOST = ("requires", "ensures", "result", "Self", "record", "entry", "old", "new", "now")
# How a contract is read, in a source or in the reference.
ABOUT_CONTRACTS = "\n".join(
    map(
        bullet,
        (
            "`≡` is equal, `×` and, `⊎` or, `¬` not, `A → B` if A then B, `⊤` true, `⊥` false.",
            "`(x : A) → B` says that B holds for each `x` of the type A, and `(x : A) × B` that it holds for one. `_` stands for a type or a value"
            " that is not named, and `{A = T}` says which type an argument of a definition is.",
            "`[]`, `x ∷ xs` and `xs ++ ys` are lists, and `λ x. e` is a function. `p.0` and `p.1` are the parts of a pair.",
            "`T.run` is a member of the type `T`, by a trait that it has. `F.FnMut` is the contract of the closures of the type `F`.",
            "In a source a contract also has what only guides the search for proofs: words that are always true, as `Seen`, and where a search begins.",
        ),
    )
)
# How an entry of the reference is read.
ABOUT_MARKS = (
    "`Result` names the type that a call returns. A property is a trait that states something of a type. A type's entry has the impl"
    " of each of its properties, whose bounds the type's arguments must meet. The entry of a property says what it means, and"
    f" [TABLES]({relative(FIRST, 'docs/TABLES.md', 'which-properties-a-type-has')}) which types lack it. In a table of polls `P` is `Pending`, and `E` the"
    " end of the stream. Several results in a cell came in one poll, and in an empty cell the source was not polled."
)
ABOUT_ENTRIES = "\n".join(
    map(
        bullet,
        (
            f"[The index of `docs/`]({relative(FIRST, INDEX, 'how-to-read-a-contract')}) has the signs, and says how an example is run.",
            f"[These words]({relative(FIRST, WORDS)}) stand in most contracts: {', '.join(f'`{it}`' for it in IN_MOST)}.",
            "What only guides the search for proofs is left out. A"
            " clause on what is written through a reference is a sentence below the contract.",
            "A sentence under \"In words\" says what a clause says. In it, the items of a stream are those before its end, if it ends, and the value of a"
            " future is what a wait for it returns, if it returns `Ok`. `bytes` are those that a reader will give, and `kept` those that a writer keeps.",
            "Below the entries of a page are its words. A definition that no other page needs is there in full; the others are links. A word in brackets is the"
            f" module of `{FACADE}` from which a program imports the definition, which names its arguments as its own source does.",
        ),
    )
)
ABOUT_INDEX = (
    f"This page names each public item of version {version()}, with the first sentence of its doc comment. The link leads to the source that has the rest of"
    f" the comment, the example and the contract. `tools/documents` writes these, with each contract also in words, as a page for each item or family:"
    f" `{FIRST}` is the first of them, and `{WORDS}` has the words of contracts."
)


class Page:
    """A page of the reference: its module, its file, and the items that have an entry there."""

    def __init__(self, module, file):
        self.module, self.file, self.items = module, file, []
        self.name = os.path.splitext(os.path.basename(file))[0]

    def link(self, to, text, anchor=""):
        """Returns a link from the page to a file or a heading of it."""
        return f"[{text}]({relative(self.file, to, anchor)})"


class Reference:
    """What the pages are made of."""

    def __init__(self, sources=None):
        self.sources = sources or Sources()
        self.every = {(it.crate, it.module, it.name): it for crate in libraries() for it in definitions(crate)}
        self.pictures = pictures.by_item()
        # The properties of each type in the tables, by the trait that it has.
        self.tables = {}
        for head, *rows in tables_of_properties():
            traits = [it.strip("`") for it in head]
            told = [(re.match(r"\w*", row[0].strip("`"))[0], [it for it, cell in zip(traits[1:], row[1:]) if cell != "-"]) for row in rows]
            self.tables[traits[0]] = told
        # The type that has a trait, by the trait and its name: no two of one name have one trait.
        self.impls = {}
        # The heads of the impls of each trait for each type, with their bounds.
        self.heads = {}
        for source in self.sources.by_module.values():
            lines = source.text.splitlines()
            for found in IMPL.finditer(source.text):
                type_ = self.sources.resolve(source, found["type"])
                self.impls.setdefault((found["trait"], found["type"]), type_)
                head = head_of_impl(lines, source.text.count("\n", 0, found.start()))
                self.heads.setdefault((found["trait"], type_), []).append(head.replace("< ", "<").replace(", >", ">"))

    @functools.cache
    def names_in(self, path):
        """Returns where the ghost names of a source are from."""
        return imported(self.sources.by_path[path].text)

    def group(self, item, module):
        """Returns the group of an item on its module's page; None if it fits none."""
        is_of_any = (item.owner or item).name.endswith("Ext")
        if item.kind == "trait" or item.owner and item.owner.kind == "trait" and not is_of_any:
            return TRAITS
        for at in (self.sources.home(item, module), item):
            place = f"{at.path} {at.name}".removeprefix("crates/")
            there = [(len(start), name) for name, places in GROUPS[module].items() for start in places if place.startswith(start)]
            if there:
                return max(there)[1]
        return None

    def groups(self, module):
        """Returns the items of a module by their groups."""
        items = sorted(self.shown(module), key=in_order)
        return {name: [it for it in items if self.group(it, module) == name] for name in (TRAITS, *GROUPS[module])}

    def pages_of(self, module):
        """Returns the pages of a module by their files, each with its items."""
        pages = {}
        for item in sorted(self.shown(module), key=in_order):
            file = self.sources.page_of(item, module)
            pages.setdefault(file, Page(module, file)).items.append(item)
        return pages

    def words_of(self, item):
        """Returns the definitions that an item's contract names, but those that say nothing of one call."""
        names = dict.fromkeys(cited_in(item, self.names_in(item.path)))
        return [self.every[it] for it in names if it in self.every and it[1] not in PLAIN]

    def unexplained(self, item):
        """Returns the words of an item's contract that its entry does not explain; a member of a type with the dot before it."""
        source = self.sources.by_path[item.path]
        return [it for it in unexplained(item, [word.name for word in self.words_of(item)]) if not self.sources.resolve(source, it)]

    def meaning(self, word, item):
        """Returns the definition of a word of an item's contract, or what is said of a word that has none; None if nothing explains it."""
        name = word.removeprefix(".")
        if name in legend():
            return legend()[name]
        at = self.names_in(item.path).get(word)
        if at and (*at, word) in self.every:
            return self.every[*at, word]
        traits = {}
        for trait, says in members().get(name, ()):
            traits.setdefault(says, []).append(f"`{trait}`")
        return " ".join(f"Of the trait{'s' * (len(of) > 1)} {in_a_row(of)}: {says}" for says, of in traits.items()) or None

    def of_examples(self, item):
        """Yields the words of the clauses in an item's examples that an example need not import, each with what `meaning` says of it."""
        said = set(re.findall(r"[\w']+", " ".join(clause for it in item.examples for clause in CLAUSES.findall(it))))
        for where, words in GHOST.items():
            for word in (it for it in words if it in said):
                own = None if where.startswith("Rattle.std.") else next((it for it in self.every.values() if it.name == word), None)
                yield word, own or legend().get(word)

    def told(self, item):
        """Returns what explains each word of an item's contract and of its examples."""
        return {
            **{it.name: it for it in self.words_of(item)},
            **dict(self.of_examples(item)),
            **{word.removeprefix("."): self.meaning(word, item) for word in self.unexplained(item)},
        }

    @functools.cached_property
    def words(self):
        """The words of the pages: the definitions that they need, and the words that are none."""
        needed, others = {}, {}
        for module in MODULES:
            for item in self.shown(module):
                told = self.told(item)
                needed.setdefault(self.sources.page_of(item, module), []).extend(it for it in told.values() if isinstance(it, Word))
                others |= {name: says for name, says in told.items() if isinstance(says, str)}
        return Words(self.every, needed, others)

    def legend_of(self, page):
        """Yields the words of a page: the definitions that it alone needs, whole, and links to the others."""
        told = dict(sorted((it for item in page.items for it in self.told(item).items()), key=lambda it: (it[0].lower(), it[0])))
        own = [it for it in told.values() if isinstance(it, Word) and self.words.is_alone(it)]
        if own:
            yield "\n".join(bullet(self.words.told_alone(it, page.file)) for it in own)
        if others := [self.words.link_from(page.file, name, it) for name, it in told.items() if it and it not in own and name not in IN_MOST]:
            yield wrapped(f"{'Also ' if own else ''}{', '.join(others)}.")

    def faults(self):
        """Yields each word of a contract that nothing explains, each explanation that is of no word, and what an entry or an index would lack."""
        yield from self.faults_of_words()
        yield from see_also.faults({f"{module}::{it.title}" for module in MODULES for it in self.shown(module)})
        for module in MODULES:
            for item in self.shown(module):
                for what in self.faults_of_item(item, module):
                    yield f"{item.path}:{item.line}", what

    def faults_of_words(self):
        """Yields each word of a contract that nothing explains, and each explanation that is of no word."""
        used = set()
        for module in MODULES:
            for title, item in self.sources.items_of(module).items():
                told = self.told(item)
                # (tools/find tells also what a source has and no page)
                used.update([*told, *re.findall(NAME, "\n".join(item.gives))])
                for word, says in told.items():
                    if not says:
                        yield f"{item.path}:{item.line}", f"nothing explains the word {word} of the contract of `{module}::{title}`; {LEGEND} may"
        for word in legend():
            if word not in used:
                yield LEGEND, f"no contract of a public item has the word {word}"

    def faults_of_item(self, item, module):
        """Yields what an item's entry, or the index of a module, would lack."""
        if not self.group(item, module):
            yield f"`{module}::{item.title}` fits no group of the index (GROUPS in tools/reference.py)"
        for trait in self.properties_of(item) if is_type(item) else ():
            if not self.heads.get((trait, self.based(item))):
                yield f"the impl of {trait} for `{module}::{item.name}` is not found"
        if any("(Lends" in it and not WRITES_BACK.search(it) for it in item.gives):
            yield f"the reference does not say what is written through the result of `{module}::{item.title}`"

    def pages_with(self, item):
        """Returns the modules on whose pages an item has an entry."""
        return [module for module in MODULES if any(it is item for it in self.shown(module))]

    def link_from(self, page, item, text):
        """Returns a link from a page to an item's entry, in its own module if that has one; None if no page has one."""
        there = self.pages_with(item)
        module = page.module if page.module in there else there[0] if there else None
        return module and page.link(self.sources.page_of(item, module), text, item.anchor)

    def meant(self, text, path, item, module):
        """Returns the item that a link in an item's comment means: by its path, by its name in the module, or by its name in the source."""
        name, last = text.rstrip("()"), "::".join((path or text).rstrip("()").split("::")[-2:])
        items = {it.title: it for it in self.shown(module)}
        titles = (last, name, *(f"{ext}::{name}" for ext in EXTENSIONS), f"{(item.owner or item).name}::{name}")
        source = self.sources.by_path[item.path]
        return next((items[it] for it in titles if it in items), None) or self.sources.resolve(source, name) or self.sources.resolve(source, last.rpartition("::")[2])

    def with_links(self, comment, item, page):
        """Returns an item's comment with links to the entries of the items that it links to, and of the properties that it names."""

        def entry(found):
            it = self.meant(found[1], found[2], item, page.module)
            return it and self.link_from(page, it, f"`{found[1]}`") or f"`{found[1]}`"

        return re.sub(r"(?<!\[)`(\w+)`", lambda it: self.property_link(it[1], page) if it[1] in self.law_properties() else it[0], LINKED.sub(entry, comment))

    @functools.cache
    def law_properties(self):
        """Returns the properties that are laws, by their names."""
        traits = {trait for rows in self.tables.values() for _, traits in rows for trait in traits}
        return {name: it for name, it in self.sources.items_of("laws").items() if name in traits}

    def property_link(self, trait, page, text=None):
        """Returns a link from a page to the entry of a property, with its name or the text."""
        items = {name: it for module in MODULES for name, it in self.sources.items_of(module).items()}
        shown = f"`{text or trait}`"
        return trait in items and self.link_from(page, items[trait], shown) or shown

    @functools.cache
    def makers(self, item, module):
        """Returns the calls of a module whose results are made of a type."""
        return [it for it in self.shown(module) if it.kind == "fn" and it.owner is not item and self.sources.made_by(it) is item]

    def says_of(self, item, module):
        """Returns an item's comment; that of a type names each call of the module that returns it."""
        made = MAKERS.search(item.says) if is_type(item) else None
        calls = self.makers(item, module) if made else []
        if not calls:
            return item.says
        told = in_a_row([f"[`{it.title}`]({it.title})" for it in calls])
        return f"{item.says[: made.start()]}{made[1]} by {told}.{item.says[made.end() :]}"

    @functools.cache
    def shown(self, module):
        """Returns the items that have an entry on a module's page: all but what does nothing and states nothing."""
        return [it for it in self.sources.items_of(module).values() if not (it.owner and it.does_nothing) or it.gives]

    def based(self, item):
        """Returns a type itself, and of an alias the type that it is for."""
        while item.kind == "type" and (alias := ALIAS.match(item.head)):
            named = self.sources.resolve(self.sources.by_path[item.path], alias["type"])
            if not named:
                break
            item = named
        return item

    @functools.cache
    def model_of(self, item):
        """Returns the definition of what contracts see of a type, if that is a record; None otherwise."""
        source = self.sources.by_path[item.path]
        found = re.search(rf"\bModel for {item.name}\b.*?ghost Value = \{{ (\w+)", source.text, re.S)
        at = found and self.names_in(item.path).get(found[1])
        word = at and self.every.get((*at, found[1]))
        return word if word and fields_of_record(word) else None

    def fields_of(self, item):
        """Returns the fields of a type that contracts see, with their types: those of its model, if it has one."""
        if re.search(rf"\bModel for {item.name}\b", self.sources.by_path[item.path].text):
            return fields_of_record(self.model_of(item)) if self.model_of(item) else {}
        return item.fields

    def types_in(self, item, text):
        """Returns the types of the library that a type of an item's source names, from the first on; an alias is what it is for."""
        source, found = self.sources.by_path[item.path], []
        for name in re.findall(r"\w+", text):
            named = self.sources.resolve(source, name)
            if named and named.kind == "type" and (alias := ALIAS.match(named.head)):
                found += self.types_in(named, alias[0].partition(" = ")[2])
            elif named and named.kind == "struct":
                found.append(named)
        return found

    @functools.cache
    def fields_in(self, item):
        """Returns the fields of the library's types that a contract names: each with the type that has it, None for one that is not public."""
        found = {}
        parameters, _, result = item.head.partition(") -> ")
        typed = dict(re.findall(r"(\w+): ((?:[^,<(]|<[^>]*>|\([^)]*\))*)", parameters.partition("(")[2]))
        typed |= {"self": item.owner.name if item.owner and item.owner.kind == "struct" else "", "result": result.partition(" where ")[0]}
        for root, path in FIELDS.findall(text_of(item)):
            # (what a function binds is mostly the result, or a part of it)
            text = typed.get(root, typed["result"] or typed["self"])
            types = self.types_in(item, text)
            for name in path.split(".")[1:]:
                if name.isdigit():
                    parts = re.search(r"\((.*)\)", text)
                    parts = arguments(parts[1]) if parts else []
                    types = self.types_in(item, parts[int(name)]) if int(name) < len(parts) else []
                elif name not in PHASES:
                    there = next((it for it in types if name in self.fields_of(it)), None)
                    if there or name in fields():
                        found[there, name] = None
                    if not there:
                        break
                    inner = [] if self.model_of(there) else self.types_in(there, there.fields[name])
                    types = [*inner, *(it for it in types if it is not there)]
        return list(found)

    def properties_of(self, item):
        """Returns the properties of a type, each for one of the traits that it has; an alias has those of its type."""
        item = self.based(item)
        found = (trait for kind in properties.PROPERTIES for traits in self.tables[kind] if self.impls.get((kind, traits[0])) is item for trait in traits[1])
        return list(dict.fromkeys(found))

    def about_result(self, item, page):
        """Yields a link from a call's entry to that of the type that it returns, which has the type's properties."""
        made = self.sources.made_by(item)
        if made and made.kind in ("struct", "type") and self.pages_with(made):
            yield f"Result: {self.link_from(page, made, f'`{made.name}`')}."

    def about_properties(self, item, page):
        """Yields which properties a type may have, each with the impl."""
        traits, base = self.properties_of(item), self.based(item)
        if traits and self.pages_with(base):
            links = ", ".join(self.property_link(it, page) for it in traits)
            heads = [(trait, head) for trait in traits for head in self.heads.get((trait, base), ())]
            if base is not item:
                yield wrapped(f"Properties: {links}, as {self.link_from(page, base, f'`{base.name}`')} has them.")
            elif "<" not in base.head:
                yield wrapped(f"Properties: {links}.")
            else:
                yield "Properties:"
                yield "\n".join(f"- {self.property_link(trait, page, head)}" for trait, head in heads)

    def about_fields(self, item, page):
        """Yields the fields of a type that contracts of the module name; of a type that has a model, the model's."""
        model = item.kind == "struct" and self.model_of(item)
        if model:
            told = ", ".join(f"`{name}: {of}`" for name, of in fields_of_record(model).items())
            there = f"`{model.name}` ({page.link(model.path, model.module)})"
            yield wrapped(f"Fields in contracts: {told}. They are those of its model {there}: {model.says}")
            return
        told = self.fields_of_alias(item, page) if item.kind == "type" else self.fields_named(item, page.module)
        if told:
            yield wrapped(f"Fields in contracts: {', '.join(told)}.")

    def fields_named(self, item, module):
        """Returns the fields of a type that contracts of a module name."""
        names = [it for it in self.shown(module) if self.based(it) is item]
        calls = [*(call for it in names for call in self.makers(it, module)), *self.sources.methods.get(item, ())]
        named = {name for it in calls for name in re.findall(r"(?<=\.)\w+|\w+(?= = )", text_of(it))}
        return [f"`{name}: {of}`" for name, of in self.fields_of(item).items() if name in named]

    def fields_of_alias(self, item, page):
        """Returns the fields that contracts of a page's module name of the type that an alias is for, and of those that this is made of."""
        alias, base = ALIAS.match(item.head), self.based(item)
        given = (alias and alias["arguments"] or "")[1:-1]
        parameters = [it.partition(":")[0] for it in arguments((re.search(r"<(.*)>", base.head) or ["", ""])[1])]
        of = dict(zip(parameters, arguments(given)))
        found = dict.fromkeys(it for call in self.makers(item, page.module) for it in self.fields_in(call))
        typed = {name: of.get(it, it) for name, it in self.fields_of(base).items()}
        own = [f"`{name}: {typed[name]}`" for type_, name in found if type_ is base]
        inner = [it for it in found if it[0] in self.types_in(item, given)]
        return [*own, *self.by_type(inner, page, "its ")]

    def by_type(self, found, page, whose=""):
        """Returns fields of types, those of one type together, with a link to its entry."""
        types = {}
        for type_, name in found:
            types.setdefault(type_, []).append(f"`{name}: {self.fields_of(type_)[name]}`" if type_ else f"`{name}`")
        owners = {it: f"{whose}{self.link_from(page, it, f'`{it.name}`') or f'`{it.name}`'}" if it else "a private type" for it in types}
        return [f"{in_a_row(names)} of {owners[it]}" for it, names in types.items()]

    def about_words(self, item, page):
        """Yields what some words of an item's contract mean in it: fields of the library's types, if another word has the name or if the page has no
        entry of the type, and members of the item's own trait, if another word has the name."""
        differs = {it for it in self.words.others if it not in WITH_MEANING}
        there = [self.based(it) for it in page.items]
        shown = [it for it in self.fields_in(item) if it[1] in differs or it[0] and it[0] not in there]
        if shown:
            yield wrapped(f"Field{'s' * (len(shown) > 1)} in this contract: {', '.join(self.by_type(shown, page))}.")
        trait = item.owner.name if item.owner and item.owner.kind == "trait" else None
        for word in dict.fromkeys(re.findall(NAME, text_of(item))) if trait else ():
            says = dict(members().get(word, ())).get(trait)
            if says and word in legend():
                yield wrapped(f"`{word}` is the member of `{trait}`: {says}")

    def about_types(self, item, page):
        """Yields links to the types and the traits on other pages that an item's signature names, but the type of its result."""
        said = (*page.items, self.sources.made_by(item), self.based(item))
        others = [it for it in self.named_by(item) if it not in said and self.pages_with(it)]
        comment = self.with_links(self.says_of(item, page.module), item, page)
        links = [it for it in (self.named_link(page, it) for it in others) if it.partition("](")[2] not in comment]
        if links:
            yield wrapped(f"In the signature: {', '.join(links)}.")

    def named_link(self, page, item):
        """Returns a link from a page to an item's entry, with its title, and its module if that is another."""
        modules = self.pages_with(item)
        return self.link_from(page, item, f"`{'' if page.module in modules else f'{modules[0]}::'}{item.title}`")

    def about_others(self, item, page):
        """Yields links to what tools/see-also.txt names beside an item, but those to the same page."""
        told = see_also.targets().get(f"{page.module}::{item.title}", ())
        items = {f"{module}::{it.title}": it for module in MODULES for it in self.shown(module)}
        links = [page.link(f"docs/{it}", see_also.title_of(it)) if see_also.is_page(it) else self.named_link(page, items[it]) for it in told if it in items or see_also.is_page(it)]
        if links:
            yield wrapped(f"See also: {', '.join(links)}.")

    def about_laws(self, item, page):
        """Yields links from a type to the calls of `laws` whose signatures name it: their contracts say more of it."""
        found = [it for it in self.shown("laws") if it.kind == "fn" and it not in page.items and item in self.named_by(it)]
        if is_type(item) and found:
            yield wrapped(f"More is proved by {in_a_row([self.link_from(page, it, f'`laws::{it.title}`') for it in found])}.")

    @functools.cache
    def named_by(self, item):
        """Returns the items that a signature names."""
        source = self.sources.by_path[item.path]
        found = (self.sources.resolve(source, it) for it in dict.fromkeys(re.findall(r"[A-Z]\w*", f"{item.head} {item.impl}")))
        return [it for it in found if it]

    def about_borrows(self, item):
        """Yields what the clauses of an item on a borrow in its result say, in words."""
        for clause in item.gives:
            if back := WRITES_BACK.search(clause):
                place = f"to what the field `{back[2]}` of `self` refers to" if back[3] else f"to the field `{back[2]}` of `self`"
                yield wrapped(f"`{back[1]}`: what is written through `result` is written {place}. The rest of `self` stays as it was.")
            elif after := AFTERWARDS.search(clause):
                yield wrapped(f"`{after[1]}` is about `self` once the borrow in `result` has ended: `new` is its value then.")

    def entry(self, item, page):
        """Returns the part of a page that is an item's."""
        head = textwrap.fill(item.head, WIDTH - 4, subsequent_indent="    ")
        within = [f"{item.impl} {{", textwrap.indent(head, "    "), "}"] if item.impl else [head]
        parts = [f"## {item.heading}", code([f"{head} {{", *map(plain, item.variants), "}"] if item.variants else within)]
        parts += self.about_types(item, page)
        parts += [laid_out(self.with_links(self.says_of(item, page.module), item, page))] if item.says else []
        parts += self.about_result(item, page) if item.kind == "fn" else self.about_fields(item, page)
        parts += [*self.about_properties(item, page), *self.about_laws(item, page)] if item.kind != "fn" else []
        parts += self.about_others(item, page)
        others = [self.link_from(page, it, f"`{it.name}`") for it in self.parts_of(item, page.module) if it not in page.items]
        parts += [wrapped(f"Methods: {', '.join(others)}.")] if others else []
        parts += [f"Example:\n\n{code([it], 'rust')}" for it in item.examples]
        polls = self.pictures.get(f"{page.module}::{item.title}")
        parts += [f"Polled so:\n\n{code(polls.lines())}"] if polls else []
        if clauses := clauses_of(item):
            parts += ["\n".join(["In words:\n", *map(bullet, sentences(item))])] if sentences(item) else []
            parts += [f"Contract:\n\n{code(clauses)}"]
        parts += [*self.about_borrows(item), *self.about_words(item, page)]
        return "\n\n".join([*parts, f"{page.link(item.path, 'Code', f'L{item.line}')}."])

    def page(self, page):
        """Returns the text of a page."""
        index, about = page.link(FIRST, "Index", anchor_of_module(page.module)), page.link(FIRST, "Legend", "how-to-read-an-entry")
        parts = [WRITTEN.rstrip(), f"# `{called(page.module)}`: {page.name}", f"{index}. {about}."]
        parts += [self.entry(it, page) for it in page.items]
        words = list(self.legend_of(page))
        return "\n\n".join([*parts, *(["## Words", *words] if words else [])]) + "\n"

    def listed(self, item, module, link):
        """Yields an item's line in an index, and below it those of its methods."""
        for it in (item, *self.parts_of(item, module)):
            says = first_sentence(it.says) if it.says else ""
            yield f"{'  ' * (it is not item)}- {link(it, f'`{it.title}`')}{': ' if says else ''}{says}"

    def parts_of(self, item, module):
        """Returns the methods of a type, and the methods and types of a trait, that have entries."""
        is_of_any = item.name in EXTENSIONS
        return [] if is_of_any else sorted((it for it in self.shown(module) if it.owner is item), key=in_order)

    def listed_by_module(self, file, link):
        """Yields the parts of an index: the items of each module by their groups, a call in the place that the original's documentation has for it."""
        for module in filter(self.sources.items_of, MODULES):
            page = Page(module, file)
            yield from (f"## `{called(module)}`", self.about(module), *self.more_about(module, page))
            for name, items in self.groups(module).items():
                whole = [it for it in items if not (it.owner and it.owner.name not in EXTENSIONS)]
                lines = [line for it in whole for line in self.listed(it, module, functools.partial(link, page))]
                yield from (f"### {name}", "\n".join(lines)) if lines else ()

    def about(self, module):
        """Returns what a module says of itself."""
        return wrapped(self.sources.source_of(module).text.splitlines()[0].removeprefix("//! "))

    def more_about(self, module, page):
        """Yields what else a module says of itself, with links to the pages that it names in brackets."""
        lines = itertools.takewhile(lambda it: it.startswith("//!"), self.sources.source_of(module).text.splitlines())
        for it in "\n".join(it.removeprefix("//!").strip() for it in lines).split("\n\n")[1:]:
            yield wrapped(re.sub(r"(\w+ \d+) \(`(docs/[^`]+)`\)", lambda found: page.link(found[2], found[1]), " ".join(it.split())))

    def index(self):
        """Returns the index of docs/, whose links lead to sources."""
        parts = [WRITTEN.rstrip(), "# Index", wrapped(ABOUT_INDEX), "## How to read a contract", ABOUT_CONTRACTS, wrapped(ABOUT_EXAMPLES)]
        return "\n\n".join([*parts, *self.listed_by_module(INDEX, lambda page, item, text: page.link(item.path, text))]) + "\n"

    def first_page(self):
        """Returns the first page of the reference, which says how entries are read, and lists them."""
        parts = [WRITTEN.rstrip(), f"# {FACADE} {version()}", "## How to read an entry", wrapped(ABOUT_MARKS), ABOUT_ENTRIES]
        return "\n\n".join([*parts, *self.listed_by_module(FIRST, self.link_from)]) + "\n"

    def pages(self):
        """Yields the path of each page of the reference, and its text."""
        yield FIRST, self.first_page()
        for module in filter(self.sources.items_of, MODULES):
            for file, page in self.pages_of(module).items():
                yield file, self.page(page)
        yield WORDS, self.words.page()


def anchor_of_module(module):
    """Returns the anchor of a module's heading in an index."""
    return called(module).replace(":", "")


def in_order(item):
    """Returns the place of an item among those of its group: calls before types, a method of every stream or reader as its trait has it."""
    is_of_any = item.owner and item.owner.name in EXTENSIONS
    return is_type(item.owner or item), bool(is_of_any), item.line if is_of_any else 0, item.title.lower(), item.title


def tables_of_properties():
    """Returns the tables of properties, each with its head, as cells."""
    return [properties.rows(kind) for kind in properties.PROPERTIES]


@functools.cache
def fields_of_record(word):
    """Returns the fields of a definition that is a record, with their types."""
    text = read_text(f"{TOP}/{word.path}")
    found = re.search(rf"^(?:pub )?record (?:pub )?{re.escape(word.name)}(?=[\s(]).*\bwhere\n((?:  .*\n)+)", text, re.M)
    return dict(re.findall(r"^  (?:pub )?(\w+) : (.*)$", found[1], re.M)) if found else {}


def is_type(item):
    return item.kind in ("struct", "enum", "type")


def cited_in(item, names):
    """Returns the ghost names in an item's contract, but for members of a type or of a value."""
    return list(cited(re.sub(r"\.[\w']+", "", text_of(item)), names))


def code(lines, language="text"):
    return f"```{language}\n" + "\n".join(lines) + "\n```"
