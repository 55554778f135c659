"""What tools/find looks through, and how it answers: public items, words of contracts, lemmas, members of traits, words of the kit, and examples."""
import collections
import difflib
import functools
import glob
import os
import re
import textwrap

from legend import legend, members
from repository import BESIDE, FACADE, PARTS, TOP, crates_in, files_of, read_text
from sources import MODULES, Sources, called, first_sentence
from vocabulary import PASSED_WORDS, USES, WIDTH, Word, comment_over, libraries, module_for_programs, passed_words

# A line of specs/ or proofs/ that begins a declaration; a definition is told from a lemma by the words before its name.
MARK = "abbrev|unfoldable|pub|record|data|ruleset"
DECLARED = re.compile(rf" *(?P<marks>(?:(?:{MARK}) )+)(?!(?:{MARK}|use|mod|module) |mutual$)(?P<name>[^\s:({{]+)(?P<head>.*)")
DEFINITION, WITH_FIELDS = re.compile(r"abbrev|unfoldable|record|data"), re.compile(r"record|data")
# A block whose declarations have its parameters, and one of definitions that name each other.
MODULE, MUTUAL = re.compile(r" *module _"), re.compile(r" *abbrev mutual$")
# An import of ghost names, and how an import begins in a source.
IMPORT = re.compile(r"use Rattle\.(?P<crate>\w+)\.(?P<part>specs|proofs)\.(?P<module>[\w.]+)\.\{(?P<names>[^}]*)\}")
USE = re.compile(r"\s*(?:pub |ghost |unfoldable )*use ")
# The crate of the kit that every crate may name, and the crates that repeat the examples of doc comments.
STD, REPEATED = "std", "proved_examples_"
# How far an entry is that the facade does not pass on: in a crate that is no part of the library, in the kit, in a crate below, or in no other crate.
OWN, KIT, BELOW, INNER = range(1, 5)
# How an entry fits: by its name, as it is written or in other case; by its code, by its comment, or by both in other case; or by each word alone.
EXACT, EXACT_FOLDED, BEGINS, BEGINS_FOLDED, HAS, HAS_FOLDED, CODE, COMMENT, FOLDED, EACH_WORD = range(10)
BY_NAME = ((EXACT, str.__eq__), (BEGINS, str.startswith), (HAS, str.__contains__))
# The kinds of entries in their order: what stands over those that fit by their texts alone, and how many are told.
KINDS = {
    "item": ("Items whose signature, contract or comment has it", 3),
    "word": ("Words of contracts whose definition or comment has it", 3),
    "lemma": ("Lemmas whose statement or comment has it", 4),
    "member": ("Members of traits whose comment has it", 1),
    "kit": ("Words of the kit whose explanation has it", 1),
}
# How many entries are told whole, how many lines of a definition, and how many names.
MOST_WHOLE, MOST_BODY, MOST_NAMED = 4, 12, 5
# The word that the guide looks up, and the page.
EXAMPLE, EXAMPLE_PAGE = "step_from", "docs/guide/00-start.md"
# The kinds of examples, with how many lines are told of each.
EXAMPLES = {"Guide": 3, "Doc comments": 2, "Programs": 4}
PAGES = ("docs/guide/*.md", "docs/NESTS.md", "docs/FROM-FUTURES-LITE.md", "docs/RULES.md")
# How many parts of pages are told, and where a part or a paragraph of a page begins.
MOST_PARTS, HEADING, PARAGRAPH = 4, re.compile(r"#+ (.*)"), re.compile(r"- |\||\d+\. |$")
FENCES, REMARK = ("```rust", "```antt"), re.compile(r"//.*|--.*")


def filled(text, indent="  ", most=None):
    """Returns a text in lines, of which there are at most so many."""
    return textwrap.wrap(
        text, WIDTH, initial_indent=indent, subsequent_indent=f"{indent}    ", break_long_words=False, break_on_hyphens=False, max_lines=most, placeholder=" .."
    )


def more(number, what="more"):
    return [f"  ({number} {what})"] if number > 0 else []


@functools.cache
def whole_word(asked):
    return re.compile(rf"(?<![\w'-]){re.escape(asked)}(?![\w'-])")


class Entry:
    """Something that has a name: its kind, its names with the bare one first, what it is, and what is told of it."""

    def __init__(self, kind, names, what, **told):
        self.kind, self.names, self.what = kind, names, what
        # The lines that import it, its signature or its type, the lines of its definition, what is told of its comment, and where it stands.
        self.imports, self.head, self.body = told.get("imports", ()), told.get("head", ""), told.get("body", ())
        # Its type without the parameters of the blocks around it.
        self.brief = told.get("brief", self.head)
        self.says, self.places = told.get("says", ""), told.get("places", ())
        # How far it is: 0 if a program that lists the facade or a crate beside it has it, then OWN, KIT, BELOW, INNER.
        self.reach = told.get("reach", 0)
        # Whether it is a part of another entry, whose texts a search reads.
        self.is_part = told.get("is_part", False)
        # What a search reads besides.
        self.contract, self.comment = told.get("contract", ()), " ".join(told.get("comment", self.says).split())

    @functools.cached_property
    def code(self):
        """Its code, with what its comment has in backquotes."""
        return " ".join(" ".join([self.head, *self.body, *self.contract, *re.findall(r"`([^`]+)`", self.comment)]).split())

    @functools.cached_property
    def folded(self):
        return f"{self.code} {self.comment}".casefold()

    def fit(self, words):
        """Returns how the words fit, or None."""
        asked = " ".join(words)
        low = asked.casefold()
        for rank, test in BY_NAME:
            names = self.names if rank == EXACT else self.names[-1:] if "::" in asked else self.names[:1]
            if any(test(it, asked) for it in names):
                return rank
            if any(test(it.casefold(), low) for it in names):
                return rank + 1
        if self.is_part:
            return None
        if low not in self.folded:
            return EACH_WORD if all(it.casefold() in self.folded for it in words) else None
        return next((rank for rank, text in ((CODE, self.code), (COMMENT, self.comment)) if whole_word(asked).search(text)), FOLDED)

    def short(self):
        """Returns its import and its comment, and then its type, as `rt lemma` does."""
        first = self.imports[0] if self.imports and self.kind != "item" else self.names[-1]
        return filled(f"{first}{f'  -- {first_sentence(self.says)}' if self.says else ''}", most=2) + filled(self.brief, "    ", 2)

    def whole(self):
        """Returns the lines that tell all of it."""
        body = [*(f"    {it}" for it in self.body[:MOST_BODY]), *(f"  {it}" for it in more(len(self.body) - MOST_BODY, "more lines"))]
        places = [f"  {', '.join(self.places)}"] if self.places else []
        return [f"{self.names[-1]}: {self.what}", *(f"  {it}" for it in self.imports), *filled(self.head), *body, *filled(self.says), *places]


@functools.cache
def texts():
    """Returns the texts of the crates by crate, part and file. The answers of a function's proof, in folders with small letters, have no names."""
    found = {}
    for crate in crates_in(TOP):
        for part in PARTS:
            for file in files_of(f"{TOP}/crates/{crate}/{part}"):
                if file.endswith(".rt") if part == "src" else file.endswith(".antt") and file[0].isupper():
                    found[crate, part, file] = read_text(f"{TOP}/crates/{crate}/{part}/{file}")
    return found


@functools.cache
def folded_texts():
    return {place: text.casefold() for place, text in texts().items()}


def texts_with(words):
    """Returns the places of the texts that have each of the words, in lower or upper case; of a path what stands last."""
    low = [re.split(r"::|\.", it.casefold())[-1] for it in words]
    return {place for place, text in folded_texts().items() if all(it in text for it in low)}


@functools.cache
def own_crates():
    """Returns the crates that are no part of the library, and repeat no examples: programs, or the crates of the repository that has a copy of it."""
    return [it for it in crates_in(TOP) if it not in libraries() and not it.startswith(REPEATED)]


def entries_of_item(item, at, reach=0):
    """Yields the entry of a public item of a crate's module, which is named as callers name it, and those of its variants."""
    crate, *inner = at.split("::")
    found = {"head": item.head, "says": first_sentence(item.says) if item.says else "", "comment": item.says, "contract": [*item.asks, *item.gives]}
    found["places"] = [f"{item.path}:{item.line}"]
    variants = [it.strip() for it in item.variants if it.strip() and not it.strip().startswith("//")]
    found["body"] = [*(" ".join(it.split()) for it in (*item.asks, *item.gives)), *variants]
    declared, title = f"use Rattle.{'.'.join([crate, 'specs.declared', *inner, item.name])}", f"{at}::{item.title}"
    if item.kind in ("struct", "enum"):
        found["imports"] = [f"{declared}.{{{item.name}}}"]
    kind = "method" if item.is_method else "function" if item.kind == "fn" else item.kind
    within = at.rpartition("::")[2]
    names = (item.name, item.title, f"{within}::{item.name}", f"{within}::{item.title}", f"{at}::{item.name}", title)
    yield Entry("item", names, kind, reach=reach, **found)
    for variant in re.findall(r"^    (\w+)", "\n".join(item.variants), re.M) if item.kind == "enum" else ():
        names = (variant, f"{item.name}::{variant}", f"{title}::{variant}")
        yield Entry("item", names, "variant", imports=[f"{declared}.TheVariants.{{{variant}}}"], places=found["places"], reach=reach, is_part=True)


def passed_from_kit(every, source, at):
    """Yields what a module passes on that no crate here declares."""
    for name in source.passed_on if source else ():
        if not every.resolve(source, name):
            yield Entry("item", (name, f"{at}::{name}"), f"passed on from `{'::'.join(source.uses[name])}`")


def sources_of(crates):
    return Sources([(crate, file, text) for (crate, part, file), text in texts().items() if part == "src" and crate in crates])


@functools.cache
def items_of_library():
    """Returns the public items of the facade and of the crates beside it."""
    every = sources_of(libraries())
    found = [entry for module in MODULES for it in every.items_of(module).values() for entry in entries_of_item(it, called(module))]
    found += [it for module in MODULES for it in passed_from_kit(every, every.source_of(module), called(module))]
    root = every.by_module.get((FACADE, ()))
    if root:
        there = {it for module in MODULES for it in every.items_of(module).values()}
        passed = (every.resolve(root, it) for it in root.passed_on)
        found += [entry for it in passed if it and it not in there for entry in entries_of_item(it, FACADE)]
        found += passed_from_kit(every, root, FACADE)
    return found


@functools.cache
def items_of_crate(crate):
    """Returns the public items of a crate that is no part of the library."""
    modules = sources_of([crate]).by_module.items()
    named = [("::".join((crate, *module)), [*source.items.values(), *(it for it, _ in source.methods)]) for (_, module), source in modules]
    return [entry for at, items in named for it in items for entry in entries_of_item(it, at, reach=OWN)]


def items(words):
    """Yields the public items of the library, and of the other crates of which a source has the words."""
    own = {crate for crate, part, _ in texts_with(words) if part == "src"}.intersection(own_crates())
    yield from items_of_library()
    for crate in sorted(own):
        yield from items_of_crate(crate)


def block_end(lines, at):
    """Returns the line behind the deeper lines below a line; an empty line belongs to them if a deeper one follows."""
    indent, end = depth(lines[at]), at + 1
    for number in range(at + 1, len(lines)):
        if lines[number].strip():
            if depth(lines[number]) <= indent:
                break
            end = number + 1
    return end


def depth(line):
    return len(line) - len(line.lstrip(" "))


def rows_end(lines, at, name, indent):
    """Returns the line behind the rows that define a name, below its type."""
    while at < len(lines) and lines[at].strip() and (depth(lines[at]) > indent or lines[at].split()[0] == name):
        at += 1
    return at


# What a file of specs/ or proofs/ declares: its type stands with the parameters of the blocks around it, and in brief with `..` in their place.
Declaration = collections.namedtuple("Declaration", "name is_public is_definition is_record has_parts head brief body says line")
Block = collections.namedtuple("Block", "indent parameters is_mutual says")
PART = re.compile(r"(?:pub )?(?P<names>[^\s:({-]+(?: [^\s:({]+)*) : (?P<type>.*)")


def block_at(lines, at):
    """Returns the block that begins in a line, and the last line of its head."""
    end = next((it for it in range(at, len(lines)) if lines[it].endswith(("where", "mutual"))), at)
    parameters = re.sub(r"^module _|where$|^abbrev mutual$", "", " ".join(" ".join(lines[at : end + 1]).split())).strip()
    return Block(depth(lines[at]), parameters, bool(MUTUAL.match(lines[at])), comment_over(lines, at)), end


def declaration_at(lines, at, found, blocks):
    """Returns what the match of a line declares, within these blocks."""
    name, marks, end = found["name"], found["marks"], block_end(lines, at)
    has_parts, is_mutual = bool(WITH_FIELDS.search(marks)), any(it.is_mutual for it in blocks)
    is_definition = is_mutual or bool(DEFINITION.search(marks))
    typed = next((it + 1 for it in range(at, end) if has_parts and lines[it].endswith("where")), end)
    body = lines[typed:end] if has_parts else lines[end : rows_end(lines, end, name, depth(lines[at]))] if is_definition else []
    body = [it for it in textwrap.dedent("\n".join(body)).splitlines() if it.strip()]
    parameters = " ".join(it.parameters for it in blocks if it.parameters)
    heads = [" ".join(" ".join([name, it, found["head"], *lines[at + 1 : typed]]).split()) for it in (parameters, ".." if parameters else "")]
    says = comment_over(lines, at) or (blocks[-1].says if is_mutual else "")
    return Declaration(name, "pub" in marks, is_definition, "record" in marks, has_parts, *heads, body, says, at + 1)


def declarations(text):
    """Yields the definitions of a file of specs/ or proofs/, and the lemmas that it passes on."""
    lines, blocks, at = text.splitlines(), [], 0
    while at < len(lines):
        line, end = lines[at], at
        while line.strip() and blocks and blocks[-1].indent >= depth(line):
            blocks.pop()
        if MODULE.match(line) or MUTUAL.match(line):
            block, end = block_at(lines, at)
            blocks.append(block)
        elif (found := DECLARED.fullmatch(line)) and ("pub" in found["marks"] or DEFINITION.search(found["marks"])):
            yield declaration_at(lines, at, found, blocks)
            end = block_end(lines, at) - 1
        at = end + 1


@functools.cache
def is_open(crate, part, module):
    """Tells whether other crates may import from a module: whether each module above it passes on the one below."""
    above, _, last = module.rpartition(".")
    file = f"{TOP}/crates/{crate}/{part}/{above.replace('.', '/') or 'Lib'}.antt"
    passed = os.path.isfile(file) and re.search(rf"^pub mod {re.escape(last)}$", read_text(file), re.M)
    return bool(passed) and (not above or is_open(crate, part, above))


@functools.cache
def aliases():
    """Returns the names by which the facade's specs pass on lemmas that have another name: by the crate, the module and the name."""
    passed = (word for part in ("specs", "proofs") for word, _ in passed_words(part) if " as " in word[2])
    return {(crate, module, name.partition(" as ")[0]): name for crate, module, name in passed}


@functools.cache
def passed_between():
    """Returns which crate and module of the library below the facade pass on a word of another file, beside those that files share."""
    found = {}
    for (crate, part, file), text in texts().items():
        if part == "specs" and crate in libraries() and crate != FACADE and file != f"{USES}.antt":
            for it in PASSED_WORDS.finditer(text):
                names = (it["names"] or "").split(",")
                found.update({(it["crate"], it["part"], it["module"], name.strip()): (crate, module_of(file)) for name in names})
    return found


def module_of(file):
    return os.path.splitext(file)[0].replace("/", ".")


def import_of(word):
    """Returns the line that imports a word or a lemma, the name that it has there, and how far it is from a program."""
    renamed = aliases().get((word.crate, word.module, word.name), word.name)
    passed = module_for_programs(Word(renamed, word.crate, word.module, "", word.part))
    name = renamed.rpartition(" as ")[2]
    if passed:
        return f"use Rattle.{FACADE}.specs.{passed}.{{{name}}}", name, 0
    if at := passed_between().get((word.crate, word.part, word.module, word.name)):
        return import_of(Word(word.name, *at, ""))
    line = f"use Rattle.{word.crate}.{word.part}.{word.module}.{{{word.name}}}"
    if word.crate in own_crates():
        return line, word.name, OWN
    if not is_open(word.crate, word.part, word.module):
        return f"{line}  (in the crate {word.crate} alone)", word.name, INNER
    return (line, word.name, 0) if word.crate in BESIDE else (f"{line}  (if crates.txt lists {word.crate})", word.name, BELOW)


@functools.cache
def declared_in(crate, part, file):
    """Returns the words of contracts and the lemmas of a file of specs/ or proofs/."""
    found = []
    for it in declarations(texts()[crate, part, file]):
        word = Word(it.name, crate, module_of(file), it.says, part)
        line, name, reach = import_of(word) if it.is_public else ("", it.name, INNER)
        what = f"{'word of contracts' if it.is_definition else 'lemma'}{'' if it.is_public else ', of its file alone'}"
        told = {"head": it.head, "brief": it.brief, "body": it.body, "says": it.says, "imports": [line] if line else (), "reach": reach}
        names = (name,) if name == it.name else (name, it.name, name)
        places = [f"{word.path}:{it.line}"]
        found.append(Entry("word" if it.is_definition else "lemma", names, what, places=places, **told))
        for inner, head, says in parts_of(it):
            # A constructor is named by its type, which is imported, and a field behind its value.
            told |= {"head": head, "imports": ()} if it.is_record else {"head": f"{name}.{head}"}
            told |= {"brief": told["head"], "body": (), "says": says, "places": places, "is_part": True}
            found.append(Entry("word", (inner, f"{name}.{inner}", f"{name}::{inner}"), f"{'field' if it.is_record else 'constructor'} of {name}", **told))
    return found


def parts_of(declaration):
    """Yields the fields of a record, or the constructors of a type: the name, the type and the comment."""
    for at, line in enumerate(declaration.body if declaration.has_parts else ()):
        if part := PART.match(line):
            end = block_end(declaration.body, at)
            head = " ".join(" ".join([part["type"], *declaration.body[at + 1 : end]]).split())
            for name in part["names"].split():
                yield name, f"{name} : {head}", comment_over(declaration.body, at)


def definitions_and_lemmas(words):
    """Yields the words of contracts and the lemmas of the files of specs/ and proofs/ that have the words, or are passed on by other names."""
    renamed = {(crate, f"{module.replace('.', '/')}.antt") for crate, module, _ in aliases()}
    read, there = {*libraries(), *own_crates()}, texts_with(words)
    for crate, part, file in texts():
        if part != "src" and crate in read and ((crate, part, file) in there or (crate, file) in renamed):
            yield from declared_in(crate, part, file)


@functools.cache
def members_of_traits():
    """Returns the ghost members of the library's traits."""
    found = [(name, trait, says) for name, of_traits in members().items() for trait, says in of_traits]
    return [Entry("member", (name, f"{trait}::{name}"), f"member of the trait {trait}, as in `T.{name}`", says=says) for name, trait, says in found]


@functools.cache
def words_of_kit():
    """Returns the words of the kit's crates, each from the module that most files here import it from, and what tools/legend.txt explains."""
    there, counts = crates_in(TOP), collections.Counter()
    for found in (it for text in texts().values() for it in IMPORT.finditer(text)):
        if found["crate"] not in there:
            names = (it.partition(" as ")[0].strip() for it in found["names"].split(","))
            counts.update((name, found["crate"], found["part"], found["module"]) for name in names if name)
    found, told = [], set()
    for (name, crate, part, module), _ in counts.most_common():
        if (name, crate) not in told:
            told.add((name, crate))
            line = f"use Rattle.{crate}.{part}.{module}.{{{name}}}"
            passed = module_for_programs(Word(name, crate, module, "", part)) if crate != STD else None
            line = f"use Rattle.{FACADE}.specs.{passed}.{{{name}}}" if passed else line if crate == STD else f"{line}  (if crates.txt lists {crate})"
            where = [f"`rt lemma {name}` looks it up"] if crate == STD else []
            found.append(Entry("kit", (name,), f"of the kit's {crate}", imports=[line], says=legend().get(name, ""), places=where, reach=KIT))
    others = set(legend()) - {it for it, _ in told}
    return found + [Entry("kit", (it,), "word of contracts", says=legend()[it], reach=KIT) for it in sorted(others)]


def entries(words=()):
    """Returns the entries that may have the words, and others."""
    return [*items(words), *definitions_and_lemmas(words), *members_of_traits(), *words_of_kit()]


def code_of_page(text):
    """Yields the number and the code of each line of a page: its blocks of code, and what stands in backquotes."""
    fence = ""
    for number, line in enumerate(text.splitlines(), 1):
        if line.startswith("```"):
            fence = "" if fence else line
        else:
            is_code = fence in FENCES and not USE.match(line)
            yield number, REMARK.sub("", line) if is_code else "" if fence else " ".join(re.findall(r"`([^`]+)`", line))


@functools.cache
def pages():
    """Returns the texts of the pages by their paths."""
    return {os.path.relpath(it, TOP): read_text(it) for pattern in PAGES for it in sorted(glob.glob(f"{TOP}/{pattern}"))}


def paragraphs(text):
    """Yields each paragraph, point or row of a page: the number of its first line, the heading above it, and its lines as one. Blocks of code have none."""
    heading, fence, first, lines = "", False, 0, []
    for number, line in enumerate([*text.splitlines(), ""], 1):
        if lines and (PARAGRAPH.match(line) or line.startswith(("#", "```"))):
            yield first, heading, " ".join(lines)
            lines = []
        fence = fence != line.startswith("```")
        if found := HEADING.match(line):
            heading, first, lines = found[1], number, [found[1]]
        elif line.strip() and not fence and not line.startswith("```"):
            first, lines = (first, lines) if lines else (number, lines)
            lines.append(line.strip())


def parts_with(asked):
    """Returns the parts of pages in whose prose a word begins with what was asked, each by its place and its text from that sentence on. Those whose
    heading has it come first, and the chapters last."""
    word, found = re.compile(rf"(?<!\w){re.escape(asked)}", re.IGNORECASE), {}
    for path, text in pages().items():
        for number, heading, paragraph in paragraphs(text):
            if word.search(re.sub(r"`[^`]*`", "", paragraph)):
                sentences = re.split(r"(?<=[.;]) ", paragraph)
                at = next((it for it, sentence in enumerate(sentences) if word.search(sentence)), 0)
                told = [f"{path}:{number}", heading] + [" ".join(sentences[at:])] * (paragraph != heading)
                found.setdefault((path, heading), ": ".join(told))
    return [found[it] for it in sorted(found, key=lambda it: (not word.search(it[1]), it[0].startswith("docs/guide")))]


def code_of_comments(text):
    """Yields the number and the code of each line of the examples in doc comments."""
    is_code = False
    for number, line in enumerate(text.splitlines(), 1):
        comment = line.strip()
        if comment.startswith("/// ```"):
            is_code = not is_code
        elif is_code and comment.startswith("///"):
            yield number, comment.removeprefix("///")


def code_of_program(text):
    """Yields the number and the code of each line of a source, but for comments and imports."""
    is_import = False
    for number, line in enumerate(text.splitlines(), 1):
        is_import = is_import or bool(USE.match(line))
        if not is_import:
            yield number, REMARK.sub("", line)
        elif line.rstrip().endswith((";", "}")):
            is_import = False


def examples_of(names):
    """Yields the kinds of examples, each with the lines that name one of the names."""
    own = sorted(own_crates(), key=lambda it: (not it.startswith("example_"), it))
    comments = {f"crates/{crate}/{part}/{file}": text for (crate, part, file), text in texts().items() if part == "src" and crate in libraries()}
    programs = {f"crates/{of}/{part}/{file}": text for of in own for (crate, part, file), text in texts().items() if crate == of}
    for kind, there, code in zip(EXAMPLES, (pages(), comments, programs), (code_of_page, code_of_comments, code_of_program)):
        found = []
        for path, text in there.items():
            if any(it in text for it in names):
                lines, numbers = text.splitlines(), [number for number, it in code(text) if any(whole_word(name).search(it) for name in names)]
                found += [f"{path}:{number}: {' '.join(lines[number - 1].removeprefix('/// ').split())}" for number in numbers]
        yield kind, found


def words_in_name(name):
    """Returns the words that a name is made of, as `Codec` and `Laws` of `CodecLaws`."""
    return re.findall(r"[A-Z]?[a-z0-9]+|[A-Z]+(?![a-z])", name)


def near(asked):
    """Returns names that are like the words."""
    names = {it.names[0].casefold(): it.names[0] for it in entries()}
    return [names[it] for it in difflib.get_close_matches(asked.casefold(), names, 5)]


def listed(heading, found, most):
    """Returns the lines that name entries below a heading, and how many more there are."""
    return ["", f"{heading}:", *(line for it in found[:most] for line in it.short()), *more(len(found) - most)] if found else []


def fitting(words):
    """Returns the entries that fit, each with how; the nearest to a program come first, and of these those whose type has the words."""
    found, kinds = [(it.fit(words), it) for it in entries(words)], list(KINDS)
    asked = whole_word(" ".join(words))

    def place(found):
        rank, it = found
        return rank, it.reach, not asked.search(it.head), kinds.index(it.kind), len(it.names[-1]), it.names[-1]

    return sorted(((rank, it) for rank, it in found if rank is not None), key=place)


def not_found(words):
    """Returns the lines that tell of words that nothing has: names that are like them, and what has the parts of a name."""
    asked = " ".join(words)
    told, parts = ", ".join(near(asked)), words_in_name(asked)
    having = [it for _, it in fitting(parts)] if len(parts) > 1 else []
    lines = [f"nothing has {asked}{f'; names like it are {told}' if told else ''}", "`rt lemma` looks in all of std"]
    return [*lines, *listed(f"What has its parts, {' and '.join(parts)}", having, MOST_NAMED)]


def lines_of_pages(asked, names):
    """Returns the lines that tell which parts of pages have the words, and which examples have the names."""
    parts = parts_with(asked)
    told = [line for it in parts[:MOST_PARTS] for line in filled(it, most=2)]
    lines = ["", "Pages:", *told, *more(len(parts) - MOST_PARTS)] if parts else []
    for kind, there in examples_of(names):
        told = [line for it in there[: EXAMPLES[kind]] for line in filled(it, most=1)]
        lines += ["", f"{kind}:", *told, *more(len(there) - EXAMPLES[kind])] if there else []
    return lines


def answer(words):
    """Returns whether an entry or a page has the words, and the lines that tell it."""
    asked, found = " ".join(words), fitting(words)
    if not found:
        lines = lines_of_pages(asked, {asked})
        return bool(lines), lines[1:] or not_found(words)
    named = [(rank, it) for rank, it in found if rank < CODE]
    exact = [it for rank, it in named if rank == named[0][0] <= EXACT_FOLDED]
    whole = exact or [it for _, it in named if len(named) == 1]
    others = [*whole[MOST_WHOLE:], *(it for _, it in named if it not in whole)]
    lines = [line for it in whole[:MOST_WHOLE] for line in ("", *it.whole())]
    lines += listed(f"{'Other names' if whole else 'Names'} that have it", others, MOST_NAMED)
    for kind, (heading, most) in KINDS.items():
        lines += listed(heading, [it for rank, it in found if rank >= CODE and it.kind == kind], most)
    lines += lines_of_pages(asked, {it.names[0] for it in whole} or {asked})
    return True, lines[1:]


def example():
    """Returns the block of the guide that shows what the tool prints."""
    return "\n\n```text\n" + "\n".join([f"$ tools/find {EXAMPLE}", *answer([EXAMPLE])[1]]) + "\n```\n\n"
