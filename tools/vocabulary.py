"""The words of the ghost language: the definitions in specs/, each with the comment over it, and the calls whose runs they are."""
import functools
import itertools
import os
import re
import textwrap

from repository import BESIDE, FACADE, TOP, crates_in, files_of, read_text, with_below

# How many columns a line of a document has at most.
WIDTH = 120
# (a definition is told from a lemma by its first word)
DEFINED = re.compile(r"^ *(?!unfoldable pub use)(?:pub )?(abbrev|unfoldable|record|data) (?:pub )?(?:record |data )?(?P<word>(?!mutual\b)[^\s:({]+)")
MEMBER = re.compile(r"^    ghost (?P<word>\w+): \{(?P<type>.*)\}", re.M)
TRAIT = re.compile(r"^pub trait (?P<name>\w+).*?^}", re.M | re.S)
# What says the runs of a type, by the trait whose calls they are of.
RUN_OF = {"Stream": "run", "Future": "run", "Folder": "fold", "ReadSpec": "reads", "WriteSpec": "writes", "AsyncSeek": "seeks"}
LAWS_OF = {"Stream": "laws", "Future": "laws", "Folder": "returns", "ReadSpec": "read_laws", "WriteSpec": "write_laws", "AsyncSeek": None}
IMPL = re.compile(
    rf"^impl\b[^{{;]*?\s(?P<trait>{'|'.join(RUN_OF)})(?:<[^{{;]*?>)? for (?P<type>\w+)[^{{]*\{{\n(?P<body>.*?)^}}", re.M | re.S
)
# Modules whose words are said with those of the call at hand, which tell more.
SHARED = ("Consuming", "Polled", "Runs")
# Modules of words that say nothing of one call.
PLAIN = ("Answers", "Lent", "Runs")
# The laws of each future that consumes a stream.
CONSUMING = "lite_consume", "Laws.Consuming"
MADE = re.compile(r"^pub fn (?P<name>\w+)[^{;]*?-> (?P<type>[^{]*?)\n?(?:    (?:where|requires|ensures)|\{|$)", re.M | re.S)
NEW = re.compile(r"^impl\b[^{;]*?\s(?P<type>\w+)(?:<[^{;]*)?\{\n(?:(?!^\}).*\n)*?    pub fn new\(", re.M)
FUNCTION = re.compile(r"^pub fn (?P<name>\w+)(?P<said>.*?)^\{", re.M | re.S)
PASSED_ON = re.compile(r"^pub use (?P<path>[\w:]+?)(?:::\{(?P<names>[^}]*)\})?;", re.M | re.S)
# A line of the facade's specs that passes on a module of a crate's specs or proofs, or words of it.
PASSED_WORDS = re.compile(
    r"^(?:unfoldable )?pub use Rattle\.(?P<crate>\w+)\.(?P<part>specs|proofs)\.(?P<module>[\w.]+?)(?:\.\{(?P<names>[^}]*)\})?$", re.M
)
# The module of a crate that passes on what its files import from the crates below.
USES = "Uses"
USED = re.compile(r"use Rattle\.(?P<crate>\w+)\.specs\.(?P<module>[\w.]+)\.\{(?P<names>[^}]*)\}")


# What stands in backquotes.
QUOTED = re.compile(r"`[^`]*`")


def wrapped(text, indent=""):
    """Returns a paragraph, in lines that are not too long; the later ones begin with the indent. No line ends within backquotes, if what is in them is
    short enough."""
    text = " ".join(text.split())
    kept = QUOTED.sub(lambda it: it[0].replace(" ", "\0") if len(it[0]) < WIDTH // 2 else it[0], text)
    lines = textwrap.wrap(kept, WIDTH, subsequent_indent=indent, break_long_words=False, break_on_hyphens=False)
    return "\n".join(lines).replace("\0", " ")


def bullet(text):
    return wrapped(f"- {text}", "  ")


class Word:
    """A definition, or a lemma: its name, the crate, the module and the part of the crate that it stands in, and what the comment over it says."""

    def __init__(self, name, crate, module, says, part="specs"):
        self.name, self.crate, self.module, self.says, self.part = name, crate, module, says, part

    @property
    def path(self):
        return f"crates/{self.crate}/{self.part}/{self.module.replace('.', '/')}.antt"


def comment_over(lines, at):
    """Returns the comment that ends just above a line, as one line."""
    start = at
    while start and lines[start - 1].lstrip().startswith("--"):
        start -= 1
    return " ".join(line.lstrip(" -") for line in lines[start:at])


@functools.cache
def definitions(crate):
    """Returns the definitions of a crate, those of its laws too."""
    words = []
    for file in files_of(f"{TOP}/crates/{crate}/specs"):
        lines = read_text(f"{TOP}/crates/{crate}/specs/{file}").splitlines()
        found = ((at, it["word"]) for at, it in enumerate(map(DEFINED.match, lines)) if it)
        words += [Word(name, crate, os.path.splitext(file)[0].replace("/", "."), comment_over(lines, at)) for at, name in found]
    return words


@functools.cache
def libraries():
    return with_below(crates_in(TOP), [FACADE, *BESIDE])


def members():
    """Yields the ghost members of the library's traits: the trait, the member and its comment."""
    for crate in libraries():
        for file in files_of(f"{TOP}/crates/{crate}/src"):
            text = read_text(f"{TOP}/crates/{crate}/src/{file}")
            for trait in TRAIT.finditer(text):
                for found in MEMBER.finditer(trait[0]):
                    above = trait[0][: found.start()].rstrip("\n").split("\n\n")[-1].splitlines()
                    yield trait["name"], found["word"], " ".join(line.strip(" /") for line in above if line.strip().startswith("///"))


def used(text):
    """Yields each ghost name that a text imports, with the crate and the module that it names."""
    for it in USED.finditer(text):
        yield from ((name.strip(), (it["crate"], it["module"])) for name in it["names"].split(","))


@functools.cache
def passed_on_in(crate):
    """Returns where each name is from that a crate's specs/Uses.antt passes on from the crates below."""
    path = f"{TOP}/crates/{crate}/specs/{USES}.antt"
    return dict(used(read_text(path))) if os.path.isfile(path) else {}


def passed_words(part="specs"):
    """Yields what the facade's specs pass on of this part of crates: the crate, the module and the name of a word, with the module there; no name
    stands for all words of a module."""
    for file in files_of(f"{TOP}/crates/{FACADE}/specs"):
        module = os.path.splitext(file)[0]
        for it in PASSED_WORDS.finditer(read_text(f"{TOP}/crates/{FACADE}/specs/{file}")):
            if it["part"] != part:
                continue
            if it["names"]:
                yield from (((it["crate"], it["module"], name.strip()), module) for name in it["names"].split(","))
            else:
                yield (it["crate"], it["module"], ""), f"{module}.{it['module'].rpartition('.')[2]}"


@functools.cache
def modules_of_words(part="specs"):
    """Returns the module of the facade's specs that has each word of this part of crates, by the word's crate, module and name; no name stands for all
    words of a module."""
    found = {}
    for word, module in passed_words(part):
        found.setdefault(word, module)
    return found


@functools.cache
def words_of_uses_alone():
    """Returns the names of the words that no module of the facade's specs but its Uses passes on, so that programs import them from there."""
    passed = list(passed_words())
    elsewhere = {word for word, module in passed if module != USES}
    defined = {(it.crate, it.module, it.name) for crate in libraries() for it in definitions(crate)}
    return {word[2] for word, module in passed if module == USES and word in defined and not elsewhere.intersection({word, (*word[:2], "")})}


def module_for_programs(word):
    """Returns the module of the facade's specs from which a program imports a word, or nothing."""
    found, place = modules_of_words(word.part), (word.crate, word.module)
    return found.get((*place, word.name)) or found.get((*place, ""))


def imported(text):
    """Returns where each ghost name that a source imports is from: the crate and the module in which it is defined."""
    return {name: origin(name, crate, module) for name, (crate, module) in used(text)}


def origin(name, crate, module):
    """Returns the crate and the module that define a name, which a source imports from there."""
    if module == USES:
        return passed_on_in(crate).get(name, (crate, module))
    if crate == FACADE:
        found = [where for where, passed in modules_of_words().items() if passed == module and where[2] in (name, "")]
        return next((it[:2] for it in sorted(found, key=lambda it: it[2], reverse=True)), (crate, module))
    return crate, module


def makers(crate):
    """Returns the functions of a crate that make a value of a type, by the type; the type itself where it has a `new`."""
    made = {}
    for file in files_of(f"{TOP}/crates/{crate}/src"):
        for found in MADE.finditer(read_text(f"{TOP}/crates/{crate}/src/{file}")):
            kind = re.match(r"(?:Result<|Option<)?(\w+)", found["type"].strip())
            if kind:
                made.setdefault(kind[1], []).append(found["name"])
    for file in files_of(f"{TOP}/crates/{crate}/src"):
        for found in NEW.finditer(read_text(f"{TOP}/crates/{crate}/src/{file}")):
            if found["type"] in made:
                made[found["type"]] = [found["type"]]
    return made


def passed_on():
    """Returns the names that the facade passes on."""
    texts = [read_text(f"{TOP}/crates/{FACADE}/src/{file}") for file in files_of(f"{TOP}/crates/{FACADE}/src")]
    found = [it for text in texts for it in PASSED_ON.finditer(text)]
    return {name.strip() for it in found for name in (it["names"] or it["path"].rpartition("::")[2]).split(",")}


def cited(said, where):
    """Yields the crate, the module and the name of each ghost name in a text, in their order."""
    for name in re.findall(r"[\w'-]+", said):
        if name in where:
            yield *where[name], name


def ghost_in(body, member, where):
    """Returns the ghost names, in their order, that a member of an impl says, with their crates and modules."""
    said = member and re.search(rf"ghost {member} = \{{(.*?)\}};", body, re.S)
    return list(cited(said[1], where)) if said else []


def module_path(crate, module):
    return f"crates/{crate}/specs/{module.replace('.', '/')}.antt"


def calls():
    """Yields a row for each type that is polled, read, written or sought: its crate, the calls that make one, its source, its definition, and
    the modules of its laws."""
    below = set(libraries())
    for crate in libraries():
        made = makers(crate)
        for file in files_of(f"{TOP}/crates/{crate}/src"):
            text = read_text(f"{TOP}/crates/{crate}/src/{file}")
            where = imported(text)
            for impl in IMPL.finditer(text):
                run, laws = (ghost_in(impl["body"], member[impl["trait"]], where) for member in (RUN_OF, LAWS_OF))
                lawful = list(dict.fromkeys(it[:2] for it in laws if it[1].startswith("Laws.")))
                if impl["trait"] == "Folder":
                    lawful.append(CONSUMING)
                known = [it for it in run if it[0] in below]
                own = [it for it in known if it[1] not in SHARED] or [it for it in known if it[1] != "Runs"]
                if own:
                    beside = own[0][0], f"Laws.{own[0][1]}"
                    if not lawful and os.path.exists(f"{TOP}/{module_path(*beside)}"):
                        lawful = [beside]
                    yield crate, made.get(impl["type"], []), impl["type"], impl["trait"], file, own[0], lawful


def functions():
    """Yields a row for each function that the facade passes on and that makes no such type: its crate, its source, and the words of its
    contract."""
    public, made = passed_on(), {name for _, names, *_ in calls() for name in names}
    for crate in libraries():
        for file in files_of(f"{TOP}/crates/{crate}/src"):
            text = read_text(f"{TOP}/crates/{crate}/src/{file}")
            where = imported(text)
            for found in FUNCTION.finditer(text):
                said = found["said"].partition("\n    ensures")[2]
                own = [it for it in dict.fromkeys(cited(said, where)) if it[0] in libraries() and it[1] not in PLAIN]
                if found["name"] in public - made and crate != FACADE and own:
                    yield crate, found["name"], file, own


KIND = {"Stream": "stream", "Future": "future", "Folder": "consuming", "ReadSpec": "reading", "WriteSpec": "writing", "AsyncSeek": "seeking"}
PAGE = "docs/GLOSSARY.md"


def link(path, text):
    return f"[{text}](../{path})"


def defined_at(words):
    """Links the modules of these words, each with those that stand in it."""
    modules = {}
    for crate, module, name in words:
        modules.setdefault((crate, module), []).append(f"`{name}`")
    return ", ".join(f"{' '.join(names)} {link(module_path(*it), it[1].replace('.', '/'))}" for it, names in modules.items())


def snake(name):
    return re.sub(r"(?<!^)(?=[A-Z])", "_", name).lower()


def line_of_call(names, kind, crate, file, defined, laws):
    """Returns the line of a call: its code, its definition and its laws."""
    code = link(f"crates/{crate}/src/{file}", f"{crate}/{os.path.splitext(file)[0]}")
    told = ", ".join(link(module_path(*it), it[1].removeprefix("Laws.").replace(".", "/")) for it in laws)
    return f"- {', '.join(f'`{it}`' for it in names)}, {kind}: {code}, {defined_at(defined)}{f'; laws {told}' if told else ''}."


def lines_of_calls():
    for crate, made, name, trait, file, defined, laws in calls():
        # (a method that consumes a stream is called as its folder is)
        named = made or [snake(name) if trait == "Folder" else name]
        yield line_of_call(sorted(named, key=len), KIND[trait], crate, file, [defined], laws)
    for crate, name, file, defined in functions():
        modules = dict.fromkeys(it[:2] for it in defined)
        laws = [(it[0], f"Laws.{it[1]}") for it in modules if os.path.exists(f"{TOP}/{module_path(it[0], f'Laws.{it[1]}')}")]
        yield line_of_call([name], "function", crate, file, defined, laws)


def about_crate(crate):
    """Returns what a crate says of itself in its first paragraph."""
    lines = itertools.takewhile(lambda it: it.startswith("//! "), read_text(f"{TOP}/crates/{crate}/src/lib.rt").splitlines())
    return " ".join(line.removeprefix("//! ") for line in lines)


def list_of_calls():
    """Returns the list of calls, by the name of its markers in the page."""
    lines = "\n".join(sorted(lines_of_calls()))
    return {"calls": f"\n\n{lines}\n\n"}


def faults():
    """Yields what is wrong with the words: a file or a definition without a comment, and a name that two have."""
    there, files = {}, {}
    for crate in crates_in(TOP):
        for word in definitions(crate):
            there.setdefault(word.name, []).append(word)
            if word.path not in files:
                files[word.path] = read_text(f"{TOP}/{word.path}").startswith("--")
            if not word.says:
                yield word.path, f"{word.name} has no comment"
    for path in sorted(it for it, has_comment in files.items() if not has_comment):
        yield path, "no comment says what the file has"
    for name, words in sorted(there.items()):
        if len(words) > 1:
            yield words[0].path, f"{name} stands in {', '.join(it.path for it in words[1:])} too"
