"""A new call as a copy of one that is there: its names, and what of a file is copied (tools/begin)."""
import re
import textwrap

# The most characters of a line of code.
WIDTH = 100
# In a file of cases, the line above those of a call.
HEADING = re.compile(r"# (?:\w+::)*(\w+): ")
DEFINITION = re.compile(r"^(?:abbrev |unfoldable )*pub ([\w-]+) :", re.M)
# An import: its path, the names in braces, and the rest.
USE = re.compile(r"^((?:pub |ghost )*use [^;{]*)(?:\{([^}]*)\})?.*(?:;|$)\n?", re.M)
# A parameter; what belongs to the line before although it has the same indent, and what belongs to the line behind.
PARAMETER = re.compile(r"\w+: ")
# What stands behind the head of a line: of a binding, an arm or a loop.
BEHIND_HEAD = re.compile(r" (?:=>?|in) ")
GOES_ON, COMMENT = re.compile(r"where\b|[{})\]]"), re.compile(r"//|#\[|--")


def camel(name):
    return "".join(it.capitalize() for it in name.split("_"))


def kebab(name):
    return name.replace("_", "-")


# The forms of a name: of a wrong body, of a type, and of a function.
FORMS = (kebab, camel, str)


def beginning(form, longer):
    """Returns what finds a name that begins with this form, but none that begins with a longer one; as `skipp` of `skipped`, with the last letter twice."""
    rests = [re.escape(it[len(form) :]) for it in longer if it.startswith(form)]
    return rf"(?<![A-Za-z0-9]){form}(?:{form[-1]}(?=ed|ing))?" + (f"(?!{'|'.join(rests)})" if rests else "")


def as_word(was, to):
    """Returns the pair of a pattern that finds this text, but not as a part of a word or of a range, and of what is put in its place."""
    before = r"(?<!\.)" if was.startswith(".") else r"(?:(?<!\w)|(?!\w))"
    return re.compile(before + re.escape(was) + r"(?:(?!\w)|(?<!\w))"), to.replace("\\", r"\\")


class Names:
    """How the names of the new call are made of those of the old one."""

    def __init__(self, old, new, calls, others=(), words=()):
        """`calls` are all calls that are there, `others` the definitions of other files, and `words` pairs: a pattern, and what a copy has in its place."""
        self.new, self.renamed, self.words, self.used = new, {}, list(words), set()
        forms = {make(old): make(new) for make in FORMS}
        longer = {*others, *(make(it) for it in calls for make in FORMS)} - {*forms}
        begins = "|".join(beginning(it, longer) for it in sorted(forms, key=len, reverse=True))
        self.old, self.whole = re.compile(begins), re.compile(rf"(?:{begins})(?![a-z])")
        self.forms = forms | {f"{it}{it[-1]}": of_new for it, of_new in forms.items()}

    def rename(self, text):
        """Gives each definition of a copied text a name of its own."""
        for name in DEFINITION.findall(text):
            if not self.old.search(name):
                self.renamed[name] = f"{camel(self.new)}{name}" if name[0].isupper() else f"{self.new}_{name}"

    def told(self, text):
        text = self.old.sub(lambda it: self.forms[it[0]], text)
        text = re.sub(r"[\w-]+", lambda it: self.renamed.get(it[0], it[0]), text)
        for was, to in self.words:
            text, count = was.subn(to, text)
            self.used |= {was.pattern} if count else set()
        return text

    def unused(self):
        """Returns the patterns of words that no copy had."""
        return [was.pattern for was, _ in self.words if was.pattern not in self.used]


def indent(line):
    return len(line) - len(line.lstrip())


def end_of(lines, at):
    """Returns where the item ends that begins at this line."""
    depth, here = indent(lines[at]), at + 1
    while here < len(lines):
        line = lines[here]
        goes_on = indent(line) > depth or indent(line) == depth and GOES_ON.match(line.strip())
        if line.strip() and not goes_on:
            break
        here += 1
        if indent(line) == depth and line.strip().startswith("}"):
            break
    while not lines[here - 1].strip():
        here -= 1
    return here


def is_of_old(line, names):
    """Whether the head of a line has the old name as a word of its own. A call in a chain has no head."""
    return names.whole.search(BEHIND_HEAD.split(line.strip(), maxsplit=1)[0]) and not line.strip().startswith(".")


def is_argument(lines, at):
    """Whether a line is an argument of a call, or the end of one. A parameter begins with its name and a colon."""
    around = next((it for it in reversed(lines[:at]) if it.strip() and indent(it) < indent(lines[at])), "")
    return around.endswith("(") and not PARAMETER.match(lines[at].strip())


def with_items(text, names):
    """Returns a source in which each item that begins with the old name is followed by its copy, with the comments above it."""
    lines, found, at = text.split("\n"), [], 0
    while at < len(lines):
        line = lines[at]
        if not is_of_old(line, names) or COMMENT.match(line.strip()) or is_argument(lines, at):
            found.append(line)
            at += 1
            continue
        end, start = end_of(lines, at), len(found)
        while start and COMMENT.match(found[start - 1].strip()) and indent(found[start - 1]) == indent(line):
            start -= 1
        item = found[start:] + lines[at:end]
        is_apart = len(item) > 2 and (not start or not found[start - 1].strip())
        found += [*lines[at:end], *[""] * is_apart, *names.told("\n".join(item)).split("\n")]
        at = end
    return "\n".join(found)


def in_order(name):
    """The place of a name in an import, as `rt fmt` orders them."""
    return name != "self", name


def both_names(listed, names):
    """Returns the names of an import with the new ones, each behind the old one, or where the order of names puts it."""
    old = [it.strip() for it in listed.split(",") if it.strip()]
    new = [name for it in old for name in dict.fromkeys((it, names.told(it)))]
    told = ", ".join(sorted(new, key=in_order) if old == sorted(old, key=in_order) else new)
    before, behind = listed[: len(listed) - len(listed.lstrip())], listed[len(listed.rstrip()) :]
    if "\n" in before:
        indent = before.lstrip("\n")
        told = textwrap.fill(f"{told},", WIDTH, initial_indent=indent, subsequent_indent=indent).lstrip()
    return before + told + behind


def with_imports(text, names):
    """Returns a source in which each import of the old name is one of the new name too, and the rest by `with_items`."""

    def both(use):
        if names.old.search(use[1]) or use[2] is None:
            return use[0] + names.told(use[0])
        return use[0].replace(use[2], both_names(use[2], names))

    parts, last = [], 0
    for use in USE.finditer(text):
        if names.old.search(use[0]):
            parts += [with_items(text[last : use.start()], names), both(use)]
            last = use.end()
    return "".join([*parts, with_items(text[last:], names)])


def with_exports(text, names):
    """Returns a module of imports with a copy of each line that passes on what the old call has."""
    return "".join(it + names.told(it) * bool(it.startswith("pub use ") and names.old.search(it)) for it in text.splitlines(keepends=True))


def with_cases(text, names):
    """Returns cases in which those below a heading of the old name are followed by their copies."""
    found, copied = [], []
    for line in [*text.split("\n"), ""]:
        heading = HEADING.match(line)
        goes_on = names.old.match(heading[1]) if heading else line and copied
        if not goes_on:
            found, copied = found + copied, []
        elif not copied and not (found and found[-1]):
            # (a paragraph of its own)
            copied.append("")
        found.append(line)
        if goes_on:
            copied.append(names.told(line))
    return "\n".join(found[:-1])


def is_of(names, name, body):
    """Whether a wrong body's name begins with the old one, or its clause is of the old call."""
    return names.old.match(name) or names.old.search(body.partition(" of ")[2].partition("\n")[0])


def with_bodies(text, names):
    """Returns wrong bodies with a copy of each whose name or function is of the old call, in the order of their names."""
    bodies = text.rstrip("\n").split("\n\n")
    heads = [it.partition(":") for it in bodies]
    copies = [kebab(names.told(name)) + names.told(colon + body) for name, colon, body in heads if is_of(names, name, body)]
    return "\n\n".join(sorted(bodies + copies, key=lambda it: it.partition(":")[0])) + "\n" if copies else text


def written(path, text, names):
    """Returns the path and the text of the file that one file leads to: its copy if it has the old name, else itself with what is copied in it."""
    copy = "/".join(names.told(it) if names.old.match(it) else it for it in path.split("/"))
    if copy != path:
        return copy, names.told(text)
    by = {"cases": with_cases, "wrong-bodies": with_bodies}.get(path.partition("/")[0]) or (with_exports if path.endswith(".antt") else with_imports)
    return path, by(text, names)
