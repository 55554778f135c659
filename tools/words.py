"""The words of contracts in the reference. A definition that one page alone needs is told on that page. The others have a page of words: first the words
of std and of the language, then those of each crate."""
import collections
import functools
import itertools
import re

from repository import FACADE, TOP, read_text
from sources import REFERENCE, relative
from vocabulary import PAGE as GLOSSARY, about_crate, imported, libraries, module_for_programs, wrapped

PAGE = f"{REFERENCE}/words.md"
# What a page begins with that is generated whole.
WRITTEN = "<!--written by tools/documents-->\n"
NAMED = re.compile(r"`([\w'-]+)`")
ABOUT_STD = "Words of std, of the language and of the traits of the library, as contracts and the clauses of examples have them."
ABOUT = (
    "This page has the definitions that more than one page of the reference needs. A definition that one page alone needs is on that page."
    f" `tools/find NAME` prints each definition in full. A word in brackets is the module of `{FACADE}` from which a program imports the definition. The"
    f" [glossary]({relative(PAGE, GLOSSARY)}) says how definitions are written."
)


def heading_of(path):
    """Returns the heading of the part of the page on a file of specs/."""
    return f"[`{path.split('/', 2)[2]}`]({relative(PAGE, path)})"


def place_of(word):
    """Returns the crate, the module and the name of a definition."""
    return word.crate, word.module, word.name


def anchor_of(name):
    return re.sub(r"[^\w-]", "", name.lower())


@functools.cache
def named_in(word):
    """Returns the definitions that a definition's comment names, by their names: the crate, the module and the name."""
    where = imported(read_text(f"{TOP}/{word.path}"))
    return {name: (*where.get(name, (word.crate, word.module)), name) for name in dict.fromkeys(NAMED.findall(word.says))}


class Words:
    """The definitions that pages need, by their crates, modules and names; and what is said of the words that are none."""

    def __init__(self, every, needed, others):
        """Takes all definitions, those that each page needs by its file, and what is said of other words."""
        self.others, self.by_place = others, {}
        left, users, named = [it for words in needed.values() for it in words], collections.defaultdict(set), set()
        for file, words in needed.items():
            for word in words:
                users[place_of(word)].add(file)
        while left:
            word = left.pop()
            if place_of(word) not in self.by_place:
                self.by_place[place_of(word)] = word
                others_named = [every[it] for it in named_in(word).values() if it in every and every[it] is not word]
                named.update(map(place_of, others_named))
                left += others_named
        self.alone = {place: file for place, (file, *more) in users.items() if not more and place not in named}
        # Headings of one name, or that differ in their case alone, have other anchors.
        self.anchors, self.anchors_of_others, counts = {}, {}, collections.Counter()
        told = sorted((it for it in every if it in self.by_place and it not in self.alone), key=lambda it: (libraries().index(it[0]), it[1]))
        for anchors, key, name in (*((self.anchors_of_others, it, it) for it in self.names_of_others()), *((self.anchors, it, it[2]) for it in told)):
            anchor = anchor_of(name)
            anchors[key] = f"{anchor}{f'-{counts[anchor]}' if counts[anchor] else ''}"
            counts[anchor] += 1

    def names_of_others(self):
        """Returns the words that are no definitions of the library, in their order."""
        return sorted(self.others, key=lambda it: (it.lower(), it))

    def link(self, word, here):
        """Returns a link from a file to a definition that has a place on the page."""
        return f"[`{word.name}`]({relative(here, PAGE, self.anchors[place_of(word)])})"

    def link_from(self, here, name, told):
        """Returns a link from a file to a word, which is a definition, or one of std or of the language."""
        return f"[`{name}`]({relative(here, PAGE, self.anchors_of_others[name])})" if isinstance(told, str) else self.link(told, here)

    def is_alone(self, word):
        """Tells whether one page alone needs a definition."""
        return place_of(word) in self.alone

    def told_alone(self, word, here):
        """Returns a definition whole, as the page tells it that alone needs it."""
        return f"[`{word.name}`]({relative(here, word.path)}): {self.says(word, here)}"

    def says(self, word, here):
        """Returns the module from which a program imports a definition, and the comment, with links to the definitions that it names."""
        module, named = module_for_programs(word), named_in(word)

        def linked(found):
            place = named.get(found[1])
            return self.link(self.by_place[place], here) if place in self.anchors and place != place_of(word) else found[0]

        text = NAMED.sub(linked, word.says)
        return f"(`{module}`) {text}" if module else text

    def part(self, crate, words):
        """Yields the part of the page on a crate, of which each module has a part."""
        yield f"## `{crate}`"
        yield wrapped(about_crate(crate))
        for path, there in itertools.groupby(words, key=lambda it: it.path):
            yield f"### {heading_of(path)}"
            yield from (f"#### `{it.name}`\n\n{wrapped(self.says(it, PAGE))}" for it in there)

    def page(self):
        """Returns the page."""
        parts = [WRITTEN.rstrip(), "# Words of contracts", wrapped(ABOUT), "## Words of std and of the language", ABOUT_STD]
        parts += [f"### `{it}`\n\n{wrapped(self.others[it])}" for it in self.names_of_others()]
        for crate, words in itertools.groupby((self.by_place[it] for it in self.anchors), key=lambda it: it.crate):
            parts += self.part(crate, words)
        return "\n\n".join(parts) + "\n"
