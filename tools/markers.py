"""Parts of documents that tools write: what stands between `<!-- begin NAME -->` and `<!-- end NAME -->`."""
import re

from repository import stop


ANY = re.compile(r"<!-- begin [^>]* -->.*?<!-- end [^>]* -->", re.S)
CODE = re.compile(r"^```.*?^```$", re.M | re.S)


def outside(text):
    """Returns a text without the parts that tools write."""
    return ANY.sub("", text)


def without_code(text):
    return CODE.sub("", text)


def filled(text, parts):
    """Returns a text with these parts, by the names of their markers, each of which stands in it once."""
    for name, part in parts.items():
        marked = re.compile(rf"(<!-- begin {re.escape(name)} -->).*?(<!-- end {re.escape(name)} -->)", re.S)
        if len(marked.findall(text)) != 1:
            stop(f"the markers of {name} do not stand in the document once")
        text = marked.sub(lambda it: f"{it[1]}{part}{it[2]}", text)
    return text
