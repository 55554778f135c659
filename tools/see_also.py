"""Links below the entries of the reference, from tools/see-also.txt: to items that a reader may want next, and to pages of docs/."""
import functools
import os

from repository import TOP, read_text

LIST = "tools/see-also.txt"


@functools.cache
def targets():
    """Returns what each item's entry links to, by the module and the title of the item."""
    lines = [it.partition(": ") for it in read_text(f"{TOP}/{LIST}").splitlines() if it and not it.startswith("#")]
    return {name: [it.strip() for it in others.split(",")] for name, _, others in lines}


def is_page(target):
    return target.endswith(".md")


def title_of(target):
    """Returns the title of a page of docs/."""
    return read_text(f"{TOP}/docs/{target}").splitlines()[0].removeprefix("# ")


def faults(titles):
    """Yields each name and each target that is no item of these titles, and no page."""
    for name, others in targets().items():
        for it in (name, *others):
            if not (os.path.isfile(f"{TOP}/docs/{it}") if is_page(it) else it in titles):
                yield LIST, f"there is no {it}"
