"""What a function declares, read from the sources: the clauses of its contract, and the ghost members of its type's impl. A wrong body's heading names one."""
import functools
import os
import re

from repository import TOP, crates_in, files_of, kit, read_text, with_below

FUNCTION = re.compile(r"( *)(?:pub(?:\([^)]*\))? |final )*(?:const )?fn (\w+)")
BLOCK = re.compile(r"(?:pub(?:\([^)]*\))? )?(?:impl\b|trait |struct .*\{$)")
CLAUSE = re.compile(r" +(ensures|requires)(\*?)(?: (\w+))? \{")
GHOST = re.compile(r" +ghost (?!use )(\w+)")
# The parameters of an impl, which may hold arguments of their own.
PARAMETERS = re.compile(r"impl(<(?:[^<>]|<(?:[^<>]|<(?:[^<>]|<[^<>]*>)*>)*>)*>)?\s*")
# What clauses without a name are called, and the promise of the model of a type, which each of its values keeps.
UNNAMED = {"ensures": "returns", "requires": "requires"}
INVARIANT = "invariant"


class Contract:
    """The clauses of a function by their names: those that it ensures, of which some are starred, and those that it requires."""

    def __init__(self):
        self.ensures, self.starred, self.requires = set(), set(), set()

    def add(self, kind, star, name):
        clauses = self.requires if kind == "requires" else self.starred if star else self.ensures
        clauses.add(name or UNNAMED[kind])


class Block:
    """An impl, a trait or a struct: its name in a function's path, its trait, its ghost members, and what its functions declare themselves."""

    def __init__(self, head=""):
        self.name = self.trait = self.type = ""
        self.ghosts, self.functions = set(), {}
        self.is_struct = bool(re.match(r"(?:pub(?:\([^)]*\))? )?struct ", head))
        if self.is_struct:
            self.type = re.search(r"struct (\w+)", head)[1]
        elif head.startswith("impl"):
            parameters = PARAMETERS.match(head)
            any_of = parameters_in(parameters[1] or "")
            trait, _, of = re.split(r" where\b|,? ?\{", head[parameters.end() :])[0].rpartition(" for ")
            self.trait = re.match(r"\w*", trait.rpartition("::")[2])[0]
            self.type = mangled(of, any_of, modules=True) if trait else re.match(r"\w*", of)[0]
            self.name = self.type + mangled(trait, any_of)
        elif head:
            self.name = re.search(r"trait (\w+)", head)[1]


def parameters_in(written):
    """Returns the names of an impl's parameters, whose bounds may hold arguments."""
    inner = written[1:-1]
    while (less := re.sub(r"<[^<>]*>|\([^()]*\)", "", inner)) != inner:
        inner = less
    return set(re.findall(r"(?:^|,) *(?:const )?(\w+)", inner))


def mangled(written, any_of, modules=False):
    """Returns the name that the checker has for a type, of whose words these are parameters: `RefMutSliceU8` for `&mut [u8]`.

    With its modules it is that of the type of an impl, as `IoError` for `io::Error`; a trait has none."""
    found, bare = "", re.sub(r"'\w+,? ?", "", written)
    for it in re.finditer(r"&mut|&|\[|\(|(?:\w+::)*(\w+)", bare):
        if it[1]:
            words = it[0].split("::") if modules and it[0][0].islower() else [it[1]]
            found += "" if it[1] in any_of else "".join(word[0].upper() + word[1:] for word in words)
        elif it[0] == "(":
            found += f"Tuple{bare[it.start() :].partition(')')[0].count(',') + 1}"
        else:
            found += {"&mut": "RefMut", "&": "Ref", "[": "Slice"}[it[0]]
    return found


def blocks_in(text):
    """Returns the blocks of a source, first one without a name, whose functions stand in no block."""
    found, lines, contract = [Block()], text.splitlines(), None
    block = found[0]
    for at, line in enumerate(lines):
        if BLOCK.match(line):
            end = next(number for number in range(at, len(lines)) if lines[number].endswith(("{", "{}")))
            found.append(Block(" ".join(" ".join(lines[at : end + 1]).replace("->", "").split())))
            block, contract = found[0 if lines[end].endswith("{}") else -1], None
        elif line == "}":
            block, contract = found[0], None
        elif declared := FUNCTION.match(line):
            if len(declared[1]) <= 4:
                contract = block.functions.setdefault(declared[2], Contract())
        elif contract and (clause := CLAUSE.match(line)):
            contract.add(*clause.groups())
        elif block is not found[0] and (ghost := GHOST.match(line)):
            block.ghosts.add(ghost[1])
    return found


@functools.cache
def blocks_of(folder):
    """Returns the blocks of the sources below a folder, each with its module."""
    found = []
    for file in files_of(folder):
        if file.endswith(".rt"):
            stem = os.path.splitext(file)[0]
            module = () if stem in ("lib", "main") else tuple(stem.removesuffix("/mod").split("/"))
            found += [(module, it) for it in blocks_in(read_text(f"{folder}/{file}"))]
    return found


@functools.cache
def blocks_below(crate):
    """Returns the blocks of the sources that a crate may name."""
    crates = crates_in(TOP)
    names = {name for it in with_below(crates, [crate]) for name in (it, *crates[it].below)}
    folders = [f"{TOP}/crates/{it}/src" if it in crates else f"{kit()}/rattle/{it}/src" for it in sorted({"core", "std", *names})]
    return [block for folder in folders for _, block in blocks_of(folder)]


class Declared:
    """What a function declares, by its path below its crate: itself, or by its impl, its trait, or its type."""

    def __init__(self, crate, path):
        # What each value of the type keeps: the ghost members of the struct, and the invariant of its model.
        self.contracts, self.ghosts, self.kept = [], set(), set()
        blocks = blocks_of(f"{TOP}/crates/{crate}/src")
        *place, name = path.split("::")
        self.contracts += [it.functions[name] for module, it in blocks if not it.name and module == tuple(place) and name in it.functions]
        if self.contracts or not place:
            return
        of, place = place[-1].partition("+")[0], tuple(place[:-1])
        # The impls of a struct may stand in any module.
        anywhere = [module for module, it in blocks if it.is_struct and it.type == of] == [place]
        for it in (block for module, block in blocks if block.name == of and (anywhere or module[: len(place)] == place)):
            self.ghosts |= it.ghosts
            own = it.functions.get(name)
            if it.trait and not (own and own.ensures | own.starred):
                self.contracts += [other.functions[name] for other in blocks_below(crate) if other.name == it.trait and name in other.functions]
            elif own:
                self.contracts.append(own)
            for _, other in blocks:
                if other.type == it.type and (other.is_struct or other.trait == "Model"):
                    self.kept |= other.ghosts if other.is_struct else other.ghosts & {INVARIANT}

    @property
    def ensures(self):
        return set().union(*(it.ensures for it in self.contracts))

    @property
    def starred(self):
        return set().union(*(it.starred for it in self.contracts))

    @property
    def requires(self):
        return set().union(*(it.requires for it in self.contracts))

    @property
    def names(self):
        """What the head of a wrong body of the function may name."""
        return self.ensures | self.starred | self.ghosts | self.kept


@functools.cache
def declared(crate, path):
    return Declared(crate, path)
