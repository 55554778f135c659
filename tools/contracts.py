"""How the reference prints contracts: without what only serves the search for proofs, and with a sentence for each clause of a form that has a rule."""
import re

OPEN, CLOSED = "([{⟦", ")]}⟧"
# Words that are always true, before the fact that they mark, and a list that is equal to itself.
MARKED = re.compile(r"\b(?:Seen|OkSeen|LeftSeen)(?: (?:\{[^{}]*\}|\([^()]*\)|[\w.]+))+\s*× |\(([^()]+) ≡ \1\)\s*× ")
# A clause that holds of the items of a stream, and one whose search begins with other values.
OF_ITEMS, FOUND_BY, AFTERWARDS = re.compile(r"\bOfItems (\S+) (\S+) \(λ (\w+)\. "), re.compile(r"\bFoundBy "), re.compile(r"\bsem 𝓛 \(Afterwards ")
# A clause that says where what is written through a borrow goes. The entry says it in a sentence.
WRITTEN_BACK = re.compile(r"\n?[ \t]*ensures\* \w+ \{ sem 𝓛 \(Lends[\s(]")
CLAUSE = re.compile(r"(?P<kind>requires|ensures)\*? (?:(?P<name>[\w'-]+) )?\{(?P<body>.*)\}\s*$", re.S)
BINDERS = re.compile(r"\((?P<names>[\w' ]+) : ")
# What each call of a closure with an item `x` returns, if it leaves the closure as it was.
ONE_EACH = re.compile(
    r"\(\(x : [^)]*\) \((?P<it>\w+) : [^)]*\) \(g : \w+\) → Called \S+ (?P<f>\w+) \(x, tt\) (?P=it) g → \(g ≡ (?P=f)\) × (?P<fact>.*)\)"
)


def closing(text, at):
    """Returns the place of the bracket that closes the one at a place."""
    depth = 0
    for here in range(at, len(text)):
        depth += (text[here] in OPEN) - (text[here] in CLOSED)
        if not depth:
            return here
    return len(text) - 1


def parts(text, mark=None):
    """Returns the parts of a text between the marks that stand in no brackets; with no mark between the spaces."""
    found, depth = [""], 0
    for it in text:
        depth += (it in OPEN) - (it in CLOSED)
        is_mark = not depth and (it == mark if mark else it.isspace())
        found = [*found, ""] if is_mark else [*found[:-1], found[-1] + it]
    return [it.strip() for it in found if it.strip()]


def rewritten(text, form, change):
    """Returns a text in which each place of a form, up to the bracket that closes what the form opens, is changed."""
    while found := form.search(text):
        text = change(text, found)
    return text


def for_items(text, found):
    """Writes out what is said of the items of a stream."""
    run, stream, name = found.groups()
    at = text.rindex("(", 0, found.end())
    end = closing(text, at)
    return f"{text[: found.start()]}({name} : List _) → Lists {run} {stream} {name} → {text[found.end() : end]}{text[end + 1 :]}"


def for_fact(text, found):
    """Leaves out with which values the search begins: the fact is the fourth argument."""
    rest = text[found.end() :]
    arguments, at = 0, 0
    while arguments < 3:
        at += len(rest[at:]) - len(rest[at:].lstrip())
        at = closing(rest, at) + 1 if rest[at] in OPEN else at + len(re.match(r"\S+", rest[at:])[0])
        arguments += 1
    at = rest.index("(", at)
    end = closing(rest, at)
    return f"{text[: found.start()]}{rest[at + 1 : end]}{rest[end + 1 :]}"


def without_clause(text, found):
    return text[: found.start()] + text[closing(text, text.index("{", found.start())) + 1 :]


def for_after(text, found):
    """Leaves out which borrow ends: the fact is the last argument."""
    start = text.index("(", found.start())
    end = closing(text, start)
    at = text.index("(λ", start)
    return f"{text[: found.start()]}Afterwards {text[at : closing(text, at) + 1]}{text[end + 1 :]}"


def printed(text):
    """Returns a contract, or a source with contracts, as the reference prints it."""
    for form, change in ((WRITTEN_BACK, without_clause), (AFTERWARDS, for_after), (OF_ITEMS, for_items), (FOUND_BY, for_fact)):
        text = rewritten(text, form, change)
    return MARKED.sub("", text)


def clauses_of(item):
    """Returns the clauses of an item's contract as they are printed."""
    return [it for it in map(printed, [*item.asks, *item.gives]) if it.strip()]


# How a sentence names what a method is called on, by the trait of the method; in the rules it is OWN.
OWN, OWN_OF = "\0", {
    "FutureExt": "this future",
    "AsyncReadExt": "this reader",
    "AsyncBufReadExt": "this reader",
    "AsyncWriteExt": "this writer",
}


def named(value):
    """Returns how a sentence names a stream, a future, a reader or a writer."""
    return {"self": OWN, "self.old": OWN, "self.entry": OWN, "result": "the result"}.get(value, f"`{value}`")


def arguments(text):
    """Returns the word that a fact begins with, and its arguments but those in braces."""
    word, *others = parts(" ".join(text.split())) or [""]
    return word, [it for it in others if not it.startswith("{")]


def bare(text):
    """Returns a text without the brackets around all of it."""
    text = text.strip()
    return bare(text[1:-1]) if text.startswith("(") and closing(text, 0) == len(text) - 1 else text


def shown(text):
    return f"`{bare(' '.join(text.split()))}`"


# What the premises of a clause say, by their words and the number of their arguments.
PREMISES = {
    ("Lists", 3): lambda run, s, xs: f"the items of {named(s)} are {shown(xs)}",
    ("ActsAs", 3): lambda call, f, h: f"`{f}` returns `{h}` of an item",
    ("ActsAsAt", 3): lambda call, f, h: f"`{f}` returns {shown(h)} of an item",
    ("ActsAsOnTwo", 3): lambda call, f, h: f"`{f}` returns `{h}` of its two arguments",
    ("ActsAsOnState", 3): lambda call, f, h: f"`{f}` does to its state and returns what `{h}` says of the state and an item",
    ("NeverReady", 2): lambda run, s: f"every poll of {named(s)} returns `Pending`",
    ("AtOnce", 3): lambda run, s, v: f"the first poll of {named(s)} returns {shown(v)}",
    ("GoesOn", 3): lambda run, s, x: f"{named(s)} yields {shown(x)} over and over",
    ("Knows", 3): lambda reads, known, x: f"it is known that {named(x)} will give `bytes`",
    ("Stores", 3): lambda writes, stored, x: f"it is known that {named(x)} keeps `kept`",
    ("HasValue", 3): lambda run, f, v: f"the value of {named(f)} is {shown(v)}",
}
# The bytes of which these premises say what they are, by the names that sentences have for them.
BYTES = ((re.compile(r"\bKnows \S+ (\S+) (\S+) →"), "left", "bytes"), (re.compile(r"\bStores \S+ (\S+) (\S+) →"), "kept", "kept"))
# What a part of the conclusion says that is about a future's value `Ok` and what the future left, by the side of an equality before `≡`.
LEFT_BY_OK = (
    (r"f\.(\w+)\.now", "`{0}` is"),
    (r"f\.(\w+)\.now\.items", "the items of `{0}` are"),
    (r"string_bytes f\.(\w+)\.now", "the bytes of `{0}` are"),
    (r"\w+\.known\.left f\.(\w+)\.now", "the {0} will still give"),
    (r"\w+\.stored\.kept f\.(\w+)\.now", "the {0} keeps"),
    (r"n", "the value in the `Ok` is"),
)
IF_OK = re.compile(r"WhenLeft .* \(λ f r\. IfOk r \(λ \w+\. (?P<fact>.*)\)\)")
# What their conclusions say.
CONCLUSIONS = {
    ("ListsAs", 3): lambda run, s, xs: f"the items of {named(s)} are {shown(xs)}",
    ("ValueIs", 3): lambda run, f, v: f"the value of {named(f)} is {shown(v)}",
    ("OkListsAs", 4): lambda run, s, f, xs: f"{shown(f)} of the value in each `Ok` item of {named(s)} gives {shown(xs)}, in order and up to an error",
    ("Fronts", 3): lambda run, s, xs: f"{named(s)} yields nothing but {shown(xs)}, in order and from its beginning, also after an end",
    **{it: PREMISES[it] for it in (("AtOnce", 3), ("GoesOn", 3), ("NeverReady", 2))},
}
CONCLUSIONS["FrontsAs", 3] = CONCLUSIONS["Fronts", 3]
BEHIND_2_64 = re.compile(r"length (\w+) < 2 \^ 64")
EQUAL = re.compile(r"([^≡→×]+) ≡ ([^≡→×]+)", re.S)
SHORTER = re.compile(r"\(?length (?P<this>.*) ≤ length (?P<that>\w+)\)?", re.S)


def told(rules, fact):
    """Returns what a fact says by the rules, or None."""
    word, given = arguments(fact)
    rule = rules.get((word, len(given)))
    return rule(*given) if rule else None


def premise(fact):
    """Returns what a premise says, or None."""
    if found := BEHIND_2_64.fullmatch(fact):
        return f"`{found[1]}` has fewer than 2^64 items"
    if found := ONE_EACH.fullmatch(" ".join(fact.split())):
        inner = {"Lists": "a stream of the items", "HasValue": "a future of the value"}.get(found["fact"].split()[0])
        return f"`{found['f']}` returns for an item `x` {inner} {shown(parts(found['fact'])[-1])}" if inner else None
    if fact.startswith("(") and (found := BINDERS.match(bare(fact))):
        says = told(PREMISES, parts(bare(fact), "→")[-1]) if len(parts(bare(fact), "→")) == 2 else None
        return says and f"for each `{found['names']}` {says}"
    if found := EQUAL.fullmatch(fact):
        return f"{shown(found[1])} is {shown(found[2])}"
    return told(PREMISES, fact)


def left_behind(fact):
    """Returns what a fact on a wait's value `v` and on the stream that it left says, or None."""
    word, given = arguments(fact)
    if found := re.fullmatch(r"\(v ≡ (.*)\)", fact, re.S):
        return f"the value of the result is {shown(found[1])}"
    if word == "RestIs" and len(given) == 3:
        return f"{OWN} is left with the items of {shown(given[2])} behind the first one, if there is one"
    if word == "RestIfFound" and len(given) == 4:
        return f"{OWN} is left with the items {shown(given[3])} if the value is `Some`"
    return None


def held(fact):
    """Returns what a fact on a collection that a wait returned says, or None."""
    found = re.fullmatch(r"\w+\.holds c(?P<part>\.[01])? (?P<items>.*)", fact, re.S)
    which = {None: "the collection", ".0": "the first collection", ".1": "the second collection"}
    return f"{which[found['part']]} in an `Ok` holds {shown(found['items'])}" if found else None


def of_value(fact):
    """Returns what a fact on the value of a future says, each part of it; None for a part without a rule."""
    word, given = arguments(fact)
    if word == "WhenLeft" and len(given) == 5 and given[4].startswith("(λ f v. "):
        return list(map(left_behind, parts(bare(given[4]).removeprefix("λ f v. "), "×")))
    if word == "ValueHolds" and len(given) == 4:
        if given[3] == "(λ v. ⊥)":
            return ["no wait for the result returns `Ok`"]
        if found := re.fullmatch(r"λ v\. IfOk v \(λ c\. (.*)\)", bare(given[3]), re.S):
            return list(map(held, parts(found[1], "×")))
    return None


def left_by_ok(fact):
    """Returns what an equality on what a future left says, or None."""
    this, is_equal, that = bare(fact).partition(" ≡ ")
    found = next(((form, it) for form, it in ((re.fullmatch(form, this), it) for form, it in LEFT_BY_OK) if form), None)
    return f"{found[1].format(*found[0].groups())} {shown(that)}" if is_equal and found else None


def with_names(body):
    """Returns a clause's body with names for the bytes that a reader is known to give, and a writer to keep."""
    for form, member, name in BYTES:
        if found := form.search(body):
            value = re.escape(f"{found[1]}.{member} {found[2]}")
            body = re.sub(rf"\({value}\)|{value}(?![\w.])", name, body)
    return body


def conclusion(fact):
    """Returns what each part of a conclusion says; None for a part without a rule."""
    if found := SHORTER.fullmatch(fact):
        return [f"{shown(found['this'])} has no more items than `{found['that']}`"]
    return of_value(fact) or [told(CONCLUSIONS, fact)]


def in_a_row(texts):
    """Returns the texts with commas between them, and `and` before the last."""
    *most, last = texts
    return f"{', '.join(most)} and {last}" if most else last


def sentence(clause, own="this stream"):
    """Returns what a printed clause says in a sentence, with its name before it; None if a part of it has no rule. `own` is the value of the method."""
    found = CLAUSE.match(clause)
    if not found or found["kind"] != "ensures" or not found["name"]:
        return None
    *premises, last = parts(with_names(" ".join(found["body"].split())), "→")
    given = [premise(it) for it in premises if not (BINDERS.match(it) and all(BINDERS.match(word) for word in parts(it)))]
    if is_ok := IF_OK.fullmatch(last):
        given, then = [*given, "the result returns `Ok`"], list(map(left_by_ok, parts(is_ok["fact"], "×")))
    else:
        then = [it for fact in parts(last, "×") for it in conclusion(fact)]
    if None in given or None in then:
        return None
    text = f"if {in_a_row(given)}, then {in_a_row(then)}." if given else f"{in_a_row(then)}."
    text = text.replace(OWN, own)
    return f"`{found['name']}`: {text[0].upper()}{text[1:]}"


def sentences(item):
    """Returns what the clauses of an item's contract say, for those of a form that has a rule."""
    own = OWN_OF.get(item.owner.name if item.owner else "", "this stream")
    return list(filter(None, (sentence(it, own) for it in clauses_of(item))))
