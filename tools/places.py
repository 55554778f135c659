"""What has to be in the places that docs/CONTRIBUTING.md names: tables of polls, contracts of properties, cases or tests, measured cases, and rows of tables."""
import functools
import glob
import re
import subprocess

import originals
import pictures
import properties
import speed
import vocabulary
from adapters import list_told
from edits import BODIES, Bodies
from programs import REPLAY, BENCH
from repository import BESIDE, FACADE, TOP, crates_in, files_of, read_text, with_below
from sources import MODULES, Sources

CASES, NESTS, TABLES, MARKS_MET = "cases", "docs/NESTS.md", "docs/TABLES.md", "crates/properties_met"
# The parts of pages whose tables have a row of each call of streams: a heading, and one behind the part.
PARTS_OF = {NESTS: ("## What each call adds", "\n# "), TABLES: ("## What a poll requires", "\n## ")}
# Types that say of no pending what it registered.
REGISTERS_NOTHING = {
    "Stream": ["Pending", "Script"],
    "Future": ["Pending"],
    "AsyncRead": ["Box", "JournalReadHalf", "ReadHalf"],
    "AsyncWrite": ["Box", "JournalWriteHalf", "WriteHalf"],
}
# The tests of adapters, of futures that consume a stream, and of sources; and the calls that those of another kind make, or of another form.
TESTS_OF_STREAMS = ("streams/adapters.rs", "consuming/consume.rs", "streams/sources.rs")
NO_TEST = {"StreamExt::race", "block_on", "block_on_by", "or", "poll_armed_next", "race", "race_with_seed", "stop_after_future"}
# The blocking stream, and the futures of streams that it has no method for: they take an allocator, or need items that are `Result`s or pairs.
BLOCKING, NO_METHOD = "crates/lite_consume/src/block_on.rt", set("collect partition try_collect try_fold try_for_each try_next unzip".split())
# Methods of streams that cases know by another word.
OTHER_WORD = {"with_budget"}
# What a case of each adapter shows, besides its results; and words of adapters that others show already.
SHOWN = {"results": r"\d+ poll {} ", "the hint": r"\d+ hint {} ", "polls after an end": r"\d+ poll {} .*(?:E,){{8}}$", "which polls wake the task": r"\d+ wakes {} "}
SHOWN_BY_OTHERS = {"flat_map_calls", "or_pending", "race_pending", "then_calls"}
# Adapters without a table of polls: their sources are no scripts, or they never end.
NO_POLLS = {"StreamExt::cloned", "StreamExt::copied", "StreamExt::cycle"}
# Adapters of no family: `cycle` begins again, and what the others yield depends on pendings. `fuse` only polls on behind an end. No lemma of the guide's
# table takes the relation of `step_by`, which counts too.
NO_FAMILY = {
    "docs/guide/02-nests.md": {"StreamExt::cycle", "StreamExt::drain", "StreamExt::step_by", "StreamExt::with_budget"},
    "crates/futures_lite/specs/Families.antt": {"StreamExt::cycle", "StreamExt::drain", "StreamExt::fuse", "StreamExt::with_budget"},
}
# Calls without a row: what waits for others, what has no value, and what stands in the row of another call, as `iter_vec` in that of `iter`.
NO_ROW = {
    NESTS: {"block_on", "block_on_by", "StreamExt::for_each", "poll_armed_next", "race_with_seed"},
    TABLES: {"block_on", "block_on_by", "iter_array", "iter_range", "iter_slice", "iter_vec", "poll_armed_next", "race_with_seed"},
}

# Types without a property of their kind. A new type that lacks one is to be named here, so that none is forgotten.
WITHOUT = {
    # A loop over them may never end, or their rank would be that of a type that is not known.
    "Counted": "Cloned Cycle Lines PollFn Repeat RepeatWith Split TryUnfold Unfold",
    # The same of the `Ok` items. `Enumerate` and `Zip` yield no `Result`s.
    "OkCounted": "Cycle Enumerate PollFn Repeat RepeatWith TryUnfold Unfold Zip",
    "CountedRead": "AssertAsync Box Journal JournalReadHalf ReadHalf Repeat",
    # Their results depend on when a source was pending, or on another thread, or nothing is known of them.
    "SteadyStream": "Cycle Drain Or Race StopAfterFuture",
    "SteadyFuture": "FillBuf Or PollLimited PollOnce Race ReadFuture ReadVectoredFuture SeekFuture TryZip WriteFuture WriteVectoredFuture",
    "SteadyRead": "Box JournalReadHalf ReadHalf",
    "SteadyWrite": "Box JournalWriteHalf WriteHalf",
    # They return a `Pending` of their own, or that of a lock or of another thread, or nothing is known of them.
    "CalmStream": "Budgeted Bytes Pending",
    "CalmFuture": "Fuse Pending SeekFuture",
    "CalmRead": "Box Budgeted JournalReadHalf ReadHalf",
    "CalmWrite": "Box JournalWriteHalf WriteHalf",
    # Their `Pending` registers nothing, or nothing that a bound says, or their run does not tell which part was pending last.
    "ArmedStream": "Pending PollFn Script",
    "ArmedFuture": "CopyFuture Fuse Pending PollFn SeekFuture",
    "ArmedRead": "Box Budgeted Chain Journal JournalReadHalf ReadHalf",
    "ArmedWrite": "Box Budgeted Journal JournalWriteHalf WriteHalf",
}

# An arm of the program replay that knows words.
ARM = re.compile(r'^\s*((?:"\w+"\s*\|?\s*)+)(?:if .*)?=>', re.M)
# The first line of a public item.
PUBLIC = re.compile(r"pub (?:const )?(?:fn|struct|enum|trait|type) \w")
# Functions of the facade whose type no other body has, but one that says that memory was refused.
NO_OTHER_BODY = {
    *("future::block_on", "io::AsyncBufReadExt::fill_buf", "io::AsyncReadExt::chain"),
    *("stream::empty", "stream::StreamExt::drain", "stream::StreamExt::for_each"),
}
# Functions whose results no clause tells (docs/PROVED.md says what is known of them), and adapters whose only clause, on their parts, has no name.
NO_CONTRACT, NO_PARTS = {"future::BlockOn::new", "future::BlockOn::waits", "io::NewCounters::new", "io::split"}, {"StreamExt::cycle", "StreamExt::drain"}
# Calls whose example proves no clause: theirs on items takes a function or results, which the example would have to name in a proof.
NO_PROVED_EXAMPLE = {"StreamExt::flatten", "script", "try_unfold", "unfold"}
# What docs/NESTS.md tells of each list: the lists of the sources, what a reference refers to, and what a closure computes.
IN_ALL_LISTS, OF_CLOSURES = {"xs", "ys", "now"}, {"h", "test"}
# The clauses of a method of streams that have to be refused of a wrong body: the list of an adapter, and the value of a future.
TURNED_CLAUSES = ("lists", "value")
# What a contract of properties of streams asks besides the property of a part, and the source that shows that it can be met.
ASKED, OF_A_PART, CONDITIONS = re.compile(r"^    requires .*(?:\n     .*)*", re.M), re.compile(r"\.(?:alike|is_calm|holds|agree) "), "conditions.rt"
OF_STREAMS = ("consuming", "future_properties", "merges", "sources", "streams")
# An item of a source, by its name; and the page that names what is new since the file last changed that has the number.
ITEM, CHANGES, NUMBER = r"(fn|struct|enum|trait|type) \w+", "CHANGELOG.md", "VERSION"
# The impl of a type that is polled, reads, writes, decodes or encodes; and the sources with one that have no wrong body, since they only hand calls on.
NO_BODY = {"lite_consume/src/lent.rt"}
POLLED = re.compile(r"^impl\b[^{;]*? (?:Stream|PollSteps|Future|Folder|Decoder|Encoder|Async(?:Read|BufRead|Write|Seek))(?:<[^{;]*>)?(?: for|<)", re.M)
# Functions that no case of the measured program calls, by their names.
NO_CASE = {
    # They return, lend or set a part of a value, or tell its state.
    *"borrow borrow_mut buffer calls first_mut get_mut into_inner is_reading is_stopped from_parts limit second_mut set_limit set_position".split(),
    *"size_hint start take_error take_future take_output_error take_result with_limit".split(),
    # They have no value.
    "pending",
    # They cost what the poll costs that they make.
    *"poll_armed poll_armed_next".split(),
    # Sources that differ from `iter` in the type of their list alone.
    *"iter_array iter_range iter_slice iter_vec".split(),
    # Members of traits, and parts of a poll, that other calls make.
    *"advance_in_hand answer at_end cut cut_body find_delimiter_behind finish in_hand poll_close poll_flush poll_seek poll_write_vectored refuse scan_line take_in wait".split(),
    # What is wrapped costs what it wraps, and a wait for it what `block_on` costs.
    *"collect_from_kit compat stream_from_kit wait_from_kit".split(),
    # They are parts of `wait_send` and `wait_send_all`.
    *"encode_all send send_all".split(),
    # They do what `AsyncAsSync::read`, `read_hexadecimal` and `poll_read_vectored` do.
    *"poll_with read_decimal read_vectored".split(),
    # Calls and checks of journals, which tests alone make.
    *"drive history split_journalled step_close step_flush step_read step_write".split(),
}


@functools.cache
def items():
    """Returns the public items of each module."""
    every = Sources()
    return {module: list(every.items_of(module).values()) for module in MODULES}


@functools.cache
def functions():
    """Returns the public functions of each module."""
    return {module: [it for it in of_module if it.kind == "fn"] for module, of_module in items().items()}


def calls_of_streams():
    return [it for it in functions()["stream"] if not it.owner or it.owner.name == "StreamExt"]


def lacking(place, wanted, there, exceptions, what):
    """Yields what is wanted and not there, and each exception that is none."""
    for name in sorted(wanted - there - exceptions):
        yield place, f"{what} `{name}`"
    for name in sorted(exceptions - (wanted - there)):
        yield "tools/places.py", f"`{name}` needs no exception, or is none: {place}"


def adapters(streams):
    """Returns the methods of streams that return a stream of the library."""
    returned = {it.title: re.search(r"-> (?:Result<)?(\w+)", it.head) for it in calls_of_streams() if it.owner}
    return {title for title, found in returned.items() if found and found[1] in streams}


def sources_of_adapters(streams):
    """Yields the path and the text of each source with a stream that a method of streams returns."""
    names = {it.partition("::")[2] for it in adapters(streams)}
    for crate, made, _, trait, file, *_ in vocabulary.calls():
        if trait == "Stream" and names.intersection(made):
            yield f"crates/{crate}/src/{file}", read_text(f"{TOP}/crates/{crate}/src/{file}")


def alike_told(streams):
    """Each adapter that is alike by another rule than that of TABLES is named there."""
    rule = re.search(r"^- \*\*Alike\*\*.*?(?=^- )", read_text(f"{TOP}/{TABLES}"), re.M | re.S)[0]
    wanted = {name for _, text in sources_of_adapters(streams) for name in properties.alike_otherwise(text)}
    yield from lacking(TABLES, wanted, wanted & set(re.findall(r"`(\w+)`", rule)), set(), "the rule `Alike` does not tell of")


def words_of_list(said):
    """Returns the words in a list, but those that a function in it takes."""
    taken = set(re.findall(r"λ ([^.]*)\.", said))
    return {it for it in re.findall(r"[^\W\d]\w*", said) if it not in taken} - {"λ"}


def lists_explained():
    """Each word in the list of an adapter is explained in NESTS: it is in the table of modules, an argument of the method, what its closure computes, or named
    above the tables of lists, as the method may be."""
    text = read_text(f"{TOP}/{NESTS}")
    first, above = text.partition("\n## ")[0], text.partition(PARTS_OF[NESTS][0])[2].partition("\n|")[0]
    modules, named = (set(re.findall(r"\w+", " ".join(re.findall(r"`([^`]*)`", it)))) for it in (first, above))
    for it in (it for it in calls_of_streams() if it.owner and it.name not in named):
        known = IN_ALL_LISTS | modules | (named - OF_CLOSURES) | set(re.findall(r"(\w+):", it.head)) | (OF_CLOSURES if "FnMut" in it.head else set())
        lists = filter(None, (list_told(clause) for clause in it.gives if clause.startswith("ensures lists ")))
        yield from ((NESTS, f"nothing explains `{word}` in the list of `{it.name}`") for said in lists for word in sorted(words_of_list(said) - known))


def polls(streams):
    """Each adapter has a table of polls."""
    there = {it.removeprefix("stream::") for it in pictures.by_item()}
    yield from lacking(CASES, adapters(streams), adapters(streams) & there, NO_POLLS, "there is no table of the polls of")


def families(streams):
    """Each adapter stands with its family."""
    for page, exceptions in NO_FAMILY.items():
        words = set(re.findall(r"\w+", read_text(f"{TOP}/{page}")))
        there = {it for it in adapters(streams) if it.partition("::")[2] in words}
        yield from lacking(page, adapters(streams), there, exceptions, "no family has")


def members_met(kind, name, properties):
    """Yields each trait of a type, and the members of which a contract has to name one. No call of a writer asks for memory."""
    for trait in properties:
        if trait.startswith(("Steady", "Calm")):
            yield trait, "alike|is_calm"
        if trait.startswith("Steady") and kind != "AsyncWrite":
            yield trait, "needs_none|ample"
    if name not in REGISTERS_NOTHING[kind]:
        yield kind, r"\w*registers\w*"


def properties_met(kinds):
    """Each public type of the library has a contract for each of its properties that compare two values or call one calm, for what its context holds at a
    `Pending`, and for memory. What is behind a `&` has its own."""
    text = " ".join(" ".join(read_text(it) for it in glob.glob(f"{TOP}/{MARKS_MET}/src/*.rt")).split())
    for kind, types in kinds.items():
        for name, properties in ((name.partition("<")[0], it) for name, it in types.items() if name[0].isalpha()):
            for trait, members in members_met(kind, name, properties):
                if not re.search(rf"<{name}\b[^⟧]* as {trait}>⟧\.(?:{members})\b", text):
                    yield MARKS_MET, f"no contract has of `{name} as {trait}` a member {members}"
    for name in sorted(name for _, _, name, trait, *_ in vocabulary.calls() if trait == "Folder" and name):
        for members in ("alike", "needs_none|ample"):
            if not re.search(rf"<(?:Consume<\w+, {name}\b|{name}Future<)[^⟧]* as SteadyFuture>⟧\.(?:{members})\b", text):
                yield MARKS_MET, f"no contract has of the future of `{name}` a member {members}"


def contracts(streams):
    """Each public function has a contract, and each adapter a clause on its parts. The example of each call with a clause on its items has one, too."""
    every = {f"{module}::{it.title}": it for module, of_module in functions().items() for it in of_module if not it.does_nothing}
    yield from lacking("crates", set(every), {title for title, it in every.items() if it.asks or it.gives}, NO_CONTRACT, "there is no contract of")
    calls = {it.title: it for it in calls_of_streams()}
    with_parts, with_lists = ({title for title, it in calls.items() if any(clause.startswith(f"ensures {name} ") for clause in it.gives)} for name in ("parts", "lists"))
    yield from lacking("crates", adapters(streams), with_parts, NO_PARTS, "there is no clause `parts` of")
    proved = {title for title, it in calls.items() if any("ensures" in example for example in it.examples)}
    yield from lacking("crates", with_lists, proved, NO_PROVED_EXAMPLE, "no clause is in the example of")


def words_importable(streams):
    """A program can import each definition that a contract of the facade names, or that says when two values of an adapter are alike."""
    words = {(it.crate, it.module, it.name): it for crate in vocabulary.libraries() for it in vocabulary.definitions(crate)}
    for path, text in sources_of_adapters(streams):
        said = vocabulary.ghost_in(text, "alike", vocabulary.imported(text))
        for place in dict.fromkeys(said):
            if place in words and not vocabulary.module_for_programs(words[place]):
                yield f"crates/{FACADE}/specs", f"no module passes on `{place[2]}` of {words[place].path}, which `alike` in {path} names"
    for path in sorted({it.path for of_module in functions().values() for it in of_module if it.path.startswith(f"crates/{FACADE}/")}):
        where = vocabulary.imported(read_text(f"{TOP}/{path}"))
        said = " ".join(clause for of_module in functions().values() for it in of_module if it.path == path for clause in it.asks + it.gives)
        for place in sorted(set(vocabulary.cited(said, where))):
            if place in words and not vocabulary.module_for_programs(words[place]):
                yield f"crates/{FACADE}/specs", f"no module passes on `{place[2]}` of {words[place].path}, which a contract in {path} names"


def premises_of_no_value(said):
    """Returns the premises of a clause on two values that are alike that name none of them."""
    clauses = (" ".join(it.split()).removeprefix("{ ").split(" → ") for it in re.findall(r"^    ensures \w* ?(\{.*(?:\n     .*)*)", said, re.M))
    return [premise for *premises, last in clauses if "⟧.alike" in last for premise in premises if ".now" not in premise]


def conditions():
    """What a contract of properties of streams asks, besides a property of a part, is met by closures that catch nothing and by values that are there. It
    asks it by `requires`: a clause on two values that are alike has premises of these values alone."""
    there = names_called_in([f"{MARKS_MET}/src"])
    for file in (f"{TOP}/{MARKS_MET}/src/{it}.rt" for it in OF_STREAMS):
        for name, said in re.findall(r"^pub fn (\w+)(.*?)^\{", read_text(file), re.M | re.S):
            if name not in there and not all(OF_A_PART.search(it) for it in ASKED.findall(said)):
                yield f"{MARKS_MET}/src/{CONDITIONS}", f"nothing calls `{name}`, which asks something of a closure or a value"
            yield from ((f"{MARKS_MET}/src", f"`{name}` has to ask `{it}` by `requires`") for it in premises_of_no_value(said))


def git(*words):
    """Returns what git prints, or nothing where there is no history."""
    return subprocess.run(["git", "-C", TOP, *words], capture_output=True, encoding="utf-8", check=False).stdout


def new_names_told():
    """Each public item that was not there when the number of the version changed is named on the page of changes. Without the history none is missed."""
    since = git("log", "-1", "--format=%H", "--", NUMBER).strip()
    then = {it.split()[-1] for it in git("grep", "-hoE", ITEM, since, "--", "crates/*/src/*.rt").splitlines()} if since else set()
    new = {it.name for of_module in items().values() for it in of_module} - then if then else set()
    yield from lacking(CHANGES, new, new & set(re.findall(r"\w+", read_text(f"{TOP}/{CHANGES}"))), set(), "it does not name the new")


def properties_had(kinds):
    """Each public type of the library has each property of its kind, or is known to lack it."""
    for types, properties in kinds.values():
        for trait in properties:
            # (a type stands once for each argument that its impls name)
            every = {name.partition("<")[0].lstrip("&") for name in types}
            lacks = {name.partition("<")[0].lstrip("&") for name, has in types.items() if trait not in has}
            yield from lacking("crates", every, every - lacks, set(WITHOUT[trait].split()), f"there is no `{trait}` of")


def documented():
    """Each public item of the library has a doc comment, with more than an example."""
    yield from ((it.path, f"the doc comment of `{it.title}` says nothing") for of_module in items().values() for it in of_module if not it.says)
    for crate in with_below(crates_in(TOP), [FACADE, *BESIDE]):
        for file in files_of(f"{TOP}/crates/{crate}/src"):
            lines = [it.strip() for it in read_text(f"{TOP}/crates/{crate}/src/{file}").split("\n")]
            for at, line in enumerate(lines):
                above = next((it for it in reversed(lines[:at]) if not it.startswith("#[")), "")
                if PUBLIC.match(line) and not above.startswith("///"):
                    yield f"crates/{crate}/src/{file}", f"there is no doc comment above `{line}`"


def names_called_in(places):
    """Returns the names of what these sources, and those in these folders, call. (A call is told by its name alone.)"""
    files = [it for place in places for it in ([place] if place.endswith(".rs") else (f"{place}/{file}" for file in files_of(f"{TOP}/{place}")))]
    text = "".join(read_text(f"{TOP}/{it}") for it in files if it.endswith((".rs", ".rt")))
    return set(re.findall(r"(?<!fn )\b(\w+)(?:::<[^(]*>)?\(", text))


def words_known(files):
    """Returns the words of cases that these sources of a program know."""
    text = "".join(read_text(it) for it in glob.glob(f"{TOP}/{files}"))
    return {word for arm in ARM.findall(text) for word in re.findall(r"\w+", arm)}


def unshown(adapter, cases):
    """Returns what none of these lines shows of the adapter with this word."""
    return [what for what, form in SHOWN.items() if not any(re.match(form.format(adapter), it) for it in cases)]


def cased():
    """Each method of streams is a word of the program replay. Each word of it stands in a case, and names a call or is explained. Of each adapter a case
    shows all that SHOWN has."""
    texts = {it: read_text(it) for it in glob.glob(f"{TOP}/{CASES}/*.txt")}
    there, words = {word for it in texts.values() for word in re.findall(r"\w+", it)}, words_known(f"{REPLAY}/src/*.rs")
    explained = set(re.findall(r"\w+", " ".join(re.findall(r"`([^`]*)`", read_text(f"{TOP}/{CASES}/README.md"))))) | {it.name for it in calls_of_streams()}
    yield from lacking(REPLAY, {it.name for it in calls_of_streams() if it.owner}, words, OTHER_WORD, "it knows no word")
    yield from lacking(CASES, words, there & words, set(), "no case has the word")
    yield from lacking(f"{CASES}/README.md", words, explained & words, set(), "nothing explains the word")
    by_hand = [line for file, text in texts.items() if "/original_" not in file for line in text.splitlines()]
    for adapter in sorted(words_known(f"{REPLAY}/src/layer.rs") - SHOWN_BY_OTHERS):
        yield from ((CASES, f"no case shows {what} of `{adapter}`") for what in unshown(adapter, by_hand))


def tested(streams):
    """Each adapter, each future that consumes a stream and each source is called in the tests of its kind, at the least to ask for its properties."""
    methods = {it.title for it in calls_of_streams() if it.owner}
    kinds = (adapters(streams), methods - adapters(streams), {it.title for it in calls_of_streams()} - methods)
    for file, kind in zip(TESTS_OF_STREAMS, kinds):
        names = names_called_in([f"tests/test_streams/src/tests/{file}"])
        there = {it for it in kind if it.rpartition("::")[2] in names}
        yield from lacking(f"tests/test_streams/src/tests/{file}", kind, there, NO_TEST & kind, "no test calls")


def blocking(streams):
    """Each future that consumes a stream has a method of the blocking stream."""
    wanted = {it.name for it in calls_of_streams() if it.owner and it.title not in adapters(streams)}
    yield from lacking(BLOCKING, wanted, set(re.findall(r"pub fn (\w+)", read_text(f"{TOP}/{BLOCKING}"))), NO_METHOD, "there is no method")


def turned():
    """Each source of the library with a type that is polled, reads, writes, decodes or encodes has a wrong body. So has each function of the facade, and of
    each method of streams its list or value."""
    every = {f"{module}::{it.title}" for module, of_module in functions().items() for it in of_module if it.path.startswith(f"crates/{FACADE}/")}
    there = every & {it.function for it in Bodies(FACADE).edits}
    yield from lacking(f"{BODIES}/{FACADE}.txt", every, there, NO_OTHER_BODY, "no wrong body is of")
    clauses = {(it.title, said.split()[1]) for it in calls_of_streams() if it.owner for said in it.gives}
    asked = {f"{name} of stream::{title}" for title, name in clauses if name in TURNED_CLAUSES}
    refusing = {f"{it.clause} of {it.function}" for it in Bodies(FACADE).edits}
    yield from lacking(f"{BODIES}/{FACADE}.txt", asked, asked & refusing, set(), "no wrong body is refused by")
    crates = crates_in(TOP)
    for crate in with_below(crates, [FACADE, *BESIDE]):
        turned_there = {file for edit in Bodies(crate).edits for file, _, _ in edit.changes()}
        for file in (f"src/{it}" for it in files_of(f"{TOP}/crates/{crate}/src") if it.endswith(".rt")):
            is_polled = POLLED.search(read_text(f"{TOP}/crates/{crate}/{file}")) and f"{crate}/{file}" not in NO_BODY
            if is_polled and file not in turned_there:
                yield f"{BODIES}/{crate}.txt", f"no wrong body is of {file}"


def called():
    """Each public function is called by the cases, a test or a program, besides its example."""
    crates = crates_in(TOP)
    library = with_below(crates, [FACADE, *BESIDE])
    programs = [f"crates/{it}/src" for it in crates if it not in library and not it.startswith("proved_examples_")]
    names = names_called_in(["replay", "tests", BENCH, *programs])
    every = {f"{module}::{it.title}": it.name for module, of_module in functions().items() for it in of_module if not it.does_nothing}
    there = {title for title, name in every.items() if name in names}
    yield from lacking("tests", set(every), there, set(), "no case, test or program calls")


def cases_measured():
    """Returns the cases of the measured program that have a row, without those that only make bytes."""
    return {it for it in words_known(f"{BENCH}/src/*.rs") if not it.startswith("made_")} - {"size_of"}


def measured():
    """Each public function that does work is called by a case of the measured program, and each case there has a row, and is one over the original, but one
    that has the name of a call that the original lacks. Those of `laws` are for proofs and tests."""
    names = {it.name for module, of_module in functions().items() if module != "laws" for it in of_module if not it.does_nothing}
    yield from lacking(BENCH, names, names & names_called_in([f"{BENCH}/src"]), NO_CASE, "no case calls")
    cases, rows_of = words_known(f"{BENCH}/src/*.rs"), {it.case for it in speed.rows() if it.last}
    of_both = cases - (names - originals.names())
    yield from lacking(f"{BENCH}/original", of_both, of_both & words_known(f"{BENCH}/original/src/*.rs"), set(), "there is no case")
    text = "".join(read_text(it) for it in glob.glob(f"{TOP}/{BENCH}/src/*.rs"))
    numbered = set(re.findall(r'^    \("(\w+)", [\d_]+, ', text, re.M))
    yield from lacking(f"{BENCH}/src", numbered, numbered & cases, set(), "the check has a number, but no arm is there of")
    checked = {it for it in cases_measured() if text.count(f'"{it}"') > 1}
    yield from lacking(f"{BENCH}/src", cases_measured(), checked, set(), "the check has no number of the case")
    yield from lacking(f"{BENCH}/measured.txt", cases_measured(), cases_measured() & rows_of, set(), "there is no row of")
    yield from lacking(f"{BENCH}/measured.txt", rows_of, rows_of & cases_measured(), set(), "there is no case of the row")


def counting_as_their_sources():
    """Returns the adapters whose rank is that of their source."""
    made_in = [(f"{TOP}/crates/{crate}/src/{file}", made) for crate, made, _, trait, file, *_ in vocabulary.calls() if trait == "Stream"]
    return {name for file, made in made_in if "ghost ranks = { ranks_of (λ m. m.stream" in read_text(file) for name in made}


def rows(streams):
    """Each source, adapter and future of streams stands in a row of NESTS; in TABLES each source, and each adapter with a rank or a `requires`
    of its own."""
    for page, (first, end) in PARTS_OF.items():
        part = read_text(f"{TOP}/{page}").partition(first)[2].partition(end)[0]
        cells = " ".join(row.split("|")[1] for row in part.splitlines() if row.startswith("|"))
        names = set(re.findall(r"\w+", " ".join(re.findall(r"`([^`]*)`", cells))))
        every = {it.title: it.name for it in calls_of_streams()}
        there = {title for title, name in every.items() if name in names}
        if page == TABLES:
            plain = counting_as_their_sources()
            asking = {it.title for it in calls_of_streams() if it.asks}
            every = {it: name for it, name in every.items() if "::" not in it or it in adapters(streams) and (name not in plain or it in asking)}
        yield from lacking(page, set(every), there, NO_ROW[page], f"no row below `{first[3:]}` has")
