"""Tests of the generator of the reference, over sources of their own. `tools/lists` runs them, as `python3 -m unittest discover tests/tools` does."""
import os
import re
import sys
import unittest
import unittest.mock

# (the tools that are tested)
sys.path.insert(0, os.path.join(os.path.dirname(os.path.abspath(__file__)), "..", "..", "tools"))

import contracts
import examples
import see_also
import words
from reference import Reference
from sources import Sources
from vocabulary import Word
from words import Words

OTHER = """ghost use Rattle.lite_halves.specs.Counts.{HalfCounts};

/// The future of either. Returned by [`or`].
pub struct Or<F> {
    first: F,
}

impl<F: Future> Future for Or<F> {
}

impl<F: CalmFuture> CalmFuture for Or<F> {
}

impl<F> Model for Or<F> {
    ghost Value = { HalfCounts };
}

/// Anything else.
pub trait Other {
}
"""
TEXTS = (
    (
        "futures_lite",
        "stream.rt",
        """//! Streams.
pub use lite_stream::make::{or, swap};
pub use lite_stream::count::{Consume, CountFuture, count};
pub use lite_stream::Or;
""",
    ),
    (
        "futures_lite",
        "future.rt",
        """//! Futures.
pub use lite_future::either::{Or, Other};
pub use lite_future::make::or;
pub use lite_base::stray;
""",
    ),
    ("lite_stream", "lib.rt", "mod or;\npub use or::Or;\npub mod count;\npub mod make;\n"),
    (
        "lite_stream",
        "or.rt",
        """use lite_future::Other;

/// The stream of both. Returned by [`or`].
pub struct Or<S, T> {
    first: S,
}

impl<S: Stream, T> Stream for Or<S, T> {
}

impl<
    S: Counted,
    T,
> Counted
    for Or<S, T>
{
}

impl<S, T> Or<S, T>
where
    S: Drop,
{
    /// Returns the first stream of an [`or`](crate::make::or). It needs no [`Other`](lite_future::Other).
    ///
    /// # Examples
    ///
    /// ```
    /// let _ = or(1, 2).first();
    /// ```
    pub fn first(&self) -> &S
        ensures returns { result ≡ record {
            first = self;
            second = 2 } }
        ensures second { ⊤ }
    {
        &self.first
    }

    /// Swaps the streams.
    pub fn or(self, size: u8) -> Or<T, S>
    where
        Self: Sized,
        requires { (n : ℕ) → n ≤ length (Strange self.first self.unheard) → S.unknown n ≡ size }
        ensures { IfOk result (λ it. it.first ≡ size) }
        ensures own { Self.known }
    {
    }
}
""",
    ),
    ("lite_stream", "make.rt", "use crate::Or;\nuse lite_future::Other;\n/// Returns a stream of both: the items\n/// of each.\npub fn or<S: Other, T>(first: S, second: T) -> Or<S, T> {\n}\n/// Swaps.\npub fn swap<S, T>(it: Or<S, T>) -> Or<T, S> {\n}\n"),
    (
        "lite_stream",
        "count.rt",
        """/// A future of what a folder makes of a stream.
pub struct Consume<S, F> {
    /// The stream that is polled.
    pub stream: S,
    folder: F,
}

/// The number so far.
pub struct Count<N> {
    count: N,
}

/// A future of the number of items. Returned by [`count`].
pub type CountFuture<S> = Consume<S, Count<u8>>;

/// Returns a future of the number of items.
pub fn count<S: Stream<Item = S::Item>>(stream: S) -> CountFuture<S>
    ensures { result.folder.count ≡ result.stream }
    ensures items { (x : S.Item) → S.run stream x }
{
}
""",
    ),
    ("futures_lite", "laws.rt", "//! Laws.\npub use lite_theorems::collect_or;\n"),
    ("lite_theorems", "lib.rt", "use lite_stream::Or;\n/// Collects.\npub fn collect_or<S, T>(both: Or<S, T>) -> usize {\n}\n"),
    ("lite_base", "lib.rt", "/// Is in no group.\npub fn stray() -> u8 {\n}\n"),
    ("lite_future", "lib.rt", "pub mod either;\npub mod make;\npub use either::{Or, Other};\n"),
    ("lite_future", "either.rt", OTHER),
    (
        "lite_future",
        "make.rt",
        """use crate::Or;
/// Returns a future of either.
///
/// # Examples
///
/// ```
/// let _ = race(1);
/// ```
pub fn or<F>(first: F) -> Or<F> {
}
""",
    ),
)


# Clauses, each with how it is printed and what it says in words.
CLAUSES = (
    (
        "ensures lists { OfItems Self.run self (λ xs. length xs < 2 ^ 64 → ListsAs (Takes Self.run) result (take n xs)) }",
        "ensures lists { (xs : List _) → Lists Self.run self xs → length xs < 2 ^ 64 → ListsAs (Takes Self.run) result (take n xs) }",
        "`lists`: If the items of this stream are `xs` and `xs` has fewer than 2^64 items, then the items of the result are `take n xs`.",
    ),
    (
        "ensures value { (xs : List A) → Lists S.run other xs\n    → Seen {Y = B} other (Ok x)\n"
        "    × ValueIs {A = Unit {0}} S.runs result (last_or None xs) }",
        "ensures value { (xs : List A) → Lists S.run other xs\n    → ValueIs {A = Unit {0}} S.runs result (last_or None xs) }",
        "`value`: If the items of `other` are `xs`, then the value of the result is `last_or None xs`.",
    ),
    (
        "ensures on { (x : A) → FoundBy (replicate (f n) x) self x\n    (GoesOn Self.run self x → Unruled result x) }",
        "ensures on { (x : A) → GoesOn Self.run self x → Unruled result x }",
        None,
    ),
    (
        "ensures same { (filter test xs ≡ filter test xs) × ListsAs S.run result (filter test xs) × Unruled result }",
        "ensures same { ListsAs S.run result (filter test xs) × Unruled result }",
        None,
    ),
    (
        "ensures left { WhenLeft E S.runs result (λ f. ⊤) (λ f v. (v ≡ slice_get xs n) × RestIs S.run f.stream.now (drop n xs)) }",
        "ensures left { WhenLeft E S.runs result (λ f. ⊤) (λ f v. (v ≡ slice_get xs n) × RestIs S.run f.stream.now (drop n xs)) }",
        "`left`: The value of the result is `slice_get xs n` and this stream is left with the items of `drop n xs` behind the first one, if there is one.",
    ),
    (
        "ensures* after { sem 𝓛 (Afterwards Self.row self.entry (λ new. (new ≡ old) × Kept new)) }",
        "ensures* after { Afterwards (λ new. (new ≡ old) × Kept new) }",
        None,
    ),
    (
        "ensures piece { Knows Self.reads Self.known self.old → WhenLeft E (Reads Self.reads) result (λ f. ⊤)"
        " (λ f r. IfOk r (λ n. (f.buf.now.items ≡ take 3 (Self.known.left self.old)) × (n ≡ 3))) }",
        "ensures piece { Knows Self.reads Self.known self.old → WhenLeft E (Reads Self.reads) result (λ f. ⊤)"
        " (λ f r. IfOk r (λ n. (f.buf.now.items ≡ take 3 (Self.known.left self.old)) × (n ≡ 3))) }",
        "`piece`: If it is known that this stream will give `bytes` and the result returns `Ok`, then the items of `buf` are `take 3 bytes` and the value in"
        " the `Ok` is `3`.",
    ),
    ("ensures* back { sem 𝓛 (Lends (the_row R.row) R.row self.entry result\n    (λ w. record self.old { inner = w })) }", "", None),
)


class Clauses(unittest.TestCase):
    def test_what_guides_the_search_is_not_printed(self):
        self.assertEqual([contracts.printed(clause) for clause, _, _ in CLAUSES], [it for _, it, _ in CLAUSES])

    def test_a_sentence_names_what_the_method_is_called_on(self):
        told = contracts.sentence("ensures never { NeverReady Self.run self }", "this future")
        self.assertEqual(told, "`never`: Every poll of this future returns `Pending`.")

    def test_a_clause_of_a_form_with_a_rule_has_a_sentence(self):
        self.assertEqual([contracts.sentence(printed) for _, printed, _ in CLAUSES], [it for _, _, it in CLAUSES])


class TwoModules(unittest.TestCase):
    def setUp(self):
        self.sources = Sources(TEXTS)
        self.pages = dict(Reference(self.sources).pages())

    def entry(self, module, heading):
        pages = [text for file, text in self.pages.items() if file.startswith(f"out/reference/{module}/")]
        found = [it.partition(f"\n## {heading}\n") for it in pages]
        return "".join(it[2].partition("\n## ")[0] for it in found)

    def headings(self, page):
        return re.findall(r"^## (?!Words$)(.*)$", self.pages[page], re.M)

    def words(self, page):
        return " ".join(self.pages[page].partition("\n## Words\n")[2].split())

    def test_an_item_is_told_by_its_own_source(self):
        self.assertIn("The stream of both.", self.entry("stream", "struct `Or`"))
        self.assertIn("The future of either.", self.entry("future", "struct `Or`"))
        self.assertIn("crates/lite_future/src/make.rt", self.entry("future", "fn `or`"))
        self.assertNotIn("let _ =", self.entry("stream", "fn `or`"))

    def test_a_method_is_of_the_type_of_its_module(self):
        self.assertIn("Or::first", self.sources.items_of("stream"))
        self.assertNotIn("Or::first", self.sources.items_of("future"))

    def test_a_contract_is_whole(self):
        told = self.entry("stream", "method `Or::first`")
        self.assertIn("ensures returns { result ≡ record {\n    first = self;\n    second = 2 } }\nensures second { ⊤ }\n", told)

    def test_the_bounds_of_an_impl_stand_before_its_methods(self):
        told = self.entry("stream", "method `Or::first`")
        self.assertIn("impl<S, T> Or<S, T> where S: Drop {\n    fn first(&self) -> &S\n}\n", told)

    def test_a_type_names_each_call_that_returns_it(self):
        self.assertIn("The stream of both. Returned by [`or`](#fn-or) and [`swap`](#fn-swap).", self.entry("stream", "struct `Or`"))
        self.assertIn("The future of either. Returned by [`or`](#fn-or).", self.entry("future", "struct `Or`"))

    def test_a_type_names_the_fields_that_contracts_name(self):
        self.assertIn("Fields in contracts: `first: S`.", self.entry("stream", "struct `Or`"))

    def test_the_public_fields_of_a_struct_are_shown(self):
        told = self.entry("stream", "struct `Consume`")
        self.assertIn("struct Consume<S, F> {\n    /// The stream that is polled.\n    pub stream: S,\n    // some fields are private\n}\n", told)
        self.assertIn("\nstruct Or<S, T>\n", self.entry("stream", "struct `Or`"))

    def test_an_item_of_no_group_is_named(self):
        told = [what for _, what in Reference(self.sources).faults() if "fits no group" in what]
        self.assertEqual(told, ["`future::stray` fits no group of the index (GROUPS in tools/reference.py)"])

    def test_a_type_with_a_model_names_the_fields_of_the_model(self):
        self.assertIn("Fields in contracts: `calls: ℕ`, `bytes: ℕ`, `made: List Note`. They are those of", self.entry("future", "struct `Or`"))

    def test_an_alias_names_the_fields_that_contracts_name(self):
        self.assertIn("Fields in contracts: `folder: Count<u8>`, `stream: S`, `count: N` of its `Count`.", self.entry("stream", "type `CountFuture`"))

    def test_an_entry_names_the_fields_that_no_entry_of_the_page_names(self):
        self.assertIn("Field in this contract: `count: N` of `Count`.", self.entry("stream", "fn `count`"))
        self.assertNotIn("in this contract", self.entry("stream", "method `Or::or`"))

    def test_a_mark_stands_with_the_bounds_of_its_impl_in_the_entry_of_the_type(self):
        self.assertIn("Properties:\n\n- `impl<S: Counted, T> Counted for Or<S, T>`\n", self.entry("stream", "struct `Or`"))
        self.assertIn("Result: [`Or`](#struct-or).", self.entry("future", "fn `or`"))

    def test_a_mark_of_the_tables_without_an_impl_is_named(self):
        told = [what for _, what in Reference(self.sources).faults()]
        self.assertIn("the impl of OkCounted for `stream::Or` is not found", told)
        self.assertNotIn("the impl of Counted for `stream::Or` is not found", told)

    def test_a_method_that_returns_its_own_type_has_a_link_to_it(self):
        self.assertIn("Result: [`Or`](#struct-or).", self.entry("stream", "method `Or::or`"))

    def test_a_type_has_links_to_the_laws_that_name_it(self):
        self.assertIn("\nMore is proved by [`laws::collect_or`](../laws/collect_or.md#fn-collect_or).\n", self.entry("stream", "struct `Or`"))
        self.assertNotIn("More is proved", self.entry("future", "struct `Or`"))

    def test_a_link_leads_to_the_page_that_has_the_item(self):
        self.assertIn("an [`or`](#fn-or). It needs no [`Other`](../future/other.md#trait-other).", self.entry("stream", "method `Or::first`"))
        self.assertIn("In the signature: [`future::Other`](../future/other.md#trait-other).", self.entry("stream", "fn `or`"))
        self.assertNotIn("In the signature", self.entry("stream", "method `Or::first`"))
        self.assertNotIn("In the signature", self.entry("future", "fn `or`"))

    def test_a_page_has_a_call_and_the_type_that_it_returns(self):
        self.assertEqual(self.headings("out/reference/stream/or.md"), ["fn `or`", "fn `swap`", "struct `Or`", "method `Or::first`", "method `Or::or`"])
        self.assertEqual(self.headings("out/reference/stream/count.md"), ["fn `count`", "type `CountFuture`"])
        self.assertEqual(self.headings("out/reference/future/other.md"), ["trait `Other`"])

    def test_a_definition_that_pages_share_stands_with_its_module_and_links_to_others(self):
        every = Reference(self.sources).every
        word = next(it for it in every.values() if it.name == "ListsAs")
        page = Words(every, {"a.md": [word], "b.md": [word]}, {}).page()
        told = " ".join(page.partition("\n#### `ListsAs`\n")[2].split())
        self.assertTrue(told.startswith("(`Lists`) The items of `s` are `xs`, as [`Lists`](#lists) says it:"))

    def test_a_definition_that_one_page_needs_stands_on_that_page_alone(self):
        word = Word("Reading", "lite_read", "Texts", "It says.")
        pages = Words({("lite_read", "Texts", "Reading"): word}, {"out/reference/io/a.md": [word, word]}, {})
        self.assertTrue(pages.is_alone(word))
        self.assertEqual(pages.told_alone(word, "out/reference/io/a.md"), "[`Reading`](../../../crates/lite_read/specs/Texts.antt): It says.")
        self.assertNotIn("lite_read", pages.page())

    def test_a_definition_that_another_names_has_a_place_to_link_to(self):
        named, naming = Word("Named", "lite_read", "Texts", "It says."), Word("Naming", "lite_read", "Texts", "As `Named`.")
        every = {("lite_read", "Texts", it.name): it for it in (named, naming)}
        pages = Words(every, {"out/reference/io/a.md": [named, naming]}, {})
        self.assertEqual([pages.is_alone(it) for it in (named, naming)], [False, True])
        self.assertIn("As [`Named`](../words.md#named).", pages.told_alone(naming, "out/reference/io/a.md"))

    def test_words_that_differ_in_their_case_have_anchors_of_their_own(self):
        every = {("lite_read", "Texts", it): Word(it, "lite_read", "Texts", "It says.") for it in ("Reading", "reading")}
        pages = Words(every, {it: every.values() for it in ("a.md", "b.md")}, {"Reading": "It says."})
        self.assertEqual(pages.link_from(words.PAGE, "Reading", "It says."), "[`Reading`](#reading)")
        self.assertEqual([pages.link(it, words.PAGE).partition("#")[2] for it in every.values()], ["reading-1)", "reading-2)"])

    def test_an_entry_has_the_links_of_the_list(self):
        told = {"stream::or": ["laws::collect_or", "guide/21-codec.md", "future::or"]}
        with unittest.mock.patch("see_also.targets", lambda: told):
            pages = dict(Reference(self.sources).pages())
        shown = " ".join(pages["out/reference/stream/or.md"].split())
        codec = f"[{see_also.title_of('guide/21-codec.md')}](../../../docs/guide/21-codec.md)"
        self.assertIn(f"See also: [`laws::collect_or`](../laws/collect_or.md#fn-collect_or), {codec}, [`future::or`](../future/or.md#fn-or).", shown)

    def test_a_link_of_the_list_to_nothing_is_named(self):
        with unittest.mock.patch("see_also.targets", lambda: {"stream::or": ["laws::none", "guide/none.md"]}):
            self.assertEqual([what for _, what in see_also.faults({"stream::or"})], ["there is no laws::none", "there is no guide/none.md"])

    def test_an_index_has_a_line_for_each_item_with_a_sentence(self):
        told = self.pages["out/reference/README.md"].partition("\n## `futures_lite::stream`\n")[2]
        self.assertIn("\n- [`count`](stream/count.md#fn-count): Returns a future of the number of items.\n", told)
        self.assertIn("\n- [`CountFuture`](stream/count.md#type-countfuture): A future of the number of items.\n", told)
        self.assertIn("\n- [`or`](stream/or.md#fn-or): Returns a stream of both: the items of each.\n", told)
        self.assertIn("\n- [`Or`](stream/or.md#struct-or): The stream of both.\n  - [`Or::first`](stream/or.md#method-orfirst): Returns the first stream of an `or`.\n", told)

    def test_the_index_of_docs_leads_to_sources(self):
        told = Reference(self.sources).index().partition("\n## `futures_lite::stream`\n")[2]
        self.assertIn("\n- [`or`](../crates/lite_stream/src/make.rt): Returns a stream of both: the items of each.\n", told)
        self.assertIn("\n- [`Or`](../crates/lite_stream/src/or.rt): The stream of both.\n  - [`Or::first`](../crates/lite_stream/src/or.rt): Returns", told)

    def test_a_word_of_a_contract_that_nothing_explains_is_named(self):
        told = [what for _, what in Reference(self.sources).faults() if "`stream::Or::or`" in what]
        words = [re.search(r"the word \.?(\w+) ", it)[1] for it in told]
        self.assertEqual(words, ["Strange", "unheard", "unknown"])

    def test_a_word_that_no_entry_explains_is_below_the_entries(self):
        told = self.words("out/reference/stream/or.md")
        for word in ("IfOk", "length"):
            self.assertIn(f"[`{word}`](../words.md#{word.lower()})", told)
            self.assertIn(f"\n### `{word}`\n\n", self.pages["out/reference/words.md"])
        for word in ("size", "first", "n", "it", "S", "Item", "Self"):
            self.assertNotIn(f"[`{word}`]", told)
        self.assertIn("[`Item`]", self.words("out/reference/stream/count.md"))

    def test_an_item_without_an_example_is_named(self):
        told = [what for _, what in examples.faults(self.sources)]
        self.assertIn("`stream::or` has no example", told)
        self.assertNotIn("`stream::Or::first` has no example", told)

    def test_an_example_of_another_item_is_named(self):
        told = [what for _, what in examples.faults(self.sources)]
        self.assertIn("the example of `future::or` does not call it", told)
