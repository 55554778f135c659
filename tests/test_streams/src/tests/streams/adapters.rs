use super::guards::{END, Guard, dropped, guards, make_guarded, with_drops};
use super::text::Text;
use crate::tests::properties::{both, calm, counted, ok_counted, ranked};
use futures_lite::stream::{self, Script};
use futures_lite::{Context, Poll, StreamExt, future};
use std::alloc::AllocError;
use std::cell::Cell;
use std::io;
use std::test::Fail;
use test_support::{answers, firm, item};

/// The next answer of a script, which tells how far it was polled.
fn next(rt: &HostRuntime, script: &mut Script<u8>) -> io::Result<Poll<Option<u8>>> {
    let mut answer = answers(rt, script, 1)?;
    Ok(answer.pop().unwrap_or(Poll::Pending))
}

#[test]
fn take_polls_no_more_after_its_last_item(rt: HostRuntime) -> Result<(), Fail> {
    let mut script = stream::script(vec![in rt.alloc(); item(1u8), item(2), item(3)]?);
    let buffer_of = &mut script;
    let got = answers(&rt, &mut buffer_of.take(0), 1)?;
    assert_eq!(rt; got.as_slice(), [Poll::Ready(None)].as_slice());
    let buffer_of = &mut script;
    let got = answers(&rt, &mut buffer_of.take(2), 4)?;
    let expected = [item(1), item(2), Poll::Ready(None), Poll::Ready(None)];
    assert_eq!(rt; got.as_slice(), expected.as_slice());
    assert_eq!(rt; next(&rt, &mut script)?, item(3));
    Ok(())
}

#[test]
fn fuse_polls_no_more_after_an_end(rt: HostRuntime) -> Result<(), Fail> {
    let mut script = stream::script(vec![in rt.alloc(); item(1u8), Poll::Ready(None), item(2)]?);
    let buffer_of = &mut script;
    let got = answers(&rt, &mut buffer_of.fuse(), 3)?;
    let expected = [item(1), Poll::Ready(None), Poll::Ready(None)];
    assert_eq!(rt; got.as_slice(), expected.as_slice());
    assert_eq!(rt; next(&rt, &mut script)?, item(2));
    Ok(())
}

#[test]
fn chain_polls_neither_after_its_end(rt: HostRuntime) -> Result<(), Fail> {
    let mut first = stream::script(vec![in rt.alloc(); item(1u8), Poll::Ready(None), item(9)]?);
    let mut second = stream::script(vec![in rt.alloc(); item(2u8), Poll::Ready(None), item(8)]?);
    let (buffer_of, other) = (&mut first, &mut second);
    let got = answers(&rt, &mut buffer_of.chain(other), 4)?;
    let expected = [item(1), item(2), Poll::Ready(None), Poll::Ready(None)];
    assert_eq!(rt; got.as_slice(), expected.as_slice());
    assert_eq!(rt; next(&rt, &mut first)?, item(9));
    assert_eq!(rt; next(&rt, &mut second)?, item(8));
    Ok(())
}

#[test]
fn inspect_shows_each_item_once(rt: HostRuntime) -> Result<(), Fail> {
    let list = vec![in rt.alloc(); item(1u8), Poll::Pending, item(2), Poll::Ready(None)]?;
    let seen = Cell::new(0u16);
    let mut shown = stream::script(list).inspect(|x: &u8| {
        seen.set(seen.get().wrapping_mul(10).wrapping_add(*x as u16));
    });
    let got = answers(&rt, &mut shown, 4)?;
    let expected = [item(1), Poll::Pending, item(2), Poll::Ready(None)];
    assert_eq!(rt; got.as_slice(), expected.as_slice());
    assert_eq!(rt; seen.get(), 12);
    Ok(())
}

#[test]
fn skip_while_asks_until_the_first_item_that_it_keeps(rt: HostRuntime) -> Result<(), Fail> {
    let list = vec![in rt.alloc(); item(-1i32), Poll::Pending, item(0), item(1), item(-2)]?;
    let asked = Cell::new(0u8);
    let mut rest = stream::script(list).skip_while(|x: &i32| {
        asked.set(asked.get().wrapping_add(1));
        *x < 0
    });
    let got = answers(&rt, &mut rest, 5)?;
    let expected = [Poll::Pending, item(0), item(1), item(-2), Poll::Ready(None)];
    assert_eq!(rt; got.as_slice(), expected.as_slice());
    assert_eq!(rt; asked.get(), 2);
    Ok(())
}

#[test]
fn cloned_asks_again_for_a_refused_clone_without_polling(rt: HostRuntime) -> Result<(), Fail> {
    let text = Text {
        text: "a",
        refusals: Cell::new(1),
    };
    let list = vec![in rt.alloc(); item(&text), Poll::Ready(None), item(&text)]?;
    let mut script = stream::script(list);
    let buffer_of = &mut script;
    let mut texts = buffer_of.cloned().map(|clone: Result<Text, AllocError>| match &clone {
        Ok(copy) => Some(copy.text),
        Err(_) => None,
    });
    let got = answers(&rt, &mut texts, 3)?;
    let expected = [item(None), item(Some("a")), Poll::Ready(None)];
    assert_eq!(rt; got.as_slice(), expected.as_slice());
    let left = answers(&rt, &mut script.map(|text: &Text| text.text), 2)?;
    assert_eq!(rt; left.as_slice(), [item("a"), Poll::Ready(None)].as_slice());
    Ok(())
}

#[test]
fn clones_of_adapters_go_on_from_where_they_are(rt: HostRuntime) -> Result<(), Fail> {
    let list = vec![in rt.alloc(); item(1u8), item(2), item(3), item(4), item(5)]?;
    let mut nest = stream::script(list).skip(1).step_by(2).enumerate();
    let first = answers(&rt, &mut nest, 1)?;
    assert_eq!(rt; first.as_slice(), [item((0, 2))].as_slice());
    let mut copy = nest.clone()?;
    let expected = [item((1, 4)), Poll::Ready(None)];
    let rest = answers(&rt, &mut nest, 2)?;
    assert_eq!(rt; rest.as_slice(), expected.as_slice());
    let copied = answers(&rt, &mut copy, 2)?;
    assert_eq!(rt; copied.as_slice(), expected.as_slice());
    Ok(())
}

#[test]
fn a_nest_of_adapters_is_firm_where_its_source_is(rt: HostRuntime) -> Result<(), Fail> {
    let list = vec![in rt.alloc(); item(1u8), Poll::Pending, item(2)]?;
    let mut nest = firm(
        firm(firm(stream::script(list)).map(|x: u8| x / 2))
            .enumerate()
            .fuse(),
    );
    let got = answers(&rt, &mut nest, 4)?;
    let expected = [item((0, 0)), Poll::Pending, item((1, 1)), Poll::Ready(None)];
    assert_eq!(rt; got.as_slice(), expected.as_slice());
    Ok(())
}

#[test]
fn an_adapter_shows_what_it_holds(rt: HostRuntime) -> Result<(), Fail> {
    let nest = stream::iter(0u8..2).take(1).step_by(2);
    let shown = format!(in rt.alloc(); "{nest:?}")?;
    assert_eq!(rt;
        shown.as_str(),
        "StepBy { stream: Take { stream: Iter { iter: 0..2 }, n: 1 }, step: 2, i: 0 }"
    );
    let shown = format!(in rt.alloc(); "{:?}", stream::once(5u8).fuse())?;
    assert_eq!(rt;
        shown.as_str(),
        "Fuse { stream: Once { value: Some(5) }, done: false }"
    );
    Ok(())
}

#[test]
fn a_budget_is_cloned_with_what_is_left_of_it(rt: HostRuntime) -> Result<(), Fail> {
    let script = stream::script(vec![in rt.alloc(); item(1u8), item(2), item(3)]?);
    let mut two = script.with_budget(2);
    assert_eq!(rt; answers(&rt, &mut two, 1)?.as_slice(), [item(1)].as_slice());
    let mut same = two.clone()?;
    let expected = [item(2), Poll::Pending, item(3), Poll::Ready(None)];
    assert_eq!(rt; answers(&rt, &mut two, 4)?.as_slice(), expected.as_slice());
    assert_eq!(rt; answers(&rt, &mut same, 4)?.as_slice(), expected.as_slice());
    Ok(())
}

#[test]
fn a_budget_ranks_any_stream(rt: HostRuntime) -> Result<(), Fail> {
    // A stream of a closure has no rank, and `last` asks for one.
    let mut n = 0u8;
    let numbers = stream::poll_fn(move |_cx: &mut Context<'_>| {
        n += 1;
        Poll::Ready((n <= 5).then_some(n))
    });
    assert_eq!(rt;
        future::block_on(&rt, numbers.with_budget(2).last())?,
        Some(5)
    );
    Ok(())
}

#[test]
fn then_drops_each_future_with_its_value(rt: HostRuntime) -> Result<(), Fail> {
    let drops = Cell::new(0);
    let mut values = stream::iter_array([0u8, 1, 2]).then(|x: u8| make_guarded(&drops, x % 2, x));
    let got = with_drops(&rt, &drops, &mut values, 5)?;
    let expected = [
        (item(0), 1),
        (Poll::Pending, 1),
        (item(1), 2),
        (item(2), 3),
        (END, 3),
    ];
    assert_eq!(rt; got.as_slice(), expected.as_slice());
    Ok(())
}

#[test]
fn skip_while_drops_its_predicate_with_the_first_item_that_it_keeps(
    rt: HostRuntime,
) -> Result<(), Fail> {
    let drops = Cell::new(0);
    let guard = Guard { drops: &drops };
    let list = vec![in rt.alloc(); item(1u8), Poll::Pending, item(5), item(2)]?;
    let mut rest = stream::script(list).skip_while(move |x: &u8| {
        let _held = &guard;
        *x < 3
    });
    let got = with_drops(&rt, &drops, &mut rest, 4)?;
    let expected = [(Poll::Pending, 0), (item(5), 1), (item(2), 1), (END, 1)];
    assert_eq!(rt; got.as_slice(), expected.as_slice());
    Ok(())
}

#[test]
fn stop_after_future_drops_its_future_at_either_end(rt: HostRuntime) -> Result<(), Fail> {
    let drops = Cell::new(0);
    let future = make_guarded(&drops, 1, 'x');
    let mut stopped = stream::stop_after_future(stream::iter_array([1u8, 2]), future);
    let got = with_drops(&rt, &drops, &mut stopped, 3)?;
    let expected = [(item(1), 0), (END, 1), (END, 1)];
    assert_eq!(rt; got.as_slice(), expected.as_slice());
    let future = make_guarded(&drops, 9, 'x');
    let mut ended = stream::stop_after_future(stream::iter_array([1u8]), future);
    let got = with_drops(&rt, &drops, &mut ended, 2)?;
    assert_eq!(rt; got.as_slice(), [(item(1), 1), (END, 2)].as_slice());
    Ok(())
}

#[test]
fn zip_drops_its_item_at_the_end_of_the_second(rt: HostRuntime) -> Result<(), Fail> {
    let drops = Cell::new(0);
    let first = stream::iter(guards(rt.alloc(), &drops, 2)?);
    let second = stream::script(vec![in rt.alloc(); Poll::Pending, END]?);
    let mut pairs = first.zip(second).map(|(_guard, x): (Guard<'_>, u8)| x);
    let got = with_drops(&rt, &drops, &mut pairs, 2)?;
    assert_eq!(rt; got.as_slice(), [(Poll::Pending, 0), (END, 1)].as_slice());
    Ok(())
}

#[test]
fn flatten_drops_an_inner_stream_at_its_end(rt: HostRuntime) -> Result<(), Fail> {
    let drops = Cell::new(0);
    let guard = Guard { drops: &drops };
    let inner = stream::once(7u8).inspect(move |_x: &u8| {
        let _held = &guard;
    });
    let mut items = stream::script(vec![in rt.alloc(); item(inner), Poll::Pending]?).flatten();
    let got = with_drops(&rt, &drops, &mut items, 3)?;
    let expected = [(item(7), 0), (Poll::Pending, 1), (END, 1)];
    assert_eq!(rt; got.as_slice(), expected.as_slice());
    Ok(())
}

#[test]
fn items_that_are_left_out_are_dropped(rt: HostRuntime) -> Result<(), Fail> {
    let drops = Cell::new(0);
    let two = || guards(rt.alloc(), &drops, 2);
    let counts = [
        dropped(
            &rt,
            &drops,
            stream::iter(two()?).filter(|_x: &Guard<'_>| false),
        )?,
        dropped(
            &rt,
            &drops,
            stream::iter(two()?).skip_while(|_x: &Guard<'_>| true),
        )?,
        dropped(
            &rt,
            &drops,
            stream::iter(two()?).take_while(|_x: &Guard<'_>| false),
        )?,
        dropped(&rt, &drops, stream::iter(two()?).skip(2))?,
        dropped(&rt, &drops, stream::iter(two()?).step_by(2))?,
    ];
    assert_eq!(rt; counts, [2, 2, 2, 2, 1]);
    Ok(())
}

#[test]
fn adapters_are_steady_and_calm(_rt: HostRuntime) -> Result<(), Fail> {
    let one = 1u8;
    ranked(&stream::once(&one).copied());
    ranked(&stream::once(1u8).enumerate());
    ranked(&stream::once(1u8).fuse());
    ranked(&stream::once(1u8).inspect(|_x: &u8| ()));
    ranked(&stream::once(1u8).map(|x: u8| x == 1));
    ranked(&stream::once(1u8).map_while(|x: u8| Some(x)));
    ranked(&stream::once(1u8).scan('a', |_c: &mut char, x: u8| Some(x)));
    ranked(&stream::once(1u8).take(1));
    ranked(&stream::once(1u8).take_while(|x: &u8| *x == 1));
    ranked(&stream::once(1u8).filter(|x: &u8| *x == 1));
    ranked(&stream::once(1u8).filter_map(|x: u8| Some(x)));
    ranked(&stream::once(1u8).skip(1));
    ranked(&stream::once(1u8).skip_while(|x: &u8| *x == 1));
    ranked(&stream::once(1u8).step_by(2));
    Ok(())
}

#[test]
fn adapters_of_several_streams_have_their_properties(_rt: HostRuntime) -> Result<(), Fail> {
    let one = 1u8;
    ranked(&stream::once(1u8).chain(stream::empty()));
    both(&stream::once(&one).cloned());
    ranked(&stream::once(1u8).flat_map(|x: u8| stream::once(x)));
    ranked(&stream::once(stream::once(1u8)).flatten());
    ranked(&stream::once(1u8).then(|x: u8| future::ready(x)));
    let pairs = stream::once(1u8).zip(stream::once('a'));
    both(&pairs);
    counted(&pairs);
    let good: Result<u8, char> = Ok(1);
    let or = stream::once(good).or(stream::once(Err('a')));
    calm(&or);
    ok_counted(&or);
    let race = stream::race_with_seed(stream::once(good), stream::once(Err('a')), 7);
    calm(&race);
    ok_counted(&race);
    Ok(())
}

#[test]
fn adapters_that_go_round_or_stop_have_their_properties(rt: HostRuntime) -> Result<(), Fail> {
    let Ok(round) = stream::once(1u8).cycle() else {
        assert!(rt; false);
        return Ok(());
    };
    calm(&round);
    let good: Result<u8, char> = Ok(1);
    let mut once = stream::once(good);
    let drained = once.drain();
    calm(&drained);
    ok_counted(&drained);
    let stopped = stream::stop_after_future(stream::once(good), future::yield_now());
    calm(&stopped);
    ok_counted(&stopped);
    Ok(())
}
