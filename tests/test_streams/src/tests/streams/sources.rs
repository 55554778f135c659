use super::guards::{END, make_guarded, with_drops};
use super::text::Text;
use crate::tests::properties::{both, counted, ranked, steady};
use futures_lite::{Context, Poll, StreamExt, future, stream};
use std::alloc::AllocError;
use std::cell::Cell;
use std::test::Fail;
use test_support::{answers, item};

#[test]
fn poll_fn_hands_on_what_its_function_answers(rt: HostRuntime) -> Result<(), Fail> {
    let mut calls = 0u8;
    let mut polls = stream::poll_fn(move |_cx: &mut Context<'_>| {
        calls = calls.wrapping_add(1);
        match calls {
            1 => Poll::Pending,
            2 => Poll::Ready(Some(5u8)),
            _ => Poll::Ready(None),
        }
    });
    let got = answers(&rt, &mut polls, 3)?;
    let expected = [Poll::Pending, item(5), Poll::Ready(None)];
    assert_eq!(rt; got.as_slice(), expected.as_slice());
    Ok(())
}

#[test]
fn repeat_asks_again_for_a_refused_clone(rt: HostRuntime) -> Result<(), Fail> {
    let text = Text {
        text: "a",
        refusals: Cell::new(1),
    };
    let mut texts = stream::repeat(text).map(|clone: Result<Text, AllocError>| match &clone {
        Ok(copy) => Some(copy.text),
        Err(_) => None,
    });
    let got = answers(&rt, &mut texts, 3)?;
    let expected = [item(None), item(Some("a")), item(Some("a"))];
    assert_eq!(rt; got.as_slice(), expected.as_slice());
    Ok(())
}

#[test]
fn clones_of_sources_go_on_from_where_they_are(rt: HostRuntime) -> Result<(), Fail> {
    let mut script = stream::script(vec![in rt.alloc(); item(1u8), Poll::Pending, item(2)]?);
    let first = answers(&rt, &mut script, 1)?;
    assert_eq!(rt; first.as_slice(), [item(1)].as_slice());
    let copied = answers(&rt, &mut script.clone()?, 3)?;
    let expected = [Poll::Pending, item(2), Poll::Ready(None)];
    assert_eq!(rt; copied.as_slice(), expected.as_slice());
    let got = answers(&rt, &mut stream::once(7u8).clone()?, 2)?;
    assert_eq!(rt; got.as_slice(), [item(7), Poll::Ready(None)].as_slice());
    let got = answers(&rt, &mut stream::empty::<u8>().clone()?, 1)?;
    assert_eq!(rt; got.as_slice(), [Poll::Ready(None)].as_slice());
    let got = answers(&rt, &mut stream::pending::<u8>().clone()?, 1)?;
    assert_eq!(rt; got.as_slice(), [Poll::Pending].as_slice());
    let mut fives = stream::repeat(5u8)
        .clone()?
        .map(|x: Result<u8, AllocError>| x.ok());
    let got = answers(&rt, &mut fives, 1)?;
    assert_eq!(rt; got.as_slice(), [item(Some(5))].as_slice());
    Ok(())
}

#[test]
fn sources_of_known_items_give_them(rt: HostRuntime) -> Result<(), Fail> {
    let expected = [item(2u8), item(3), Poll::Ready(None)];
    let got = answers(&rt, &mut stream::iter_vec(vec![in rt.alloc(); 2u8, 3]?), 3)?;
    assert_eq!(rt; got.as_slice(), expected.as_slice());
    let got = answers(&rt, &mut stream::iter_array([2u8, 3]), 3)?;
    assert_eq!(rt; got.as_slice(), expected.as_slice());
    let got = answers(&rt, &mut stream::iter_slice(&[2u8, 3]), 3)?;
    assert_eq!(rt; got.as_slice(), expected.as_slice());
    let got = answers(&rt, &mut stream::iter_range(2..4).map(|x| x as u8), 3)?;
    assert_eq!(rt; got.as_slice(), expected.as_slice());
    Ok(())
}

#[test]
fn a_source_shows_what_it_holds(rt: HostRuntime) -> Result<(), Fail> {
    let polls = stream::poll_fn(|_cx: &mut Context<'_>| Poll::<Option<u8>>::Pending);
    let shown = format!(in rt.alloc(); "{polls:?}")?;
    assert_eq!(rt; shown.as_str(), "PollFn");
    let mut never = stream::unfold(1u8, |_seed: u8| future::pending::<Option<(u8, u8)>>());
    let shown = format!(in rt.alloc(); "{never:?}")?;
    assert_eq!(rt; shown.as_str(), "Unfold { state: Some(1), fut: None }");
    let got = answers(&rt, &mut never, 1)?;
    assert_eq!(rt; got.as_slice(), [Poll::Pending].as_slice());
    let shown = format!(in rt.alloc(); "{never:?}")?;
    assert_eq!(rt;
        shown.as_str(),
        "Unfold { state: None, fut: Some(Pending { marker: PhantomData<_> }) }"
    );
    let tried = stream::try_unfold(1u8, |_seed: u8| {
        future::pending::<Result<Option<(u8, u8)>, u8>>()
    });
    let shown = format!(in rt.alloc(); "{tried:?}")?;
    assert_eq!(rt; shown.as_str(), "TryUnfold { state: Some(1), fut: None }");
    Ok(())
}

#[test]
fn once_future_drops_its_future_with_its_value(rt: HostRuntime) -> Result<(), Fail> {
    let drops = Cell::new(0);
    let mut once = stream::once_future(make_guarded(&drops, 1, 7u8));
    let got = with_drops(&rt, &drops, &mut once, 3)?;
    let expected = [(Poll::Pending, 0), (item(7), 1), (END, 1)];
    assert_eq!(rt; got.as_slice(), expected.as_slice());
    Ok(())
}

#[test]
fn unfold_drops_each_future_with_its_value(rt: HostRuntime) -> Result<(), Fail> {
    let drops = Cell::new(0);
    let mut numbers = stream::unfold(0u8, |n: u8| {
        make_guarded(&drops, n % 2, if n < 2 { Some((n, n + 1)) } else { None })
    });
    let got = with_drops(&rt, &drops, &mut numbers, 5)?;
    let expected = [
        (item(0), 1),
        (Poll::Pending, 1),
        (item(1), 2),
        (END, 3),
        (END, 3),
    ];
    assert_eq!(rt; got.as_slice(), expected.as_slice());
    Ok(())
}

#[test]
fn try_unfold_drops_each_future_with_its_value(rt: HostRuntime) -> Result<(), Fail> {
    let drops = Cell::new(0);
    let mut numbers = stream::try_unfold(0u8, |n: u8| {
        make_guarded(
            &drops,
            n % 2,
            if n == 0 { Ok(Some((n, 1))) } else { Err(9u8) },
        )
    });
    let got = with_drops(&rt, &drops, &mut numbers, 4)?;
    let expected = [
        (item(Ok(0)), 1),
        (Poll::Pending, 1),
        (item(Err(9)), 2),
        (Poll::Ready(None), 2),
    ];
    assert_eq!(rt; got.as_slice(), expected.as_slice());
    Ok(())
}

#[test]
fn sources_are_steady_and_calm(rt: HostRuntime) -> Result<(), Fail> {
    let answer = |_cx: &mut Context<'_>| Poll::Ready(Some(1u8));
    steady(&stream::pending::<u8>());
    counted(&stream::pending::<u8>());
    ranked(&stream::empty::<u8>());
    ranked(&stream::iter(vec![in rt.alloc(); 1u8, 2]?));
    ranked(&stream::once(1u8));
    ranked(&stream::once_future(future::ready(1u8)));
    both(&stream::poll_fn(answer));
    both(&stream::repeat(1u8));
    both(&stream::repeat_with(|| 1u8));
    ranked(&stream::script(vec![in rt.alloc(); Poll::Ready(Some(1u8))]?));
    both(&stream::unfold(1u8, |x: u8| future::ready(Some(('a', x)))));
    let next = |x: u8| {
        let answer: Result<Option<(char, u8)>, u16> = Ok(Some(('a', x)));
        future::ready(answer)
    };
    both(&stream::try_unfold(1u8, next));
    Ok(())
}
