//! Small examples, whose items and functions no case can write.
use super::scarce::Scarce;
use futures_lite::{Poll, StreamExt, future, stream};
use std::alloc::AllocError;
use std::cell::Cell;
use std::test::Fail;
use test_support::{answers, item};

#[test]
fn unfold_ends_for_ever_after_none(rt: HostRuntime) -> Result<(), Fail> {
    let mut numbers = stream::unfold(0u32, |n: u32| {
        future::ready(if n < 2 {
            Some((n, n.wrapping_add(1)))
        } else {
            None
        })
    });
    let got = answers(&rt, &mut numbers, 4)?;
    let expected = [item(0), item(1), Poll::Ready(None), Poll::Ready(None)];
    assert_eq!(rt; got.as_slice(), expected.as_slice());
    Ok(())
}

#[test]
fn try_unfold_ends_for_ever_after_an_error(rt: HostRuntime) -> Result<(), Fail> {
    let mut numbers = stream::try_unfold(0u32, |n: u32| {
        future::ready(if n == 0 {
            Ok(Some((0u32, 1u32)))
        } else {
            Err(9u8)
        })
    });
    let got = answers(&rt, &mut numbers, 4)?;
    let expected = [
        item(Ok(0)),
        item(Err(9)),
        Poll::Ready(None),
        Poll::Ready(None),
    ];
    assert_eq!(rt; got.as_slice(), expected.as_slice());
    Ok(())
}

#[test]
fn try_unfold_ends_for_ever_after_none(rt: HostRuntime) -> Result<(), Fail> {
    let mut numbers = stream::try_unfold(0u32, |n: u32| {
        future::ready(if n == 0 {
            Ok::<_, u8>(Some((0u32, 1u32)))
        } else {
            Ok(None)
        })
    });
    let got = answers(&rt, &mut numbers, 3)?;
    let expected = [item(Ok(0)), Poll::Ready(None), Poll::Ready(None)];
    assert_eq!(rt; got.as_slice(), expected.as_slice());
    Ok(())
}

#[test]
fn scan_hands_its_state_on(rt: HostRuntime) -> Result<(), Fail> {
    let mut products = stream::iter([1i32, 2, 3].into_iter()).scan(
        1i32,
        |state: &mut i32, x: i32| {
            *state = state.wrapping_mul(x);
            Some(state.wrapping_neg())
        },
    );
    let got = answers(&rt, &mut products, 4)?;
    let expected = [item(-1), item(-2), item(-6), Poll::Ready(None)];
    assert_eq!(rt; got.as_slice(), expected.as_slice());
    Ok(())
}

#[test]
fn filter_map_keeps_the_words_that_are_numbers(rt: HostRuntime) -> Result<(), Fail> {
    let words = stream::iter(["1", "lol", "3", "NaN", "5"].into_iter());
    let mut numbers = words.filter_map(|word: &str| word.parse::<u32>().ok());
    let got = answers(&rt, &mut numbers, 4)?;
    let expected = [item(1), item(3), item(5), Poll::Ready(None)];
    assert_eq!(rt; got.as_slice(), expected.as_slice());
    Ok(())
}

#[test]
fn flatten_gives_the_items_of_two_streams(rt: HostRuntime) -> Result<(), Fail> {
    let first = stream::iter(vec![in rt.alloc(); 1u8, 2, 3]?);
    let second = stream::iter(vec![in rt.alloc(); 4u8, 5]?);
    let mut items = stream::iter([first, second].into_iter()).flatten();
    let got = answers(&rt, &mut items, 6)?;
    let expected = [
        item(1),
        item(2),
        item(3),
        item(4),
        item(5),
        Poll::Ready(None),
    ];
    assert_eq!(rt; got.as_slice(), expected.as_slice());
    Ok(())
}

#[test]
fn a_cycle_begins_again_at_the_end(rt: HostRuntime) -> Result<(), Fail> {
    let Ok(mut round) = stream::iter(vec![in rt.alloc(); 1u8, 2]?).cycle() else {
        return Err(AllocError.into());
    };
    let got = answers(&rt, &mut round, 4)?;
    let expected = [item(Ok(1)), item(Ok(2)), item(Ok(1)), item(Ok(2))];
    assert_eq!(rt; got.as_slice(), expected.as_slice());
    Ok(())
}

#[test]
fn take_while_ends_at_each_item_that_it_rejects(rt: HostRuntime) -> Result<(), Fail> {
    let mut small = stream::iter([1u8, 2, 3, 4].into_iter()).take_while(|x: &u8| *x < 3);
    let got = answers(&rt, &mut small, 4)?;
    let expected = [item(1), item(2), Poll::Ready(None), Poll::Ready(None)];
    assert_eq!(rt; got.as_slice(), expected.as_slice());
    Ok(())
}

#[test]
fn skip_while_leaves_the_negative_ones_out(rt: HostRuntime) -> Result<(), Fail> {
    let mut rest = stream::iter([-1i32, 0, 1].into_iter()).skip_while(|x: &i32| *x < 0);
    let got = answers(&rt, &mut rest, 3)?;
    let expected = [item(0), item(1), Poll::Ready(None)];
    assert_eq!(rt; got.as_slice(), expected.as_slice());
    Ok(())
}

#[test]
fn step_by_gives_every_second_number_of_a_range(rt: HostRuntime) -> Result<(), Fail> {
    let mut numbers = stream::iter(0u8..5).step_by(2);
    let got = answers(&rt, &mut numbers, 4)?;
    let expected = [item(0), item(2), item(4), Poll::Ready(None)];
    assert_eq!(rt; got.as_slice(), expected.as_slice());
    Ok(())
}

/// The number of a copy, or that it was refused.
fn told(copy: Result<Scarce<'_>, AllocError>) -> Result<u8, AllocError> {
    match copy {
        Ok(scarce) => Ok(scarce.number),
        Err(refused) => Err(refused),
    }
}

#[test]
fn repeat_asks_for_one_clone_a_poll(rt: HostRuntime) -> Result<(), Fail> {
    let asked = Cell::new(0);
    let one = Scarce {
        number: 1,
        asked: &asked,
        refused: 0,
    };
    let mut copies = stream::repeat(one).map(told);
    let got = answers(&rt, &mut copies, 3)?;
    let expected = [item(Err(AllocError)), item(Ok(1)), item(Ok(1))];
    assert_eq!(rt; got.as_slice(), expected.as_slice());
    assert_eq!(rt; asked.get(), 3);
    Ok(())
}

#[test]
fn cloned_asks_for_one_clone_a_poll(rt: HostRuntime) -> Result<(), Fail> {
    let asked = Cell::new(0);
    let one = Scarce {
        number: 1,
        asked: &asked,
        refused: 0,
    };
    let list = vec![in rt.alloc(); item(&one), Poll::Pending, item(&one)]?;
    let mut copies = stream::script(list).cloned().map(told);
    let got = answers(&rt, &mut copies, 5)?;
    let expected = [
        item(Err(AllocError)),
        item(Ok(1)),
        Poll::Pending,
        item(Ok(1)),
        Poll::Ready(None),
    ];
    assert_eq!(rt; got.as_slice(), expected.as_slice());
    assert_eq!(rt; asked.get(), 3);
    Ok(())
}
