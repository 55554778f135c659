//! Two iterators over the same items: the first is polled twice, the second up to its end and once more.
use super::scripts::both_ran;
use lite_base::Poll;
use nests_agree::iterators::{arrays_agree, ranges_agree, slices_agree, vectors_agree};
use std::test::Fail;
use test_support::item;

/// The answers of an iterator over 4 and 5 that is polled four times.
const FOUR_AND_FIVE: [Poll<Option<u8>>; 4] = [
    Poll::Ready(Some(4)),
    Poll::Ready(Some(5)),
    Poll::Ready(None),
    Poll::Ready(None),
];

#[test]
fn vectors_agree_on_their_items(rt: HostRuntime) -> Result<(), Fail> {
    let (one, other) = (vec![in rt.alloc(); 4u8, 5]?, vec![in rt.alloc(); 4u8, 5]?);
    let (got, more) = both_ran(&rt, 2, 4, |cx, runs| vectors_agree(one, other, cx, runs))?;
    assert_eq!(rt; got.as_slice(), &FOUR_AND_FIVE[..2]);
    assert_eq!(rt; more.as_slice(), FOUR_AND_FIVE.as_slice());
    Ok(())
}

#[test]
fn slices_agree_on_their_items(rt: HostRuntime) -> Result<(), Fail> {
    let (one, other) = ([4u8, 5], [4u8, 5]);
    let (got, more) = both_ran(&rt, 2, 4, |cx, runs| slices_agree(&one, &other, cx, runs))?;
    assert_eq!(rt; got.as_slice(), &FOUR_AND_FIVE[..2]);
    assert_eq!(rt; more.as_slice(), FOUR_AND_FIVE.as_slice());
    Ok(())
}

#[test]
fn ranges_agree_on_their_numbers(rt: HostRuntime) -> Result<(), Fail> {
    let (got, more) = both_ran(&rt, 2, 4, |cx, runs| ranges_agree(4, 6, cx, runs))?;
    assert_eq!(rt; got.as_slice(), &FOUR_AND_FIVE[..2]);
    assert_eq!(rt; more.as_slice(), FOUR_AND_FIVE.as_slice());
    Ok(())
}

#[test]
fn arrays_agree_on_their_items(rt: HostRuntime) -> Result<(), Fail> {
    let items = [1u8, 2, 3, 4];
    let (got, more) = both_ran(&rt, 2, 5, |cx, runs| arrays_agree(items, items, cx, runs))?;
    let expected = [item(1u8), item(2), item(3), item(4), Poll::Ready(None)];
    assert_eq!(rt; got.as_slice(), &expected[..2]);
    assert_eq!(rt; more.as_slice(), expected.as_slice());
    Ok(())
}
