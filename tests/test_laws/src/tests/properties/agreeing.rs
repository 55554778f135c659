//! Each nest runs plainly, and with a pending before every answer; and collections of the same items.
use super::scripts::{both_ran, plain_and_late, ready_ones};
use lite_base::Poll;
use lite_source::make::script;
use nests_agree::agree::evens_agree;
use nests_agree::collections::{collects_agree, partitions_agree};
use nests_agree::paced::{Paced, paces_agree};
use std::test::Fail;
use test_support::item;

#[test]
fn map_filter_and_take_agree(rt: HostRuntime) -> Result<(), Fail> {
    let (plain, late) = plain_and_late(&rt, &[Some(1u8), Some(6), Some(3), Some(9), Some(5)])?;
    let (got, got_late) = both_ran(&rt, 4, 8, |cx, runs| evens_agree(plain, late, cx, runs))?;
    let expected = [Some(0), Some(2), Some(8), None];
    assert_eq!(rt; ready_ones(&rt, got)?.as_slice(), expected.as_slice());
    assert_eq!(rt; ready_ones(&rt, got_late)?.as_slice(), expected.as_slice());
    Ok(())
}

#[test]
fn a_stream_of_a_callers_own_agrees(rt: HostRuntime) -> Result<(), Fail> {
    let mut x = Paced {
        item: 7,
        waits: false,
    };
    let mut y = Paced {
        item: 7,
        waits: true,
    };
    let (got, got_late) = both_ran(&rt, 3, 6, |cx, runs| paces_agree(&mut x, &mut y, cx, runs))?;
    let expected = [item(7), Poll::Pending, item(7)];
    assert_eq!(rt; got.as_slice(), expected.as_slice());
    let expected = [Some(7), Some(7), Some(7)];
    assert_eq!(rt; ready_ones(&rt, got_late)?.as_slice(), expected.as_slice());
    Ok(())
}

#[test]
fn collections_agree(rt: HostRuntime) -> Result<(), Fail> {
    let one = script(vec![in rt.alloc(); item(1u8), item(2)]?);
    let other = script(vec![in rt.alloc(); item(1u8), item(2)]?);
    let values = collects_agree(&rt, one, other)?;
    let (got, expected) = (vec![in rt.alloc(); 1u8, 2]?, vec![in rt.alloc(); 1u8, 2]?);
    assert_eq!(rt; values, (Ok(got), Ok(expected)));
    let one = script(vec![in rt.alloc(); item(1u8), item(2), item(3)]?);
    let other = script(vec![in rt.alloc(); item(1u8), item(2), item(3)]?);
    let values = partitions_agree(&rt, one, other)?;
    let got = (vec![in rt.alloc(); 2u8]?, vec![in rt.alloc(); 1u8, 3]?);
    let expected = (vec![in rt.alloc(); 2u8]?, vec![in rt.alloc(); 1u8, 3]?);
    assert_eq!(rt; values, (Ok(got), Ok(expected)));
    Ok(())
}
