//! What two scripts give is collected, whichever is polled first.
use super::always::Always;
use futures_lite::Poll;
use std::test::Fail;
use test_support::item;
use theorems_at_types::{or_collected, race_collected};

/// What was collected within the polls.
fn whole(collected: Option<Vec<u8>>) -> Result<Vec<u8>, Fail> {
    match collected {
        Some(items) => Ok(items),
        None => Err(Fail::from("it is still pending, or memory was refused")),
    }
}

#[test]
fn an_or_of_scripts_is_collected(rt: HostRuntime) -> Result<(), Fail> {
    let first = vec![in rt.alloc(); item(1u8), Poll::Pending, item(2), Poll::Ready(None)]?;
    let second = vec![in rt.alloc(); Poll::Pending, item(7u8), Poll::Ready(None)]?;
    let got = whole(or_collected(&rt, first, second, 2)?)?;
    assert_eq!(rt; got.as_slice(), [1, 2, 7].as_slice());
    Ok(())
}

#[test]
fn a_race_of_scripts_is_collected(rt: HostRuntime) -> Result<(), Fail> {
    for word in 0..2u32 {
        let first = vec![in rt.alloc(); item(1u8), Poll::Ready(None)]?;
        let second = vec![in rt.alloc(); item(7u8), Poll::Ready(None)]?;
        let got = whole(race_collected(&rt, first, second, Always { word }, 1)?)?;
        let expected = if word == 1 { [1u8, 7] } else { [7, 1] };
        assert_eq!(rt; got.as_slice(), expected.as_slice());
    }
    Ok(())
}
