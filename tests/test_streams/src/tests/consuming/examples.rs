//! Small examples whose items no case can write.
use futures_lite::stream::{PartitionFuture, TryCollectError, UnzipFuture};
use futures_lite::{Poll, StreamExt, future, stream};
use std::collections::{BTreeMap, BTreeSet, VecDeque};
use std::test::Fail;
use test_support::{answers, item};

#[test]
fn try_fold_stops_at_the_first_error(rt: HostRuntime) -> Result<(), Fail> {
    let mut numbers = stream::iter_array([Ok(1u32), Ok(2), Ok(3)]);
    let summed = numbers.try_fold(0u32, |sum: u32, x: u32| {
        let sum = sum.wrapping_add(x);
        if sum % 2 == 1 { Ok(sum) } else { Err("fail") }
    });
    assert_eq!(rt; future::block_on(&rt, summed)?, Err("fail"));
    Ok(())
}

#[test]
fn try_next_gives_items_an_error_and_the_end(rt: HostRuntime) -> Result<(), Fail> {
    let mut results = stream::iter_array([Ok(1u8), Ok(2), Err("error")]);
    for expected in [Ok(Some(1)), Ok(Some(2)), Err("error"), Ok(None)] {
        assert_eq!(rt; future::block_on(&rt, results.try_next())?, expected);
    }
    Ok(())
}

#[test]
fn partition_parts_the_even_numbers(rt: HostRuntime) -> Result<(), Fail> {
    let numbers = stream::iter_array([1u8, 2, 3]);
    let parted: PartitionFuture<_, _, Vec<u8>> = numbers.partition(rt.alloc(), |x: &u8| {
        *x % 2 == 0
    });
    let (even, odd) = future::block_on(&rt, parted)??;
    assert_eq!(rt; even.as_slice(), [2].as_slice());
    assert_eq!(rt; odd.as_slice(), [1, 3].as_slice());
    Ok(())
}

#[test]
fn unzip_parts_each_pair(rt: HostRuntime) -> Result<(), Fail> {
    let pairs = stream::iter_array([(1u8, 2u8), (3, 4)]);
    let parted: UnzipFuture<_, Vec<u8>, Vec<u8>> = pairs.unzip(rt.alloc());
    let (firsts, seconds) = future::block_on(&rt, parted)??;
    assert_eq!(rt; firsts.as_slice(), [1, 3].as_slice());
    assert_eq!(rt; seconds.as_slice(), [2, 4].as_slice());
    Ok(())
}

#[test]
fn map_while_ends_at_the_number_that_has_none_below(rt: HostRuntime) -> Result<(), Fail> {
    let numbers = stream::iter_array([1u32, 2, 0, 3]);
    let got = answers(&rt, &mut numbers.map_while(|x: u32| x.checked_sub(1)), 5)?;
    let expected = [
        item(0),
        item(1),
        Poll::Ready(None),
        item(2),
        Poll::Ready(None),
    ];
    assert_eq!(rt; got.as_slice(), expected.as_slice());
    Ok(())
}

#[test]
fn try_collect_gives_the_first_error_or_all(rt: HostRuntime) -> Result<(), Fail> {
    let results = stream::iter_array([Ok(1u8), Err(2u8), Ok(3)]);
    let got: Result<Vec<u8>, TryCollectError<Vec<u8>, u8, u8>> = future::block_on(
        &rt,
        results.try_collect(rt.alloc()),
    )?;
    match got {
        Err(TryCollectError::Source(e)) => assert_eq!(rt; e, 2),
        Err(TryCollectError::Memory(_)) => return Err(Fail::from("no memory for an item")),
        Ok(_) => return Err(Fail::from("the error is lost")),
    }
    let results = stream::iter_array([Ok(1u8), Ok::<u8, u8>(2)]);
    let got: Result<Vec<u8>, TryCollectError<Vec<u8>, u8, u8>> = future::block_on(
        &rt,
        results.try_collect(rt.alloc()),
    )?;
    assert_eq!(rt; got?.as_slice(), [1, 2].as_slice());
    Ok(())
}

#[test]
fn collect_fills_each_collection(rt: HostRuntime) -> Result<(), Fail> {
    let pairs = stream::iter_array([(1u8, "a"), (1, "b")]);
    let map: BTreeMap<u8, &str> = future::block_on(&rt, pairs.collect(rt.alloc()))??;
    assert_eq!(rt; (map.len(), map.get(&1)), (1, Some(&"b")));
    let numbers = stream::iter_array([2u8, 1, 2]);
    let deque: VecDeque<u8> = future::block_on(&rt, numbers.collect(rt.alloc()))??;
    assert!(rt; deque.iter().copied().eq([2, 1, 2].into_iter()));
    let numbers = stream::iter_array([2u8, 1, 2]);
    let set: BTreeSet<u8> = future::block_on(&rt, numbers.collect(rt.alloc()))??;
    assert!(rt; set.iter().copied().eq([1, 2].into_iter()));
    let letters = stream::iter_array(['a', 'b']);
    let text: String = future::block_on(&rt, letters.collect(rt.alloc()))??;
    assert_eq!(rt; text.as_str(), "ab");
    Ok(())
}

#[test]
fn nth_leaves_the_stream_behind_its_item(rt: HostRuntime) -> Result<(), Fail> {
    let mut numbers = stream::iter(0u8..8);
    for expected in [Some(2), Some(5), None] {
        assert_eq!(rt; future::block_on(&rt, numbers.nth(2))?, expected);
    }
    Ok(())
}

#[test]
fn position_counts_from_where_the_stream_is(rt: HostRuntime) -> Result<(), Fail> {
    let mut numbers = stream::iter(0u8..6);
    for (wanted, expected) in [(2u8, Some(2)), (3, Some(0)), (9, None)] {
        let place = future::block_on(&rt, numbers.position(|x: u8| x == wanted))?;
        assert_eq!(rt; place, expected);
    }
    Ok(())
}
