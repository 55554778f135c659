use bumpalo::Bump;
use futures_lite::stream::{Refused, TryCollectError, UnzipRefused};
use futures_lite::{Poll, StreamExt, stream};
use std::alloc::Global;
use std::collections::{BTreeMap, BTreeSet, VecDeque};
use std::test::Fail;
use test_support::{item, polled};
use theorems_at_types::{Few, Room, Tall, gather_all};

#[test]
fn collect_hands_back_the_item_that_was_refused(rt: HostRuntime) -> Result<(), Fail> {
    let bump = Bump::new(rt.alloc());
    bump.set_allocation_limit(Some(0));
    let mut numbers = stream::iter(1u8..4);
    let mut got: Vec<Poll<Result<Vec<u8, &Bump<Global>>, Refused<Vec<u8, &Bump<Global>>, u8>>>> =
        polled(&rt, &mut (&mut numbers).collect(&bump), 1)?;
    match got.pop() {
        Some(Poll::Ready(Err(refused))) => {
            assert_eq!(rt; refused.collected.len(), 0);
            assert_eq!(rt; refused.item, 1);
        }
        _ => return Err(Fail::from("it was not refused")),
    }
    let got = polled(&rt, &mut numbers.next(), 1)?;
    assert_eq!(rt; got.as_slice(), [Poll::Ready(Some(2))].as_slice());
    Ok(())
}

/// Room for so many items.
fn room_for(rt: HostRuntime, items: usize) -> Room {
    Room {
        alloc: rt.alloc(),
        items,
    }
}

/// A collection with room for one item, which holds this one.
fn full(rt: HostRuntime, item: u8) -> Result<Few<u8>, Fail> {
    let items = vec![in rt.alloc(); item]?;
    Ok(Few { items, room: 1 })
}

#[test]
fn collect_fills_a_collection_of_a_users_own(rt: HostRuntime) -> Result<(), Fail> {
    let two = room_for(rt, 2);
    let mut numbers = stream::iter(1u8..5);
    let got: Vec<Poll<Result<Few<u8>, Refused<Few<u8>, u8>>>> = polled(
        &rt,
        &mut (&mut numbers).collect(two),
        1,
    )?;
    let items = vec![in rt.alloc(); 1u8, 2]?;
    let collected = Few { items, room: 2 };
    let expected = [Poll::Ready(Err(Refused { collected, item: 3 }))];
    assert_eq!(rt; got.as_slice(), expected.as_slice());
    let got: Vec<Poll<Result<Few<u8>, Refused<Few<u8>, u8>>>> = polled(
        &rt,
        &mut numbers.collect(two),
        1,
    )?;
    let items = vec![in rt.alloc(); 4u8]?;
    let collected = Few { items, room: 2 };
    assert_eq!(rt; got.as_slice(), [Poll::Ready(Ok(collected))].as_slice());
    Ok(())
}

/// The collection that has taken all items in.
fn whole<C, T: Drop>(gathered: Result<C, T>) -> Result<C, Fail> {
    match gathered {
        Ok(collection) => Ok(collection),
        Err(_) => Err(Fail::from("no memory for an item")),
    }
}

#[test]
fn each_collection_takes_items_in_by_its_own_rule(rt: HostRuntime) -> Result<(), Fail> {
    let deque: VecDeque<u8> = whole(gather_all(rt.alloc(), vec![in rt.alloc(); 2u8, 1, 2]?))?;
    let mut expected = VecDeque::new(rt.alloc());
    for x in [2u8, 1, 2] {
        expected.push_back(x)?;
    }
    assert_eq!(rt; deque, expected);
    let list: Vec<u8> = whole(gather_all(rt.alloc(), vec![in rt.alloc(); 2u8, 1, 2]?))?;
    assert_eq!(rt; list, vec![in rt.alloc(); 2u8, 1, 2]?);
    let text: String = whole(gather_all(rt.alloc(), vec![in rt.alloc(); 'a', 'b', 'ä']?))?;
    assert_eq!(rt; text.as_str(), "abä");
    let map: BTreeMap<u8, &str> = whole(gather_all(
        rt.alloc(),
        vec![in rt.alloc(); (1u8, "a"), (1, "b")]?,
    ))?;
    let mut expected = BTreeMap::new(rt.alloc());
    expected.insert(1u8, "b")?;
    assert_eq!(rt; map, expected);
    let set: BTreeSet<u8> = whole(gather_all(rt.alloc(), vec![in rt.alloc(); 2u8, 1, 2]?))?;
    let mut expected = BTreeSet::new(rt.alloc());
    for x in [1u8, 2] {
        expected.insert(x)?;
    }
    assert_eq!(rt; set, expected);
    Ok(())
}

#[test]
fn try_collect_hands_back_what_was_refused(rt: HostRuntime) -> Result<(), Fail> {
    let list = vec![in rt.alloc(); item(Ok(1u8)), item(Ok(2)), item(Err(9u8))]?;
    let results = stream::script(list);
    let got: Vec<Poll<Result<Few<u8>, TryCollectError<Few<u8>, u8, u8>>>> = polled(
        &rt,
        &mut results.try_collect(room_for(rt, 1)),
        1,
    )?;
    let collected = full(rt, 1)?;
    let refused = TryCollectError::Memory(Refused { collected, item: 2 });
    assert_eq!(rt; got.as_slice(), [Poll::Ready(Err(refused))].as_slice());
    Ok(())
}

type Parts = (Few<u8>, Few<u8>);

/// What is answered of 1 to 4 where each part has room for one, and those that are as odd as `left` go to the first.
fn partitioned(
    rt: HostRuntime,
    left: u8,
) -> Result<Vec<Poll<Result<Parts, Refused<Parts, u8>>>>, Fail> {
    let mut sorted = stream::iter(1u8..5).partition(
        room_for(rt, 1),
        move |x: &u8| *x % 2 == left % 2,
    );
    Ok(polled(&rt, &mut sorted, 1)?)
}

/// That 3 was refused, with one item in each part.
fn refuses_three(rt: HostRuntime, left: u8, right: u8) -> Result<Refused<Parts, u8>, Fail> {
    Ok(Refused {
        collected: (full(rt, left)?, full(rt, right)?),
        item: 3,
    })
}

#[test]
fn partition_hands_back_what_was_refused(rt: HostRuntime) -> Result<(), Fail> {
    let got = partitioned(rt, 2)?;
    assert_eq!(rt;
        got.as_slice(),
        [Poll::Ready(Err(refuses_three(rt, 2, 1)?))].as_slice()
    );
    Ok(())
}

#[test]
fn partition_hands_back_what_was_refused_to_the_first(rt: HostRuntime) -> Result<(), Fail> {
    let got = partitioned(rt, 1)?;
    assert_eq!(rt;
        got.as_slice(),
        [Poll::Ready(Err(refuses_three(rt, 1, 2)?))].as_slice()
    );
    Ok(())
}

#[test]
fn unzip_hands_back_a_later_pair_whose_first_part_was_refused(rt: HostRuntime) -> Result<(), Fail> {
    let pairs = stream::iter([(1u8, 2u8), (3, 4)].into_iter());
    let mut parts: stream::UnzipFuture<_, Few<u8>, Tall<u8>> = pairs.unzip(room_for(rt, 1));
    let got = polled(&rt, &mut parts, 1)?;
    let items = vec![in rt.alloc(); 2u8]?;
    let refused = UnzipRefused::Left {
        collected: (full(rt, 1)?, Tall { items }),
        item: (3, 4),
    };
    assert_eq!(rt; got.as_slice(), [Poll::Ready(Err(refused))].as_slice());
    Ok(())
}

#[test]
fn unzip_hands_back_what_was_refused(rt: HostRuntime) -> Result<(), Fail> {
    let bump = Bump::new(rt.alloc());
    bump.set_allocation_limit(Some(0));
    let mut parts: stream::UnzipFuture<_, Vec<u8, &Bump<Global>>, Vec<u8, &Bump<Global>>> =
        stream::once((1u8, 2u8)).unzip(&bump);
    let mut got = polled(&rt, &mut parts, 1)?;
    match got.pop() {
        Some(Poll::Ready(Err(UnzipRefused::Left { collected, item }))) => {
            assert_eq!(rt; (collected.0.len(), collected.1.len()), (0, 0));
            assert_eq!(rt; item, (1, 2));
        }
        _ => return Err(Fail::from("the first part was not refused")),
    }
    Ok(())
}

/// The value of `unzip` into two vectors of an arena.
type Unzipped<'a> = Result<
    (Vec<u8, &'a Bump<Global>>, Vec<u8, &'a Bump<Global>>),
    UnzipRefused<Vec<u8, &'a Bump<Global>>, Vec<u8, &'a Bump<Global>>, u8, u8>,
>;

/// How many of the two vectors found memory for their part of (1, 2). `None`: something is lost or changed.
fn grown(answer: Option<Poll<Unzipped<'_>>>) -> Option<usize> {
    match answer {
        Some(Poll::Ready(Ok((left, right))))
            if left.as_slice() == [1].as_slice() && right.as_slice() == [2].as_slice() => Some(2),
        Some(Poll::Ready(Err(UnzipRefused::Right { collected, item })))
            if collected.0.as_slice() == [1].as_slice() && collected.1.is_empty() && item == 2 => {
            Some(1)
        }
        Some(Poll::Ready(Err(UnzipRefused::Left { collected, item })))
            if collected.0.is_empty() && collected.1.is_empty() && item == (1, 2) => { Some(0) }
        _ => None,
    }
}

#[test]
fn unzip_of_two_vectors_keeps_the_first_part_of_a_pair(rt: HostRuntime) -> Result<(), Fail> {
    let mut is_met = [false; 3];
    // Each round leaves less memory for the two vectors.
    for filled in 0..17usize {
        let bump = Bump::new(rt.alloc());
        bump.set_allocation_limit(Some(64));
        let held = vec![in rt.alloc(); 0u8; 4 * filled]?;
        if bump.try_alloc_slice_copy(held.as_slice()).is_err() {
            continue;
        }
        let mut parts: stream::UnzipFuture<_, Vec<u8, &Bump<Global>>, Vec<u8, &Bump<Global>>> =
            stream::once((1u8, 2u8)).unzip(&bump);
        let answer = polled(&rt, &mut parts, 1)?.pop();
        let Some(growths) = grown(answer) else {
            return Err(Fail::from("neither taken nor refused memory"));
        };
        is_met[growths] = true;
    }
    // In some round memory was refused to the second vector alone, and in some to neither.
    if is_met[1] && is_met[2] {
        Ok(())
    } else {
        Err(Fail::from("no such round: other memory was refused"))
    }
}

#[test]
fn unzip_keeps_the_first_part_where_the_second_is_refused(rt: HostRuntime) -> Result<(), Fail> {
    let pairs = stream::iter([(1u8, 2u8), (3, 4)].into_iter());
    let mut parts: stream::UnzipFuture<_, Tall<u8>, Few<u8>> = pairs.unzip(room_for(rt, 1));
    let got = polled(&rt, &mut parts, 1)?;
    let items = vec![in rt.alloc(); 1u8, 3]?;
    let refused = UnzipRefused::Right {
        collected: (Tall { items }, full(rt, 2)?),
        item: 4,
    };
    assert_eq!(rt; got.as_slice(), [Poll::Ready(Err(refused))].as_slice());
    Ok(())
}
