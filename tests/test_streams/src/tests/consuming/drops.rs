//! Which items a consuming future drops, and when: each item that it does not return is dropped with its value, and none twice.
use crate::tests::streams::guards::{Guard, guards};
use futures_lite::future::BlockOn;
use futures_lite::{Future, StreamExt, future, stream};
use std::alloc::{AllocError, AllocGlobal};
use std::cell::Cell;
use std::collections::{BTreeMap, VecDeque};
use std::random::RandomSource;
use std::sync::Wait;
use std::test::Fail;

/// How many items each stream has.
const ITEMS: usize = 5;

/// How many items are dropped once the future has its value: before the value is dropped, and behind it. All that is left of
/// the stream is dropped then.
fn dropped<R, F>(rt: &R, drops: &Cell<u8>, future: F) -> Result<(u8, u8), AllocError>
where
    R: Wait + RandomSource + AllocGlobal,
    F: Future<Output: Drop> + Drop,
    requires { F.can_poll future }
{
    drops.set(0);
    let value = BlockOn::new(rt)?.block_on(rt, future)?;
    let before = drops.get();
    drop(value);
    Ok((before, drops.get()))
}

/// The same of a future that collects. `Err` if its collection was refused memory.
fn dropped_by_collecting<R, F, C, E>(
    rt: &R,
    drops: &Cell<u8>,
    future: F,
) -> Result<(u8, u8), AllocError>
where
    R: Wait + RandomSource + AllocGlobal,
    F: Future<Output = Result<C, E>> + Drop,
    C: Drop,
    E: Drop,
    requires { F.can_poll future }
{
    drops.set(0);
    let Ok(collection) = BlockOn::new(rt)?.block_on(rt, future)? else {
        return Err(AllocError);
    };
    let before = drops.get();
    drop(collection);
    Ok((before, drops.get()))
}

#[test]
fn futures_that_take_their_stream_drop_what_they_do_not_return(
    rt: HostRuntime,
) -> Result<(), Fail> {
    let drops = Cell::new(0u8);
    let items = || guards(rt.alloc(), &drops, ITEMS);
    let counts = [
        dropped(&rt, &drops, stream::iter(items()?).count())?,
        dropped(&rt, &drops, stream::iter(items()?).last())?,
        dropped(
            &rt,
            &drops,
            stream::iter(items()?).fold(0u8, |n: u8, _x: Guard<'_>| n + 1),
        )?,
        dropped(
            &rt,
            &drops,
            stream::iter(items()?).for_each(|_x: Guard<'_>| ()),
        )?,
        dropped_by_collecting(
            &rt,
            &drops,
            stream::iter(items()?).collect::<Vec<Guard<'_>>>(rt.alloc()),
        )?,
        dropped_by_collecting(
            &rt,
            &drops,
            stream::iter(items()?).collect::<VecDeque<Guard<'_>>>(rt.alloc()),
        )?,
    ];
    let expected = [(5, 5), (4, 5), (5, 5), (5, 5), (0, 5), (0, 5)];
    assert_eq!(rt; counts.as_slice(), expected.as_slice());
    Ok(())
}

#[test]
fn futures_that_borrow_their_stream_drop_what_they_pass_over(rt: HostRuntime) -> Result<(), Fail> {
    let drops = Cell::new(0u8);
    let items = || guards(rt.alloc(), &drops, ITEMS);
    let third = |n: &Cell<u8>| {
        n.set(n.get() + 1);
        n.get() == 3
    };
    let (n, m, k, l) = (Cell::new(0), Cell::new(0), Cell::new(0), Cell::new(0));
    let (mut first, mut second, mut third_of) = (
        stream::iter(items()?),
        stream::iter(items()?),
        stream::iter(items()?),
    );
    let (mut fourth, mut fifth, mut sixth) = (
        stream::iter(items()?),
        stream::iter(items()?),
        stream::iter(items()?),
    );
    let counts = [
        dropped(&rt, &drops, first.next())?,
        dropped(&rt, &drops, second.nth(2))?,
        dropped(&rt, &drops, third_of.find(|_x: &Guard<'_>| third(&n)))?,
        dropped(&rt, &drops, fourth.position(|_x: Guard<'_>| third(&m)))?,
        dropped(&rt, &drops, fifth.any(|_x: Guard<'_>| third(&k)))?,
        dropped(&rt, &drops, sixth.all(|_x: Guard<'_>| !third(&l)))?,
    ];
    assert_eq!(rt;
        counts.as_slice(),
        [(0, 1), (2, 3), (2, 3), (3, 3), (3, 3), (3, 3)].as_slice()
    );
    Ok(())
}

#[test]
fn a_map_drops_each_value_that_it_replaces(rt: HostRuntime) -> Result<(), Fail> {
    let drops = Cell::new(0u8);
    let pairs = stream::iter(guards(rt.alloc(), &drops, ITEMS)?)
        .enumerate()
        .map(|(n, guard): (usize, Guard<'_>)| (n % 2, guard));
    let collected = pairs.collect::<BTreeMap<usize, Guard<'_>>>(rt.alloc());
    assert_eq!(rt; dropped_by_collecting(&rt, &drops, collected)?, (3, 5));
    Ok(())
}

#[test]
fn a_wait_drops_its_future(rt: HostRuntime) -> Result<(), Fail> {
    let drops = Cell::new(0u8);
    let guard = Guard { drops: &drops };
    let held = future::poll_fn(move |_cx| {
        let _held = &guard;
        futures_lite::Poll::Ready(())
    });
    assert_eq!(rt; dropped(&rt, &drops, held)?, (1, 1));
    Ok(())
}
