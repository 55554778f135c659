ghost use Rattle.std.specs.Prelude.{IfSome};
ghost use Rattle.futures_lite.specs.Own.{AnyValue, anything_future};

use super::counting::Counting;
use futures::task::{Doorbell, Solo};
use futures_lite::future::{self, BlockOn, Fuse, Future};
use futures_lite::{Context, Poll};
use std::alloc::AllocGlobal;
use std::io;
use std::random::RandomSource;
use std::sync::atomic::AtomicU64;
use std::sync::atomic::Ordering::SeqCst;
use std::test::Fail;
use test_support::polled;

/// A fused future may be polled after its value too.
fn poll_fused<F: Future + Drop>(solo: &Solo, fuse: &mut Fuse<F>) -> Poll<F::Output>
    requires { IfSome fuse.old.inner F.can_poll }
    ensures { IfSome fuse.new.inner F.can_poll }
{
    let mut cx = solo.begin();
    let answer = fuse.poll(&mut cx);
    cx.cancel();
    answer
}

#[test]
fn clones_of_futures_give_the_same(rt: HostRuntime) -> Result<(), Fail> {
    let mut copy = future::ready(7u8).clone()?;
    let got = polled(&rt, &mut copy, 1)?;
    assert_eq!(rt; got.as_slice(), [Poll::Ready(7)].as_slice());
    let mut other = future::pending::<u8>().clone()?;
    let got = polled(&rt, &mut other, 1)?;
    assert_eq!(rt; got.as_slice(), [Poll::Pending].as_slice());
    Ok(())
}

#[test]
fn zip_polls_each_future_up_to_its_value(rt: HostRuntime) -> Result<(), Fail> {
    let mut list = vec![in rt.alloc(); Poll::Ready(1u8), Poll::Pending]?;
    let first = future::poll_fn(|_cx: &mut Context<'_>| match list.pop() {
        Some(answer) => answer,
        None => Poll::Pending,
    });
    let polls = AtomicU64::new(0);
    let second = future::poll_fn(|_cx: &mut Context<'_>| {
        polls.fetch_add(1, SeqCst);
        Poll::Ready(2u8)
    });
    let got = polled(&rt, &mut future::zip(first, second), 2)?;
    let expected = [Poll::Pending, Poll::Ready((1, 2))];
    assert_eq!(rt; got.as_slice(), expected.as_slice());
    assert_eq!(rt; polls.load(SeqCst), 1);
    Ok(())
}

#[test]
fn zip_and_try_zip_poll_the_first_before_the_second(rt: HostRuntime) -> Result<(), Fail> {
    let polls = AtomicU64::new(0);
    let first = future::poll_fn(|_cx: &mut Context<'_>| Poll::Ready(polls.fetch_add(1, SeqCst)));
    let second = future::poll_fn(|_cx: &mut Context<'_>| Poll::Ready(polls.fetch_add(1, SeqCst)));
    let got = polled(&rt, &mut future::zip(first, second), 1)?;
    assert_eq!(rt; got.as_slice(), [Poll::Ready((0, 1))].as_slice());
    let first = future::poll_fn(|_cx: &mut Context<'_>| Poll::Ready(Ok(polls.fetch_add(
        1, SeqCst,
    ))));
    let second = future::poll_fn(|_cx: &mut Context<'_>| Poll::Ready(Ok(polls.fetch_add(
        1, SeqCst,
    ))));
    let got: Vec<Poll<Result<(u64, u64), u8>>> = polled(
        &rt,
        &mut future::try_zip(first, second),
        1,
    )?;
    assert_eq!(rt; got.as_slice(), [Poll::Ready(Ok((2, 3)))].as_slice());
    Ok(())
}

#[test]
fn try_zip_polls_no_second_after_an_error(rt: HostRuntime) -> Result<(), Fail> {
    let polls = AtomicU64::new(0);
    let second = future::poll_fn(|_cx: &mut Context<'_>| {
        polls.fetch_add(1, SeqCst);
        Poll::Ready(Err(2))
    });
    let first = future::ready(Err(1));
    let got: Vec<Poll<Result<(u8, u8), u8>>> = polled(&rt, &mut future::try_zip(first, second), 2)?;
    assert_eq!(rt; got.as_slice(), [Poll::Ready(Err(1))].as_slice());
    assert_eq!(rt; polls.load(SeqCst), 0);
    Ok(())
}

#[test]
fn a_seeded_race_gives_the_one_value(rt: HostRuntime) -> Result<(), Fail> {
    let mut first = future::race_with_seed(future::ready(1u8), future::pending(), 0x42);
    assert_eq!(rt;
        polled(&rt, &mut first, 1)?.as_slice(),
        [Poll::Ready(1)].as_slice()
    );
    let mut second = future::race_with_seed(future::pending(), future::ready(2u8), 0x42);
    assert_eq!(rt;
        polled(&rt, &mut second, 1)?.as_slice(),
        [Poll::Ready(2)].as_slice()
    );
    Ok(())
}

#[test]
fn the_lowest_bit_of_a_word_says_which_of_a_race_is_first(rt: HostRuntime) -> Result<(), Fail> {
    for word in 1..3u32 {
        let mut race = future::race(
            future::ready(1u8),
            future::ready(2u8),
            Counting { next: word },
        );
        let expected = if word == 1 { 1 } else { 2 };
        assert_eq!(rt;
            polled(&rt, &mut race, 1)?.as_slice(),
            [Poll::Ready(expected)].as_slice()
        );
    }
    Ok(())
}

/// Counts its drop.
struct Guard<'a> {
    drops: &'a AtomicU64,
}

impl Drop for Guard<'_> {
    fn drop(self) {
        let Guard { drops } = self;
        drops.fetch_add(1, SeqCst);
    }
}

#[test]
fn fuse_lets_its_future_go_with_its_value(rt: HostRuntime) -> Result<(), Fail> {
    let solo = Solo::new(&rt, Doorbell::spinning())?;
    let drops = AtomicU64::new(0);
    let guard = Guard { drops: &drops };
    let mut fuse = future::fuse(future::poll_fn(move |_cx: &mut Context<'_>| {
        let _held = &guard;
        Poll::Ready(())
    }));
    assert_eq!(rt; drops.load(SeqCst), 0);
    assert_eq!(rt; poll_fused(&solo, &mut fuse), Poll::Ready(()));
    assert_eq!(rt; drops.load(SeqCst), 1);
    assert_eq!(rt; poll_fused(&solo, &mut fuse), Poll::Pending);
    assert_eq!(rt; drops.load(SeqCst), 1);
    Ok(())
}

/// A future that is ready at once, and counts its drop.
#[derive(Drop)]
struct Guarded<'a, T: Copy> {
    value: T,
    _guard: Guard<'a>,
}

impl<T: Copy> Future for Guarded<'_, T> {
    type Output = T;

    ghost run = { AnyValue };

    ghost laws = { anything_future };

    fn poll(&mut self, _cx: &mut Context<'_>) -> Poll<T> {
        Poll::Ready(self.value)
    }
}

fn make_guarded<T: Copy>(drops: &AtomicU64, value: T) -> Guarded<'_, T> {
    Guarded {
        value,
        _guard: Guard { drops },
    }
}

/// How many drops there were after one poll of the future, which is still there.
fn dropped<R, F>(rt: &R, drops: &AtomicU64, mut future: F) -> io::Result<u64>
where
    R: RandomSource + AllocGlobal,
    F: Future<Output: Drop> + Drop,
    requires { F.can_poll future }
{
    drops.store(0, SeqCst);
    let _answer = polled(rt, &mut future, 1)?;
    Ok(drops.load(SeqCst))
}

#[test]
fn zip_and_try_zip_let_each_future_go_with_its_value(rt: HostRuntime) -> Result<(), Fail> {
    let drops = AtomicU64::new(0);
    let never = future::pending::<Result<u8, u8>>;
    let ready = || make_guarded(&drops, Ok::<u8, u8>(7));
    let counts = [
        dropped(&rt, &drops, future::zip(ready(), never()))?,
        dropped(&rt, &drops, future::zip(never(), ready()))?,
        dropped(&rt, &drops, future::try_zip(ready(), never()))?,
        dropped(&rt, &drops, future::try_zip(never(), ready()))?,
    ];
    assert_eq!(rt; counts, [1, 1, 1, 1]);
    Ok(())
}

#[test]
fn a_future_shows_what_it_holds(rt: HostRuntime) -> Result<(), Fail> {
    let both = future::or(future::ready(1u8), future::ready(2u8));
    let shown = format!(in rt.alloc(); "{both:?}")?;
    assert_eq!(rt;
        shown.as_str(),
        "Or { future1: Ready { value: Some(1) }, future2: Ready { value: Some(2) } }"
    );
    let shown = format!(in rt.alloc(); "{:?}", future::yield_now())?;
    assert_eq!(rt; shown.as_str(), "YieldNow { yielded: false }");
    let never = future::poll_fn(|_cx: &mut Context<'_>| Poll::<u8>::Pending);
    let shown = format!(in rt.alloc(); "{never:?}")?;
    assert_eq!(rt; shown.as_str(), "PollFn");
    let shown = format!(in rt.alloc(); "{:?}", future::poll_once(never))?;
    assert_eq!(rt; shown.as_str(), "PollOnce");
    let shown = format!(in rt.alloc(); "{:?}", BlockOn::new(&rt)?)?;
    assert_eq!(rt; shown.as_str(), "BlockOn { .. }");
    let shown = format!(in rt.alloc(); "{:?}", BlockOn::new(&rt)?.waits())?;
    assert_eq!(rt; shown.as_str(), "Waits { .. }");
    Ok(())
}
