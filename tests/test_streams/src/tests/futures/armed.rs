//! Each type that is armed is asked for it by the bound alone, and a nest over a source of wakes is parked by it.
ghost use Rattle.std.specs.Prelude.{◌≡◌, Some, refl};
ghost use Rattle.futures.specs.Task.{Lasting};
ghost use Rattle.lite_source.specs.Laws.Pending.{pending_laws};
ghost use Rattle.lite_source.specs.Pending.{GivesPendings};

use crate::tests::properties::{armed, armed_future};
use futures::task::{Doorbell, Solo, Source, Waker};
use futures_lite::future::{self, Either, Ready, YieldNow};
use futures_lite::laws::ArmedStream;
use futures_lite::{Context, FutureExt, Poll, Stream, StreamExt, stream};
use std::alloc::AllocGlobal;
use std::cell::Cell;
use std::random::RandomSource;
use std::test::Fail;
use test_support::is_woken;

/// A stream that is pending for ever, and leaves the waker of its task in a slot. Who empties the slot wakes the task.
#[derive(Drop)]
struct Listening<'a> {
    source: &'a Source,
    slot: &'a Cell<Option<Waker>>,
}

impl<'a> Stream for Listening<'a> {
    type Item = u8;

    ghost run = { GivesPendings };

    ghost registers = { λ _ fact. fact ≡ Lasting.armed };

    ghost hints = { λ x hint. hint ≡ (0, Some 0) };

    ghost laws = { pending_laws };

    fn poll_next(&mut self, cx: &mut Context<'_>) -> Poll<Option<u8>> {
        let mut slot = self.slot.take();
        let answer = cx.register(self.source, &mut slot);
        self.slot.set(slot);
        answer
    }

    fn size_hint(&self) -> (usize, Option<usize>) {
        (0, Some(0))
    }
}

impl<'a> ArmedStream for Listening<'a> {
    ghost armed = { record { at = λ x y l e h. refl } };
}

/// Whether a poll of the stream is pending, and its task is woken once the slot is emptied and not before. The task is
/// parked on what the contract of the poll says alone.
fn is_woken_through<R, S>(rt: &R, mut waited: S, slot: &Cell<Option<Waker>>) -> Result<bool, Fail>
where
    R: RandomSource + AllocGlobal,
    S: ArmedStream<Item: Drop> + Drop,
    requires { S.can_poll waited }
{
    let solo = Solo::new(rt, Doorbell::spinning())?;
    let mut cx = solo.begin();
    let is_pending = match stream::poll_armed_next(&mut waited, &mut cx) {
        Poll::Pending => {
            cx.park();
            true
        }
        Poll::Ready(_) => {
            cx.cancel();
            false
        }
    };
    let was_woken = is_woken(&solo);
    slot.set(None);
    Ok(is_pending && !was_woken && is_woken(&solo))
}

#[test]
fn a_parked_nest_is_woken_through_its_source(rt: HostRuntime) -> Result<(), Fail> {
    let source = Source::new();
    let slot = Cell::new(None);
    let mapped = listens_at(&source, &slot).map(|x: u8| x ^ 1).take(2);
    assert!(rt; is_woken_through(&rt, mapped, &slot)?);
    let behind = stream::empty::<u8>().chain(listens_at(&source, &slot));
    assert!(rt; is_woken_through(&rt, behind, &slot)?);
    let beside = stream::iter(0u8..2).zip(listens_at(&source, &slot));
    assert!(rt; is_woken_through(&rt, beside, &slot)?);
    let merged = stream::empty::<u8>().or(listens_at(&source, &slot));
    assert!(rt; is_woken_through(&rt, merged, &slot)?);
    Ok(())
}

#[test]
fn an_armed_poll_returns_what_a_poll_does(rt: HostRuntime) -> Result<(), Fail> {
    let solo = Solo::new(&rt, Doorbell::spinning())?;
    let mut numbers = stream::iter(7u8..9).with_budget(1);
    let mut yielding = future::yield_now();
    let mut cx = solo.begin();
    let item = stream::poll_armed_next(&mut numbers, &mut cx);
    let paused = stream::poll_armed_next(&mut numbers, &mut cx);
    let first = future::poll_armed(&mut yielding, &mut cx);
    let second = future::poll_armed(&mut yielding, &mut cx);
    cx.cancel();
    assert_eq!(rt; (item, paused), (Poll::Ready(Some(7)), Poll::Pending));
    assert_eq!(rt; (first, second), (Poll::Pending, Poll::Ready(())));
    Ok(())
}

#[test]
fn futures_are_armed(_rt: HostRuntime) -> Result<(), Fail> {
    armed_future(&future::ready(1u8));
    armed_future(&future::yield_now());
    armed_future(&future::zip(future::ready(1u8), future::yield_now()));
    armed_future(&future::yield_now().or(future::ready(())));
    armed_future(&future::poll_once(future::pending::<u8>()));
    armed_future(&future::race_with_seed(future::ready(1u8), future::ready(2), 7));
    let good: Result<u8, char> = Ok(1);
    let bad: Result<u16, char> = Err('a');
    armed_future(&future::try_zip(future::ready(good), future::ready(bad)));
    let either: Either<Ready<()>, YieldNow> = Either::Right(future::yield_now());
    armed_future(&either);
    armed_future(&future::yield_now().with_poll_limit(1));
    armed_future(&stream::iter(0u8..3).with_budget(1).count());
    Ok(())
}

#[test]
fn streams_are_armed(_rt: HostRuntime) -> Result<(), Fail> {
    armed(&stream::once_future(future::yield_now()));
    armed(&stream::repeat(1u8).take(2));
    armed(&stream::repeat_with(|| 1u8).enumerate());
    armed(&stream::unfold(1u8, |n: u8| future::ready(Some((n, n)))));
    armed(&stream::iter(0u8..3).then(|x: u8| future::ready(x)));
    armed(&stream::iter(0u8..3).flat_map(|x: u8| stream::once(x)));
    armed(&stream::race_with_seed(stream::iter(0u8..3), stream::once(1u8), 7));
    armed(&stream::stop_after_future(stream::iter(0u8..3), future::pending::<u8>()));
    let mut one = stream::once(1u8);
    armed(&&mut one);
    Ok(())
}

fn listens_at<'a>(source: &'a Source, slot: &'a Cell<Option<Waker>>) -> Listening<'a>
    ensures { result ≡ record { source = source.entry; slot = slot.entry } }
{
    Listening { source, slot }
}
