//! A wake through either of two streams that are both pending.
ghost use Rattle.std.specs.Prelude.{◌≡◌, Some};
ghost use Rattle.lite_source.specs.Laws.Pending.{pending_laws};
ghost use Rattle.lite_source.specs.Pending.{GivesPendings};

use super::always::Always;
use futures::task::{Doorbell, Solo, Source, Waker};
use futures_lite::{Context, Poll, Stream, StreamExt};
use std::alloc::AllocGlobal;
use std::cell::Cell;
use std::random::RandomSource;
use std::test::Fail;
use test_support::is_woken;

/// A stream that is pending for ever, and leaves the waker of its task in a slot. Who empties the slot wakes the task.
#[derive(Drop)]
struct Waiting<'a> {
    source: &'a Source,
    slot: &'a Cell<Option<Waker>>,
}

impl<'a> Stream for Waiting<'a> {
    type Item = u8;

    ghost run = { GivesPendings };

    ghost hints = { λ x hint. hint ≡ (0, Some 0) };

    ghost laws = { pending_laws };

    fn poll_next(&mut self, cx: &mut Context<'_>) -> Poll<Option<u8>> {
        let mut slot = self.slot.take();
        let answer = cx.register(self.source, &mut slot);
        self.slot.set(slot);
        answer
    }

    fn size_hint(&self) -> (usize, Option<usize>) {
        (0, Some(0))
    }
}

/// Whether a poll of the stream is pending, and its task is woken once the slot is emptied and not before.
fn is_woken_through<R, S>(rt: &R, mut stream: S, slot: &Cell<Option<Waker>>) -> Result<bool, Fail>
where
    R: RandomSource + AllocGlobal,
    S: Stream<Item: Drop> + Drop,
    requires { S.can_poll stream }
{
    let solo = Solo::new(rt, Doorbell::spinning())?;
    let source = Source::new();
    let mut own = None;
    let mut cx = solo.begin();
    let is_pending = stream.poll_next(&mut cx).is_pending();
    let _: Poll<()> = cx.register(&source, &mut own);
    cx.park();
    let was_woken = is_woken(&solo);
    slot.set(None);
    Ok(is_pending && !was_woken && is_woken(&solo))
}

#[test]
fn each_of_two_streams_wakes_the_task(rt: HostRuntime) -> Result<(), Fail> {
    let source = Source::new();
    for woken in 0..2usize {
        let slots = [Cell::new(None), Cell::new(None)];
        let [first, second] = &slots;
        let or = waits_at(&source, first).or(waits_at(&source, second));
        assert!(rt; is_woken_through(&rt, or, &slots[woken])?);
        for word in 0..2u32 {
            let slots = [Cell::new(None), Cell::new(None)];
            let [first, second] = &slots;
            let race = waits_at(&source, first).race(waits_at(&source, second), Always { word });
            assert!(rt; is_woken_through(&rt, race, &slots[woken])?);
        }
    }
    Ok(())
}

fn waits_at<'a>(source: &'a Source, slot: &'a Cell<Option<Waker>>) -> Waiting<'a>
    ensures { result ≡ record { source = source.entry; slot = slot.entry } }
{
    Waiting { source, slot }
}
