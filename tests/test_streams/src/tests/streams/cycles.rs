//! What `cycle` and `drain` do beyond their results: what is lent, what a refused clone leaves, and what is cloned and dropped.
ghost use Rattle.futures_lite.specs.Own.{AnyAnswers, NoHint, anything_stream};
ghost use Rattle.std.specs.Prelude.{⊤};

use super::guards::{Guard, with_drops};
use super::scarce::Scarce;
use futures_lite::stream::script;
use futures_lite::{Context, Poll, Stream, StreamExt, stream};
use std::alloc::AllocError;
use std::cell::Cell;
use std::test::Fail;
use test_support::{answers, item};

#[test]
fn drain_lends_its_stream(rt: HostRuntime) -> Result<(), Fail> {
    let mut numbers = script(vec![in rt.alloc(); item(1u8), item(2)]?);
    let mut drained = numbers.drain();
    assert_eq!(rt; drained.get_ref().size_hint(), (0, None));
    let got = answers(&rt, drained.get_mut(), 1)?;
    assert_eq!(rt; got.as_slice(), [item(1)].as_slice());
    let got = answers(&rt, drained.into_inner(), 2)?;
    assert_eq!(rt; got.as_slice(), [item(2), Poll::Ready(None)].as_slice());
    Ok(())
}

#[test]
fn a_cycle_of_nothing_ends(rt: HostRuntime) -> Result<(), Fail> {
    let Ok(round) = stream::empty::<u8>().cycle() else {
        return Err(AllocError.into());
    };
    let got = answers(&rt, &mut round.map(|x: Result<u8, AllocError>| x.ok()), 2)?;
    let expected = [Poll::Ready(None), Poll::Ready(None)];
    assert_eq!(rt; got.as_slice(), expected.as_slice());
    Ok(())
}

#[test]
fn a_cycle_whose_copy_is_refused_asks_again(rt: HostRuntime) -> Result<(), Fail> {
    let asked = Cell::new(0);
    let one = Scarce {
        number: 1,
        asked: &asked,
        refused: 1,
    };
    let Ok(round) = script(vec![in rt.alloc(); item(one)]?).cycle() else {
        return Err(AllocError.into());
    };
    let mut numbers = round.map(|copy: Result<Scarce, AllocError>| match copy {
        Ok(scarce) => Ok(scarce.number),
        Err(refused) => Err(refused),
    });
    let got = answers(&rt, &mut numbers, 3)?;
    let expected = [item(Ok(1)), item(Err(AllocError)), item(Ok(1))];
    assert_eq!(rt; got.as_slice(), expected.as_slice());
    Ok(())
}

#[test]
fn a_refused_cycle_hands_its_stream_back(rt: HostRuntime) -> Result<(), Fail> {
    let asked = Cell::new(0);
    let one = Scarce {
        number: 1,
        asked: &asked,
        refused: 0,
    };
    let Err(back) = script(vec![in rt.alloc(); item(one)]?).cycle() else {
        assert!(rt; false);
        return Ok(());
    };
    let got = answers(&rt, &mut back.map(|scarce: Scarce| scarce.number), 2)?;
    assert_eq!(rt; got.as_slice(), [item(1), Poll::Ready(None)].as_slice());
    Ok(())
}

/// A stream of two numbers that counts its clones and its drop.
#[derive(Drop)]
struct Lap<'a> {
    left: u8,
    clones: &'a Cell<u8>,
    guard: Guard<'a>,
}

impl<'a> Clone for Lap<'a> {
    ghost is_clone = { λ _ _. ⊤ };

    fn clone(&self) -> Result<Lap<'a>, AllocError> {
        self.clones.set(self.clones.get().wrapping_add(1));
        Ok(Lap {
            left: self.left,
            clones: self.clones,
            guard: Guard {
                drops: self.guard.drops,
            },
        })
    }
}

impl Stream for Lap<'_> {
    type Item = u8;

    ghost run = { AnyAnswers };

    ghost hints = { NoHint };

    ghost laws = { anything_stream };

    fn poll_next(&mut self, _cx: &mut Context<'_>) -> Poll<Option<u8>> {
        if self.left == 0 {
            return Poll::Ready(None);
        }
        self.left -= 1;
        Poll::Ready(Some(self.left))
    }

    fn size_hint(&self) -> (usize, Option<usize>) {
        (0, None)
    }
}

#[test]
fn a_cycle_makes_one_clone_a_lap_and_drops_each_once(rt: HostRuntime) -> Result<(), Fail> {
    let (clones, drops) = (Cell::new(0u8), Cell::new(0u8));
    let first = Lap {
        left: 2,
        clones: &clones,
        guard: Guard { drops: &drops },
    };
    let Ok(mut round) = first.cycle() else {
        return Err(AllocError.into());
    };
    assert_eq!(rt; clones.get(), 1);
    let got = with_drops(&rt, &drops, &mut round, 5)?;
    let expected = [
        (item(Ok(1)), 0),
        (item(Ok(0)), 0),
        (item(Ok(1)), 1),
        (item(Ok(0)), 1),
        (item(Ok(1)), 2),
    ];
    assert_eq!(rt; got.as_slice(), expected.as_slice());
    assert_eq!(rt; clones.get(), 3);
    drop(round);
    assert_eq!(rt; drops.get(), 4);
    Ok(())
}
