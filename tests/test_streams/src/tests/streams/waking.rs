//! Adapters of references wake no task by themselves. No case can write a reference.
use futures::task::{Doorbell, Solo, Source};
use futures_lite::{Context, Poll, Stream, StreamExt, stream};
use std::alloc::AllocGlobal;
use std::random::RandomSource;
use std::test::Fail;
use test_support::{is_woken, item};

/// Whether the next poll of the stream is pending, and wakes nothing.
fn waits_asleep<R, S>(rt: &R, stream: &mut S) -> Result<bool, Fail>
where
    R: RandomSource + AllocGlobal,
    S: Stream<Item: Drop>,
    requires { S.can_poll stream.old }
{
    let solo = Solo::new(rt, Doorbell::spinning())?;
    let source = Source::new();
    let mut slot = None;
    let mut cx = solo.begin();
    let is_pending = stream.poll_next(&mut cx).is_pending();
    let _: Poll<()> = cx.register(&source, &mut slot);
    cx.park();
    Ok(is_pending && !is_woken(&solo))
}

#[test]
fn a_pending_copy_wakes_nothing(rt: HostRuntime) -> Result<(), Fail> {
    assert!(rt; waits_asleep(&rt, &mut stream::pending::<&u8>().copied())?);
    assert!(rt; waits_asleep(&rt, &mut stream::pending::<&u8>().cloned())?);
    let list = vec![in rt.alloc(); Poll::Pending, item(&7u8), Poll::Pending]?;
    assert!(rt; waits_asleep(&rt, &mut stream::script(list).copied())?);
    let list = vec![in rt.alloc(); Poll::Pending, item(&7u8), Poll::Pending]?;
    assert!(rt; waits_asleep(&rt, &mut stream::script(list).cloned())?);
    Ok(())
}

#[test]
fn a_waking_stream_is_seen(rt: HostRuntime) -> Result<(), Fail> {
    let mut waking = stream::poll_fn(|cx: &mut Context<'_>| cx.yield_now::<Option<&u8>>()).copied();
    assert!(rt; !waits_asleep(&rt, &mut waking)?);
    Ok(())
}
