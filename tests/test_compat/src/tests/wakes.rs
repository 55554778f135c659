//! Which wakes come, and how often what is wrapped is polled.
use compat::{CompatExt, wait_from_kit};
use futures::channel::oneshot;
use futures::executor::LocalPool;
use futures::future::join;
use futures::task::Poll;
use futures::test::MockTask;
use futures_lite::future::BlockOn;
use futures_lite::{Future, future};
use std::alloc::AllocError;
use std::test::Fail;
use std::thread;

// A future of the toolchain wakes the thread that waits here, from another thread.
#[test]
fn a_wait_is_woken_from_another_thread(rt: HostRuntime) -> Result<(), Fail> {
    let (sender, receiver) = oneshot::channel::<u8>(rt.alloc())?;
    let sending = thread::spawn(&rt, move || sender.send(7).is_ok())?;
    let mut on = BlockOn::new(&rt)?;
    assert_eq!(rt; wait_from_kit(&mut on, &rt, receiver)?.ok(), Some(7));
    assert!(rt; sending.join(&rt));
    Ok(())
}

// What is wrapped can be sent to another thread, as tokio's runtime of threads asks.
#[test]
fn what_is_wrapped_is_sent_to_another_thread(rt: HostRuntime) -> Result<(), Fail> {
    let (sender, receiver) = oneshot::channel::<u8>(rt.alloc())?;
    let wrapped = future::zip(receiver.compat(), future::ready(1u8)).compat();
    let moving = thread::spawn(&rt, move || wrapped)?;
    let wrapped = moving.join(&rt);
    assert!(rt; sender.send(7).is_ok());
    let mut on = BlockOn::new(&rt)?;
    let (got, one) = wait_from_kit(&mut on, &rt, wrapped)?;
    assert_eq!(rt; (got.ok(), one), (Some(7), 1));
    Ok(())
}

// A `Pending` in either direction wakes nothing by itself; the sender does.
#[test]
fn a_pending_wakes_nothing(rt: HostRuntime) -> Result<(), Fail> {
    let (sender, receiver) = oneshot::channel::<u8>(rt.alloc())?;
    let task = MockTask::new(&rt)?;
    let mut here = receiver.compat();
    assert!(rt; task.enter(|cx| here.poll(cx)).is_pending());
    assert!(rt; !task.is_woken());
    let mut there = here.compat();
    assert!(rt; task.poll(&mut there).is_pending());
    assert!(rt; !task.is_woken());
    assert!(rt; sender.send(7).is_ok());
    assert!(rt; task.is_woken());
    assert!(rt; matches!(task.poll(&mut there), Poll::Ready(Ok(7))));
    Ok(())
}

#[test]
fn a_yield_wakes_the_task_of_the_toolchain(rt: HostRuntime) -> Result<(), Fail> {
    let task = MockTask::new(&rt)?;
    let mut there = future::yield_now().compat();
    assert!(rt; task.poll(&mut there).is_pending());
    assert!(rt; task.is_woken());
    assert!(rt; task.poll(&mut there).is_ready());
    Ok(())
}

// How often a task is polled that joins two futures, one of them behind `Compat` twice.
#[test]
fn polls_of_a_join(rt: HostRuntime) -> Result<(), Fail> {
    for is_wrapped in [false, true] {
        let (first, got_first) = oneshot::channel::<u8>(rt.alloc())?;
        let (last, got_last) = oneshot::channel::<u8>(rt.alloc())?;
        let mut polls = 0u32;
        let mut rest = got_last;
        let counting = futures::future::poll_fn(|cx| {
            polls = polls.wrapping_add(1);
            futures::Future::poll(&mut rest, cx)
        });
        let mut turn = 0u32;
        let (mut first, mut last) = (Some(first), Some(last));
        let sending = futures::future::poll_fn(move |cx| {
            turn = turn.wrapping_add(1);
            if turn == 1000
                && let Some(first) = first.take()
            {
                let _ = first.send(1);
            }
            if turn == 3000 {
                if let Some(last) = last.take() {
                    let _ = last.send(2);
                }
                return Poll::Ready(());
            }
            cx.yield_now::<()>()
        });
        let mut pool = LocalPool::new(&rt)?;
        let spawner = pool.spawner()?;
        if spawner.spawn(sending).is_err() {
            return Err(AllocError.into());
        }
        if is_wrapped {
            let _ = pool.run_until(&rt, join(got_first.compat().compat(), counting))?;
        } else {
            let _ = pool.run_until(&rt, join(got_first, counting))?;
        }
        // The waker that is dropped with what is wrapped wakes the task once more.
        assert_eq!(rt; polls, 3 + u32::from(is_wrapped));
    }
    Ok(())
}
