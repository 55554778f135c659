//! Futures of this library in executors and combinators of the toolchain.
use super::error_of;
use compat::CompatExt;
use futures::StreamExt as _;
use futures::channel::{mpsc, oneshot};
use futures::executor::{LocalPool, block_on as block_on_there};
use futures::future::{Either, join_all, select};
use futures::stream::FuturesUnordered;
use futures_lite::{StreamExt, future, stream};
use std::alloc::AllocError;
use std::sync::Arc;
use std::sync::atomic::{AtomicU64, Ordering};
use std::test::Fail;

// Three tasks of this library in one pool pass a number round, each by a channel.
#[test]
fn tasks_wake_each_other(rt: HostRuntime) -> Result<(), Fail> {
    let alloc = rt.alloc();
    let steps = Arc::new(alloc, AtomicU64::new(0))?;
    let (first, mut input) = mpsc::unbounded::<u64>(alloc)?;
    let start = first.clone()?;
    let mut ends = Vec::new(alloc);
    for _ in 0..2u8 {
        let (output, next) = mpsc::unbounded::<u64>(alloc)?;
        ends.push((input, output))?;
        input = next;
    }
    ends.push((input, first))?;
    let mut pool = LocalPool::new(&rt)?;
    let spawner = pool.spawner()?;
    for (input, output) in ends {
        let steps = Arc::try_clone(&steps)?;
        let task = input
            .compat()
            .take_while(|n: &u64| *n < 300)
            .map(|n: u64| n + 1)
            .with_budget(8)
            .for_each(move |n: u64| {
                let _ = steps.fetch_add(1, Ordering::SeqCst);
                // A number that is not sent ends the next task, and so each behind it.
                if output.unbounded_send(n).is_err() {
                    output.close_channel();
                }
            });
        if spawner.spawn(task.compat()).is_err() {
            return Err(AllocError.into());
        }
    }
    assert_eq!(rt; error_of(alloc, &start.unbounded_send(0))?.as_str(), "");
    drop(start);
    drop(spawner);
    pool.run(&rt);
    // (a number that could not be sent ends them)
    if steps.load(Ordering::SeqCst) != 300 {
        return Err(AllocError.into());
    }
    Ok(())
}

#[test]
fn a_set_of_the_toolchain_runs_futures_of_this_library(rt: HostRuntime) -> Result<(), Fail> {
    let mut sums = FuturesUnordered::new(rt.alloc())?;
    for n in 1..=4u64 {
        let sum = stream::iter(0..n).fold(0u64, |sum: u64, x: u64| sum.wrapping_add(x));
        if sums.push(sum.compat()).is_err() {
            return Err(AllocError.into());
        }
    }
    let sorted = sums.compat().with_budget(2).collect::<Vec<u64>>(rt.alloc());
    let mut sorted = future::block_on(&rt, sorted)?.map_err(|_| AllocError)?;
    sorted.sort()?;
    assert_eq!(rt; sorted.as_slice(), [0, 1, 3, 6].as_slice());
    Ok(())
}

#[test]
fn join_all_and_select_take_futures_of_this_library(rt: HostRuntime) -> Result<(), Fail> {
    let mut all = Vec::new(rt.alloc());
    for n in 0..3u8 {
        all.push(future::zip(future::ready(n), future::yield_now()).compat())?;
    }
    let all = block_on_there(&rt, join_all(rt.alloc(), all)?)??;
    assert_eq!(rt; all.as_slice(), [(0, ()), (1, ()), (2, ())].as_slice());

    let never = future::pending::<u8>();
    let first = block_on_there(&rt, select(never.compat(), future::ready(7u8).compat()))?;
    assert!(rt; matches!(first, Either::Right((7, _))));
    Ok(())
}

#[test]
fn or_waits_for_a_task_of_the_toolchain(rt: HostRuntime) -> Result<(), Fail> {
    let (sender, receiver) = oneshot::channel::<u8>(rt.alloc())?;
    let waiting = future::or(receiver.compat(), future::pending());
    let answering = futures::future::lazy(move |_| sender.send(7).is_ok());
    let both = futures::future::join(waiting.compat(), answering);
    let (got, sent) = block_on_there(&rt, both)?;
    assert_eq!(rt; got.ok(), Some(7));
    assert!(rt; sent);
    Ok(())
}
