//! What no clause says: which tasks are polled, and that one that was woken is polled again.
use example_executor::executor::run;
use example_executor::fault::RunError;
use example_executor::outcomes::run_each;
use example_executor::task::Task;
use futures_lite::future::{self, Either};
use futures_lite::{StreamExt, stream};
use std::io;
use std::test::Fail;

#[test]
fn a_task_that_was_woken_is_polled_again(rt: HostRuntime) -> Result<(), Fail> {
    let numbers = stream::iter_vec(vec![in rt.alloc(); 1u8, 2, 3, 4]?);
    let sum = numbers
        .with_budget(1)
        .fold(0u8, |sum: u8, x: u8| sum.wrapping_add(x));
    let futures = vec![in rt.alloc(); Either::Right(sum), Either::Left(future::ready(7u8))]?;
    let outcomes = run_each(&rt, futures, 10).map_err(io::Error::from)?;
    assert_eq!(rt; outcomes.as_slice(), [Ok(10u8), Ok(7)].as_slice());
    Ok(())
}

#[test]
fn each_task_is_polled_though_fewer_values_are_wanted(rt: HostRuntime) -> Result<(), Fail> {
    let mut tasks = [
        Task::new(future::ready(1u8)),
        Task::new(future::ready(2u8)),
        Task::new(future::ready(3u8)),
    ];
    run(&rt, &mut tasks, 1).map_err(io::Error::from)?;
    // The first task has its value, so the two values come from the others.
    run(&rt, &mut tasks, 2).map_err(io::Error::from)?;
    match run(&rt, &mut tasks, 1) {
        Err(RunError::TooFew) => {}
        Err(refused) => return Err(Fail::from(io::Error::from(refused))),
        Ok(()) => return Err(Fail::from("no task is left without a value")),
    }
    for (task, value) in tasks.into_iter().zip([1u8, 2, 3]) {
        assert_eq!(rt; task.into_value(), Some(value));
    }
    Ok(())
}
