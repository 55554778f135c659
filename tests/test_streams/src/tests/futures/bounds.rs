use crate::tests::properties::{both, both_future, calm_future, steady_future};
use lite_base::{Context, Poll};
use lite_future::{Either, Ready, YieldNow, make as future};
use lite_source::make::once;
use std::test::Fail;

#[test]
fn futures_are_steady_and_calm(_rt: HostRuntime) -> Result<(), Fail> {
    let answer = |_cx: &mut Context<'_>| Poll::Ready(1u8);
    steady_future(&future::fuse(future::ready(1u8)));
    steady_future(&future::pending::<u8>());
    both_future(&future::poll_fn(answer));
    both_future(&future::ready(1u8));
    both_future(&future::yield_now());
    both_future(&future::zip(future::ready(1u8), future::ready('a')));
    calm_future(&future::or(future::ready(1u8), future::ready(2)));
    calm_future(&future::poll_once(future::pending::<u8>()));
    calm_future(&future::race_with_seed(future::ready(1u8), future::ready(2), 7));
    let good: Result<u8, char> = Ok(1);
    let bad: Result<u16, char> = Err('a');
    calm_future(&future::try_zip(future::ready(good), future::ready(bad)));
    let either: Either<Ready<()>, YieldNow> = Either::Right(future::yield_now());
    both_future(&either);
    calm_future(&future::with_poll_limit(future::ready(1u8), 1));
    Ok(())
}

#[test]
fn what_is_lent_is_steady_and_calm(_rt: HostRuntime) -> Result<(), Fail> {
    let mut one = once(1u8);
    both(&&mut one);
    let mut ready = future::ready(1u8);
    both_future(&&mut ready);
    Ok(())
}
