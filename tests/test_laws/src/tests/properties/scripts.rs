ghost use Rattle.std.specs.Prelude.{◌≡◌, IfOk};
ghost use Rattle.lite_base.specs.Answers.{strip};

use futures::task::{Doorbell, Solo};
use lite_base::{Context, Poll};
use lite_source::Script;
use lite_source::make::script;
use nests_agree::both::TwoRuns;
use std::alloc::AllocError;
use std::test::Fail;

/// A script of these answers, and one that is pending before each of them.
#[tactic(auto, using(crate::proofs::Later::pushed_later))]
pub(super) fn plain_and_late<T: Copy>(
    rt: &HostRuntime,
    answers: &[Option<T>],
) -> Result<(Script<T>, Script<T>), AllocError>
    ensures { IfOk result (λ both. strip both.0 ≡ strip both.1) }
{
    let (mut plain, mut late) = (Vec::new(rt.alloc()), Vec::new(rt.alloc()));
    for answer in answers {
        plain.push(Poll::Ready(*answer))?;
        late.push(Poll::Pending)?;
        late.push(Poll::Ready(*answer))?;
    }
    Ok((script(plain), script(late)))
}

/// The answers that are ready, in order.
pub(super) fn ready_ones<T: Drop>(
    rt: &HostRuntime,
    answers: Vec<Poll<Option<T>>>,
) -> Result<Vec<Option<T>>, AllocError> {
    let mut ready = Vec::new(rt.alloc());
    for answer in answers {
        if let Poll::Ready(item) = answer {
            ready.push(item)?;
        }
    }
    Ok(ready)
}

/// What `run` appends to two lists, in a context of its own, where the first stream is polled `polls` times and the second
/// `more` times.
pub(super) fn both_ran<T: Drop, F>(
    rt: &HostRuntime,
    polls: usize,
    more: usize,
    run: F,
) -> Result<(Vec<Poll<Option<T>>>, Vec<Poll<Option<T>>>), Fail>
where
    F: FnOnce(&mut Context<'_>, &mut TwoRuns<T>) -> Result<(), AllocError>,
{
    let (out, out_more) = (Vec::new(rt.alloc()), Vec::new(rt.alloc()));
    let mut runs = TwoRuns {
        polls,
        more,
        out,
        out_more,
    };
    let solo = Solo::new(rt, Doorbell::spinning())?;
    let mut cx = solo.begin();
    let ran = run(&mut cx, &mut runs);
    cx.cancel();
    ran?;
    Ok((runs.out, runs.out_more))
}
