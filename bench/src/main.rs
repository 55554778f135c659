//! `bench CASE N` runs a case at size N and prints the number that it computes, so that its cost can be measured from
//! outside. `bench check` says whether each case gives the number that it has to, at a small size.
#![tactic(auto)]

mod bytes;
mod case;
mod check;
mod codecs;
mod consuming;
mod ends;
mod fault;
mod journals;
mod merging;
mod polled;
mod sizes;
mod streams;
mod texts;
mod values;
mod waits;

use crate::case::computed;
use crate::check::check;
use crate::fault::Fault;
use futures::task::{Doorbell, Solo};
use futures_lite::Context;
use std::alloc::AllocGlobal;
use std::env;
use std::process::ExitCode;
use std::random::RandomSource;
use std::sync::Wait;

fn main(rt: HostRuntime) -> ExitCode {
    match printed(&rt, &rt) {
        Ok(()) => ExitCode::from(0),
        Err(fault) => {
            let _ = eprintln!(rt; "bench: {}{}", fault.text(), fault.case());
            ExitCode::from(fault.status())
        }
    }
}

/// Runs the case that the words name, and prints its number on a line; or runs each, and says that all are right. `rt` is
/// the host as one that may wait.
fn printed<R>(host: &HostRuntime, rt: &R) -> Result<(), Fault>
where
    R: Wait + RandomSource + AllocGlobal + Copy,
{
    let words: Vec<String> = match env::args(host) {
        Ok(words) => words.skip(1).collect(host.alloc())?,
        Err(_) => return Err(Fault::Arguments),
    };
    let Ok(solo) = Solo::new(rt, Doorbell::spinning()) else {
        return Err(Fault::Memory);
    };
    let mut cx = solo.begin();
    let line = line_of(rt, &mut cx, words.as_slice());
    cx.cancel();
    match line? {
        Line::Number(number) => println!(host; "{}", number),
        Line::AllRight => println!(host; "each case is right"),
    }
    .map_err(|_| Fault::Output)
}

/// What is printed.
enum Line {
    Number(u64),
    AllRight,
}

fn line_of<R>(rt: &R, cx: &mut Context<'_>, words: &[String]) -> Result<Line, Fault>
where
    R: Wait + RandomSource + AllocGlobal + Copy,
{
    match words {
        [word] if word.as_str() == "check" => {
            check(rt, cx)?;
            Ok(Line::AllRight)
        }
        [name, size] => match size.parse::<u64>() {
            Ok(n) => Ok(Line::Number(computed(rt, cx, name.as_str(), n)?)),
            Err(_) => Err(Fault::Arguments),
        },
        _ => Err(Fault::Arguments),
    }
}
