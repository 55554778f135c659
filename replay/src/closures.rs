//! The functions that a case names by a number, and the streams and futures that are made of items.
use crate::bursts::{Burst, Later, TryStep, UnfoldStep};
use crate::words::Fault;
use std::alloc::Global;

/// A function that is called again and again, which may keep something of its calls.
pub(crate) type Change = Box<dyn FnMut(i64) -> i64>;

pub(crate) type Test = Box<dyn FnMut(&i64) -> bool>;

pub(crate) type ValueTest = Box<dyn FnMut(i64) -> bool>;

pub(crate) type Part = Box<dyn FnMut(i64) -> Option<i64>>;

pub(crate) type Step = Box<dyn FnMut(&mut i64, i64) -> Option<i64>>;

pub(crate) type ToBurst = Box<dyn FnMut(i64) -> Burst>;

pub(crate) type ToLater = Box<dyn FnMut(i64) -> Later>;

pub(crate) type ToStep = Box<dyn FnMut(i64) -> UnfoldStep>;

pub(crate) type ToTryStep = Box<dyn FnMut(i64) -> TryStep>;

pub(crate) fn map_of(alloc: Global, k: usize) -> Result<Change, Fault> {
    let f: fn(i64) -> i64 = match k {
        0 => double,
        1 => negate,
        2 => plus_three,
        5 => return times_calls(alloc),
        _ => return Err(Fault::Words),
    };
    Ok(Box::new(alloc, f)?)
}

/// The item times how many calls there were, this one among them.
fn times_calls(alloc: Global) -> Result<Change, Fault> {
    let mut calls = 0i64;
    let f = move |x: i64| {
        calls = calls.wrapping_add(1);
        x.wrapping_mul(calls)
    };
    Ok(Box::new(alloc, f)?)
}

fn double(x: i64) -> i64 {
    x.wrapping_mul(2)
}

fn negate(x: i64) -> i64 {
    x.wrapping_neg()
}

fn plus_three(x: i64) -> i64 {
    x.wrapping_add(3)
}

pub(crate) fn predicate_of(alloc: Global, k: usize) -> Result<Test, Fault> {
    let f: fn(&i64) -> bool = match k {
        0 => is_even,
        1 => is_large,
        2 => is_any,
        3 => is_none,
        4 => is_third,
        5 => return is_second_call(alloc),
        _ => return Err(Fault::Words),
    };
    Ok(Box::new(alloc, f)?)
}

/// Whether this is the second call, the fourth and so on, whatever the item is.
fn is_second_call(alloc: Global) -> Result<Test, Fault> {
    let mut is_second = true;
    let f = move |_x: &i64| {
        is_second = !is_second;
        is_second
    };
    Ok(Box::new(alloc, f)?)
}

fn is_even(x: &i64) -> bool {
    *x % 2 == 0
}

fn is_large(x: &i64) -> bool {
    *x > 2
}

fn is_any(_x: &i64) -> bool {
    true
}

fn is_none(_x: &i64) -> bool {
    false
}

fn is_third(x: &i64) -> bool {
    *x % 3 == 0
}

pub(crate) fn value_of(alloc: Global, k: usize) -> Result<ValueTest, Fault> {
    let f: fn(i64) -> bool = match k {
        0 => even,
        1 => large,
        2 => any,
        3 => none,
        4 => third,
        5 => return second_call(alloc),
        _ => return Err(Fault::Words),
    };
    Ok(Box::new(alloc, f)?)
}

fn second_call(alloc: Global) -> Result<ValueTest, Fault> {
    let mut is_second = true;
    let f = move |_x: i64| {
        is_second = !is_second;
        is_second
    };
    Ok(Box::new(alloc, f)?)
}

fn even(x: i64) -> bool {
    is_even(&x)
}

fn large(x: i64) -> bool {
    is_large(&x)
}

fn any(_x: i64) -> bool {
    true
}

fn none(_x: i64) -> bool {
    false
}

fn third(x: i64) -> bool {
    is_third(&x)
}

pub(crate) fn part_of(alloc: Global, k: usize) -> Result<Part, Fault> {
    let f: fn(i64) -> Option<i64> = match k {
        0 => half,
        1 => less,
        2 => all,
        3 => nothing,
        4 => tripled,
        5 => return all_at_second_calls(alloc),
        _ => return Err(Fault::Words),
    };
    Ok(Box::new(alloc, f)?)
}

fn all_at_second_calls(alloc: Global) -> Result<Part, Fault> {
    let mut is_second = true;
    let f = move |x: i64| {
        is_second = !is_second;
        if is_second { Some(x) } else { None }
    };
    Ok(Box::new(alloc, f)?)
}

fn half(x: i64) -> Option<i64> {
    if x % 2 == 0 { Some(x / 2) } else { None }
}

fn less(x: i64) -> Option<i64> {
    if x > 2 { Some(x.wrapping_sub(1)) } else { None }
}

fn all(x: i64) -> Option<i64> {
    Some(x)
}

fn nothing(_x: i64) -> Option<i64> {
    None
}

fn tripled(x: i64) -> Option<i64> {
    if x % 3 == 0 {
        Some(x.wrapping_mul(3))
    } else {
        None
    }
}

pub(crate) fn step_of(alloc: Global, k: usize) -> Result<Step, Fault> {
    let f: fn(&mut i64, i64) -> Option<i64> = match k {
        0 => sum_below,
        1 => count_out,
        2 => difference,
        5 => return sum_at_second_calls(alloc),
        _ => return Err(Fault::Words),
    };
    Ok(Box::new(alloc, f)?)
}

/// Adds up at each call, and tells the sum at each second one.
fn sum_at_second_calls(alloc: Global) -> Result<Step, Fault> {
    let mut is_second = true;
    let f = move |sum: &mut i64, x: i64| {
        is_second = !is_second;
        *sum = (*sum).wrapping_add(x);
        if is_second { Some(*sum) } else { None }
    };
    Ok(Box::new(alloc, f)?)
}

fn sum_below(sum: &mut i64, x: i64) -> Option<i64> {
    *sum = (*sum).wrapping_add(x);
    if *sum > 20 { None } else { Some(*sum) }
}

fn count_out(count: &mut i64, x: i64) -> Option<i64> {
    *count = (*count).wrapping_add(1);
    if *count % 3 == 0 {
        None
    } else {
        Some(x.wrapping_mul(*count))
    }
}

fn difference(last: &mut i64, x: i64) -> Option<i64> {
    let result = x.wrapping_sub(*last);
    *last = x;
    Some(result)
}

pub(crate) fn ok_of(k: usize) -> Result<fn(i64) -> Result<i64, i64>, Fault> {
    match k {
        0 => Ok(ok_even),
        1 => Ok(ok_large),
        2 => Ok(ok_any),
        3 => Ok(ok_none),
        4 => Ok(ok_third),
        _ => Err(Fault::Words),
    }
}

fn ok_even(x: i64) -> Result<i64, i64> {
    if x % 2 == 0 { Ok(x) } else { Err(x) }
}

fn ok_large(x: i64) -> Result<i64, i64> {
    if x > 2 { Ok(x) } else { Err(x) }
}

fn ok_any(x: i64) -> Result<i64, i64> {
    Ok(x)
}

fn ok_none(x: i64) -> Result<i64, i64> {
    Err(x)
}

fn ok_third(x: i64) -> Result<i64, i64> {
    if x % 3 == 0 {
        Ok(x.wrapping_mul(3))
    } else {
        Err(x)
    }
}

pub(crate) fn nothing_seen(_x: &i64) {}

/// Makes a stream of an item, or of that times how many calls there were.
pub(crate) fn to_burst(alloc: Global, counts: bool, is_quiet: bool) -> Result<ToBurst, Fault> {
    let mut calls = 0i64;
    let f = move |x: i64| {
        calls = calls.wrapping_add(1);
        burst(if counts { x.wrapping_mul(calls) } else { x }, is_quiet)
    };
    Ok(Box::new(alloc, f)?)
}

/// Makes a future of an item, or of that times how many calls there were.
pub(crate) fn to_later(alloc: Global, counts: bool, is_quiet: bool) -> Result<ToLater, Fault> {
    let mut calls = 0i64;
    let f = move |x: i64| {
        calls = calls.wrapping_add(1);
        later(if counts { x.wrapping_mul(calls) } else { x }, is_quiet)
    };
    Ok(Box::new(alloc, f)?)
}

fn burst(x: i64, is_quiet: bool) -> Burst {
    let left = match x % 4 {
        1 | -1 => 1,
        2 | -2 => 2,
        3 | -3 => 3,
        _ => 0,
    };
    Burst {
        left,
        next: x.wrapping_mul(10),
        waits: x % 2 == 0,
        is_quiet,
    }
}

pub(crate) fn later(x: i64, is_quiet: bool) -> Later {
    let left = match x % 3 {
        1 | -1 => 1,
        2 | -2 => 2,
        _ => 0,
    };
    Later {
        left,
        value: x.wrapping_add(100),
        is_quiet,
    }
}

pub(crate) fn to_step(alloc: Global, is_quiet: bool) -> Result<ToStep, Fault> {
    let f = move |x: i64| UnfoldStep {
        waits: x % 2 != 0,
        value: if x > 0 {
            Some((x.wrapping_mul(7), x.wrapping_sub(1)))
        } else {
            None
        },
        is_quiet,
    };
    Ok(Box::new(alloc, f)?)
}

pub(crate) fn to_try_step(alloc: Global, is_quiet: bool) -> Result<ToTryStep, Fault> {
    let f = move |x: i64| TryStep {
        waits: x % 2 == 0,
        value: if x == 3 {
            Err(x)
        } else if x > 0 {
            Ok(Some((x.wrapping_mul(7), x.wrapping_sub(1))))
        } else {
            Ok(None)
        },
        is_quiet,
    };
    Ok(Box::new(alloc, f)?)
}

/// What the folding futures make of a sum and an item.
pub(crate) fn folded(sum: i64, x: i64) -> i64 {
    sum.wrapping_mul(31).wrapping_add(x)
}

/// What `unzip` parts of an item.
pub(crate) fn paired(x: i64) -> (i64, i64) {
    (x, x.wrapping_add(1))
}

/// A pair as one number.
pub(crate) fn pair_of(x: i64, y: i64) -> i64 {
    x.wrapping_mul(1000).wrapping_add(y)
}
