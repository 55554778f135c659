//! A request that is an array of bulk strings.
ghost use Rattle.std.specs.Prelude.{◌≡◌, ◌≢◌, ◌≤◌, ◌<◌, ◌+◌, ◌*◌, IfSome, IsFalse, IsTrue, length, slice_index};
ghost use Rattle.redis_session.specs.RequestFrames.{FindsRequest};
ghost use Rattle.redis_session.specs.FoundWords.{FindsWord, FindsWords, FoundWords, IsLongest, NamesRefusal};

use crate::refusal::Refusal;
use example_redis::error::RequestError;
use example_redis::limits::Limits;
use example_redis::number::{Number, read_number};
use example_redis::word::read_word;

/// How many bytes a word counts as beside its own.
const EACH: u32 = 16;

/// How far an array was found.
#[derive(Clone, Copy)]
pub struct Found {
    /// How many more words it has.
    pub missing: usize,
    /// How many bytes they may count as.
    pub room: usize,
    /// How many bytes were found.
    pub at: usize,
}

/// Returns whether bytes begin as an array does.
pub fn begins_array(bytes: &[u8]) -> bool
    ensures array { IsTrue result → (0 < length bytes.now) × (slice_index bytes.now 0 ≡ 42) }
    ensures line { IsFalse result → slice_index bytes.now 0 ≢ 42 }
{
    !bytes.is_empty() && bytes[0] == b'*'
}

/// Finds the array at the front of some bytes, and returns how many bytes it has. `None` says that it is not whole.
pub fn find_array(bytes: &[u8], limits: Limits) -> Result<Option<usize>, Refusal>
    requires array { (0 < length bytes.now) × (slice_index bytes.now 0 ≡ 42) }
    ensures { FindsRequest limits bytes.now result }
{
    let Some(mut found) = find_front(bytes, limits)? else {
        return Ok(None);
    };
    while found.missing > 0 {
        let Some(more) = find_word(bytes, limits, found)? else {
            return Ok(None);
        };
        found = more;
    }
    Ok(Some(found.at))
}

/// Finds the first line of an array.
fn find_front(bytes: &[u8], limits: Limits) -> Result<Option<Found>, Refusal>
    requires array { (0 < length bytes.now) × (slice_index bytes.now 0 ≡ 42) }
    ensures { FindsWords limits bytes.now result }
{
    match read_number(&bytes[1..], most_words(limits)) {
        Number::Whole(number, size) => Ok(Some(Found {
            missing: number as usize,
            room: limits.request as usize,
            at: size + 1,
        })),
        Number::Large => Err(Refusal::TooManyWords),
        Number::More => Ok(None),
        Number::Malformed => Err(Refusal::Malformed),
    }
}

/// Returns how many words an array has at most: those that there is room for, but no more than the limit.
fn most_words(limits: Limits) -> u32
    ensures few { result ≤ limits.words }
    ensures fit { 16 * result ≤ limits.request }
    ensures most { result < limits.words → limits.request < 16 * (result + 1) }
{
    let fitting = limits.request / EACH;
    if fitting < limits.words {
        fitting
    } else {
        limits.words
    }
}

/// Finds the next word.
fn find_word(bytes: &[u8], limits: Limits, found: Found) -> Result<Option<Found>, Refusal>
    requires some { 0 < found.missing }
    requires found { FoundWords limits bytes.now found }
    ensures { FindsWord limits bytes.now found result }
{
    let spare = (found.room - EACH as usize * found.missing) as u32;
    if spare < limits.word {
        return find_within(bytes, limits, found, spare, Refusal::LongRequest);
    }
    find_within(bytes, limits, found, limits.word, Refusal::LongWord)
}

/// Finds the next word, which has at most `longest` bytes. A longer one is refused as `above`.
fn find_within(
    bytes: &[u8],
    limits: Limits,
    found: Found,
    longest: u32,
    above: Refusal,
) -> Result<Option<Found>, Refusal>
    requires some { 0 < found.missing }
    requires found { FoundWords limits bytes.now found }
    requires longest { IsLongest limits found longest above }
    ensures { FindsWord limits bytes.now found result }
{
    let narrow = Limits {
        words: limits.words,
        word: longest,
        request: limits.request,
        line: limits.line,
    };
    let read = match read_word(&bytes[found.at..], narrow, usize::MAX) {
        Ok(read) => read,
        Err(error) => return Err(refusal(&error, above)),
    };
    let Some(place) = read else {
        return Ok(None);
    };
    Ok(Some(Found {
        missing: found.missing - 1,
        room: found.room - EACH as usize - place.len,
        at: found.at + place.start + place.len + 2,
    }))
}

/// Returns why a word is refused: as `above` if it is too long.
fn refusal(error: &RequestError, above: Refusal) -> Refusal
    ensures { NamesRefusal error.now above result }
{
    match error {
        RequestError::LongWord | RequestError::LongRequest => above,
        _ => Refusal::Malformed,
    }
}
