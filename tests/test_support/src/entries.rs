//! Journals and cursors to begin with, and entries.
ghost use Rattle.std.specs.Prelude.{◌≡◌, [], IfOk};
ghost use Rattle.std.specs.Bool.{Decides};
ghost use Rattle.lite_bridge.specs.Cursor.{cursor_inner, position_of};
ghost use Rattle.lite_halves.specs.Entry.{Told, asked_of, told_of};
ghost use Rattle.test_support.specs.Entries.{AreAnswers, AreCalls};

use lite_bridge::Cursor;
use lite_halves::{Answer, Call, Entry, Journal};
use std::alloc::{AllocError, Global};

/// The answer of a read that got these bytes.
pub fn got(alloc: Global, bytes: &[u8]) -> Result<Answer, AllocError>
    ensures { IfOk result (λ answer. told_of answer ≡ Told.got bytes.now) }
{
    Ok(Answer::Read(Vec::from_slice(alloc, bytes)?))
}

/// A cursor at the front of a vector of these bytes.
pub fn cursor_on(alloc: Global, bytes: &[u8]) -> Result<Cursor<Vec<u8>>, AllocError>
    ensures { IfOk result (λ cursor. ((cursor_inner cursor).items ≡ bytes.now) × (position_of cursor ≡ 0)) }
{
    Ok(Cursor::new(Vec::from_slice(alloc, bytes)?))
}

/// A journal of such a cursor, without entries.
pub fn journal_on(alloc: Global, bytes: &[u8]) -> Result<Journal<Cursor<Vec<u8>>>, AllocError>
    ensures entries { IfOk result (λ journal. journal.notes ≡ []) }
    ensures stream { IfOk result
        (λ journal. ((cursor_inner journal.stream).items ≡ bytes.now) × (position_of journal.stream ≡ 0)) }
{
    match Journal::new(alloc, cursor_on(alloc, bytes)?) {
        Ok(journal) => Ok(journal),
        Err(_) => Err(AllocError),
    }
}

/// Whether the entries are these calls with these answers, in order.
pub fn are(entries: &[Entry], calls: &[Call], answers: &[Answer]) -> bool
    ensures { Decides result (AreCalls entries.now calls.now × AreAnswers entries.now answers.now) }
{
    if entries.len() != calls.len() || entries.len() != answers.len() {
        return false;
    }
    for (entry, (call, answer)) in entries.iter().zip(calls.iter().zip(answers)) {
        if !is_call(&entry.call, call) || !is_answer(&entry.answer, answer) {
            return false;
        }
    }
    true
}

fn is_call(call: &Call, other: &Call) -> bool
    ensures { Decides result (asked_of call.now ≡ asked_of other.now) }
{
    call == other
}

fn is_answer(answer: &Answer, other: &Answer) -> bool
    ensures { Decides result (told_of answer.now ≡ told_of other.now) }
{
    answer == other
}
