//! `bench-original CASE N` runs a case of `bench` over the original, and prints the same number.

mod bytes;
mod codecs;
mod consuming;
mod journals;
mod merging;
mod polled;
mod sizes;
mod std_cases;
mod streams;
mod texts;
mod values;
mod waits;

use std::process::ExitCode;
use std::task::{Context, Waker};

/// A piece of text of 16 bytes.
const LETTERS: &[u8] = b"0123456789abcdef";

fn main() -> ExitCode {
    let words: Vec<String> = std::env::args().skip(1).collect();
    let [name, size] = words.as_slice() else {
        return ExitCode::from(2);
    };
    let Ok(n) = size.parse() else {
        return ExitCode::from(2);
    };
    let mut cx = Context::from_waker(Waker::noop());
    match computed(&mut cx, name, n) {
        Some(number) => println!("{number}"),
        None => return ExitCode::from(2),
    }
    ExitCode::SUCCESS
}

/// What the case of this name computes at size `n`.
fn computed(cx: &mut Context<'_>, name: &str, n: u64) -> Option<u64> {
    streams::computed(cx, name, n)
        .or_else(|| consuming::computed(cx, name, n))
        .or_else(|| merging::computed(cx, name, n))
        .or_else(|| std_cases::computed(name, n))
        .or_else(|| computed_of_others(cx, name, n))
}

/// As `computed`, of the cases of no stream.
fn computed_of_others(cx: &mut Context<'_>, name: &str, n: u64) -> Option<u64> {
    Some(match name {
        "race_futures" => values::race(cx, n),
        "with_poll_limit" => values::with_poll_limit(cx, n),
        "try_zip" => values::try_zip(cx, n),
        "poll_once" => values::poll_once(cx, n),
        "wait_read" => waits::read(n),
        "wait_read_exact" => waits::read_exact(n),
        "wait_read_until" => waits::read_until(n),
        "wait_read_until_limited" => waits::read_until_limited(n),
        "wait_write_all" => waits::write_all(n),
        "wait_frame" => waits::frames(n),
        "wait_send" => waits::sends(n),
        "collect_frames" => waits::all_frames(n),
        "wait_send_all" => waits::sends_all(n),
        "vectored_read" => bytes::vectored_read(cx, n),
        "take_read" => bytes::take_read(cx, n),
        "asserted_read" => bytes::asserted_read(cx, n),
        "with_budget_read" => bytes::with_budget_read(cx, n),
        "as_sync_read" => bytes::as_sync_read(cx, n),
        "repeat_read" => bytes::repeat_read(cx, n),
        "empty_read" => bytes::empty_read(cx, n),
        "seek" => bytes::seek(cx, n),
        "zip" => values::zip(cx, n),
        "zip_of_eight" => values::zip_of_eight(cx, n),
        "or" => values::or(cx, n),
        "race_with_seed" => values::race_with_seed(cx, n),
        "block_on_ready" | "held_ready" => values::block_on_ready(n),
        "block_on_yield" | "held_yield" => values::block_on_yield(n),
        "blocking_read" | "held_read" => bytes::blocking_read(n),
        "waits_read" => bytes::waits_read(n),
        "made_noise" => bytes::made_noise(n),
        "bytes" => bytes::bytes(cx, n),
        "cursor_read" => bytes::cursor_read(cx, n),
        "buf_reader" => bytes::buf_reader(cx, n),
        "chain_read" => bytes::chain_read(cx, n),
        "fill" => bytes::fill(cx, n),
        "take_fill" => bytes::take_fill(cx, n),
        "chain_fill" => bytes::chain_fill(cx, n),
        "cursor_overwrite" => bytes::cursor_overwrite(cx, n),
        "cursor_extend" => bytes::cursor_extend(cx, n),
        "made_text" => texts::made_text(n),
        "made_lines_8" => texts::made_lines(&texts::narrow_line(7), n),
        "made_lines_16" => texts::made_lines(LETTERS, n / 16),
        "made_wide_16" => texts::made_lines(texts::WIDE.as_bytes(), n / 16),
        "made_values" => texts::made_lines(codecs::VALUE, n),
        "made_chunks" => texts::made_lines(codecs::CHUNK, n),
        "made_lines_2000" => texts::made_lines(&texts::narrow_line(1999), n),
        "made_wide_lines_8" => texts::made_lines(&texts::wide_line(3), n),
        "made_wide_lines_2000" => texts::made_lines(&texts::wide_line(999), n),
        "lines" => texts::lines(cx, n),
        "lines_8" => texts::lines_of(cx, &texts::narrow_line(7), n),
        "lines_2000" => texts::lines_of(cx, &texts::narrow_line(1999), n),
        "wide_lines_8" => texts::lines_of(cx, &texts::wide_line(3), n),
        "wide_lines_2000" => texts::lines_of(cx, &texts::wide_line(999), n),
        "read_to_string" => texts::read_to_string(cx, LETTERS, n),
        "read_wide_to_string" => texts::read_to_string(cx, texts::WIDE.as_bytes(), n),
        "split" => texts::split(cx, n),
        "read_until" => texts::read_until(cx, n),
        "read_line" => texts::read_line(cx, n),
        "read_line_growing" => texts::read_line_growing(cx, n),
        "read_exact" => texts::read_exact(cx, n),
        "read_to_end" => texts::read_to_end(cx, n),
        "copy" => texts::copy(cx, n),
        "write_all" => texts::write_all(cx, n),
        "write" => texts::write(cx, n),
        "write_vectored" => texts::write_vectored(cx, n),
        "flush" => texts::flush(cx, n),
        "close" => texts::close(cx, n),
        "buf_writer" => texts::buf_writer(cx, n),
        "values" | "values_by_hand" => codecs::values_by_hand(cx, n),
        "poll_advance" => codecs::lent_values(cx, n),
        "take_body" => codecs::chunks(n),
        "served_lines" | "wait_serving" => codecs::served_lines(n),
        "journal" => journals::journal(cx, n),
        "half" => journals::half(cx, n),
        "size_of" => sizes::size_of_nest(n),
        _ => return None,
    })
}
