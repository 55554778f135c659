use crate::fault::Fault;
use crate::{
    bytes, codecs, consuming, journals, merging, sizes, streams, texts, values, waits,
};
use futures_lite::Context;
use std::alloc::AllocGlobal;
use std::random::RandomSource;
use std::sync::Wait;

/// A piece of text of 16 bytes.
const LETTERS: &[u8] = b"0123456789abcdef";

/// What the case of this name computes at size `n`. A name of none is a fault of the arguments.
pub(crate) fn computed<R>(rt: &R, cx: &mut Context<'_>, name: &str, n: u64) -> Result<u64, Fault>
where
    R: Wait + RandomSource + AllocGlobal + Copy,
{
    let alloc = rt.alloc();
    if let Some(number) = streams::computed(alloc, cx, name, n)? {
        return Ok(number);
    }
    if let Some(number) = consuming::computed(alloc, cx, name, n)? {
        return Ok(number);
    }
    if let Some(number) = merging::computed(cx, name, n)? {
        return Ok(number);
    }
    match name {
        "zip" => Ok(values::zip(cx, n)),
        "zip_of_eight" => Ok(values::zip_of_eight(cx, n)),
        "or" => Ok(values::or(cx, n)),
        "race_with_seed" => Ok(values::race_with_seed(cx, n)),
        "race_futures" => Ok(values::race(cx, n)),
        "with_poll_limit" => Ok(values::with_poll_limit(cx, n)),
        "try_zip" => Ok(values::try_zip(cx, n)),
        "poll_once" => Ok(values::poll_once(cx, n)),
        "block_on_ready" => Ok(values::block_on_ready(rt, n)?),
        "block_on_yield" => Ok(values::block_on_yield(rt, n)?),
        "held_ready" => Ok(values::held_ready(rt, n)?),
        "held_yield" => Ok(values::held_yield(rt, n)?),
        "held_next" => Ok(consuming::held_next(*rt, n, n)?),
        "blocking_next" => Ok(consuming::blocking_next(*rt, n, n)?),
        "waits_next" => Ok(consuming::waits_next(rt, n, n)?),
        _ => computed_of_bytes(rt, cx, name, n),
    }
}

/// As `computed`, of the cases of readers, writers and frames, and of sizes.
fn computed_of_bytes<R>(rt: &R, cx: &mut Context<'_>, name: &str, n: u64) -> Result<u64, Fault>
where
    R: Wait + RandomSource + AllocGlobal + Copy,
{
    let alloc = rt.alloc();
    match name {
        "held_read" => bytes::held_read(*rt, n),
        "blocking_read" => bytes::blocking_read(*rt, n),
        "waits_read" => bytes::waits_read(rt, n),
        "wait_read" => waits::read(rt, n),
        "wait_read_exact" => waits::read_exact(rt, n),
        "wait_read_until" => waits::read_until(rt, n),
        "wait_read_until_limited" => waits::read_until_limited(rt, n),
        "wait_write_all" => waits::write_all(rt, n),
        "wait_frame" => waits::frames(rt, n),
        "wait_send" => waits::sends(rt, n),
        "collect_frames" => waits::all_frames(rt, n),
        "wait_send_all" => waits::sends_all(rt, n),
        "made_noise" => bytes::made_noise(alloc, n),
        "bytes" => bytes::bytes(alloc, cx, n),
        "cursor_read" => bytes::cursor_read(alloc, cx, n),
        "buf_reader" => bytes::buf_reader(alloc, cx, n),
        "chain_read" => bytes::chain_read(alloc, cx, n),
        "fill" => bytes::fill(alloc, cx, n),
        "take_fill" => bytes::take_fill(alloc, cx, n),
        "chain_fill" => bytes::chain_fill(alloc, cx, n),
        "vectored_read" => bytes::vectored_read(alloc, cx, n),
        "take_read" => bytes::take_read(alloc, cx, n),
        "asserted_read" => bytes::asserted_read(alloc, cx, n),
        "with_budget_read" => bytes::with_budget_read(alloc, cx, n),
        "as_sync_read" => bytes::as_sync_read(alloc, cx, n),
        "repeat_read" => Ok(bytes::repeat_read(cx, n)),
        "empty_read" => Ok(bytes::empty_read(cx, n)),
        "seek" => Ok(bytes::seek(cx, n)),
        "cursor_overwrite" => bytes::cursor_overwrite(alloc, cx, n),
        "cursor_extend" => bytes::cursor_extend(alloc, cx, n),
        "made_text" => texts::made_text(alloc, n),
        "made_lines_8" => texts::made_lines(alloc, &texts::narrow_line(alloc, 7)?, n),
        "made_lines_16" => texts::made_lines(alloc, LETTERS, n / 16),
        "made_values" => texts::made_lines(alloc, codecs::VALUE, n),
        "made_chunks" => texts::made_lines(alloc, codecs::CHUNK, n),
        "made_lines_2000" => texts::made_lines(alloc, &texts::narrow_line(alloc, 1999)?, n),
        "lines" => texts::lines(alloc, cx, n),
        "lines_8" => texts::lines_of(alloc, cx, &texts::narrow_line(alloc, 7)?, n),
        "lines_2000" => texts::lines_of(alloc, cx, &texts::narrow_line(alloc, 1999)?, n),
        "wide_lines_8" => texts::lines_of(alloc, cx, &texts::wide_line(alloc, 3)?, n),
        "wide_lines_2000" => texts::lines_of(alloc, cx, &texts::wide_line(alloc, 999)?, n),
        "read_to_string" => texts::read_to_string(alloc, cx, LETTERS, n),
        "read_wide_to_string" => texts::read_to_string(
            alloc,
            cx,
            "\u{e9}\u{e9}\u{e9}\u{e9}\u{e9}\u{e9}\u{e9}\u{e9}".as_bytes(),
            n,
        ),
        "split" => texts::split(alloc, cx, n),
        "read_until" => texts::read_until(alloc, cx, n),
        "read_line" => texts::read_line(alloc, cx, n),
        "read_line_growing" => texts::read_line_growing(alloc, cx, n),
        "read_exact" => texts::read_exact(alloc, cx, n),
        "read_to_end" => texts::read_to_end(alloc, cx, n),
        "copy" => texts::copy(alloc, cx, n),
        "write_all" => texts::write_all(alloc, cx, n),
        "write" => texts::write(alloc, cx, n),
        "write_vectored" => texts::write_vectored(alloc, cx, n),
        "flush" => texts::flush(alloc, cx, n),
        "close" => texts::close(alloc, cx, n),
        "buf_writer" => texts::buf_writer(alloc, cx, n),
        "values" => codecs::values(alloc, cx, n),
        "poll_advance" => codecs::lent_values(alloc, cx, n),
        "values_by_hand" => codecs::values_by_hand(alloc, cx, n),
        "take_body" => codecs::chunks(alloc, n),
        "served_lines" => codecs::served_lines(rt, n),
        "wait_serving" => codecs::served_lent_lines(rt, n),
        "journal" => journals::journal(alloc, cx, n),
        "size_of" => sizes::size_of_nest(alloc, n),
        "half" => journals::half(*rt, cx, n),
        _ => Err(Fault::Arguments),
    }
}
