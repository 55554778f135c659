//! `replay` reads cases, one a line, and prints the answers of each on a line.
#![tactic(auto)]

mod answers;
mod bits;
mod bursts;
mod case;
mod closures;
mod consuming;
mod future_nest;
mod heard;
mod io_bridges;
mod io_calls;
mod io_case;
mod io_copying;
mod io_cursors;
mod io_halves;
mod io_journals;
mod io_lending;
mod io_reading;
mod io_run;
mod io_words;
mod io_writing;
mod kid;
mod layer;
mod leaf;
mod lenders;
mod polling;
mod readers;
mod searching;
mod trying;
mod wakes;
mod words;
mod writers;

use crate::case::answered;
use crate::words::{Fault, Words};
use futures::task::{Doorbell, Solo};
use std::io::{self, BufRead, BufReader, BufWriter, Write};

fn main(rt: HostRuntime) -> io::Result<()> {
    let solo = Solo::new(&rt, Doorbell::spinning())?;
    let other = Solo::new(&rt, Doorbell::spinning())?;
    let mut out = BufWriter::new(rt.alloc(), io::writer(&rt))?;
    for line in BufReader::new(rt.alloc(), rt.reader())?.lines(rt.alloc()) {
        let line = line?;
        let words: Vec<&str> = line.split(' ').collect(rt.alloc())?;
        let mut cx = solo.begin();
        let answer = answered(
            &rt,
            rt.alloc(),
            &mut cx,
            &other,
            &mut Words {
                words: words.as_slice(),
                counts: None,
                is_quiet: false,
            },
        );
        cx.cancel();
        match answer {
            Ok(text) => out.write_all(text.as_bytes())?,
            Err(Fault::Words) => out.write_all(b"bad words")?,
            Err(Fault::Memory) => out.write_all(b"out of memory")?,
        }
        out.write_all(b"\n")?;
    }
    out.flush()
}
