//! One connection.
use crate::session::Session;
use crate::timed::Timed;
use framed::{FrameError, FramedRead, LineDelimited, ServeError, serve};
use futures_lite::AsyncReadExt;
use futures_lite::future::BlockOn;
use futures_lite::io::{AssertAsync, BufReader, BufWriter};
use std::alloc::AllocGlobal;
use std::io;
use std::io::{Read, Write};
use std::net::{Shutdown, TcpStream};
use std::random::RandomSource;
use std::sync::Wait;
use std::time::Clock;

/// For how many seconds requests are read.
const LIFE: u64 = 10;

/// How many seconds more their replies may take.
const LAST: u64 = 2;

/// For how many seconds what a client still sends is dropped.
const LINGER: u64 = 2;

/// How many reads that takes at most.
const READS: usize = 1 << 12;

/// How many bytes a line has at most.
const LINE: usize = 1000;

/// How many bytes are read in a row before the server yields.
const BYTES: usize = 1 << 16;

/// Serves a connection until the client, the session or an error ends it.
pub fn serve_stream<R>(
    rt: &R,
    stream: &TcpStream,
    session: &mut Session<R>,
) -> Result<(), ServeError<FrameError, FrameError>>
where
    R: Clock + Wait + RandomSource + AllocGlobal,
{
    let (input, output) = match timed(rt, stream) {
        Ok(sides) => sides,
        Err(e) => return Err(ServeError::Output(e)),
    };
    let Ok(mut on) = BlockOn::new(rt) else {
        return Err(ServeError::Memory);
    };
    let input = AssertAsync::new(input).with_budget(BYTES);
    let Ok(reader) = BufReader::new(rt.alloc(), input) else {
        return Err(ServeError::Memory);
    };
    let Ok(mut writer) = BufWriter::new(rt.alloc(), AssertAsync::new(output)) else {
        return Err(ServeError::Memory);
    };
    let mut lines = LineDelimited { max: LINE };
    let mut requests = FramedRead::new(rt.alloc(), reader, lines);
    serve(&mut on, rt, &mut requests, &mut writer, &mut lines, session)
}

/// Returns both sides of a stream, each with its end. Replies are sent at once.
fn timed<'a, R: Clock>(
    rt: &'a R,
    stream: &'a TcpStream,
) -> io::Result<(Timed<'a, R>, Timed<'a, R>)> {
    stream.set_nodelay(true)?;
    let input = Timed::new(rt, stream, LIFE)?;
    Ok((input, Timed::new(rt, stream, LIFE + LAST)?))
}

/// Tells a client that there is no seat. If that fails, nothing is lost.
pub fn refuse(mut stream: &TcpStream) {
    let _ = stream.write_all(b"ERROR too many connections\n");
}

/// Ends what is sent, and drops what the client still sends. A stream that is dropped with unread input resets its
/// connection, and then a client may lose the last line.
pub fn linger<R: Clock>(rt: &R, stream: &TcpStream) -> io::Result<()> {
    stream.shutdown(Shutdown::Write)?;
    let mut rest = Timed::new(rt, stream, LINGER)?;
    let mut dropped = [0u8; 1 << 12];
    for _ in 0..READS {
        if rest.read(&mut dropped)? == 0 {
            break;
        }
    }
    Ok(())
}
