//! A client of the line server: it sends requests, and prints a line of reply for each.
//!
//! The arguments are the address, for how many seconds it waits for the replies, and the requests, such as
//! `127.0.0.1:7000 3 'SET a one' 'GET a'`.
#![tactic(auto)]

use bytes::BytesMut;
use compat::CompatExt;
use futures_lite::io::BufReader;
use futures_lite::stream::TryCollectError;
use futures_lite::{AsyncBufReadExt, AsyncReadExt, StreamExt};
use std::alloc::{AllocError, AllocGlobal};
use std::env::Args;
use std::io::ErrorKind;
use std::net::{Net, SocketAddr};
use std::process::ExitCode;
use std::random::RandomSource;
use std::sync::Wait;
use std::time::{Clock, Duration};
use std::{env, io};
use tokio::io::write_all;
use tokio::net::TcpStream;
use tokio::runtime::LocalRuntime;

/// How many bytes are read in a row before the runtime has its turn.
const BYTES: usize = 1 << 14;

fn main(rt: HostRuntime) -> ExitCode {
    match talk(&rt, &rt) {
        Ok(()) => ExitCode::from(0),
        Err(e) => {
            let _ = eprintln!(rt; "line_client: {e}");
            ExitCode::from(1)
        }
    }
}

/// Sends what the arguments say, and prints the replies.
fn talk<R>(host: &HostRuntime, rt: &R) -> io::Result<()>
where
    R: Net + Wait + Clock + RandomSource + AllocGlobal,
{
    let mut args = env::args(host)?;
    let (Some(_), Some(address), Some(seconds)) = (args.next(), args.next(), args.next()) else {
        return Err(ErrorKind::InvalidInput.into());
    };
    let (Ok(address), Ok(seconds)) = (address.parse::<SocketAddr>(), seconds.parse::<u64>()) else {
        return Err(ErrorKind::InvalidInput.into());
    };
    let (requests, count) = requests_of(rt, args)?;
    for reply in ask(rt, address, requests, count, Duration::from_secs(seconds))?.iter() {
        println!(host; "{reply}")?;
    }
    Ok(())
}

/// Returns a line for each argument, and how many there are.
fn requests_of<R: AllocGlobal>(rt: &R, args: Args) -> io::Result<(BytesMut, usize)> {
    let mut requests = BytesMut::new(rt.alloc());
    let mut count = 0usize;
    for request in args {
        requests.extend_from_slice(request.as_bytes())?;
        requests.extend_from_slice(b"\n")?;
        count = count.saturating_add(1);
    }
    Ok((requests, count))
}

/// Sends requests, and reads so many lines of reply. Fails if they take longer than `limit`.
fn ask<R>(
    rt: &R,
    address: SocketAddr,
    requests: BytesMut,
    count: usize,
    limit: Duration,
) -> io::Result<Vec<String>>
where
    R: Net + Wait + Clock + RandomSource + AllocGlobal,
{
    let alloc = rt.alloc();
    let mut runtime = LocalRuntime::new(rt)?;
    let connecting = TcpStream::connect(rt, address, runtime.handle().reactor());
    let (input, output) = runtime.block_on(rt, connecting)??.into_split()?;
    let _written = runtime.block_on(rt, write_all(output, requests))??;
    let Ok(reader) = BufReader::new(alloc, input.compat().with_budget(BYTES)) else {
        return Err(AllocError.into());
    };
    let replies = reader.lines(alloc).take(count);
    let replies = replies.try_collect::<String, io::Error, Vec<String>>(alloc);
    let timed = runtime
        .handle()
        .time()
        .timeout(rt, limit, replies.compat())?;
    match runtime.block_on(rt, timed)? {
        Ok(Ok(replies)) => Ok(replies),
        Ok(Err(TryCollectError::Source(e))) => Err(e),
        Ok(Err(TryCollectError::Memory(_))) => Err(AllocError.into()),
        Err(_elapsed) => Err(ErrorKind::TimedOut.into()),
    }
}
