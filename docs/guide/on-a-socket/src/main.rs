//! A store of texts on a socket. All connections share it, and each is served in a thread of its own.
//!
//! A request is a line: `SET key text`, `GET key`, `DELETE key`, `COUNT` or `QUIT`. Each one has one line as its reply.
//! A line that begins with `POST ` or `Host:` ends its session, since a web page can send such requests by a browser.
//! The first argument is the address to listen at, such as `127.0.0.1:7000`; at port 0 the system picks one.
#![tactic(auto)]

mod connection;
mod seat;
mod session;
mod store;
mod timed;

use connection::{linger, refuse, serve_stream};
use seat::{EXITS, SEATS, Seat};
use session::Session;
use std::alloc::{Alloc, AllocGlobal};
use std::io::ErrorKind;
use std::net::{Net, TcpListener, TcpStream};
use std::process::ExitCode;
use std::random::RandomSource;
use std::sync::atomic::AtomicU64;
use std::sync::{Arc, Mutex, Wait};
use std::thread::Threads;
use std::time::{Clock, Duration};
use std::{env, io, thread};
use store::Store;

/// How many milliseconds pass after a connection that could not be accepted.
const PAUSE: u64 = 50;

fn main(rt: HostRuntime) -> ExitCode {
    match listen(&rt, rt) {
        Ok(()) => ExitCode::from(0),
        Err(e) => {
            let _ = eprintln!(rt; "on_a_socket: {e}");
            ExitCode::from(1)
        }
    }
}

/// Listens, and serves each connection. `rt` is the host as one that may wait and start threads.
fn listen<R>(host: &HostRuntime, rt: R) -> io::Result<()>
where
    R: Net<Listener = TcpListener, Stream = TcpStream> + Threads + Wait + RandomSource,
    R: Clock + AllocGlobal + Copy + Send + 'static,
{
    let Some(address) = env::args(host)?.nth(1) else {
        return Err(ErrorKind::InvalidInput.into());
    };
    let listener = TcpListener::bind(&rt, address.as_str())?;
    println!(host; "listening at {}", listener.local_addr()?)?;
    let store = Arc::new(rt.alloc(), Mutex::new(Store::new(rt.alloc())))?;
    let taken = Arc::new(rt.alloc(), AtomicU64::new(0))?;
    let ending = Arc::new(rt.alloc(), AtomicU64::new(0))?;
    for accepted in listener.incoming() {
        let Ok(stream) = accepted else {
            // While the process has no descriptor left, each accept fails at once.
            thread::sleep(&rt, Duration::from_millis(PAUSE));
            continue;
        };
        match Seat::take(&taken, SEATS)? {
            Some(seat) => {
                let (store, ending) = (Arc::try_clone(&store)?, Arc::try_clone(&ending)?);
                start(rt, stream, seat, store, ending);
            }
            None => turn_away(rt, stream, Seat::take(&ending, EXITS)?),
        }
    }
    Ok(())
}

/// Serves a connection in a new thread, which holds the seat until the client has its last reply.
fn start<R>(rt: R, stream: TcpStream, seat: Seat, store: Arc<Mutex<Store>>, ending: Arc<AtomicU64>)
where
    R: Clock + Threads + Wait + RandomSource + AllocGlobal + Copy + Send + 'static,
{
    let connection = move || {
        // How it ended is the client's affair.
        let _ended = serve_stream(&rt, &stream, &mut Session::new(rt, store));
        drop(seat);
        if let Ok(Some(_exit)) = Seat::take(&ending, EXITS) {
            let _ended = linger(&rt, &stream);
        }
    };
    // If no thread can be made, this closes the connection and gives the seat back.
    let _running = thread::spawn(&rt, connection);
}

/// Tells a client that there is no seat. Without an exit, its connection is closed at once.
fn turn_away<R>(rt: R, stream: TcpStream, exit: Option<Seat>)
where
    R: Clock + Threads + Copy + Send + 'static,
{
    refuse(&stream);
    let Some(exit) = exit else { return };
    let connection = move || {
        let _ended = linger(&rt, &stream);
        drop(exit);
    };
    let _running = thread::spawn(&rt, connection);
}
