//! A chat server in one thread. What a client says in a line is told to all others, with the client's address before it.
//!
//! The first argument is the address to listen at, such as `127.0.0.1:7000`; at port 0 the system picks one.
#![tactic(auto)]

mod arrivals;
mod hall;
mod task;

use arrivals::Arrivals;
use hall::Hall;
use std::alloc::AllocGlobal;
use std::io::ErrorKind;
use std::net::{Net, TcpListener, TcpStream};
use std::process::ExitCode;
use std::random::RandomSource;
use std::sync::Wait;
use std::time::Clock;
use std::{env, io};
use tokio::runtime::LocalRuntime;

fn main(rt: HostRuntime) -> ExitCode {
    match listen(&rt, &rt) {
        Ok(()) => ExitCode::from(0),
        Err(e) => {
            let _ = eprintln!(rt; "chat_server: {e}");
            ExitCode::from(1)
        }
    }
}

/// Listens, and serves each connection in a task of this thread.
fn listen<R>(host: &HostRuntime, rt: &R) -> io::Result<()>
where
    R: Net<Listener = TcpListener, Stream = TcpStream> + Wait + Clock + RandomSource + AllocGlobal,
{
    let Some(address) = env::args(host)?.nth(1) else {
        return Err(ErrorKind::InvalidInput.into());
    };
    let listener = TcpListener::bind(rt, address.as_str())?;
    let mut runtime = LocalRuntime::new(rt)?;
    let listener = tokio::net::TcpListener::from_std(listener, runtime.handle().reactor())?;
    let hall = Hall::shared(rt.alloc())?;
    println!(host; "listening at {}", listener.local_addr()?)?;
    runtime.run_all(rt, Arrivals::new(rt.alloc(), listener, hall))
}
