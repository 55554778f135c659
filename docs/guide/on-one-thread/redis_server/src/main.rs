//! The server of `example_redis` with all connections in one thread, over one store: each is a task of `LocalRuntime`.
//!
//! Its commands are those of `example_redis`, and `SHUTDOWN`, which ends the server. The first argument is the address to
//! listen at, such as `127.0.0.1:6379`; at port 0 the system picks one.
#![tactic(auto)]

mod arrivals;
mod connection;

use arrivals::Arrivals;
use futures::StreamExt;
use std::alloc::AllocGlobal;
use std::io::ErrorKind;
use std::net::{Net, TcpListener, TcpStream};
use std::process::ExitCode;
use std::random::RandomSource;
use std::sync::{Arc, Wait};
use std::time::{Clock, Duration};
use std::{env, io};
use tokio::runtime::LocalRuntime;
use tokio::sync::Notify;

/// How many seconds connections may take to end once the server stops.
const GRACE: u64 = 5;

fn main(rt: HostRuntime) -> ExitCode {
    match listen(&rt, &rt) {
        Ok(()) => ExitCode::from(0),
        Err(e) => {
            let _ = eprintln!(rt; "redis_server: {e}");
            ExitCode::from(1)
        }
    }
}

/// Listens, and serves each connection in a task of this thread, until a client stops the server.
fn listen<R>(host: &HostRuntime, rt: &R) -> io::Result<()>
where
    R: Net<Listener = TcpListener, Stream = TcpStream> + Wait + Clock + RandomSource + AllocGlobal,
{
    let Some(address) = env::args(host)?.nth(1) else {
        return Err(ErrorKind::InvalidInput.into());
    };
    let listener = TcpListener::bind(rt, address.as_str())?;
    let mut runtime = LocalRuntime::new(rt)?;
    runtime.set_shutdown_timeout(Some(Duration::from_secs(GRACE)));
    let listener = tokio::net::TcpListener::from_std(listener, runtime.handle().reactor())?;
    let stop = Arc::new(rt.alloc(), Notify::new(rt.alloc())?)?;
    let stopped = Notify::notified_owned(Arc::try_clone(&stop)?);
    let local = listener.local_addr()?;
    let arrivals = Arrivals::new(rt, listener, runtime.handle().time().clone()?, stop)?;
    println!(host; "listening at {local}")?;
    runtime.run_all(rt, arrivals.take_until(stopped))
}
