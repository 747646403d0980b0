//! An echo server within a budget: what waits for all clients together is never more than the room, in bytes.
//!
//!     cargo run --example budget -- 127.0.0.1:7007 67108864
//!
//! While all together hold much nothing more is read, and whatever client's bytes end that wake all who wait for it. A
//! client that takes nothing for a while is given up, since its bytes alone may be what the others wait for.

use limekeel_tokio::{Bounds, Budget, Ended, Estimate, Marks, Outbound, Pump, split_within};
use std::env;
use std::io;
use std::net::SocketAddr;
use std::time::Duration;
use tokio::io::AsyncReadExt;
use tokio::net::tcp::{OwnedReadHalf, OwnedWriteHalf};
use tokio::net::{TcpListener, TcpStream};
use tokio::time::timeout;

/// How many bytes a client takes of the budget at once.
const QUANTUM: u64 = 4096;
/// After how long a client is given up that takes nothing.
const PATIENCE: Duration = Duration::from_secs(1);

/// Reads and writes back until the client ends its side.
async fn echo(mut reading: OwnedReadHalf, outbound: Outbound, budget: &Budget) -> io::Result<()> {
    let mut bytes = [0; 16384];
    loop {
        if timeout(PATIENCE, budget.calm()).await.is_err() && outbound.pending() > 0 {
            return Err(io::ErrorKind::TimedOut.into());
        }
        let count = reading.read(&mut bytes).await?;
        if count == 0 {
            return Ok(());
        }
        // it may be refused: many read at once, and then the room is full
        timeout(PATIENCE, outbound.write(&bytes[..count])).await??;
    }
}

async fn sends(pump: Pump<OwnedWriteHalf>) -> io::Result<()> {
    let ended: Ended<_> = pump.await;
    ended.into_result().map(drop)
}

/// Serves one client. If that fails the pump is dropped, and with it what the client held of the budget.
async fn serve(stream: TcpStream, budget: Budget) -> io::Result<()> {
    let (reading, writing) = stream.into_split();
    let (outbound, pump) =
        split_within(writing, Marks::default(), Estimate::default(), &budget).map_err(io::Error::other)?;
    tokio::try_join!(echo(reading, outbound, &budget), sends(pump)).map(drop)
}

#[tokio::main]
async fn main() -> io::Result<()> {
    let mut words = env::args().skip(1);
    let address: SocketAddr = match words.next() {
        Some(text) => text.parse().map_err(io::Error::other)?,
        None => ([127, 0, 0, 1], 7007).into(),
    };
    let room: u64 = match words.next() {
        Some(text) => text.parse().map_err(io::Error::other)?,
        None => 64 << 20,
    };
    let bounds = Bounds { room, low: room / 4, high: room / 2 };
    let budget = Budget::open(bounds, QUANTUM).map_err(io::Error::other)?;
    let listener = TcpListener::bind(address).await?;
    println!("echoes on {}", listener.local_addr()?);
    loop {
        let (stream, peer) = listener.accept().await?;
        let budget = budget.clone();
        tokio::spawn(async move {
            if let Err(error) = serve(stream, budget).await {
                eprintln!("{peer}: {error}");
            }
        });
    }
}
