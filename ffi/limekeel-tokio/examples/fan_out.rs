//! A feed: what comes in by one client goes out to all others. A client that reads too slowly misses messages and
//! holds up nobody, and one that reads nothing at all takes no more memory than its high mark and one message.
//!
//!     cargo run --example fan_out -- 127.0.0.1:7007
//!
//! Each line that a client sends is a message.

use limekeel_tokio::{Block, Marks, Outbound, TryWriteError, split};
use std::collections::HashMap;
use std::env;
use std::io;
use std::net::SocketAddr;
use std::sync::{Arc, Mutex, PoisonError};
use tokio::io::{AsyncBufReadExt, BufReader};
use tokio::net::{TcpListener, TcpStream};

/// The clients, and how many messages each has missed.
type Clients = Arc<Mutex<HashMap<SocketAddr, (Outbound, u64)>>>;

/// Sends a line to all clients but one. The line is copied once, however many there are.
fn publish(clients: &Clients, from: SocketAddr, line: &str) -> io::Result<()> {
    let block = Block::new(line.as_bytes()).map_err(io::Error::other)?;
    let mut clients = clients.lock().unwrap_or_else(PoisonError::into_inner);
    clients.retain(|address, (outbound, missed)| {
        if *address == from {
            return true;
        }
        match outbound.try_write(&block) {
            Ok(_) => true,
            Err(TryWriteError::Full(_)) => {
                *missed += 1;
                true
            }
            Err(_) => false,
        }
    });
    Ok(())
}

async fn serve(stream: TcpStream, peer: SocketAddr, clients: Clients) -> io::Result<()> {
    let (reading, writing) = stream.into_split();
    let (outbound, pump) = split(writing, Marks::default()).map_err(io::Error::other)?;
    let pump = tokio::spawn(pump);
    clients.lock().unwrap_or_else(PoisonError::into_inner).insert(peer, (outbound, 0));
    let mut lines = BufReader::new(reading);
    let mut line = String::new();
    while lines.read_line(&mut line).await? > 0 {
        publish(&clients, peer, &line)?;
        line.clear();
    }
    let missed = clients.lock().unwrap_or_else(PoisonError::into_inner).remove(&peer).map_or(0, |(_, missed)| missed);
    println!("{peer} has left, and missed {missed}");
    pump.await?.into_result().map(drop)
}

#[tokio::main]
async fn main() -> io::Result<()> {
    let address: SocketAddr = match env::args().nth(1) {
        Some(text) => text.parse().map_err(io::Error::other)?,
        None => ([127, 0, 0, 1], 7007).into(),
    };
    let listener = TcpListener::bind(address).await?;
    println!("feeds on {}", listener.local_addr()?);
    let clients = Clients::default();
    loop {
        let (stream, peer) = listener.accept().await?;
        let clients = Arc::clone(&clients);
        tokio::spawn(async move {
            if let Err(error) = serve(stream, peer, clients).await {
                eprintln!("{peer}: {error}");
            }
        });
    }
}
