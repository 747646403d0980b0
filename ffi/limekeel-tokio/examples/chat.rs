//! A chat with frames like those of WebSocket: a byte that says what it is, two bytes of length, and the text.
//!
//!     cargo run --example chat -- 127.0.0.1:7007
//!
//! Many tasks write to each client: the tasks of all others, and one that asks whether it is still there. Who says
//! something waits until all can take it, up to a limit: then the slow one is thrown out. A client that says goodbye
//! gets all that was said before, and the last frame of the server behind it.

use bytes::{BufMut, Bytes, BytesMut};
use limekeel_tokio::{Marks, Outbound, split};
use std::collections::HashMap;
use std::env;
use std::io;
use std::net::SocketAddr;
use std::sync::{Arc, Mutex, PoisonError};
use std::time::Duration;
use tokio::io::{AsyncReadExt, BufReader};
use tokio::net::tcp::OwnedReadHalf;
use tokio::net::{TcpListener, TcpStream};
use tokio::time::{MissedTickBehavior, interval, timeout};

const TEXT: u8 = 1;
const CLOSE: u8 = 8;
const PING: u8 = 9;
const PONG: u8 = 10;
/// How long one waits for a client that is full.
const PATIENCE: Duration = Duration::from_secs(5);
const BETWEEN_PINGS: Duration = Duration::from_secs(20);

type Clients = Arc<Mutex<HashMap<SocketAddr, Outbound>>>;

fn frame(kind: u8, text: &[u8]) -> Bytes {
    let mut frame = BytesMut::with_capacity(3 + text.len());
    frame.put_u8(kind);
    frame.put_u16(text.len() as u16);
    frame.put_slice(text);
    frame.freeze()
}

async fn next_frame(reading: &mut BufReader<OwnedReadHalf>) -> io::Result<(u8, Vec<u8>)> {
    let kind = reading.read_u8().await?;
    let mut text = vec![0; reading.read_u16().await?.into()];
    reading.read_exact(&mut text).await?;
    Ok((kind, text))
}

/// Says it to all but one. The bytes of the frame are shared, not copied.
async fn say(clients: &Clients, from: SocketAddr, text: &[u8]) {
    let frame = frame(TEXT, text);
    let others: Vec<_> = {
        let clients = clients.lock().unwrap_or_else(PoisonError::into_inner);
        clients.iter().filter(|(address, _)| **address != from).map(|(a, outbound)| (*a, outbound.clone())).collect()
    };
    for (address, outbound) in others {
        if !matches!(timeout(PATIENCE, outbound.write(frame.clone())).await, Ok(Ok(_))) {
            clients.lock().unwrap_or_else(PoisonError::into_inner).remove(&address);
            // its pump is not waited for: it ends when the client takes what is left, or is gone
        }
    }
}

async fn pings(outbound: Outbound) {
    let mut ticks = interval(BETWEEN_PINGS);
    ticks.set_missed_tick_behavior(MissedTickBehavior::Delay);
    loop {
        ticks.tick().await;
        if outbound.write(frame(PING, b"")).await.is_err() {
            return;
        }
    }
}

async fn serve(stream: TcpStream, peer: SocketAddr, clients: Clients) -> io::Result<()> {
    let (reading, writing) = stream.into_split();
    let (outbound, pump) = split(writing, Marks::default()).map_err(io::Error::other)?;
    let pump = tokio::spawn(pump);
    let pings = tokio::spawn(pings(outbound.clone()));
    clients.lock().unwrap_or_else(PoisonError::into_inner).insert(peer, outbound.clone());
    let mut reading = BufReader::new(reading);
    let said = loop {
        match next_frame(&mut reading).await {
            Ok((TEXT, text)) => say(&clients, peer, &text).await,
            Ok((PING, text)) => drop(outbound.write(frame(PONG, &text)).await?),
            Ok((CLOSE, _)) => break Ok(()),
            Ok(_) => {}
            Err(error) => break Err(error),
        }
    };
    clients.lock().unwrap_or_else(PoisonError::into_inner).remove(&peer);
    // an abort is a request: once its task is waited for, no ping goes behind the goodbye
    pings.abort();
    let _ended = pings.await;
    if said.is_ok() {
        outbound.write(frame(CLOSE, b"goodbye")).await?;
        outbound.finish().await?;
    }
    pump.abort();
    said
}

#[tokio::main]
async fn main() -> io::Result<()> {
    let address: SocketAddr = match env::args().nth(1) {
        Some(text) => text.parse().map_err(io::Error::other)?,
        None => ([127, 0, 0, 1], 7007).into(),
    };
    let listener = TcpListener::bind(address).await?;
    println!("chats on {}", listener.local_addr()?);
    let clients = Clients::default();
    loop {
        let (stream, peer) = listener.accept().await?;
        let clients = Arc::clone(&clients);
        tokio::spawn(async move {
            if let Err(error) = serve(stream, peer, clients).await {
                eprintln!("{peer}: {error}");
            }
        });
    }
}
