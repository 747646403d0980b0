//! An echo server: what a client does not read, it may not write either.
//!
//!     cargo run --example echo -- 127.0.0.1:7007

use limekeel_tokio::{Marks, split};
use std::env;
use std::io;
use std::net::SocketAddr;
use tokio::io::AsyncReadExt;
use tokio::net::{TcpListener, TcpStream};

/// Serves one client. While it takes nothing, `write` waits, and nothing is read from it.
async fn serve(stream: TcpStream) -> io::Result<()> {
    let (mut reading, writing) = stream.into_split();
    let (outbound, pump) = split(writing, Marks::default()).map_err(io::Error::other)?;
    let pump = tokio::spawn(pump);
    let mut bytes = [0; 16384];
    loop {
        let count = reading.read(&mut bytes).await?;
        if count == 0 {
            break;
        }
        outbound.write(&bytes[..count]).await?;
    }
    // all that was written is sent before the stream is shut down
    drop(outbound);
    pump.await?.into_result().map(drop)
}

#[tokio::main]
async fn main() -> io::Result<()> {
    let address: SocketAddr = match env::args().nth(1) {
        Some(text) => text.parse().map_err(io::Error::other)?,
        None => ([127, 0, 0, 1], 7007).into(),
    };
    let listener = TcpListener::bind(address).await?;
    println!("echoes on {}", listener.local_addr()?);
    loop {
        let (stream, peer) = listener.accept().await?;
        tokio::spawn(async move {
            if let Err(error) = serve(stream).await {
                eprintln!("{peer}: {error}");
            }
        });
    }
}
