//! Real sockets on loopback: clients that read slowly, stall, reset and half close.

mod common;

use bytes::Bytes;
use common::Dice;
use limekeel_tokio::{Ended, Marks, Outbound, Outcome, WriteError, split};
use std::future::Future;
use std::io;
use std::time::Duration;
use tokio::io::{AsyncReadExt, AsyncWriteExt};
use tokio::net::tcp::{OwnedReadHalf, OwnedWriteHalf};
use tokio::net::{TcpListener, TcpStream};
use tokio::runtime::Builder;
use tokio::task::JoinHandle;
use tokio::time::{sleep, timeout};

const MARKS: Marks = Marks { low: 16384, high: 32768 };
/// The most bytes of a message.
const MOST: usize = 3000;
const OVERHEAD: usize = 96;

/// A server's end of a connection, and the client's.
struct Pair {
    outbound: Outbound,
    pump: JoinHandle<Ended<OwnedWriteHalf>>,
    reading: OwnedReadHalf,
    client: TcpStream,
}

async fn pair() -> Pair {
    let listener = TcpListener::bind("127.0.0.1:0").await.unwrap();
    let client = TcpStream::connect(listener.local_addr().unwrap()).await.unwrap();
    let (server, _) = listener.accept().await.unwrap();
    let (reading, writing) = server.into_split();
    let (outbound, pump) = split(writing, MARKS).unwrap();
    Pair { outbound, pump: tokio::spawn(pump), reading, client }
}

fn run(test: impl Future<Output = ()>) {
    let runtime = Builder::new_multi_thread().worker_threads(3).enable_all().build().unwrap();
    runtime.block_on(async { timeout(Duration::from_secs(100), test).await.expect("nobody was left asleep") });
}

/// The message of a writer, with who wrote it, which one it is and its length in front.
fn message(writer: u8, at: u32, length: u16) -> Vec<u8> {
    let rest = (0..length).map(|place| (u32::from(place) * 7 + at * 13 + u32::from(writer)) as u8);
    [writer].into_iter().chain(at.to_le_bytes()).chain(length.to_le_bytes()).chain(rest).collect()
}

/// Writes `count` messages, by this or that call, unless nothing is sent any more. It returns the most that was
/// pending.
async fn writes(outbound: Outbound, writer: u8, count: u32) -> Result<u32, WriteError> {
    let mut dice = Dice(writer.into());
    let mut peak = 0;
    for at in 0..count {
        let bytes = message(writer, at, dice.below(MOST) as u16);
        match dice.below(3) {
            0 => drop(outbound.write(Bytes::from(bytes)).await?),
            1 => drop(outbound.write(&bytes[..]).await?),
            _ => drop(outbound.feed(bytes).await?),
        }
        peak = peak.max(outbound.pending());
    }
    outbound.flush();
    Ok(peak)
}

/// Reads messages to the end, and compares each byte. It returns how many came of each writer.
async fn reads(mut client: impl tokio::io::AsyncRead + Unpin, slow: bool) -> Vec<u32> {
    let mut came = vec![0; 256];
    loop {
        let mut head = [0; 7];
        if let Err(error) = client.read_exact(&mut head).await {
            assert_eq!(error.kind(), io::ErrorKind::UnexpectedEof);
            return came;
        }
        let writer = head[0];
        let at = u32::from_le_bytes(head[1..5].try_into().unwrap());
        let mut rest = vec![0; u16::from_le_bytes(head[5..].try_into().unwrap()).into()];
        client.read_exact(&mut rest).await.unwrap();
        assert_eq!(message(writer, at, rest.len() as u16), [&head[..], &rest].concat());
        assert_eq!(at, came[usize::from(writer)], "of writer {writer}");
        came[usize::from(writer)] += 1;
        if slow && at % 100 == 0 {
            sleep(Duration::from_millis(1)).await;
        }
    }
}

#[test]
fn many_writers_reach_a_slow_client_whole_and_within_the_bound() {
    run(async {
        const COUNT: u32 = 2000;
        let Pair { outbound, pump, client, reading: _reading } = pair().await;
        let writers: Vec<_> = (0..8).map(|name| tokio::spawn(writes(outbound.clone(), name, COUNT))).collect();
        let reads = tokio::spawn(reads(client, true));
        let mut peak = 0;
        for writer in writers {
            peak = peak.max(writer.await.unwrap().unwrap());
        }
        outbound.finish().await.unwrap();
        let ended = pump.await.unwrap();
        assert_eq!((ended.sent, ended.lost, ended.error.is_none()), (u64::from(COUNT) * 8, 0, true));
        assert_eq!(reads.await.unwrap()[..8], [COUNT; 8]);
        assert!(peak > MARKS.high / 2 && peak as usize <= MARKS.high as usize + MOST + 7 + OVERHEAD, "{peak}");
    });
}

#[test]
fn a_client_that_stalls_holds_up_its_own_writers_alone() {
    run(async {
        let stalled = pair().await;
        let good = pair().await;
        let waiting: Vec<_> =
            (0..4).map(|name| tokio::spawn(writes(stalled.outbound.clone(), name, u32::MAX))).collect();
        let reads = tokio::spawn(reads(good.client, false));
        writes(good.outbound.clone(), 1, 5000).await.unwrap();
        good.outbound.finish().await.unwrap();
        assert_eq!(reads.await.unwrap()[1], 5000);
        // by now the buffers of the sockets are full
        assert!(timeout(Duration::from_millis(50), stalled.outbound.drained()).await.is_err());
        assert!(stalled.outbound.pending() as usize <= MARKS.high as usize + MOST + 7 + OVERHEAD);
        stalled.pump.abort();
        for writer in waiting {
            assert_eq!(writer.await.unwrap(), Err(WriteError::Gone));
        }
    });
}

#[test]
fn a_client_that_resets_fails_its_writers() {
    run(async {
        let Pair { outbound, pump, mut client, reading: _reading } = pair().await;
        let writers: Vec<_> = (0..4).map(|name| tokio::spawn(writes(outbound.clone(), name, u32::MAX))).collect();
        client.read_exact(&mut [0; 5000]).await.unwrap();
        client.set_linger(Some(Duration::ZERO)).unwrap();
        drop(client);
        let ended = pump.await.unwrap();
        assert!(matches!(ended.error.unwrap().kind(), io::ErrorKind::ConnectionReset | io::ErrorKind::BrokenPipe));
        for writer in writers {
            assert_eq!(writer.await.unwrap(), Err(WriteError::Gone));
        }
        assert_eq!(outbound.finish().await, Err(WriteError::Gone));
    });
}

#[test]
fn a_client_that_half_closes_gets_all() {
    run(async {
        let Pair { outbound, pump, mut client, mut reading } = pair().await;
        client.shutdown().await.unwrap();
        assert_eq!(reading.read(&mut [0; 10]).await.unwrap(), 0);
        let writer = tokio::spawn(writes(outbound, 3, 3000));
        assert_eq!(reads(client, false).await[3], 3000);
        assert!(writer.await.unwrap().is_ok());
        assert!(pump.await.unwrap().into_result().is_ok());
    });
}

#[test]
fn a_receipt_is_of_what_the_socket_took() {
    run(async {
        let Pair { outbound, pump, mut client, reading: _reading } = pair().await;
        let receipt = outbound.write(b"question").await.unwrap();
        assert_eq!(receipt.await, Outcome::Success);
        let mut came = [0; 8];
        client.read_exact(&mut came).await.unwrap();
        assert_eq!(&came, b"question");
        drop(outbound);
        assert_eq!(client.read(&mut came).await.unwrap(), 0);
        assert_eq!(pump.await.unwrap().sent, 1);
    });
}

#[test]
fn a_file_goes_through_the_sink() {
    run(async {
        let Pair { outbound, pump, mut client, reading: _reading } = pair().await;
        let file: Vec<u8> = (0..3_000_000_u32).map(|place| (place * 7 % 251) as u8).collect();
        let wanted = file.clone();
        let copies = tokio::spawn(async move {
            let mut sink = outbound.into_sink();
            tokio::io::copy(&mut &file[..], &mut sink).await.unwrap();
            sink.write_all(b"the end").await.unwrap();
            sink.shutdown().await.unwrap();
        });
        let mut came = Vec::new();
        client.read_to_end(&mut came).await.unwrap();
        assert!(came == [&wanted[..], b"the end"].concat());
        copies.await.unwrap();
        assert!(pump.await.unwrap().into_result().is_ok());
    });
}
