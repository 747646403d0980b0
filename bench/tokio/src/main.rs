//! Tasks that write to one client over loopback, by several ways. It prints one measurement.
//!
//!     limekeel-tokio-bench throughput WAY WRITERS SIZE
//!     limekeel-tokio-bench latency WAY
//!     limekeel-tokio-bench memory WAY

mod ways;

use bytes::Bytes;
use std::env;
use std::io::{self, IoSlice, Read};
use std::net::{TcpListener, TcpStream};
use std::pin::Pin;
use std::sync::{Arc, Mutex};
use std::task::{Context, Poll};
use std::thread::{self, JoinHandle};
use std::time::{Duration, Instant};
use tokio::io::AsyncWrite;
use tokio::net::tcp::OwnedWriteHalf;
use ways::{Handle, WAYS, Way, open};

/// A throughput is of this many bytes, or of this many messages if that is less.
const BYTES: usize = 1 << 30;
const MESSAGES: usize = 500_000;

/// A connected pair: what the server writes to, and what a client reads from.
fn pair() -> (tokio::net::TcpStream, TcpStream) {
    let listener = TcpListener::bind("127.0.0.1:0").expect("loopback is there");
    let client = TcpStream::connect(listener.local_addr().expect("it is bound")).expect("it listens");
    let (server, _) = listener.accept().expect("it was connected to");
    server.set_nonblocking(true).expect("a socket");
    server.set_nodelay(true).expect("a socket");
    (tokio::net::TcpStream::from_std(server).expect("the runtime is there"), client)
}

/// Reads all that comes, and returns how many bytes came.
fn reads(mut client: TcpStream) -> JoinHandle<usize> {
    thread::spawn(move || {
        let (mut bytes, mut count) = (vec![0; 1 << 18], 0);
        loop {
            match client.read(&mut bytes).expect("the server is there") {
                0 => return count,
                n => count += n,
            }
        }
    })
}

async fn writes(handle: Handle, message: Bytes, count: usize) {
    for _ in 0..count {
        handle.write(message.clone()).await;
    }
}

/// How many messages a second this many tasks write to one client.
async fn throughput(way: Way, size: usize, writers: usize) -> f64 {
    let (server, client) = pair();
    let (_reading, writing) = server.into_split();
    let reader = reads(client);
    let count = (BYTES / size).min(MESSAGES) / writers;
    let message = Bytes::from(vec![7; size]);
    let start = Instant::now();
    let handle = open(way, writing, size);
    let tasks: Vec<_> = (0..writers).map(|_| tokio::spawn(writes(handle.clone(), message.clone(), count))).collect();
    drop(handle);
    for task in tasks {
        task.await.expect("it wrote all");
    }
    let came = tokio::task::spawn_blocking(|| reader.join().expect("it read all")).await.expect("it read all");
    assert_eq!(came, count * writers * size);
    (count * writers) as f64 / start.elapsed().as_secs_f64()
}

/// A socket that notes when the system has taken how many bytes.
struct Noted {
    socket: OwnedWriteHalf,
    taken: Arc<Mutex<Vec<(usize, Instant)>>>,
}

impl Noted {
    fn notes(&self, took: Poll<io::Result<usize>>) -> Poll<io::Result<usize>> {
        if let Poll::Ready(Ok(count)) = took {
            self.taken.lock().expect("nobody panics").push((count, Instant::now()));
        }
        took
    }
}

impl AsyncWrite for Noted {
    fn poll_write(mut self: Pin<&mut Self>, cx: &mut Context<'_>, bytes: &[u8]) -> Poll<io::Result<usize>> {
        let took = Pin::new(&mut self.socket).poll_write(cx, bytes);
        self.notes(took)
    }

    fn poll_write_vectored(
        mut self: Pin<&mut Self>,
        cx: &mut Context<'_>,
        pieces: &[IoSlice<'_>],
    ) -> Poll<io::Result<usize>> {
        let took = Pin::new(&mut self.socket).poll_write_vectored(cx, pieces);
        self.notes(took)
    }

    fn is_write_vectored(&self) -> bool {
        self.socket.is_write_vectored()
    }

    fn poll_flush(mut self: Pin<&mut Self>, cx: &mut Context<'_>) -> Poll<io::Result<()>> {
        Pin::new(&mut self.socket).poll_flush(cx)
    }

    fn poll_shutdown(mut self: Pin<&mut Self>, cx: &mut Context<'_>) -> Poll<io::Result<()>> {
        Pin::new(&mut self.socket).poll_shutdown(cx)
    }
}

/// Below which time half of these are, and 99 of 100, in microseconds.
fn half_and_most(mut times: Vec<u64>) -> [f64; 2] {
    times.sort_unstable();
    [times.len() / 2, times.len() * 99 / 100].map(|place| times[place] as f64 / 1e3)
}

/// The times in microseconds from before a write until the system has taken its message, and until the client has read
/// it: half are below the first of each, and 99 of 100 below the second. Each of some tasks writes a message of 64
/// bytes every millisecond.
async fn latency(way: Way) -> [[f64; 2]; 2] {
    const TASKS: usize = 32;
    const EACH: usize = 1000;
    const SIZE: usize = 64;
    let (server, mut client) = pair();
    let (_reading, socket) = server.into_split();
    let start = Instant::now();
    let nanos = move |at: Instant| at.duration_since(start).as_nanos() as u64;
    let reader = thread::spawn(move || {
        let (mut read, mut message) = (Vec::new(), [0; SIZE]);
        while client.read_exact(&mut message).is_ok() {
            let began = u64::from_le_bytes(message[..8].try_into().expect("eight bytes"));
            read.push((began, nanos(Instant::now())));
        }
        read
    });
    let taken = Arc::default();
    let handle = open(way, Noted { socket, taken: Arc::clone(&taken) }, SIZE);
    let tasks: Vec<_> = (0..TASKS)
        .map(|task| {
            let handle = handle.clone();
            tokio::spawn(async move {
                tokio::time::sleep(Duration::from_micros(31 * task as u64)).await;
                let mut ticks = tokio::time::interval(Duration::from_millis(1));
                for _ in 0..EACH {
                    ticks.tick().await;
                    let mut message = [0; SIZE];
                    message[..8].copy_from_slice(&nanos(Instant::now()).to_le_bytes());
                    handle.write(Bytes::copy_from_slice(&message)).await;
                }
            })
        })
        .collect();
    drop(handle);
    for task in tasks {
        task.await.expect("it wrote all");
    }
    let read = tokio::task::spawn_blocking(|| reader.join().expect("it read")).await.expect("it read");
    assert_eq!(read.len(), TASKS * EACH);
    let (mut sent, mut end) = (Vec::new(), 0);
    for (count, at) in taken.lock().expect("nobody panics").iter() {
        end += count;
        // of each message whose last byte was among these
        sent.extend(read[sent.len()..end / SIZE].iter().map(|(began, _)| nanos(*at) - began));
    }
    [half_and_most(sent), half_and_most(read.iter().map(|(began, came)| came - began).collect())]
}

/// How many kilobytes of memory this process has.
fn resident() -> usize {
    let status = std::fs::read_to_string("/proc/self/status").expect("this is Linux");
    let line = status.lines().find(|line| line.starts_with("VmRSS:")).expect("it is told");
    line.split_whitespace().nth(1).and_then(|text| text.parse().ok()).expect("a number")
}

/// The kilobytes that each client takes that reads nothing, while 16 tasks write messages of 16 KiB to it. Each way
/// was told to let 64 KiB wait, in messages of 64 bytes.
async fn memory(way: Way) -> f64 {
    const CLIENTS: usize = 64;
    let before = resident();
    let mut kept = Vec::new();
    for _ in 0..CLIENTS {
        let (server, client) = pair();
        let (reading, writing) = server.into_split();
        let handle = open(way, writing, 64);
        for _ in 0..16 {
            let handle = handle.clone();
            tokio::spawn(async move {
                loop {
                    handle.ready().await;
                    handle.write(Bytes::from(vec![7; 16384])).await;
                }
            });
        }
        kept.push((reading, client));
    }
    tokio::time::sleep(Duration::from_secs(2)).await;
    let after = resident();
    drop(kept);
    (after - before) as f64 / CLIENTS as f64
}

fn runtime() -> tokio::runtime::Runtime {
    tokio::runtime::Builder::new_multi_thread().worker_threads(3).enable_all().build().expect("there are threads")
}

fn main() {
    let words: Vec<String> = env::args().skip(1).collect();
    let words: Vec<&str> = words.iter().map(String::as_str).collect();
    let way = |name| WAYS.into_iter().find(|way| format!("{way:?}") == name).expect("a way");
    match words[..] {
        ["throughput", name, writers, size] => {
            let (writers, size) = (writers.parse().expect("a number"), size.parse().expect("a number"));
            println!("{:.0}", runtime().block_on(throughput(way(name), size, writers)));
        }
        ["latency", name] => {
            let [[half, most], [half_read, most_read]] = runtime().block_on(latency(way(name)));
            println!("{half:.1} {most:.1} {half_read:.1} {most_read:.1}");
        }
        ["memory", name] => {
            println!("{:.0}", runtime().block_on(memory(way(name))));
            // tasks that write to a client that is gone are not waited for
            std::process::exit(0);
        }
        _ => panic!("throughput WAY WRITERS SIZE, latency WAY or memory WAY"),
    }
}
