//! An echo server on several threads: clients go from worker to worker, which read and write, and one thread sends to all.
//!
//!     cargo run --example echo_threads -- 127.0.0.1:7007 --threads 4 --low 32768 --high 65536
//!
//! A client's connection is shared by the worker that has the client just now and by the thread that sends. That sleeps at one
//! end of a socket pair while nothing is to be sent, and workers wake it by a byte at the other: a server with a reactor has that
//! end, or an `eventfd`, among its sockets.

use limekeel::{Ending, Estimate, Marks, Moment, SharedConnection, Transport};
use std::collections::VecDeque;
use std::env;
use std::error::Error;
use std::io::{self, ErrorKind, Read, Write};
use std::net::{Shutdown, TcpListener, TcpStream};
use std::os::unix::net::UnixStream;
use std::sync::atomic::{AtomicBool, AtomicU32, AtomicU64, Ordering};
use std::sync::mpsc::{Receiver, Sender, channel};
use std::sync::{Mutex, PoisonError};
use std::thread;
use std::time::Duration;

/// How many bytes are read at once.
pub const CHUNK: usize = 16384;
/// How often a socket is written to before the others have their turn.
const TURNS: u32 = 16;
/// How long a thread sleeps that found nothing to do. std has no poll, so a socket without room is tried again after that.
const NAP: Duration = Duration::from_micros(200);

/// The half of a client that workers pass on.
struct Reading {
    socket: TcpStream,
    connection: SharedConnection,
    /// Which worker had it last.
    worker: usize,
}

/// The half of a client that the sending thread keeps.
struct Sending {
    socket: TcpStream,
    transport: Transport,
}

/// What a server saw.
#[derive(Debug, Default)]
pub struct Seen {
    /// How many bytes were echoed.
    pub echoed: AtomicU64,
    /// The most bytes that were pending for one client.
    pub peak: AtomicU32,
    /// How often a worker left a client alone that had too much pending.
    pub stops: AtomicU64,
    /// How often a client went from a worker to another.
    pub moves: AtomicU64,
}

/// What wakes the sending thread.
struct Wake {
    end: UnixStream,
    /// Whether a byte is on its way: one is enough.
    rung: AtomicBool,
}

impl Wake {
    fn ring(&self) {
        if !self.rung.swap(true, Ordering::SeqCst) {
            // it has room, since no other byte is there
            let _ = (&self.end).write(&[1]);
        }
    }

    /// Sleeps at the other end until it was rung, or for as long as that end's time says.
    fn sleep(&self, mut end: &UnixStream) {
        if end.read(&mut [0; 8]).is_ok() {
            self.rung.store(false, Ordering::SeqCst);
        }
    }
}

/// What the threads share.
struct Server<'a> {
    readings: Mutex<VecDeque<Reading>>,
    wake: Wake,
    seen: &'a Seen,
    stop: &'a AtomicBool,
}

impl Server<'_> {
    /// Takes clients, does a turn with each, and hands them on to whoever comes next.
    fn work(&self, worker: usize) {
        let mut idle = 0;
        while !self.stop.load(Ordering::Acquire) {
            let (next, count) = {
                let mut readings = self.readings.lock().unwrap_or_else(PoisonError::into_inner);
                (readings.pop_front(), readings.len())
            };
            let Some(mut reading) = next else {
                thread::sleep(NAP);
                continue;
            };
            if reading.worker != worker {
                reading.worker = worker;
                self.seen.moves.fetch_add(1, Ordering::Relaxed);
            }
            idle = match self.read(&mut reading) {
                Ok(true) => 0,
                Ok(false) => idle + 1,
                Err(_) => {
                    // the end of this client: the sending thread is told that nobody writes any more
                    drop(reading);
                    self.wake.ring();
                    continue;
                }
            };
            self.readings.lock().unwrap_or_else(PoisonError::into_inner).push_back(reading);
            if idle > count {
                thread::sleep(NAP);
                idle = 0;
            }
        }
    }

    /// Reads once, unless too much waits already. Returns whether something came.
    fn read(&self, client: &mut Reading) -> Result<bool, Box<dyn Error>> {
        if !client.connection.is_writable() {
            self.seen.stops.fetch_add(1, Ordering::Relaxed);
            return Ok(false);
        }
        let mut bytes = [0; CHUNK];
        match client.socket.read(&mut bytes) {
            Ok(0) => Err("the client sends no more".into()),
            Ok(count) => {
                let _ = client.connection.write_and_flush(&bytes[..count])?;
                self.seen.peak.fetch_max(client.connection.glance().total, Ordering::Relaxed);
                self.wake.ring();
                Ok(true)
            }
            Err(error) if is_later(&error) => Ok(false),
            Err(error) => Err(error.into()),
        }
    }

    /// Sends to all clients, and sleeps while there is nothing to send.
    fn send(&self, came: &Receiver<Sending>, end: &UnixStream) {
        let mut clients = Vec::new();
        while !self.stop.load(Ordering::Acquire) {
            clients.extend(came.try_iter());
            clients.retain_mut(|client| self.send_to(client));
            self.wake.sleep(end);
        }
    }

    /// Sends to one client what its socket takes. Returns whether it stays.
    fn send_to(&self, client: &mut Sending) -> bool {
        match client.transport.wait_for_work_within(Duration::ZERO) {
            Moment::NotYet => return true,
            Moment::Ready => {}
            Moment::Closed | Moment::Abandoned => {
                // all is sent, and nobody writes
                let _ = client.socket.shutdown(Shutdown::Write);
                return false;
            }
        }
        let Ok(sent) = client.transport.send_until_blocked(&mut client.socket, TURNS) else { return false };
        self.seen.echoed.fetch_add(sent.bytes, Ordering::Relaxed);
        match sent.ending {
            Ending::Drained | Ending::Blocked => true,
            // the others have their turn now
            Ending::TurnsUsed | Ending::OtherInFront => {
                self.wake.ring();
                true
            }
            Ending::Broken(_) => {
                // whoever has the other half is told that it is closed
                let _ = client.transport.give_up(1);
                false
            }
        }
    }
}

/// Whether a call on a socket is to be tried again later.
fn is_later(error: &io::Error) -> bool {
    matches!(error.kind(), ErrorKind::WouldBlock | ErrorKind::Interrupted)
}

/// The two halves of a client.
fn halves(socket: TcpStream, marks: Marks) -> Result<(Reading, Sending), Box<dyn Error>> {
    socket.set_nonblocking(true)?;
    let (connection, transport) = SharedConnection::open(marks, Estimate::default())?;
    let reading = Reading { socket: socket.try_clone()?, connection, worker: 0 };
    Ok((reading, Sending { socket, transport }))
}

/// Serves with this many workers until it is told to stop.
pub fn serve(listener: &TcpListener, marks: Marks, workers: usize, stop: &AtomicBool) -> Result<Seen, Box<dyn Error>> {
    listener.set_nonblocking(true)?;
    let (end, other) = UnixStream::pair()?;
    end.set_nonblocking(true)?;
    other.set_read_timeout(Some(NAP))?;
    let (seen, wake) = (Seen::default(), Wake { end, rung: AtomicBool::new(false) });
    let server = Server { readings: Mutex::default(), wake, seen: &seen, stop };
    let (sendings, came) = channel();
    thread::scope(|scope| {
        let server = &server;
        for worker in 0..workers {
            scope.spawn(move || server.work(worker));
        }
        scope.spawn(move || server.send(&came, &other));
        let served = accept(server, listener, marks, &sendings);
        stop.store(true, Ordering::Release);
        served
    })?;
    Ok(seen)
}

/// Takes clients in until it is told to stop.
fn accept(
    server: &Server<'_>,
    listener: &TcpListener,
    marks: Marks,
    sendings: &Sender<Sending>,
) -> Result<(), Box<dyn Error>> {
    while !server.stop.load(Ordering::Acquire) {
        match listener.accept() {
            Ok((socket, _)) => {
                let (reading, sending) = halves(socket, marks)?;
                sendings.send(sending)?;
                server.readings.lock().unwrap_or_else(PoisonError::into_inner).push_back(reading);
            }
            Err(error) if is_later(&error) => thread::sleep(NAP),
            Err(error) => return Err(error.into()),
        }
    }
    Ok(())
}

#[allow(dead_code)]
fn main() -> Result<(), Box<dyn Error>> {
    let (mut address, mut marks, mut workers) = ("127.0.0.1:7007".to_owned(), Marks::default(), 4);
    let mut words = env::args().skip(1);
    while let Some(word) = words.next() {
        let mut number = |what: &str| words.next().ok_or(format!("{word} wants a number of {what}"));
        match word.as_str() {
            "--threads" => workers = number("threads")?.parse()?,
            "--low" => marks.low = number("bytes")?.parse()?,
            "--high" => marks.high = number("bytes")?.parse()?,
            _ => address = word,
        }
    }
    // bad marks are reported before the first client comes
    drop(SharedConnection::open(marks, Estimate::default())?);
    let listener = TcpListener::bind(&address)?;
    println!("echoes on {}", listener.local_addr()?);
    serve(&listener, marks, workers.max(1), &AtomicBool::new(false))?;
    Ok(())
}
