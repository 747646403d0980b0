//! An echo server over non-blocking sockets of std, for any number of clients.
//!
//!     cargo run --example echo -- 127.0.0.1:7007 --low 32768 --high 65536
//!
//! What a client does not read waits in its connection. Above the high mark the server reads no more of that client, and
//! below the low mark it goes on; so no client can fill the memory, however slowly it reads.

use limekeel::{Change, Connection, Estimate, Marks};
use std::env;
use std::error::Error;
use std::io::{self, ErrorKind, Read};
use std::net::{TcpListener, TcpStream};
use std::sync::atomic::{AtomicBool, Ordering};
use std::thread;
use std::time::Duration;

/// How many bytes are read at once.
pub const CHUNK: usize = 16384;

/// One client.
struct Client {
    socket: TcpStream,
    connection: Connection,
    /// Whether writers may go on, as the last change said.
    may_write: bool,
    /// Whether the client sends no more.
    ended: bool,
}

/// What became of a client in one turn.
enum Turn {
    Idle,
    Moved,
    Gone,
}

/// What a server saw.
#[derive(Debug, Default)]
pub struct Seen {
    /// How many bytes were echoed.
    pub echoed: u64,
    /// The most bytes that were pending for one client.
    pub peak: u32,
    /// How often writers were stopped.
    pub stops: u64,
}

impl Client {
    fn new(socket: TcpStream, marks: Marks) -> Result<Client, Box<dyn Error>> {
        socket.set_nonblocking(true)?;
        let connection = Connection::open(marks, Estimate::default())?;
        Ok(Client { socket, connection, may_write: true, ended: false })
    }

    fn note(&mut self, change: Option<Change>, seen: &mut Seen) {
        match change {
            Some(Change::Unwritable) => {
                self.may_write = false;
                seen.stops += 1;
            }
            Some(Change::Writable) => self.may_write = true,
            None => {}
        }
    }

    /// Reads once, unless too much waits already. Returns whether something came.
    fn read(&mut self, seen: &mut Seen) -> Result<bool, Box<dyn Error>> {
        if self.ended || !self.may_write {
            return Ok(false);
        }
        let mut bytes = [0; CHUNK];
        match self.socket.read(&mut bytes) {
            Ok(0) => {
                self.ended = true;
                Ok(true)
            }
            Ok(count) => {
                let written = self.connection.write(&bytes[..count])?;
                self.note(written.change, seen);
                let flushed = self.connection.flush()?;
                self.note(flushed.change, seen);
                seen.peak = seen.peak.max(self.connection.look().total);
                Ok(true)
            }
            Err(error) if is_later(&error) => Ok(false),
            Err(error) => Err(error.into()),
        }
    }

    /// Sends once. Returns whether something went out.
    fn send(&mut self, seen: &mut Seen) -> Result<bool, Box<dyn Error>> {
        let sent = self.connection.send_to(&mut self.socket)?;
        seen.echoed += sent.bytes as u64;
        self.note(sent.taken.change, seen);
        if self.ended && !sent.more {
            return Err("the client is done".into());
        }
        Ok(sent.bytes > 0)
    }

    fn turn(&mut self, seen: &mut Seen) -> Turn {
        let moved = self.read(seen).and_then(|read| Ok(self.send(seen)? || read));
        match moved {
            Ok(true) => Turn::Moved,
            Ok(false) => Turn::Idle,
            // an error of one client is the end of that client alone
            Err(_) => Turn::Gone,
        }
    }
}

/// Whether a call on a socket is to be tried again later.
fn is_later(error: &io::Error) -> bool {
    matches!(error.kind(), ErrorKind::WouldBlock | ErrorKind::Interrupted)
}

/// Serves until it is told to stop.
pub fn serve(listener: &TcpListener, marks: Marks, stop: &AtomicBool) -> Result<Seen, Box<dyn Error>> {
    listener.set_nonblocking(true)?;
    let (mut clients, mut seen) = (Vec::new(), Seen::default());
    while !stop.load(Ordering::Acquire) {
        let mut idle = true;
        match listener.accept() {
            Ok((socket, _)) => {
                clients.push(Client::new(socket, marks)?);
                idle = false;
            }
            Err(error) if is_later(&error) => {}
            Err(error) => return Err(error.into()),
        }
        clients.retain_mut(|client| match client.turn(&mut seen) {
            Turn::Gone => false,
            Turn::Moved => {
                idle = false;
                true
            }
            Turn::Idle => true,
        });
        if idle {
            // std has no poll; a server with many clients takes one from elsewhere
            thread::sleep(Duration::from_micros(200));
        }
    }
    Ok(seen)
}

#[allow(dead_code)]
fn main() -> Result<(), Box<dyn Error>> {
    let (mut address, mut marks) = ("127.0.0.1:7007".to_owned(), Marks::default());
    let mut words = env::args().skip(1);
    while let Some(word) = words.next() {
        match word.as_str() {
            "--low" => marks.low = words.next().ok_or("--low wants a number of bytes")?.parse()?,
            "--high" => marks.high = words.next().ok_or("--high wants a number of bytes")?.parse()?,
            _ => address = word,
        }
    }
    // bad marks are reported before the first client comes
    drop(Connection::open(marks, Estimate::default())?);
    let listener = TcpListener::bind(&address)?;
    println!("echoes on {}", listener.local_addr()?);
    serve(&listener, marks, &AtomicBool::new(false))?;
    Ok(())
}
