use crate::protocol::{Maker, Request, Work};
use crate::system::READABLE;
use limekeel::{Block, Change, Connection, Estimate, Marks, Refusal};
use std::io::{self, Read};
use std::mem::take;
use std::net::TcpStream;

/// How often one client sends before the others have their turn: Netty's write spin count.
pub const TURNS: u32 = 16;

/// Whether what is answered in a turn is one message.
const IS_JOINED: bool = cfg!(feature = "joined");
/// Up to how many bytes of a block are copied, and how much room a message has at first.
const FEW: usize = 2048;
/// With how many a message is ended, so that the marks know of it.
const MUCH: usize = 8192;
/// The marks go by the bytes alone, as those of the queue by hand.
const ESTIMATE: Estimate = Estimate { overhead: 0, unknown: 8 };

/// What became of a sending.
#[derive(PartialEq, Eq)]
pub enum Next {
    /// All is sent.
    Rest,
    /// The socket has no room.
    WaitForRoom,
    /// More at once, after the others.
    ComeAgain,
}

pub struct Client {
    pub socket: TcpStream,
    connection: Connection,
    /// What was answered since the last message, if answers are joined, and how much room the next has.
    answers: Vec<u8>,
    room: usize,
    pub work: Work,
    /// Whether writers may go on, as the last change said.
    pub is_writable: bool,
    /// How often they may not.
    pub stops: u64,
    /// The events that are asked for.
    pub asked: u32,
    /// Whether it is among those that go on at once.
    pub goes_on: bool,
    /// Whether it hears what is published, and whether it is counted among those above their high mark.
    pub joined: bool,
    pub held: bool,
    /// Whether it publishes, and somebody is held.
    pub waits: bool,
}

impl Client {
    pub fn new(socket: TcpStream) -> Result<Client, Refusal> {
        Ok(Client {
            socket,
            connection: Connection::open(Marks::default(), ESTIMATE)?,
            answers: Vec::new(),
            room: FEW,
            work: Work::default(),
            is_writable: true,
            stops: 0,
            asked: READABLE,
            goes_on: false,
            joined: false,
            held: false,
            waits: false,
        })
    }

    fn note(&mut self, change: Option<Change>) {
        match change {
            Some(Change::Unwritable) => {
                self.is_writable = false;
                self.stops += 1;
            }
            Some(Change::Writable) => self.is_writable = true,
            None => {}
        }
    }

    /// Makes a response in place, as a message of its own or as a part of one.
    #[inline]
    pub fn respond(&mut self, maker: &Maker, request: Request, index: u32) -> Result<(), Refusal> {
        let size = request.size as usize;
        if IS_JOINED {
            return self.join(size, |answers| maker.make(answers, request, index).expect("a list takes all"));
        }
        let mut room = self.connection.reserve(size)?;
        maker.make(&mut room, request, index).expect("it has room for that");
        let written = room.write_message()?;
        self.note(written.change);
        Ok(())
    }

    /// Writes a copy of these bytes.
    pub fn write(&mut self, bytes: &[u8]) -> Result<(), Refusal> {
        if IS_JOINED {
            return self.join(bytes.len(), |answers| answers.extend_from_slice(bytes));
        }
        let written = self.connection.write(bytes)?;
        self.note(written.change);
        Ok(())
    }

    /// Has an answer of this size made behind what was answered since the last message.
    #[inline]
    fn join(&mut self, size: usize, make: impl FnOnce(&mut Vec<u8>)) -> Result<(), Refusal> {
        if self.answers.capacity() - self.answers.len() < size {
            self.end_message()?;
            // the first message of a turn has little room, and those behind it much
            self.answers.reserve_exact(size.max(self.room));
            self.room = MUCH + FEW;
        }
        make(&mut self.answers);
        if self.answers.len() < MUCH { Ok(()) } else { self.end_message() }
    }

    /// Writes what many clients hear: the next message comes when the others had this one.
    pub fn publish(&mut self, block: &Block) -> Result<(), Refusal> {
        let written = self.write_block(block);
        self.connection.ask_ahead();
        written
    }

    fn write_block(&mut self, block: &Block) -> Result<(), Refusal> {
        if block.len() <= FEW {
            return self.write(block);
        }
        self.end_message()?;
        let written = self.connection.write_block(block)?;
        self.note(written.change);
        Ok(())
    }

    /// Makes one message of what was answered since the last one.
    fn end_message(&mut self) -> Result<(), Refusal> {
        if !self.answers.is_empty() {
            let written = self.connection.write_owned(take(&mut self.answers))?;
            self.note(written.change);
        }
        Ok(())
    }

    pub fn pending(&self) -> u64 {
        u64::from(self.connection.look().total) + self.answers.len() as u64
    }

    /// Reads once, and returns how many bytes came; none if there are none now.
    pub fn read(&mut self, room: &mut [u8]) -> io::Result<Option<usize>> {
        match (&self.socket).read(room) {
            Ok(0) => Err(io::ErrorKind::UnexpectedEof.into()),
            Ok(count) => Ok(Some(count)),
            Err(error) if matches!(error.kind(), io::ErrorKind::WouldBlock | io::ErrorKind::Interrupted) => Ok(None),
            Err(error) => Err(error),
        }
    }

    pub fn send(&mut self) -> io::Result<Next> {
        self.end_message().map_err(io::Error::other)?;
        self.room = FEW;
        let flushed = self.connection.flush().map_err(io::Error::other)?;
        self.note(flushed.change);
        for _ in 0..TURNS {
            let sent = self.connection.send_to(&mut &self.socket)?;
            self.note(sent.taken.change);
            if !sent.more {
                return Ok(Next::Rest);
            }
            if sent.blocked {
                return Ok(Next::WaitForRoom);
            }
        }
        Ok(Next::ComeAgain)
    }
}
