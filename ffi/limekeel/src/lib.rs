//! An outbound buffer that a network server can trust with its memory.
//!
//! A server often writes faster than a client reads. What is not yet sent waits in a [`Connection`], which counts it:
//! above a high mark it tells writers to stop, below a low mark to go on. It is Netty's `ChannelOutboundBuffer` and
//! `WriteBufferWaterMark`, without end. The archive below was compiled from a proof that each call returns what a short
//! definition says, whatever was called before. This crate over it is not proved; it is small, and its `unsafe` stands
//! in six files.
//!
//! ```
//! use limekeel::{Change, Connection, Estimate, Marks};
//!
//! let mut connection = Connection::open(Marks { low: 200, high: 400 }, Estimate::default())?;
//! assert_eq!(connection.write(&[0; 304])?.change, None); // 400 bytes are pending, 96 of them for the message itself
//! assert_eq!(connection.write(&[])?.change, Some(Change::Unwritable)); // stop
//! let _ = connection.flush()?;
//! let mut socket = Vec::new();
//! let sent = connection.send_to(&mut socket)?;
//! assert_eq!(sent.taken.change, Some(Change::Writable)); // go on
//! assert_eq!(sent.taken.settled().map(|(id, _)| id).collect::<Vec<_>>(), [0, 1]);
//! assert_eq!(socket.len(), 304);
//! # Ok::<(), Box<dyn std::error::Error>>(())
//! ```
//!
//! A [`ManagedConnection`] ends in order, refuses what is past a limit, names a peer that stalls, and counts. All
//! [`BudgetedConnection`]s of a [`Budget`] together never hold more than its room. A [`SharedConnection`] is one that threads use at once. A connection goes from thread to thread, and is used by one at a time:
//!
//! ```
//! fn goes_to_another_thread<T: Send>() {}
//! goes_to_another_thread::<limekeel::Connection>();
//! ```
//!
//! ```compile_fail
//! fn is_shared<T: Sync>() {}
//! is_shared::<limekeel::Connection>();
//! ```
//!
//! ```
//! fn is_shared_and_cloned<T: Clone + Send + Sync>() {}
//! is_shared_and_cloned::<limekeel::SharedConnection>();
//! ```
//!
//! What is gathered borrows the connection, so that nothing is taken away while the pieces are in use:
//!
//! ```compile_fail
//! # let mut connection = limekeel::Connection::open(limekeel::Marks::default(), limekeel::Estimate::default()).unwrap();
//! let pieces = connection.pieces::<8>(u32::MAX);
//! let _ = connection.take_sent(0);
//! drop(pieces);
//! ```
//!
//! What tells a change is not to be dropped:
//!
//! ```compile_fail
//! #![deny(unused_must_use)]
//! # let mut connection = limekeel::Connection::open(limekeel::Marks::default(), limekeel::Estimate::default()).unwrap();
//! connection.send_to(&mut Vec::new()).unwrap();
//! ```
//!
//! ```compile_fail
//! #![deny(unused_must_use)]
//! # let mut connection = limekeel::Connection::open(limekeel::Marks::default(), limekeel::Estimate::default()).unwrap();
//! connection.take_sent(0).unwrap();
//! ```
//!
//! ```compile_fail
//! #![deny(unused_must_use)]
//! # let mut connection = limekeel::Connection::open(limekeel::Marks::default(), limekeel::Estimate::default()).unwrap();
//! connection.write(b"news").unwrap();
//! ```
//!
//! ```compile_fail
//! #![deny(unused_must_use)]
//! # let mut connection = limekeel::Connection::open(limekeel::Marks::default(), limekeel::Estimate::default()).unwrap();
//! connection.flush().unwrap();
//! ```
//!
//! ```compile_fail
//! #![deny(unused_must_use)]
//! # let mut connection = limekeel::Connection::open(limekeel::Marks::default(), limekeel::Estimate::default()).unwrap();
//! connection.remove().unwrap();
//! ```

#![deny(unsafe_code, missing_docs)]

mod block;
mod budget;
mod calm;
mod common;
mod connection;
mod managed;
mod promises;
mod replies;
mod room;
mod send;
mod shared;
mod transport;
mod views;
mod waits;

#[allow(unsafe_code)]
mod budget_raw;
#[allow(unsafe_code)]
mod handles;
#[allow(unsafe_code)]
mod lends;
#[allow(unsafe_code)]
mod lent;
#[allow(unsafe_code)]
mod managed_raw;
#[allow(unsafe_code)]
mod owners;
#[allow(unsafe_code)]
mod raw;

pub use block::Block;
pub use budget::{Bounds, Budget, BudgetLook, BudgetedConnection, Pressed, Pressure};
pub use calm::Calm;
pub use connection::{Connection, Estimate, Marks};
pub use managed::{Count, Limits, ManagedConnection, Numbers, Refusals, Told};
pub use raw::Pieces;
pub use replies::{Change, Flushed, Outcome, Refusal, Refused, Removed, Settled, Taken, Written, WrittenAndFlushed};
pub use room::Room;
pub use send::{Ending, Sent, SentTurns};
pub use shared::{Moment, SharedConnection, Unwritten};
pub use transport::Transport;
pub use views::{Counts, Current, Front, Glance, Look, Promise};

/// The code of `ffi/README.md`, which a test compiles and runs.
#[cfg(doctest)]
#[doc = include_str!("../../README.md")]
pub struct Readme;
