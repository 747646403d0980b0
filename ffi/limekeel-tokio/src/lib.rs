//! A connection that tasks share, in tokio: any number of tasks write messages to one client, and one future sends
//! them.
//!
//! [`split`] makes two of a stream: an [`Outbound`], which tasks clone and write with, and a [`Pump`], which you
//! spawn. What the client has not taken is counted in bytes. Above the high mark writers wait, below the low mark they
//! go on, in the order of arrival; the pending bytes never pass the high mark by more than one message.
//!
//! ```
//! # #[tokio::main]
//! # async fn main() -> Result<(), Box<dyn std::error::Error>> {
//! use limekeel_tokio::{Marks, TryWriteError, split};
//!
//! // a message counts 96 bytes beside its own
//! let (outbound, pump) = split(tokio::io::sink(), Marks { low: 200, high: 400 })?;
//! outbound.try_write(&[0; 304])?; // 400 bytes are pending
//! outbound.try_write("news")?; // 500: above the high mark, by one message
//! assert!(matches!(outbound.try_write("more"), Err(TryWriteError::Full("more"))));
//! let pump = tokio::spawn(pump);
//! let receipt = outbound.write("more").await?; // waits until the pump has sent
//! println!("{:?}", receipt.await);
//! outbound.finish().await?;
//! assert_eq!(pump.await?.sent, 3);
//! # Ok(())
//! # }
//! ```
//!
//! The page `README.md` of this crate says what is promised, and what of it is proved.

#![forbid(unsafe_code)]
#![deny(missing_docs)]

mod gate;
mod message;
mod outbound;
mod pump;
mod sink;

pub use limekeel::{Block, Bounds, Budget, BudgetLook, Calm, Estimate, Marks, Outcome, Refusal};
pub use message::{Message, Static, TryWriteError, WriteError};
pub use outbound::{Outbound, Receipt};
pub use pump::{BROKEN, DROPPED, Ended, Pump, split, split_with, split_within};
pub use sink::OutboundSink;

/// The code of `README.md`, which a test compiles and runs.
#[cfg(doctest)]
#[doc = include_str!("../README.md")]
pub struct Readme;
