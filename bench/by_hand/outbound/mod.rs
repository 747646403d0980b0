//! An outbound buffer as one writes it by hand, on std alone: a `VecDeque` with a running total and marks, the limits and
//! refusals of `ob_seq` and `ob_connection`, and nothing proved. `Buffer` remembers what has become of each promise, as
//! `ob_seq` does; `Connection` forgets each message that is gone, as `ob_connection` does.

mod buffer;
mod connection;
mod outcomes;
mod values;
mod waiting;

pub use buffer::*;
pub use connection::*;
pub use values::*;
