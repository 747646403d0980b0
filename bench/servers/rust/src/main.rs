//! The same server in Rust, over the crate `limekeel`: of one thread, level-triggered. It reads from a client only while its
//! connection is writable, and makes responses while it is.
//!
//!     limekeel-server SECONDS SNDBUF [echo]
//!
//! It prints its port, and ends at QUIT or after SECONDS. SNDBUF is SO_SNDBUF of its sockets, or 0 for the system's own.

mod client;
mod protocol;
mod server;
mod system;

use server::Server;
use std::env;
use std::io::{self, Write};
use std::net::TcpListener;

fn main() -> io::Result<()> {
    let words: Vec<String> = env::args().skip(1).collect();
    let numbers: Vec<u32> = words.iter().map_while(|word| word.parse().ok()).collect();
    let [seconds, send_room] = numbers[..] else {
        eprintln!("usage: limekeel-server SECONDS SNDBUF [echo]");
        std::process::exit(2);
    };
    system::end_after(seconds);
    let listener = TcpListener::bind("127.0.0.1:0")?;
    println!("{}", listener.local_addr()?.port());
    io::stdout().flush()?;
    Server::new(listener, send_room, words.len() > 2)?.serve()
}
