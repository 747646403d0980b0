//! `epoll` and a signal, of the C library that std links. A server of your own takes them from a crate, as `mio`.

use std::io;
use std::os::fd::{AsRawFd, FromRawFd, OwnedFd};

pub const IN: u32 = 1;
pub const OUT: u32 = 4;
const ADD: i32 = 1;
const CHANGE: i32 = 3;
const EVENTS: usize = 64;
const TERMINATE: i32 = 15;

/// `struct epoll_event`.
#[repr(C)]
#[cfg_attr(target_arch = "x86_64", repr(packed))]
#[derive(Clone, Copy)]
struct Event {
    events: u32,
    key: u64,
}

unsafe extern "C" {
    fn epoll_create1(flags: i32) -> i32;
    fn epoll_ctl(epoll: i32, operation: i32, socket: i32, event: *mut Event) -> i32;
    fn epoll_wait(epoll: i32, events: *mut Event, count: i32, milliseconds: i32) -> i32;
    fn signal(number: i32, handler: extern "C" fn(i32)) -> usize;
}

pub struct Poll(OwnedFd);

impl Poll {
    /// It has `ask` called at SIGTERM, in which no more may be done than in a signal handler.
    pub fn new(ask: extern "C" fn(i32)) -> io::Result<Poll> {
        // SAFETY: neither takes memory of ours, and the handler is there for good.
        let epoll = unsafe {
            signal(TERMINATE, ask);
            epoll_create1(0)
        };
        // SAFETY: it is new, and nobody else closes it.
        if epoll < 0 { Err(io::Error::last_os_error()) } else { Ok(Poll(unsafe { OwnedFd::from_raw_fd(epoll) })) }
    }

    /// Tells of a socket that can be read from, under this key. It is forgotten once it is closed.
    pub fn add(&self, socket: &impl AsRawFd, key: u64) {
        self.control(ADD, socket, key, IN);
    }

    /// Tells of other readiness from now on.
    pub fn want(&self, socket: &impl AsRawFd, key: u64, events: u32) {
        self.control(CHANGE, socket, key, events);
    }

    fn control(&self, operation: i32, socket: &impl AsRawFd, key: u64, events: u32) {
        let mut event = Event { events, key };
        // SAFETY: the event is only read, before the call returns.
        unsafe { epoll_ctl(self.0.as_raw_fd(), operation, socket.as_raw_fd(), &mut event) };
    }

    /// What is ready, each by its key: at once, or after at most so many milliseconds.
    pub fn wait(&self, milliseconds: u64) -> Vec<(u64, u32)> {
        let mut events = [Event { events: 0, key: 0 }; EVENTS];
        // SAFETY: as many events fit there, and each is plain numbers.
        let count = unsafe { epoll_wait(self.0.as_raw_fd(), events.as_mut_ptr(), EVENTS as i32, milliseconds as i32) };
        events.iter().take(count.max(0) as usize).map(|event| (event.key, event.events)).collect()
    }
}
