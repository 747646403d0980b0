//! What std has not: epoll, a send buffer of another size, and an end after some seconds. All `unsafe` stands here.

use std::io;
use std::os::fd::{AsRawFd, FromRawFd, OwnedFd};

#[repr(C, packed)]
#[derive(Clone, Copy, Default)]
pub struct Event {
    pub events: u32,
    pub key: u64,
}

unsafe extern "C" {
    fn alarm(seconds: u32) -> u32;
    fn epoll_create1(flags: i32) -> i32;
    fn epoll_ctl(poller: i32, change: i32, socket: i32, event: *const Event) -> i32;
    fn epoll_wait(poller: i32, events: *mut Event, room: i32, milliseconds: i32) -> i32;
    fn setsockopt(socket: i32, level: i32, option: i32, value: *const i32, length: u32) -> i32;
}

pub const READABLE: u32 = 1;
pub const HAS_ROOM: u32 = 4;
const CLOSE_ON_EXEC: i32 = 0o2000000;
const ADD: i32 = 1;
const MODIFY: i32 = 3;
const SOL_SOCKET: i32 = 1;
const SO_SNDBUF: i32 = 7;

pub fn end_after(seconds: u32) {
    // SAFETY: it takes a number alone.
    unsafe { alarm(seconds) };
}

pub fn set_send_room(socket: &impl AsRawFd, bytes: u32) {
    let bytes = bytes as i32;
    // SAFETY: the value is an `int` that lives until the call returns.
    unsafe { setsockopt(socket.as_raw_fd(), SOL_SOCKET, SO_SNDBUF, &bytes, 4) };
}

/// An epoll.
pub struct Poller(OwnedFd);

impl Poller {
    pub fn new() -> io::Result<Poller> {
        // SAFETY: it takes a number alone, and what it returns is nobody else's.
        match unsafe { epoll_create1(CLOSE_ON_EXEC) } {
            -1 => Err(io::Error::last_os_error()),
            poller => Ok(Poller(unsafe { OwnedFd::from_raw_fd(poller) })),
        }
    }

    fn control(&self, change: i32, socket: &impl AsRawFd, events: u32, key: u64) {
        let event = Event { events, key };
        // SAFETY: the event lives until the call returns.
        unsafe { epoll_ctl(self.0.as_raw_fd(), change, socket.as_raw_fd(), &event) };
    }

    pub fn add(&self, socket: &impl AsRawFd, events: u32, key: u64) {
        self.control(ADD, socket, events, key);
    }

    pub fn change(&self, socket: &impl AsRawFd, events: u32, key: u64) {
        self.control(MODIFY, socket, events, key);
    }

    /// The events that came. It waits for one, unless `at_once`.
    pub fn wait<'a>(&self, room: &'a mut [Event], at_once: bool) -> &'a [Event] {
        // SAFETY: the pointer and the length are those of one slice.
        let found = unsafe {
            epoll_wait(self.0.as_raw_fd(), room.as_mut_ptr(), room.len() as i32, if at_once { 0 } else { -1 })
        };
        &room[..found.max(0) as usize]
    }
}
