use crate::client::{Client, Next, TURNS};
use crate::protocol::{GET, JOIN, Maker, PUBLISH, QUIT, RESET, STATS, Stats};
use crate::system::{Event, HAS_ROOM, Poller, READABLE, set_send_room};
use limekeel::Block;
use std::io;
use std::mem::take;
use std::net::TcpListener;

/// The key of the listener; that of a client is its place.
const LISTENER: u64 = u64::MAX;

pub struct Server {
    listener: TcpListener,
    poller: Poller,
    send_room: u32,
    echo: bool,
    clients: Vec<Option<Client>>,
    free: Vec<usize>,
    /// Those that go on at once.
    going_on: Vec<usize>,
    joined: Vec<usize>,
    held: usize,
    publisher: Option<usize>,
    maker: Maker,
    stats: Stats,
    room: Vec<u8>,
    quit: bool,
}

impl Server {
    pub fn new(listener: TcpListener, send_room: u32, echo: bool) -> io::Result<Server> {
        listener.set_nonblocking(true)?;
        let poller = Poller::new()?;
        poller.add(&listener, READABLE, LISTENER);
        Ok(Server {
            listener,
            poller,
            send_room,
            echo,
            clients: Vec::new(),
            free: Vec::new(),
            going_on: Vec::new(),
            joined: Vec::new(),
            held: 0,
            publisher: None,
            maker: Maker::new(),
            stats: Stats::default(),
            room: vec![0; 65536],
            quit: false,
        })
    }

    pub fn serve(&mut self) -> io::Result<()> {
        let mut events = [Event::default(); 256];
        while !self.quit {
            let found = self.poller.wait(&mut events, !self.going_on.is_empty()).len();
            for event in &events[..found] {
                self.handle(*event)?;
            }
            for place in take(&mut self.going_on) {
                if let Some(client) = &mut self.clients[place] {
                    client.goes_on = false;
                    self.turn(place);
                }
            }
        }
        Ok(())
    }

    fn handle(&mut self, event: Event) -> io::Result<()> {
        if event.key == LISTENER {
            return self.take_in();
        }
        let place = event.key as usize;
        if self.clients[place].is_none() {
            return Ok(());
        }
        if event.events & READABLE != 0 {
            self.hear(place);
        } else if event.events & HAS_ROOM != 0 {
            self.turn(place);
        } else {
            self.end(place);
        }
        Ok(())
    }

    fn take_in(&mut self) -> io::Result<()> {
        while let Ok((socket, _)) = self.listener.accept() {
            socket.set_nonblocking(true)?;
            socket.set_nodelay(true)?;
            if self.send_room > 0 {
                set_send_room(&socket, self.send_room);
            }
            let place = self.free.pop().unwrap_or(self.clients.len());
            if place == self.clients.len() {
                self.clients.push(None);
            }
            self.poller.add(&socket, READABLE, place as u64);
            self.clients[place] = Some(Client::new(socket).map_err(io::Error::other)?);
            self.stats.open += 1;
        }
        Ok(())
    }

    fn end(&mut self, place: usize) {
        let Some(client) = self.clients[place].take() else { return };
        self.joined.retain(|one| *one != place);
        if self.publisher == Some(place) {
            self.publisher = None;
        }
        self.stats.open -= 1;
        self.stats.stops += client.stops;
        self.free.push(place);
        if client.held {
            self.held -= 1;
            self.publish_on();
        }
    }

    fn go_on_later(&mut self, place: usize) {
        if let Some(client) = &mut self.clients[place]
            && !client.goes_on
        {
            client.goes_on = true;
            self.going_on.push(place);
        }
    }

    /// The publisher goes on once nobody is above its high mark.
    fn publish_on(&mut self) {
        if let Some(place) = self.publisher
            && self.held == 0
            && let Some(client) = &mut self.clients[place]
            && take(&mut client.waits)
        {
            self.go_on_later(place);
        }
    }

    /// Counts who is above its high mark.
    fn note_held(&mut self, place: usize) {
        let Some(client) = &mut self.clients[place] else { return };
        let held = client.joined && !client.is_writable;
        if held == client.held {
            return;
        }
        client.held = held;
        self.held = if held { self.held + 1 } else { self.held - 1 };
        self.publish_on();
    }

    fn hear(&mut self, place: usize) {
        let Some(client) = &mut self.clients[place] else { return };
        let heard = match client.read(&mut self.room) {
            Ok(None) => return,
            Ok(Some(count)) if self.echo => client.write(&self.room[..count]).is_ok(),
            Ok(Some(count)) => client.work.feed(&self.room[..count]),
            Err(_) => false,
        };
        if heard {
            self.turn(place);
        } else {
            self.end(place);
        }
    }

    /// Makes the next response. False if there is none to make now, or the client is to end.
    fn answer(&mut self, place: usize) -> bool {
        let Some(client) = &mut self.clients[place] else { return false };
        if self.held > 0 && client.work.is_publishing() {
            client.waits = true;
            return false;
        }
        let Some((request, index)) = client.work.next() else { return false };
        let response = match request.op {
            GET => {
                self.stats.responses += 1;
                return client.respond(&self.maker, request, index).is_ok();
            }
            STATS | RESET => {
                if request.op == RESET {
                    self.stats = Stats { open: self.stats.open, ..Stats::default() };
                }
                self.maker.stats(request.id, self.stats)
            }
            JOIN => {
                client.joined = true;
                self.joined.push(place);
                return true;
            }
            PUBLISH => {
                let block = Block::from(self.maker.response(request, index));
                self.publish(place, &block);
                return true;
            }
            _ => {
                self.quit = request.op == QUIT;
                return true;
            }
        };
        self.stats.responses += 1;
        client.write(response).is_ok()
    }

    fn publish(&mut self, publisher: usize, block: &Block) {
        self.publisher = Some(publisher);
        self.stats.responses += 1;
        for at in 0..self.joined.len() {
            let place = self.joined[at];
            if let Some(client) = &mut self.clients[place] {
                // one that refuses it is closed by its next turn
                let _ = client.publish(block);
            }
            self.note_held(place);
            self.go_on_later(place);
        }
    }

    fn answer_all(&mut self, place: usize) {
        while self.clients[place].as_ref().is_some_and(|client| client.is_writable) && self.answer(place) {}
        if let Some(client) = &mut self.clients[place] {
            self.stats.peak = self.stats.peak.max(client.pending());
            self.stats.stops += take(&mut client.stops);
        }
    }

    fn ask(&mut self, place: usize, events: u32) {
        if let Some(client) = &mut self.clients[place]
            && client.asked != events
        {
            client.asked = events;
            self.poller.change(&client.socket, events, place as u64);
        }
    }

    /// Answers and sends, by turns.
    fn turn(&mut self, place: usize) {
        for _ in 0..TURNS {
            self.answer_all(place);
            let Some(client) = &mut self.clients[place] else { return };
            let Ok(next) = client.send() else {
                self.end(place);
                return;
            };
            self.note_held(place);
            match next {
                Next::WaitForRoom => {
                    self.answer_all(place);
                    self.ask(place, HAS_ROOM | self.reading(place));
                    return;
                }
                Next::ComeAgain => break,
                Next::Rest => {
                    let Some(client) = &mut self.clients[place] else { return };
                    if client.work.is_empty() || client.waits {
                        client.work.rest();
                        self.ask(place, READABLE);
                        return;
                    }
                }
            }
        }
        self.go_on_later(place);
    }

    /// The event of bytes that came, if they are to be read.
    fn reading(&self, place: usize) -> u32 {
        let reads = self.clients[place].as_ref().is_some_and(|client| client.is_writable && client.work.is_empty());
        if reads { READABLE } else { 0 }
    }
}
