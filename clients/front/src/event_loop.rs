//! The event loop, one thread for all connections: it reads what they send, keeps the server busy,
//! and writes the replies. It never waits for a single socket, so a slow client doesn't delay the
//! others.
//!
//! Events are edge-triggered: each reports only once that a socket became ready. A connection that
//! wasn't read to its end is put in the backlog, and continues after the others.

mod controlling;
mod delivery;
mod publishing;
mod timers;

use crate::batch::Queued;
use crate::by_number::ByNumber;
use crate::connection::{Connection, Step, Traffic};
use crate::control::Control;
use crate::listen::{Acceptor, Stream};
use crate::logging::LogLimit;
use crate::peers::Peer;
use crate::scheduler::{Owner, Scheduler};
use crate::server::end_soon;
use crate::shared::Shared;
use crate::spin_wait::SpinWait;
use crate::status::Publisher;
use crate::sub_batch::SubBatch;
use crate::tally::Closed;
use log::{debug, warn};
use mio::{Events, Interest, Poll, Token};
use std::collections::VecDeque;
use std::io;
use std::sync::Arc;
use std::time::{Duration, Instant};
pub use timers::Times;
use timers::{Timers, SWEEP};

/// The tokens of the server's replies and of the waker. Connections have higher ones, and the
/// server's input the highest.
const SERVER: Token = Token(0);
pub const WAKER: Token = Token(1);
const FIRST_CONNECTION: u64 = 2;
const SERVER_INPUT: Token = Token(usize::MAX);

/// The maximum number of events of a poll.
const MOST_EVENTS: usize = 256;

/// The maximum number of consecutive reads of only the likeliest socket, before all sockets are
/// polled.
const MOST_DIRECT_READS: u32 = 8;

/// A connection, the interest with which its socket is registered, and the time of its last
/// progress.
struct Entry {
    connection: Connection,
    interest: Interest,
    moved: Instant,
    /// Whether it is in the backlog.
    in_backlog: bool,
    /// Whether the peer has closed the connection, so that it takes no replies.
    is_gone: bool,
}

/// A socket that is ready.
#[derive(Clone, Copy)]
struct Ready {
    token: Token,
    /// Whether the peer sends nothing more, and whether it takes nothing more either.
    is_closed: bool,
    is_gone: bool,
}

/// All connections, and the server.
pub struct EventLoop {
    poll: Poll,
    acceptor: Arc<Acceptor>,
    events: Events,
    /// The events of the last poll.
    ready: Vec<Ready>,
    /// Connections that wait for the server and whose peers have closed them.
    gone: Vec<u64>,
    /// Connections whose sockets may have more input.
    backlog: VecDeque<u64>,
    /// Whether the server has closed its replies; the last ones may not have been read yet.
    server_closed: bool,
    /// Whether the poll reports room in the server's pipe.
    awaits_room: bool,
    spin: SpinWait,
    scheduler: Scheduler,
    shared: Shared,
    connections: ByNumber<Entry>,
    next: u64,
    /// The connection that was last sent replies: the likeliest to call next.
    answered: u64,
    /// The number of consecutive reads of only the likeliest socket.
    direct_reads: u32,
    timers: Timers,
    publisher: Option<Publisher>,
    control: Option<Arc<Control>>,
    log_limit: LogLimit,
}

/// The reason why a wait ended.
enum Woken {
    /// All replies to the batch at the server have arrived.
    Replies(Vec<Queued<Owner>>),
    /// The connection that was read directly had sent something.
    Connection,
    /// There are events, or there is a backlog.
    Events,
}

impl EventLoop {
    /// Creates an event loop on this poll; its [`WAKER`] belongs to the acceptor.
    pub fn new(
        poll: Poll,
        acceptor: Arc<Acceptor>,
        mut scheduler: Scheduler,
        shared: Shared,
        times: Times,
        publisher: Option<Publisher>,
    ) -> io::Result<EventLoop> {
        poll.registry().register(scheduler.output(), SERVER, Interest::READABLE)?;
        Ok(EventLoop {
            poll,
            acceptor,
            events: Events::with_capacity(MOST_EVENTS),
            ready: Vec::with_capacity(MOST_EVENTS),
            gone: Vec::new(),
            backlog: VecDeque::new(),
            server_closed: false,
            awaits_room: false,
            spin: SpinWait::new(),
            scheduler,
            shared,
            connections: ByNumber::default(),
            next: FIRST_CONNECTION,
            answered: 0,
            direct_reads: 0,
            timers: Timers::new(times),
            publisher,
            control: None,
            log_limit: LogLimit::default(),
        })
    }

    /// Has the event loop also serve what operators ask for.
    pub fn with_control(self, control: Option<Arc<Control>>) -> EventLoop {
        EventLoop { control, ..self }
    }

    /// Serves until the server ends or its replies are invalid. Then it closes the server's input
    /// and all connections. Those that haven't been accepted stay with their listener: the next
    /// front on a socket of systemd answers them.
    pub fn run(mut self) -> ! {
        while self.turn().is_ok() {}
        self.acceptor.stop();
        self.publish();
        let EventLoop { mut poll, acceptor, mut events, scheduler, connections, .. } = self;
        drop((scheduler, connections));
        end_soon();
        loop {
            drop(acceptor.take_arrived());
            let _ = poll.poll(&mut events, Some(SWEEP));
        }
    }

    /// Waits until there is something to do, and does it. The next batch is sent before the replies
    /// to the last one are delivered. An error means that the server has ended.
    fn turn(&mut self) -> io::Result<()> {
        let woken = self.wait()?;
        if !matches!(woken, Woken::Connection) {
            self.shared.now = Instant::now();
        }
        let done = match woken {
            Woken::Replies(done) => done,
            Woken::Connection => Vec::new(),
            Woken::Events => self.handle_events()?,
        };
        self.scheduler.send(self.shared.now)?;
        self.count_batch();
        done.into_iter().for_each(|it| self.deliver(it));
        self.close_gone();
        self.sweep();
        self.scheduler.send(self.shared.now)?;
        self.listen_for_room()
    }

    /// Registers for room in the server's pipe while a part of a batch needs it, and only then: each
    /// read of the server could wake this thread.
    fn listen_for_room(&mut self) -> io::Result<()> {
        let needs_room = self.scheduler.is_writing();
        if needs_room == self.awaits_room {
            return Ok(());
        }
        self.awaits_room = needs_room;
        let (registry, input) = (self.poll.registry(), self.scheduler.input());
        if needs_room {
            registry.register(input, SERVER_INPUT, Interest::WRITABLE)
        } else {
            registry.deregister(input)
        }
    }

    /// Waits until there is something to do. It polls for some time before it sleeps, unless the
    /// server needs this CPU.
    fn wait(&mut self) -> io::Result<Woken> {
        if self.scheduler.wants_sleep() {
            return self.sleep();
        }
        let mut begun = None;
        loop {
            let found = self.look()?;
            let continues = match begun {
                Some(begun) => self.spin.continues(begun, found.is_some()),
                None if found.is_some() => false,
                None => {
                    begun = self.spin.begin();
                    begun.is_some()
                }
            };
            match found {
                Some(it) => return Ok(it),
                None if continues => {}
                None => return self.sleep(),
            }
        }
    }

    fn sleep(&mut self) -> io::Result<Woken> {
        self.poll_events(self.timeout())?;
        Ok(Woken::Events)
    }

    fn has_backlog(&self) -> bool {
        self.server_closed || !self.backlog.is_empty()
    }

    /// Looks for something to do. If a single connection makes calls, it reads directly from the
    /// likeliest source: the server while a batch is there, else that connection.
    fn look(&mut self) -> io::Result<Option<Woken>> {
        if self.direct_reads < MOST_DIRECT_READS && self.scheduler.has_single_caller() {
            self.direct_reads += 1;
            if self.scheduler.is_in_flight() {
                if let Some(done) = self.scheduler.receive(&mut self.shared.tally)? {
                    return Ok(Some(Woken::Replies(done)));
                }
            } else if self.read_directly(self.answered) {
                return Ok(Some(Woken::Connection));
            }
        }
        self.direct_reads = 0;
        self.poll_events(Some(Duration::ZERO))?;
        let found = self.has_backlog() || !self.ready.is_empty();
        Ok(if found { Some(Woken::Events) } else { None })
    }

    /// Polls with a timeout; without one it waits indefinitely.
    fn poll_events(&mut self, timeout: Option<Duration>) -> io::Result<()> {
        self.ready.clear();
        match self.poll.poll(&mut self.events, timeout) {
            Err(e) if e.kind() != io::ErrorKind::Interrupted => return Err(e),
            Err(_) => return Ok(()),
            Ok(()) => {}
        }
        self.ready.extend(self.events.iter().map(|it| Ready {
            token: it.token(),
            is_closed: it.is_read_closed(),
            is_gone: it.is_write_closed(),
        }));
        Ok(())
    }

    /// Reads from a connection. Returns false if it doesn't wait for input or has sent nothing.
    fn read_directly(&mut self, number: u64) -> bool {
        let entry = match self.connections.get_mut(&number) {
            Some(it) if !it.connection.is_writing() && !it.connection.is_waiting() => it,
            _ => return false,
        };
        match entry.connection.try_read(&mut self.shared) {
            Ok(None) => return false,
            Ok(Some(step)) => {
                self.shared.now = Instant::now();
                self.follow(number, Ok(step));
            }
            Err(e) => self.follow(number, Err(e)),
        }
        true
    }

    /// Handles the events of the last poll and the backlog from before. Returns the sub-batches
    /// that are done.
    fn handle_events(&mut self) -> io::Result<Vec<Queued<Owner>>> {
        let mut done = Vec::new();
        if self.server_closed {
            done.extend(self.scheduler.receive(&mut self.shared.tally)?.unwrap_or_default());
        }
        let backlog = self.backlog.len();
        for index in 0..self.ready.len() {
            let ready = self.ready[index];
            match ready.token {
                SERVER => {
                    done.extend(
                        self.scheduler.receive(&mut self.shared.tally)?.unwrap_or_default(),
                    );
                    self.server_closed = ready.is_closed;
                }
                SERVER_INPUT => self.scheduler.write()?,
                WAKER => self.on_wake(),
                connection => self.on_ready(connection.0 as u64, ready),
            }
        }
        for _ in 0..backlog {
            if let Some(number) = self.backlog.pop_front() {
                self.on_backlog(number);
            }
        }
        Ok(done)
    }

    /// Handles new connections, requests for the counts, and what operators ask for.
    fn on_wake(&mut self) {
        for stream in self.acceptor.take_arrived() {
            self.open(stream);
        }
        if self.publisher.as_ref().map_or(false, Publisher::is_wanted) {
            self.publish();
        }
        self.serve_operators();
        if self.acceptor.is_draining() {
            self.begin_drain();
        }
    }

    fn open(&mut self, mut stream: Stream) {
        let number = self.next;
        let token = Token(number as usize);
        if self.poll.registry().register(&mut stream, token, Interest::READABLE).is_err() {
            self.acceptor.release();
            return;
        }
        self.next += 1;
        self.shared.tally.opened += 1;
        let entry = Entry {
            connection: Connection::new(number, stream),
            interest: Interest::READABLE,
            moved: Instant::now(),
            in_backlog: false,
            is_gone: false,
        };
        self.shared.peers.open(entry.connection.traffic().owner);
        debug!("connection {} opened by {}", number, entry.connection.traffic().peer);
        self.connections.insert(number, entry);
    }

    /// Handles a connection whose socket is ready or whose peer has closed. A connection that waits
    /// for the server isn't read.
    fn on_ready(&mut self, number: u64, ready: Ready) {
        if let Some(entry) = self.connections.get_mut(&number) {
            entry.connection.set_readable(ready.is_closed, self.shared.now);
            entry.is_gone |= ready.is_gone;
            if entry.connection.is_writing() || !entry.connection.is_waiting() {
                let step = entry.connection.continue_io(&mut self.shared);
                self.follow(number, step);
            } else if entry.is_gone {
                self.gone.push(number);
            } else if ready.is_closed {
                self.timers.is_timed = true;
            }
        }
    }

    /// Continues with a connection whose socket may have more input.
    fn on_backlog(&mut self, number: u64) {
        if let Some(entry) = self.connections.get_mut(&number) {
            entry.in_backlog = false;
            if !entry.connection.is_writing() && !entry.connection.is_waiting() {
                let step = entry.connection.continue_io(&mut self.shared);
                self.follow(number, step);
            }
        }
    }

    /// Does what a connection needs next. An error ends the connection.
    fn follow(&mut self, number: u64, step: io::Result<Step>) {
        let result = step.and_then(|step| {
            match step {
                Step::Round { sub_batch, requests } => {
                    self.queue(number, None, requests, sub_batch);
                }
                Step::Class(frame) => {
                    let sub_batch = SubBatch::of_class(frame.clone());
                    self.queue(number, Some(frame), 1, sub_batch);
                }
                Step::Pause => self.timers.is_timed = true,
                Step::Socket | Step::OthersClass => {}
            }
            self.listen(number)
        });
        match result {
            Err(e) if e.kind() == io::ErrorKind::InvalidData => self.close(number, Closed::Invalid),
            Err(_) => self.close(number, Closed::Ended),
            Ok(()) => {}
        }
        if self.shared.round_bytes > self.shared.limits.round_bytes {
            self.close_largest();
        }
    }

    /// Queues a round of a connection, or its class, for the server.
    fn queue(&mut self, number: u64, class: Option<Vec<u8>>, requests: usize, sub_batch: SubBatch) {
        let entry = self.connections.get(&number);
        let peer = entry.map_or(Peer::Unknown, |it| it.connection.traffic().owner);
        let (steps, queued) = (sub_batch.steps(), self.shared.now);
        self.shared.peers.waits(peer, steps);
        let owner =
            Owner { connection: number, peer, class, steps, is_gone: false, queued, requests };
        self.scheduler.queue(owner, sub_batch);
    }

    /// Registers for the events that a connection needs.
    fn listen(&mut self, number: u64) -> io::Result<()> {
        let entry = match self.connections.get_mut(&number) {
            Some(entry) => entry,
            None => return Ok(()),
        };
        let connection = &mut entry.connection;
        let interest = match (connection.is_writing(), connection.is_waiting()) {
            (true, _) => Interest::WRITABLE,
            (false, false) => Interest::READABLE,
            (false, true) => {
                if entry.is_gone {
                    self.gone.push(number);
                }
                return Ok(());
            }
        };
        self.timers.is_timed |= connection.begun().is_some();
        entry.moved = self.shared.now;
        if interest != entry.interest {
            entry.interest = interest;
            let token = Token(number as usize);
            self.poll.registry().reregister(connection.stream(), token, interest)?;
        }
        if interest.is_readable() && connection.may_have_input() && !entry.in_backlog {
            entry.in_backlog = true;
            self.backlog.push_back(number);
        }
        Ok(())
    }

    /// Closes the connections that wait for the server and whose peers are gone. What of their
    /// rounds hasn't been sent to the server is dropped.
    fn close_gone(&mut self) {
        while let Some(number) = self.gone.pop() {
            self.close(number, Closed::Ended);
        }
    }

    /// Closes the connections with the largest rounds, until the others have room.
    fn close_largest(&mut self) {
        while self.shared.round_bytes > self.shared.limits.round_bytes {
            let bytes = |(number, it): (&u64, &Entry)| (it.connection.round_bytes(), *number);
            match self.connections.iter().map(bytes).max() {
                Some((_, number)) => self.close(number, Closed::Large),
                None => return,
            }
        }
    }

    fn close(&mut self, number: u64, why: Closed) {
        let entry = match self.connections.remove(&number) {
            Some(it) => it,
            None => return,
        };
        let connection = &entry.connection;
        if connection.is_waiting() {
            if let Some(dropped) = self.scheduler.forget(number) {
                self.shared.peers.done(dropped.peer, dropped.owner.steps);
            }
        }
        self.acceptor.release();
        self.shared.round_bytes -= connection.round_bytes();
        self.shared.tally.closed[why as usize] += 1;
        let Traffic { peer, owner, rounds, .. } = connection.traffic();
        self.shared.peers.close(*owner);
        debug!("connection {} of {} closed after {} rounds: {:?}", number, peer, rounds, why);
        let reason = match why {
            Closed::Invalid => "no request, or too many in a round",
            Closed::Slow => "its round or its replies took longer than --round",
            Closed::Large => "all rounds took more than --round-bytes, and its the most",
            Closed::Ended | Closed::Idle | Closed::Drained | Closed::Kicked => return,
        };
        if self.log_limit.allows(self.shared.now) {
            let requests = connection.open_requests();
            warn!("connection {} of {} closed: {}, after {}", number, peer, reason, requests);
        }
    }
}
