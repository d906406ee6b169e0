//! The operator's interface: `/metrics`, `/healthz` and a page, on a separate thread.
//!
//! HTTP clients can't delay calls or exhaust memory: there are at most [`MOST_CONNECTIONS`], each
//! with a limit of bytes and of time. If the limit is reached, a new connection replaces the one
//! that has been idle longest.

mod connection;
mod hosts;
mod page;
mod process;
mod request;
mod watch;

use crate::status::Board;
use connection::Connection;
pub use hosts::Hosts;
use log::{debug, info};
use mio::net::TcpListener;
use mio::{Events, Interest, Poll, Token, Waker};
use request::Route;
use serde_json::Value;
use std::collections::HashMap;
use std::io;
use std::net::TcpListener as StdTcpListener;
use std::sync::Arc;
use std::thread;
use std::time::{Duration, Instant};
use watch::Watch;

/// The maximum number of HTTP connections at a time.
pub const MOST_CONNECTIONS: usize = 64;

/// The maximum number of connections that receive the events of the page.
pub const MOST_WATCHERS: usize = 16;

/// The maximum number of connections that are accepted before others are served, and the pause
/// after that.
const ACCEPTS: usize = 32;
const ACCEPT_PAUSE: Duration = Duration::from_millis(20);

/// How often the counts are sampled for the page.
const TICK: Duration = Duration::from_secs(1);

/// The event loop is asked for its counts at most once in this time.
const REFRESH_PAUSE: Duration = Duration::from_millis(20);

/// How long the HTTP thread waits for the event loop, which responds between two reads.
const REFRESH_PATIENCE: Duration = Duration::from_millis(300);

const LISTENER: Token = Token(0);
const WAKER: Token = Token(1);
const FIRST_CONNECTION: usize = 2;

/// What the HTTP thread has to know of the front's options.
#[derive(Clone, Debug)]
pub struct Settings {
    /// The time after which a batch at the server means that it hangs.
    pub stall: Duration,
    /// The names by which the server may be called.
    pub hosts: Hosts,
    /// What the page says of the front, as JSON.
    pub about: Value,
}

/// The HTTP thread.
struct Server {
    poll: Poll,
    listener: TcpListener,
    /// Whether connections wait to be accepted, and when accepting may continue.
    accepts: bool,
    accepts_from: Instant,
    board: Arc<Board>,
    connections: HashMap<usize, Connection>,
    next: usize,
    /// Connections that may have sent more requests than were processed.
    backlog: Vec<usize>,
    watch: Watch,
    hosts: Hosts,
    refreshed: Instant,
    ticked: Instant,
}

/// Starts the HTTP thread on a listening socket. The returned waker wakes it when the server has
/// ended.
pub fn start(
    listener: StdTcpListener,
    board: Arc<Board>,
    server: u32,
    settings: Settings,
) -> io::Result<Waker> {
    listener.set_nonblocking(true)?;
    info!("http on {}", listener.local_addr()?);
    let poll = Poll::new()?;
    let mut listener = TcpListener::from_std(listener);
    poll.registry().register(&mut listener, LISTENER, Interest::READABLE)?;
    let waker = Waker::new(poll.registry(), WAKER)?;
    let now = Instant::now();
    let hosts = settings.hosts.clone();
    let watch = Watch::new(board.clone(), server, settings)
        .map_err(|e| io::Error::new(io::ErrorKind::Other, e.to_string()))?;
    let it = Server {
        poll,
        listener,
        accepts: true,
        accepts_from: now,
        board,
        connections: HashMap::new(),
        next: FIRST_CONNECTION,
        backlog: Vec::new(),
        watch,
        hosts,
        refreshed: now,
        ticked: now,
    };
    thread::Builder::new().name("http".to_string()).spawn(move || it.run())?;
    Ok(waker)
}

impl Server {
    fn run(mut self) {
        let mut events = Events::with_capacity(MOST_CONNECTIONS + 2);
        loop {
            match self.poll.poll(&mut events, Some(self.timeout())) {
                Err(e) if e.kind() != io::ErrorKind::Interrupted => {
                    debug!("http: {}", e);
                    thread::sleep(TICK);
                }
                _ => {}
            }
            let mut ready: Vec<usize> = events.iter().map(|it| it.token().0).collect();
            ready.append(&mut self.backlog);
            // Each connection is served once: an event and the backlog may both name it.
            ready.sort_unstable();
            ready.dedup();
            self.turn(&ready);
        }
    }

    fn timeout(&self) -> Duration {
        if !self.backlog.is_empty() {
            return Duration::ZERO;
        }
        let now = Instant::now();
        let tick = (self.ticked + TICK).saturating_duration_since(now);
        if self.accepts {
            tick.min(self.accepts_from.saturating_duration_since(now) + Duration::from_millis(1))
        } else {
            tick
        }
    }

    fn turn(&mut self, ready: &[usize]) {
        self.accepts |= ready.contains(&LISTENER.0);
        let mut asked = Vec::new();
        for token in ready.iter().filter(|it| **it >= FIRST_CONNECTION) {
            asked.extend(self.on_ready(*token).map(|route| (*token, route)));
        }
        if self.accepts && Instant::now() >= self.accepts_from {
            asked.extend(self.accept());
        }
        self.answer(asked);
        if ready.contains(&WAKER.0) {
            self.say_ended();
        }
        if self.ticked.elapsed() >= TICK {
            self.tick();
        }
    }

    /// Accepts connections. Returns the requests that came with them.
    fn accept(&mut self) -> Vec<(usize, Route)> {
        let mut asked = Vec::new();
        for _ in 0..ACCEPTS {
            let mut stream = match self.listener.accept() {
                Ok((stream, _)) => stream,
                Err(e) => {
                    self.accepts = e.kind() != io::ErrorKind::WouldBlock;
                    break;
                }
            };
            self.make_room();
            let token = self.next;
            let interest = Interest::READABLE | Interest::WRITABLE;
            if self.poll.registry().register(&mut stream, Token(token), interest).is_ok() {
                self.next += 1;
                self.connections.insert(token, Connection::new(stream));
                asked.extend(self.on_ready(token).map(|route| (token, route)));
            }
        }
        self.accepts_from = Instant::now() + ACCEPT_PAUSE;
        asked
    }

    /// If the limit of connections is reached, closes the one that has been idle longest.
    /// Connections that receive events are closed last.
    fn make_room(&mut self) {
        if self.connections.len() < MOST_CONNECTIONS {
            return;
        }
        let order = |it: &Connection| (it.is_watching(), it.active());
        let oldest = self.connections.iter().min_by_key(|(_, it)| order(it)).map(|it| *it.0);
        if let Some(token) = oldest {
            self.connections.remove(&token);
        }
    }

    /// Reads and writes as far as a connection is ready. Returns its request, if there is one.
    fn on_ready(&mut self, token: usize) -> Option<Route> {
        match self.connections.get_mut(&token)?.on_ready(&self.hosts) {
            Ok(route) => route,
            Err(_) => {
                self.connections.remove(&token);
                None
            }
        }
    }

    /// Responds to requests. Later requests on the same connections are processed after those of
    /// other connections, so that a client with many requests doesn't delay the others.
    fn answer(&mut self, asked: Vec<(usize, Route)>) {
        if asked.iter().any(|(_, route)| route.needs_counts()) {
            let wants_tables = asked.iter().any(|(_, route)| *route == Route::Events);
            self.refresh(wants_tables);
        }
        for (token, route) in asked {
            let watchers = self.connections.values().filter(|it| it.is_watching()).count();
            let connection = match self.connections.get_mut(&token) {
                Some(it) => it,
                None => continue,
            };
            if route == Route::Events && watchers < MOST_WATCHERS {
                connection.watch(&self.watch.first_event());
            } else {
                connection.respond(&self.watch.response(route), route.is_head());
            }
            match connection.write() {
                Ok(()) => self.backlog.push(token),
                Err(_) => drop(self.connections.remove(&token)),
            }
        }
    }

    /// Asks the event loop to publish its counts, with a pause between requests.
    fn refresh(&mut self, wants_tables: bool) {
        thread::sleep(REFRESH_PAUSE.saturating_sub(self.refreshed.elapsed()));
        self.board.refresh(wants_tables, REFRESH_PATIENCE);
        self.refreshed = Instant::now();
    }

    /// Samples the counts, sends events, and closes the connections that exceeded their time limit.
    fn tick(&mut self) {
        self.ticked = Instant::now();
        let watched = self.connections.values().any(Connection::is_watching);
        self.refresh(watched);
        self.watch.sample();
        if watched {
            self.tell(&self.watch.event());
        }
        self.connections.retain(|_, it| !it.is_late());
    }

    /// Sends an event to the viewers of the page. A viewer that hasn't received the one before
    /// misses it.
    fn tell(&mut self, event: &str) {
        self.connections.retain(|_, it| !it.is_watching() || it.tell(event).is_ok());
    }

    /// Reports to the viewers of the page that the server has ended.
    fn say_ended(&mut self) {
        if let Some(how) = self.board.ended() {
            self.watch.sample();
            self.tell(&self.watch.event());
            self.tell(&watch::ended_event(&how));
            self.board.set_ended_told();
        }
    }
}
