//! What the event loop does because time has passed: it closes connections that take too long,
//! continues those that were to wait, reports a server that doesn't answer, and ends the drain.

use super::{Entry, EventLoop};
use crate::connection::Connection;
use crate::scheduler::Completed;
use crate::tally::Closed;
use log::{info, warn};
use std::time::{Duration, Instant};

/// How often the event loop looks at the time.
pub const SWEEP: Duration = Duration::from_millis(250);

/// How long a round goes on after the peer of a TCP connection has ended its input. It may be gone,
/// or wait for the replies.
const LINGER: Duration = Duration::from_secs(5);

/// The time limits.
#[derive(Clone, Copy, Debug, PartialEq, Eq)]
pub struct Times {
    /// How long a connection may be without progress.
    pub idle: Option<Duration>,
    /// How long a round may take to arrive, and its replies to be taken.
    pub round: Option<Duration>,
    /// The time after which a batch at the server means that it hangs.
    pub stall: Duration,
}

/// The time limits, and what is known of them.
pub struct Timers {
    times: Times,
    swept: Instant,
    /// Whether a connection may exceed a time limit, or waits for a time.
    pub is_timed: bool,
    /// Whether it was logged that the server doesn't answer.
    is_stalled: bool,
    is_draining: bool,
}

impl Timers {
    /// Creates the timers with these limits.
    pub fn new(times: Times) -> Timers {
        let swept = Instant::now();
        Timers { times, swept, is_timed: false, is_stalled: false, is_draining: false }
    }

    /// Returns the time limits.
    pub fn limits(&self) -> Times {
        self.times
    }

    /// Changes the time limits. Connections may exceed them already.
    pub fn set_limits(&mut self, times: Times) {
        self.times = times;
        self.is_timed = true;
    }

    /// Notes that the server has answered a batch.
    pub fn on_completed(&mut self, batch: &Completed, now: Instant) {
        if self.is_stalled {
            self.is_stalled = false;
            let seconds = now.saturating_duration_since(batch.sent).as_secs();
            warn!("the server has answered a batch after {} s", seconds);
        }
    }

    /// Returns the reason to close a connection, if it takes too long.
    fn is_late(&self, entry: &Entry, now: Instant) -> Option<Closed> {
        let exceeds = |since: Option<Instant>, limit: Option<Duration>| {
            let age = since.map(|it| now.saturating_duration_since(it));
            age.zip(limit).map_or(false, |(age, limit)| age >= limit)
        };
        let connection = &entry.connection;
        let needs_socket = connection.is_writing() || !connection.is_waiting();
        if exceeds(connection.half_closed(), Some(LINGER)) {
            Some(Closed::Ended)
        } else if exceeds(connection.begun(), self.times.round) {
            Some(Closed::Slow)
        } else if needs_socket && exceeds(Some(entry.moved), self.times.idle) {
            Some(Closed::Idle)
        } else {
            None
        }
    }

    /// Returns whether a connection has to be looked at again.
    fn times(&self, it: &Connection) -> bool {
        let has_round = self.times.round.is_some() && it.begun().is_some();
        has_round || it.half_closed().is_some() || it.paused_until().is_some()
    }
}

impl EventLoop {
    /// Returns how long a wait may take; without a time it may take for ever.
    pub(super) fn timeout(&self) -> Option<Duration> {
        if self.has_backlog() {
            return Some(Duration::ZERO);
        }
        let of_connections = self.timers.times.idle.is_some() || self.timers.is_timed;
        let of_server = self.scheduler.is_in_flight() || self.timers.is_draining;
        Some(SWEEP).filter(|_| of_connections || of_server)
    }

    /// Does what is due, at most once in each `SWEEP`.
    pub(super) fn sweep(&mut self) {
        if self.timers.is_draining {
            self.drain();
        }
        let now = self.shared.now;
        if now.saturating_duration_since(self.timers.swept) < SWEEP {
            return;
        }
        self.timers.swept = now;
        self.check_server(now);
        if self.timers.times.idle.is_some() || self.timers.is_timed {
            self.check_connections(now);
        }
        self.shared.peers.sweep(now);
    }

    fn check_server(&mut self, now: Instant) {
        let age = self.scheduler.sent().map(|it| now.saturating_duration_since(it));
        let is_stalled = age.map_or(false, |it| it >= self.timers.times.stall);
        if is_stalled && !self.timers.is_stalled {
            self.timers.is_stalled = true;
            warn!("the server hasn't answered a batch for {} s", age.unwrap_or_default().as_secs());
        }
    }

    fn check_connections(&mut self, now: Instant) {
        let late = self.connections.iter().filter_map(|(number, entry)| {
            self.timers.is_late(entry, now).map(|why| (*number, why))
        });
        let late: Vec<(u64, Closed)> = late.collect();
        late.into_iter().for_each(|(number, why)| self.close(number, why));
        let is_due = |it: &Connection| it.paused_until().map_or(false, |until| until <= now);
        let due = self.connections.iter().filter(|(_, it)| is_due(&it.connection));
        let due: Vec<u64> = due.map(|(number, _)| *number).collect();
        due.into_iter().for_each(|number| self.resume(number, |it, _| it.retry()));
        let timers = &self.timers;
        let is_timed = self.connections.values().any(|it| timers.times(&it.connection));
        self.timers.is_timed = is_timed;
    }

    /// Begins to answer only what was sent: each connection is read once more.
    pub(super) fn begin_drain(&mut self) {
        if !self.timers.is_draining {
            self.timers.is_draining = true;
            info!("answering what {} connections have sent", self.connections.len());
        }
    }

    /// Closes the connections that have sent nothing more, and reports the end of the drain.
    fn drain(&mut self) {
        let quiet = self.connections.iter().filter(|(_, it)| it.connection.is_quiet());
        let quiet: Vec<u64> = quiet.map(|(number, _)| *number).collect();
        for number in quiet {
            if !self.read_directly(number) {
                self.close(number, Closed::Drained);
            }
        }
        if self.connections.is_empty() {
            self.acceptor.set_drained();
        }
    }
}
