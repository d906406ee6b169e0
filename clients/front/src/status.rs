//! The data that the event loop publishes: metrics, and tables for the page. It only publishes when
//! the HTTP thread wakes it for that.

use crate::classes::Accepted;
use crate::connection::Traffic;
use crate::metrics::{Gauges, Metrics};
use crate::scheduler::Completed;
use crate::tally::{ClassTally, Tally};
use mio::Waker;
use prometheus::Registry;
use std::cmp::Reverse;
use std::sync::atomic::{AtomicBool, Ordering};
use std::sync::{Arc, Condvar, Mutex, MutexGuard, PoisonError};
use std::time::{Duration, Instant};

/// The maximum number of rows of a table, which has the classes with the highest cost, or the
/// connections that wait longest.
pub const MOST_ROWS: usize = 100;

/// A row of the table of classes.
#[derive(Clone, Debug)]
pub struct ClassRow {
    pub accepted: Accepted,
    pub tally: ClassTally,
}

/// A row of the table of connections.
#[derive(Clone, Debug)]
pub struct ConnectionRow {
    pub number: u64,
    pub traffic: Traffic,
    pub state: &'static str,
}

/// The tables of the page.
#[derive(Clone, Debug, Default)]
pub struct Tables {
    pub classes: Vec<ClassRow>,
    pub connections: Vec<ConnectionRow>,
}

#[derive(Default)]
struct State {
    /// How often the event loop has published, and the time of the last publication.
    published: u64,
    at: Option<Instant>,
    /// When the batch at the server was sent, if there was one at the last publication.
    batch_sent: Option<Instant>,
    is_draining: bool,
    wants_tables: bool,
    tables: Tables,
    /// How the server ended.
    ended: Option<String>,
    /// Whether the HTTP thread has reported that to the viewers of the page.
    ended_told: bool,
}

/// The data that the event loop publishes and the HTTP thread reads.
pub struct Board {
    registry: Registry,
    state: Mutex<State>,
    changed: Condvar,
    wanted: AtomicBool,
    waker: Arc<Waker>,
}

impl Board {
    /// Creates a board for the metrics of this registry, with the waker of the event loop.
    pub fn new(registry: Registry, waker: Arc<Waker>) -> Board {
        let (state, changed) = (Mutex::default(), Condvar::new());
        Board { registry, state, changed, wanted: AtomicBool::new(false), waker }
    }

    /// Returns the metrics.
    pub fn registry(&self) -> &Registry {
        &self.registry
    }

    fn lock(&self) -> MutexGuard<'_, State> {
        self.state.lock().unwrap_or_else(PoisonError::into_inner)
    }

    /// Asks the event loop to publish, and waits for it, but at most for `patience`. Returns
    /// whether it has published.
    pub fn refresh(&self, wants_tables: bool, patience: Duration) -> bool {
        let mut state = self.lock();
        if state.ended.is_some() {
            return false;
        }
        let before = state.published;
        state.wants_tables |= wants_tables;
        self.wanted.store(true, Ordering::SeqCst);
        let _ = self.waker.wake();
        let wait = |it: &mut State| it.published == before && it.ended.is_none();
        state = match self.changed.wait_timeout_while(state, patience, wait) {
            Ok((state, _)) => state,
            Err(e) => e.into_inner().0,
        };
        state.published > before
    }

    /// Returns the tables that were last published.
    pub fn tables(&self) -> Tables {
        self.lock().tables.clone()
    }

    /// Returns how the server ended, if it has.
    pub fn ended(&self) -> Option<String> {
        self.lock().ended.clone()
    }

    /// Returns the time since the event loop last published.
    pub fn age(&self) -> Option<Duration> {
        self.lock().at.map(|at| at.elapsed())
    }

    /// Returns the age of the batch at the server, or zero.
    pub fn batch_age(&self) -> Duration {
        self.lock().batch_sent.map_or(Duration::ZERO, |it| it.elapsed())
    }

    /// Returns the age of the batch at the server, if it is at least the time `stall`.
    pub fn stalled(&self, stall: Duration) -> Option<Duration> {
        Some(self.batch_age()).filter(|it| *it >= stall)
    }

    /// Records that the front is to end once it has answered what was sent.
    pub fn set_draining(&self) {
        self.lock().is_draining = true;
    }

    /// Returns whether the front is to end.
    pub fn is_draining(&self) -> bool {
        self.lock().is_draining
    }

    /// Records that the server has ended. If `wake` wakes the HTTP thread, this waits until that
    /// thread has reported the end to the viewers of the page, but at most for `patience`.
    pub fn set_ended(&self, how: String, patience: Duration, wake: impl FnOnce() -> bool) {
        let mut state = self.lock();
        state.ended = Some(how);
        self.changed.notify_all();
        if !wake() {
            return;
        }
        drop(self.changed.wait_timeout_while(state, patience, |it| !it.ended_told));
    }

    /// Records that the viewers of the page know that the server has ended.
    pub fn set_ended_told(&self) {
        self.lock().ended_told = true;
        self.changed.notify_all();
    }

    /// Returns whether the HTTP thread has asked since the last call.
    fn take_wanted(&self) -> bool {
        self.wanted.swap(false, Ordering::SeqCst)
    }

    fn publish(&self, batch_sent: Option<Instant>, tables: impl FnOnce() -> Tables) {
        let mut state = self.lock();
        state.batch_sent = batch_sent;
        if state.wants_tables {
            state.wants_tables = false;
            state.tables = tables();
        }
        state.published += 1;
        state.at = Some(Instant::now());
        self.changed.notify_all();
    }
}

/// The event loop's side of a board.
pub struct Publisher {
    metrics: Metrics,
    board: Arc<Board>,
}

impl Publisher {
    /// Creates the metrics on this board.
    pub fn new(board: Arc<Board>) -> prometheus::Result<Publisher> {
        Ok(Publisher { metrics: Metrics::new(board.registry())?, board })
    }

    /// Returns whether a thread waits for [`Publisher::publish`].
    pub fn is_wanted(&self) -> bool {
        self.board.take_wanted()
    }

    /// Publishes the counts, when the batch at the server was sent, and the tables if they were
    /// requested.
    pub fn publish(
        &self,
        tally: &Tally,
        gauges: &Gauges,
        batch_sent: Option<Instant>,
        tables: impl FnOnce() -> Tables,
    ) {
        self.metrics.publish(tally, gauges);
        self.board.publish(batch_sent, tables);
    }

    /// Counts a round to which the server has replied.
    pub fn round(&self, time: Duration, requests: usize) {
        self.metrics.round(time, requests);
    }

    /// Counts a batch to which the server has replied.
    pub fn batch(&self, completed: &Completed, now: Instant) {
        let time = now.saturating_duration_since(completed.sent);
        self.metrics.batch(time, completed.requests);
    }
}

/// Returns the rows with the largest amounts, the largest first, and equal ones by number.
pub fn top<T>(mut rows: Vec<T>, amount: impl Fn(&T) -> u64, number: impl Fn(&T) -> u64) -> Vec<T> {
    rows.sort_by_key(|it| (Reverse(amount(it)), number(it)));
    rows.truncate(MOST_ROWS);
    rows
}

#[cfg(test)]
mod tests {
    use super::*;

    #[test]
    fn a_table_has_the_largest_rows_first() {
        let rows: Vec<(u64, u64)> = (0..150).map(|n| (n, n % 75)).collect();
        let top = top(rows, |it| it.1, |it| it.0);
        assert_eq!(top.len(), MOST_ROWS);
        assert!(top.iter().all(|it| it.1 >= 25));
        let order = |it: &(u64, u64)| (Reverse(it.1), it.0);
        assert!(top.windows(2).all(|it| order(&it[0]) < order(&it[1])));
    }
}
