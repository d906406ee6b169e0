//! What the event loop publishes: metrics, and the tables of the page.

use super::{Entry, EventLoop};
use crate::classes::Accepted;
use crate::metrics::Gauges;
use crate::status::{top, ClassRow, ConnectionRow, Tables};
use std::time::Duration;

impl EventLoop {
    pub(super) fn publish(&self) {
        let publisher = match &self.publisher {
            Some(it) => it,
            None => return,
        };
        let (waiting_rounds, waiting_requests) = self.scheduler.waiting();
        let classes = &self.shared.classes;
        let gauges = Gauges {
            round_bytes: self.shared.round_bytes,
            waiting_rounds,
            waiting_requests,
            connections: self.connections.len(),
            connections_limit: self.acceptor.limit(),
            classes: classes.accepted().len(),
            class_bytes: classes.bytes(),
            rejected: self.acceptor.rejected(),
        };
        let sent = self.scheduler.sent();
        publisher.publish(&self.shared.tally, &gauges, sent, || self.tables());
    }

    fn tables(&self) -> Tables {
        let mut classes = self.class_rows();
        // The clients' built-in processors are shown once they have run.
        classes.retain(|it| it.accepted.connection != 0 || it.tally.runs > 0);
        let class_number = |it: &ClassRow| u64::from(it.accepted.class.number);
        Tables {
            classes: top(classes, |it| it.tally.cost(), class_number),
            connections: top(self.connection_rows(), slowness, |it| it.number),
        }
    }

    /// Returns all classes.
    pub(super) fn class_rows(&self) -> Vec<ClassRow> {
        let accepted = self.shared.classes.accepted().iter();
        let tally = |number| self.shared.tally.class_tally(number);
        let row = |it: &Accepted| ClassRow { accepted: it.clone(), tally: tally(it.class.number) };
        accepted.map(row).collect()
    }

    /// Returns all connections.
    pub(super) fn connection_rows(&self) -> Vec<ConnectionRow> {
        let row = |(number, entry): (&u64, &Entry)| ConnectionRow {
            number: *number,
            traffic: entry.connection.traffic().clone(),
            state: entry.connection.state(),
        };
        self.connections.iter().map(row).collect()
    }

    pub(super) fn count_batch(&mut self) {
        if let Some(completed) = self.scheduler.take_completed() {
            self.timers.on_completed(&completed, self.shared.now);
            if let Some(publisher) = &self.publisher {
                publisher.batch(&completed, self.shared.now);
            }
        }
    }
}

/// Returns the time of a connection's slowest round, or of the one that waits, in microseconds.
fn slowness(it: &ConnectionRow) -> u64 {
    let waits = it.traffic.waits_since.map_or(Duration::ZERO, |since| since.elapsed());
    it.traffic.slowest.max(waits).as_micros() as u64
}
