//! CPU affinity of the front's thread and the server's.
//!
//! If only one connection sends rounds, both threads are pinned to one CPU. A call passes from one
//! to the other and back, and a context switch is faster than waking a CPU that sleeps. Otherwise
//! the threads may run on any CPU.

use nix::sched::{sched_getaffinity, sched_getcpu, sched_setaffinity, CpuSet};
use nix::unistd::Pid;
use std::time::{Duration, Instant};

/// The number of consecutive rounds of one connection after which the threads are pinned.
const ROUNDS_BEFORE_PIN: u32 = 64;

/// A round with more requests may need further threads of the server, which start on the CPU of the
/// thread that creates them.
const SMALL_ROUND: usize = 8;

/// If the replies take longer than this, the round was long or another process used the CPU.
const LATE: Duration = Duration::from_millis(1);

/// A late round counts as much as this many rounds in time, because these gain less from a single
/// CPU than it loses. The threads are unpinned when late rounds outweigh the others by three.
const LATE_WEIGHT: u32 = 256;

/// The first and the maximum time for which the threads then stay unpinned. Each rest is twice as
/// long as the one before, until `ROUNDS_TO_RECOVER` consecutive rounds were in time.
const SHORT_REST: Duration = Duration::from_millis(100);
const LONG_REST: Duration = Duration::from_secs(4);
const ROUNDS_TO_RECOVER: u32 = 4_096;

/// Returns the CPUs on which a thread may run, if they are known.
fn allowed(thread: Pid) -> Option<CpuSet> {
    sched_getaffinity(thread).ok()
}

/// Returns the id of the calling thread.
fn this_thread() -> Pid {
    Pid::from_raw(0)
}

/// Returns a set with only the CPU on which this thread runs.
fn this_processor() -> Option<CpuSet> {
    let mut set = CpuSet::new();
    set.set(sched_getcpu().ok()?).ok()?;
    Some(set)
}

/// Whether the two threads are pinned, and the history that decides it.
pub struct Affinity {
    server: Pid,
    /// The original CPU sets of the front's thread and the server's. `None` if they aren't known,
    /// or if this process may not change them.
    original: Option<(CpuSet, CpuSet)>,
    is_pinned: bool,
    /// The connection that sent the last round, and the number of its consecutive rounds.
    caller: u64,
    rounds: u32,
    sent: Instant,
    /// The weight of late rounds minus the others, and the number of consecutive rounds in time.
    late: u32,
    in_time: u32,
    rest: Duration,
    rests_until: Instant,
}

impl Affinity {
    /// Manages the calling thread and the server's process. They aren't pinned yet.
    pub fn new(server: u32) -> Affinity {
        let server = Pid::from_raw(server as i32);
        let now = Instant::now();
        Affinity {
            server,
            original: allowed(this_thread()).zip(allowed(server)),
            is_pinned: false,
            caller: 0,
            rounds: 0,
            sent: now,
            late: 0,
            in_time: 0,
            rest: SHORT_REST,
            rests_until: now,
        }
    }

    /// Returns whether both run on one CPU. A thread that waits for the server should sleep then.
    pub fn is_pinned(&self) -> bool {
        self.is_pinned
    }

    /// Call this when a batch with this number of requests is sent to the server. `only` is the
    /// connection if the batch has a single sub-batch.
    pub fn on_send(&mut self, only: Option<u64>, requests: usize) {
        match only.filter(|_| requests <= SMALL_ROUND) {
            Some(caller) if caller == self.caller => self.rounds = self.rounds.saturating_add(1),
            other => {
                self.caller = other.unwrap_or(0);
                self.rounds = 0;
                self.unpin();
            }
        }
        if self.rounds >= ROUNDS_BEFORE_PIN {
            self.sent = Instant::now();
            if !self.is_pinned && self.sent >= self.rests_until {
                self.pin();
            }
        }
    }

    /// Call this when the replies to the batch have arrived.
    pub fn on_replies(&mut self) {
        if !self.is_pinned {
            return;
        }
        if self.sent.elapsed() < LATE {
            self.late = self.late.saturating_sub(1);
            self.in_time += 1;
            if self.in_time >= ROUNDS_TO_RECOVER {
                (self.in_time, self.rest) = (0, SHORT_REST);
            }
            return;
        }
        self.in_time = 0;
        self.late += LATE_WEIGHT;
        if self.late > 2 * LATE_WEIGHT {
            self.unpin();
            self.late = 0;
            self.rests_until = Instant::now() + self.rest;
            self.rest = (2 * self.rest).min(LONG_REST);
        }
    }

    fn pin(&mut self) {
        if self.original.is_none() {
            return;
        }
        self.is_pinned = true;
        let moved = this_processor().map_or(false, |here| {
            sched_setaffinity(this_thread(), &here).is_ok()
                && sched_setaffinity(self.server, &here).is_ok()
        });
        if !moved {
            self.unpin();
            self.original = None;
        }
    }

    fn unpin(&mut self) {
        if let (true, Some((front, server))) = (self.is_pinned, &self.original) {
            // This fails for a server that has ended, which doesn't matter.
            let _ = sched_setaffinity(this_thread(), front);
            let _ = sched_setaffinity(self.server, server);
        }
        self.is_pinned = false;
    }
}

#[cfg(test)]
mod tests {
    use super::*;
    use std::process::id;

    fn call(affinity: &mut Affinity, caller: u64, rounds: u32) {
        for _ in 0..rounds {
            affinity.on_send(Some(caller), 1);
            affinity.on_replies();
        }
    }

    /// Returns the number of CPUs in a set.
    fn size(set: Option<CpuSet>) -> usize {
        let is_set = |it: &CpuSet, n| it.is_set(n).unwrap_or(false);
        set.map_or(0, |set| (0..CpuSet::count()).filter(|n| is_set(&set, *n)).count())
    }

    #[test]
    fn one_caller_in_a_row_is_pinned() {
        let before = allowed(this_thread());
        let mut affinity = Affinity::new(id());
        call(&mut affinity, 7, ROUNDS_BEFORE_PIN);
        assert!(!affinity.is_pinned());
        affinity.on_send(Some(7), 1);
        assert!(affinity.is_pinned());
        assert_eq!(size(allowed(this_thread())), 1);
        affinity.on_send(None, 2);
        assert!(!affinity.is_pinned());
        assert_eq!(allowed(this_thread()), before);
    }

    #[test]
    fn two_callers_or_long_rounds_are_not_pinned() {
        let mut affinity = Affinity::new(id());
        for _ in 0..ROUNDS_BEFORE_PIN {
            affinity.on_send(Some(1), 1);
            affinity.on_send(Some(2), 1);
        }
        assert!(!affinity.is_pinned());
        for _ in 0..2 * ROUNDS_BEFORE_PIN {
            affinity.on_send(Some(1), SMALL_ROUND + 1);
        }
        assert!(!affinity.is_pinned());
    }

    #[test]
    fn late_rounds_unpin_for_a_while() {
        let before = allowed(this_thread());
        let mut affinity = Affinity::new(id());
        call(&mut affinity, 7, ROUNDS_BEFORE_PIN);
        for times in 1..=3 {
            affinity.on_send(Some(7), 1);
            affinity.sent -= LATE;
            affinity.on_replies();
            assert_eq!(affinity.is_pinned(), times < 3);
        }
        assert_eq!(allowed(this_thread()), before);
        call(&mut affinity, 7, 2 * ROUNDS_BEFORE_PIN);
        assert!(!affinity.is_pinned());
        assert_eq!(affinity.rest, 2 * SHORT_REST);
        affinity.rests_until = Instant::now();
        call(&mut affinity, 7, ROUNDS_BEFORE_PIN + ROUNDS_TO_RECOVER);
        assert!(affinity.is_pinned());
        assert_eq!(affinity.rest, SHORT_REST);
    }

    #[test]
    fn a_server_that_has_ended_moves_no_thread() {
        let before = allowed(this_thread());
        let mut affinity = Affinity::new(id());
        affinity.server = Pid::from_raw(i32::MAX);
        call(&mut affinity, 7, 2 * ROUNDS_BEFORE_PIN);
        assert!(!affinity.is_pinned());
        assert_eq!(allowed(this_thread()), before);
    }
}
