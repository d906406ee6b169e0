//! Decides how long an idle thread polls before it sleeps. Most replies of the server, and most
//! calls of a client that calls continuously, arrive within this time, so that no thread has to be
//! woken.

use std::time::{Duration, Instant};

/// How long a wait polls.
const SPIN: Duration = Duration::from_micros(30);

/// The maximum number of consecutive waits that don't poll, after others that polled in vain.
const MOST_SKIPPED: u32 = 255;

/// A wait that polled for this long was preempted: other threads need the CPU.
const PREEMPTED: Duration = Duration::from_millis(1);

/// How long no wait polls after that.
const REST: Duration = Duration::from_secs(1);

/// The outcome of earlier waits, which decides whether the next one polls.
pub struct SpinWait {
    /// The number of waits that still won't poll, and how many didn't before the last one that did.
    skip: u32,
    skipped: u32,
    rests_until: Instant,
}

impl SpinWait {
    /// Creates the state before any wait has polled in vain.
    pub fn new() -> SpinWait {
        SpinWait { skip: 0, skipped: 0, rests_until: Instant::now() }
    }

    /// Starts a wait. Returns `None` if it should sleep at once, because polling was in vain
    /// recently or other threads need the CPU.
    pub fn begin(&mut self) -> Option<Instant> {
        if self.skip > 0 {
            self.skip -= 1;
            return None;
        }
        let now = Instant::now();
        if now < self.rests_until {
            None
        } else {
            Some(now)
        }
    }

    /// Returns whether a wait that began at this time should poll again. `found` says that it found
    /// something.
    pub fn continues(&mut self, begun: Instant, found: bool) -> bool {
        let spun = begun.elapsed();
        if spun >= PREEMPTED {
            self.rests_until = begun + spun + REST;
        }
        if found {
            self.skipped = 0;
        } else if spun >= SPIN {
            self.skipped = (2 * self.skipped + 1).min(MOST_SKIPPED);
            self.skip = self.skipped;
        } else {
            return true;
        }
        false
    }
}

#[cfg(test)]
mod tests {
    use super::*;

    #[test]
    fn waits_that_poll_in_vain_become_rare() {
        let mut spin = SpinWait::new();
        let mut polled = 0;
        for _ in 0..2_000 {
            if let Some(begun) = spin.begin() {
                polled += 1;
                while spin.continues(begun, false) {}
            }
        }
        assert!(polled <= 16, "{} waits of 2,000 polled", polled);
    }

    #[test]
    fn a_wait_that_found_something_is_followed_by_one_that_polls() {
        let mut spin = SpinWait::new();
        while spin.skip == 0 {
            let begun = Instant::now();
            while spin.continues(begun, false) {}
        }
        assert!(spin.begin().is_none());
        assert!(!spin.continues(Instant::now(), true));
        assert_eq!(spin.skipped, 0);
    }

    #[test]
    fn a_preempted_wait_rests() {
        let mut spin = SpinWait::new();
        let begun = Instant::now() - PREEMPTED;
        assert!(!spin.continues(begun, true));
        assert!(spin.begin().is_none());
    }
}
