//! The counts of the event loop: plain numbers without locks or atomics, so that counting has no
//! measurable cost for calls. [`crate::metrics`] publishes them on request.

use crate::protocol::outcomes::{NOT_RUN, RETURNED, THREW, THROWN};
use crate::protocol::replies::{DENIED, FLAG, REFUSED, RESULT, RESULTS, VALUE};
use crate::protocol::requests::{DEFINE, REMOVE};
use crate::protocol::values::{FALSE, INTEGER, LONG, NULL, TRUE};
use crate::protocol::MOST_CLASSES;
pub use crate::protocol::{DENIALS, EXCEPTIONS, REFUSALS, REPLIES, REQUESTS};

/// The reasons for which a connection was closed.
#[derive(Clone, Copy, Debug)]
pub enum Closed {
    /// The peer closed it, or it broke.
    Ended = 0,
    /// It sent an invalid request, or a round with too many requests.
    Invalid = 1,
    /// It made no progress for the time of `--idle`.
    Idle = 2,
    /// Its round took longer than `--round` to arrive, or its replies to be taken.
    Slow = 3,
    /// It had the largest of the rounds that together took more than `--round-bytes`.
    Large = 4,
    /// The front was to end.
    Drained = 5,
    /// An operator closed it.
    Kicked = 6,
}

/// The labels of [`Closed`].
pub const CLOSED: [&str; 7] = ["ended", "invalid", "idle", "slow", "large", "drained", "kicked"];

/// The class number of requests that run no class.
pub const NO_CLASS: u32 = u32::MAX;

/// The request that a reply belongs to.
#[derive(Clone, Copy, Debug)]
pub struct Asked {
    /// The kind of the request.
    pub kind: u8,
    /// The server's number of its class, or [`NO_CLASS`].
    pub class: u32,
    /// The number of its keys, for an invokeAll.
    pub keys: u16,
}

/// The counts of a class.
#[derive(Clone, Copy, Debug, Default, PartialEq, Eq)]
pub struct ClassTally {
    /// The maximum instructions of a run.
    pub steps: u32,
    pub runs: u64,
    pub exceptions: u64,
}

impl ClassTally {
    /// Returns the maximum instructions of all its runs together.
    pub fn cost(&self) -> u64 {
        self.runs.saturating_mul(self.steps.into())
    }
}

/// Counts since the start of the process.
#[derive(Clone, Debug, Default)]
pub struct Tally {
    pub requests: [u64; REQUESTS.len()],
    pub replies: [u64; REPLIES.len()],
    /// By number; denials without a name are counted at 0.
    pub denials: [u64; DENIALS.len()],
    pub exceptions: [u64; EXCEPTIONS.len()],
    pub refusals: [u64; REFUSALS.len()],
    /// Gets that found no entry, and gets that found one.
    pub gets: [u64; 2],
    /// Removes that found no entry, and removes that found one.
    pub removes: [u64; 2],
    pub runs: u64,
    /// An upper bound on the instructions of all runs together, from the bounds of their classes.
    pub steps: u64,
    pub rounds: u64,
    pub opened: u64,
    pub closed: [u64; CLOSED.len()],
    pub received_bytes: u64,
    pub sent_bytes: u64,
    /// By the server's class number.
    pub classes: Vec<ClassTally>,
}

#[inline]
fn count<const N: usize>(counts: &mut [u64; N], number: u8) {
    let index = usize::from(number);
    counts[if index < N { index } else { 0 }] += 1;
}

impl Tally {
    /// Counts a request of a connection.
    pub fn request(&mut self, kind: u8) {
        count(&mut self.requests, kind);
    }

    /// Counts a class that the server accepted.
    pub fn class(&mut self, number: u32, steps: u32) {
        let index = number as usize;
        if index >= self.classes.len() && index < MOST_CLASSES {
            self.classes.resize(index + 1, ClassTally::default());
        }
        if let Some(class) = self.classes.get_mut(index) {
            class.steps = steps;
        }
    }

    /// Returns the counts of a class.
    pub fn class_tally(&self, number: u32) -> ClassTally {
        self.classes.get(number as usize).copied().unwrap_or_default()
    }

    /// Counts a reply that the front creates itself, or forwards without a request of its own: its
    /// length, kind and body.
    pub fn own_reply(&mut self, reply: &[u8]) {
        let kind = reply[4];
        count(&mut self.replies, kind);
        match kind {
            REFUSED => count(&mut self.refusals, reply[5]),
            DENIED => count(&mut self.denials, reply[5]),
            _ => {}
        }
    }

    /// Counts a reply of the server, given its kind and body. Verdicts on classes are counted by
    /// [`Tally::own_reply`] for each connection that receives them.
    pub fn reply(&mut self, asked: Asked, reply: &[u8]) {
        let kind = reply[0];
        if let (RESULT, Some(&RETURNED), true) = (kind, reply.get(1), asked.class != NO_CLASS) {
            // This is by far the most frequent reply.
            self.replies[usize::from(RESULT)] += 1;
            return self.runs(asked.class, 1, 0);
        }
        if asked.kind == DEFINE {
            return;
        }
        count(&mut self.replies, kind);
        match (kind, reply.get(1)) {
            (VALUE, Some(tag)) => self.gets[usize::from(*tag != 0)] += 1,
            (FLAG, Some(flag)) if asked.kind == REMOVE => {
                self.removes[usize::from(*flag != 0)] += 1
            }
            (RESULT, Some(_)) => self.outcome(asked.class, &reply[1..]),
            (RESULTS, Some(_)) => self.results(asked, reply.get(3..).unwrap_or_default()),
            (DENIED, Some(number)) => count(&mut self.denials, *number),
            _ => {}
        }
    }

    /// Counts a reply to some keys of an invokeAll. Only the last one completes the client's reply.
    pub fn partial_reply(&mut self, asked: Asked, is_last: bool, reply: &[u8]) {
        if is_last {
            count(&mut self.replies, RESULTS);
        }
        match reply {
            [RESULTS, _, _, results @ ..] => self.results(asked, results),
            // The front converts it to a denial for each key.
            [DENIED, number] => {
                (0..asked.keys).for_each(|_| count(&mut self.denials, *number));
            }
            _ => {}
        }
    }

    /// Counts the outcome of one run, or of a get whose loader failed.
    fn outcome(&mut self, class: u32, outcome: &[u8]) {
        match outcome {
            [RETURNED, ..] => self.runs(class, 1, 0),
            [THREW | THROWN, number, ..] => {
                count(&mut self.exceptions, *number);
                self.runs(class, 1, 1);
            }
            [NOT_RUN, number, ..] => count(&mut self.denials, *number),
            _ => {}
        }
    }

    /// Counts the outcomes of an invokeAll: keys without one returned null.
    fn results(&mut self, asked: Asked, mut results: &[u8]) {
        let (mut runs, mut exceptions) = (u64::from(asked.keys), 0);
        while let Some(outcome) = results.get(8..) {
            let length = match outcome {
                [RETURNED, NULL | FALSE | TRUE, ..] => 2,
                [RETURNED, LONG, ..] => 10,
                [RETURNED, INTEGER, ..] => 6,
                [THREW | THROWN, number, ..] => {
                    count(&mut self.exceptions, *number);
                    exceptions += 1;
                    // The index of the text is behind the number of an exception that was thrown.
                    2 + 2 * usize::from(outcome[0] == THROWN)
                }
                [NOT_RUN, number, ..] => {
                    count(&mut self.denials, *number);
                    runs = runs.saturating_sub(1);
                    2
                }
                _ => break,
            };
            results = outcome.get(length..).unwrap_or_default();
        }
        self.runs(asked.class, runs, exceptions);
    }

    fn runs(&mut self, class: u32, runs: u64, exceptions: u64) {
        if class == NO_CLASS {
            return;
        }
        self.runs += runs;
        if let Some(class) = self.classes.get_mut(class as usize) {
            class.runs += runs;
            class.exceptions += exceptions;
            self.steps += runs * u64::from(class.steps);
        }
    }
}

/// Returns the name of a number in one of the tables of [`crate::protocol`].
pub fn name(names: &[&'static str], number: u8) -> &'static str {
    names.get(usize::from(number)).copied().filter(|it| !it.is_empty()).unwrap_or("unknown")
}

#[cfg(test)]
mod tests {
    use super::*;

    fn asked(kind: u8, class: u32, keys: u16) -> Asked {
        Asked { kind, class, keys }
    }

    fn with_class() -> Tally {
        let mut tally = Tally::default();
        tally.class(0, 14);
        tally
    }

    #[test]
    fn runs_count_steps_by_their_bound() {
        let mut tally = with_class();
        tally.reply(asked(6, 0, 0), &[6, 0, 0]);
        tally.reply(asked(6, 0, 0), &[6, 1, 3]);
        tally.reply(asked(6, 0, 0), &[6, 2, 3]);
        assert_eq!((tally.runs, tally.steps, tally.replies[6]), (2, 28, 3));
        assert_eq!((tally.exceptions[3], tally.denials[3]), (1, 1));
        assert_eq!(tally.classes[0], ClassTally { steps: 14, runs: 2, exceptions: 1 });
    }

    #[test]
    fn keys_without_an_outcome_returned_null() {
        let mut tally = with_class();
        let mut reply = vec![7, 0, 4];
        for outcome in [&[0, 1, 0, 0, 0, 0, 0, 0, 0, 5][..], &[0, 2, 0, 0, 0, 1], &[1, 1], &[2, 3]]
        {
            reply.extend_from_slice(&[0; 8]);
            reply.extend_from_slice(outcome);
        }
        tally.reply(asked(7, 0, 6), &reply);
        assert_eq!((tally.runs, tally.exceptions[1], tally.denials[3]), (5, 1, 1));
    }

    #[test]
    fn an_outcome_after_a_boolean_is_counted() {
        let mut tally = with_class();
        let mut reply = vec![7, 0, 4];
        for outcome in [&[0, 3][..], &[0, 4], &[1, 1], &[2, 3]] {
            reply.extend_from_slice(&[0; 8]);
            reply.extend_from_slice(outcome);
        }
        tally.reply(asked(7, 0, 4), &reply);
        assert_eq!((tally.runs, tally.exceptions[1], tally.denials[3]), (3, 1, 1));
        assert_eq!(tally.classes[0], ClassTally { steps: 14, runs: 3, exceptions: 1 });
    }

    #[test]
    fn an_outcome_after_a_thrown_exception_is_counted() {
        let mut tally = with_class();
        let mut reply = vec![7, 0, 5];
        for outcome in [&[3, 9, 0, 32][..], &[3, 1, 2, 3], &[0, 4], &[1, 1], &[3, 10, 0, 0]] {
            reply.extend_from_slice(&[0; 8]);
            reply.extend_from_slice(outcome);
        }
        tally.reply(asked(7, 0, 5), &reply);
        assert_eq!((tally.runs, tally.steps), (5, 70));
        assert_eq!([1, 9, 10].map(|it| tally.exceptions[it]), [2, 1, 1]);
        assert_eq!((tally.exceptions.iter().sum(), tally.denials), (4u64, [0; 6]));
        assert_eq!(tally.classes[0], ClassTally { steps: 14, runs: 5, exceptions: 4 });
    }

    #[test]
    fn a_thrown_exception_is_counted_by_its_number() {
        let mut tally = with_class();
        tally.reply(asked(6, 0, 0), &[6, 3, 9, 0, 32]);
        tally.reply(asked(6, 0, 0), &[6, 3, 1, 0, 0]);
        tally.reply(asked(6, 0, 0), &[6, 3, 77, 0, 0]);
        assert_eq!([0, 1, 9].map(|it| tally.exceptions[it]), [1, 1, 1]);
        assert_eq!((tally.runs, tally.replies[6]), (3, 3));
        assert_eq!(tally.classes[0], ClassTally { steps: 14, runs: 3, exceptions: 3 });
    }

    #[test]
    fn cut_results_are_counted_as_far_as_they_go() {
        let mut whole = vec![7, 0, 2];
        for outcome in [[3, 9, 0, 32], [3, 8, 0, 15]] {
            whole.extend_from_slice(&[0; 8]);
            whole.extend_from_slice(&outcome);
        }
        for end in 1..=whole.len() {
            let mut tally = with_class();
            tally.reply(asked(7, 0, 2), &whole[..end]);
            let wanted = [usize::from(end >= 13), usize::from(end >= 25)];
            assert_eq!([9, 8].map(|it| tally.exceptions[it] as usize), wanted, "{} bytes", end);
            assert_eq!(tally.replies[7], 1);
        }
    }

    #[test]
    fn parts_of_an_invoke_all_are_one_reply() {
        let mut tally = with_class();
        tally.partial_reply(asked(7, 0, 2), false, &[7, 0, 0]);
        tally.partial_reply(asked(7, 0, 3), true, &[8, 3]);
        assert_eq!(
            (tally.replies[7], tally.replies[8], tally.runs, tally.denials[3]),
            (1, 0, 2, 3)
        );
    }

    #[test]
    fn hits_and_misses_are_told_apart() {
        let mut tally = Tally::default();
        tally.reply(asked(3, NO_CLASS, 0), &[4, 0]);
        tally.reply(asked(3, NO_CLASS, 0), &[4, 1, 0, 0, 0, 0, 0, 0, 0, 0]);
        tally.reply(asked(4, NO_CLASS, 0), &[5, 1]);
        tally.reply(asked(5, NO_CLASS, 0), &[5, 1]);
        tally.reply(asked(3, NO_CLASS, 0), &[6, 1, 6]);
        assert_eq!((tally.gets, tally.removes), ([1, 1], [0, 1]));
        assert_eq!((tally.exceptions[6], tally.runs), (1, 0));
    }

    #[test]
    fn unknown_numbers_are_counted_at_0() {
        let mut tally = Tally::default();
        tally.own_reply(&[0, 0, 0, 2, 8, 99]);
        tally.own_reply(&[0, 0, 0, 6, 2, 20, 0, 0, 0, 0]);
        assert_eq!((tally.denials[0], tally.refusals[20]), (1, 1));
        assert_eq!((name(&REFUSALS, 20), name(&DENIALS, 99)), ("BackwardBranch", "unknown"));
    }
}
