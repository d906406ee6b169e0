//! Shares of a batch: how much each of the sub-batches that wait may send.
//!
//! One half of a batch's instructions is for cheap jobs, those that fit into a share. It is divided
//! among peers, and a peer's part among its sub-batches. Whoever has only jobs that don't fit takes
//! no part in that, so a cheap job is in the next batch however many expensive ones wait. The other
//! half is for those, one job each, by turns of the peers.

use crate::peers::Peer;
use std::cmp::Reverse;
use std::collections::{BTreeMap, BinaryHeap, HashMap, VecDeque};

/// What a sub-batch could send.
#[derive(Clone, Copy, Debug)]
pub struct Demand {
    pub peer: Peer,
    /// The instructions of its next job. `None` if its next request is no job.
    pub next: Option<u64>,
    /// The instructions and the number of all its jobs.
    pub steps: u64,
    pub jobs: usize,
}

/// How much a sub-batch may send.
#[derive(Clone, Copy, Debug, Default, PartialEq, Eq)]
pub struct Share {
    pub steps: u64,
    pub jobs: usize,
}

impl Share {
    /// Takes as many of `most` jobs with this cost as fit, and returns their number.
    pub fn take(&mut self, most: usize, cost: u64) -> usize {
        let fit = (self.steps / cost.max(1)).min(most as u64) as usize;
        let count = fit.min(self.jobs);
        self.steps -= cost * count as u64;
        self.jobs -= count;
        count
    }
}

/// Who takes part in a division: its index, what its cheapest job takes, and what it wants in all.
#[derive(Clone, Copy)]
struct Part {
    index: usize,
    least: u64,
    wanted: Share,
}

/// Divides the cheap half of a batch. A sub-batch whose next job doesn't fit has no share.
pub fn shares(demands: &[Demand], all: Share) -> Vec<Share> {
    let mut by_peer: BTreeMap<Peer, Vec<Part>> = BTreeMap::new();
    for (index, it) in demands.iter().enumerate() {
        if let Some(least) = it.next {
            let wanted = Share { steps: it.steps, jobs: it.jobs };
            by_peer.entry(it.peer).or_default().push(Part { index, least, wanted });
        }
    }
    let groups: Vec<Vec<Part>> = by_peer.into_values().collect();
    let peers = groups.iter().enumerate().map(|(index, parts)| sum_of(index, parts)).collect();
    let mut found = vec![Share::default(); demands.len()];
    for (peer, share) in divide(peers, all) {
        for (index, share) in divide(groups[peer].clone(), share) {
            found[index] = share;
        }
    }
    found
}

/// Returns what the sub-batches of a peer want together.
fn sum_of(index: usize, parts: &[Part]) -> Part {
    let steps = parts.iter().fold(0u64, |sum, it| sum.saturating_add(it.wanted.steps));
    let jobs = parts.iter().map(|it| it.wanted.jobs).sum();
    let least = parts.iter().map(|it| it.least).min().unwrap_or(0);
    Part { index, least, wanted: Share { steps, jobs } }
}

/// Divides a share equally among as many as find room in it for a job. What one doesn't want goes
/// to the others.
fn divide(mut parts: Vec<Part>, all: Share) -> Vec<(usize, Share)> {
    parts.sort_by_key(|it| it.least);
    let fits = |(count, it): &(usize, &Part)| it.least <= all.steps / (*count as u64 + 1);
    let count = parts.iter().enumerate().take_while(fits).count().min(all.jobs);
    parts.truncate(count);
    parts.sort_by_key(|it| it.wanted.steps);
    let (mut left, mut count) = (all, parts.len());
    let mut found = Vec::with_capacity(count);
    for it in parts {
        let share = Share {
            steps: it.wanted.steps.min(left.steps / count as u64),
            jobs: it.wanted.jobs.min((left.jobs / count).max(1)),
        };
        left =
            Share { steps: left.steps - share.steps, jobs: left.jobs.saturating_sub(share.jobs) };
        count -= 1;
        found.push((it.index, share));
    }
    found
}

/// What peers have had of the half for expensive jobs, by which they take turns.
#[derive(Default)]
pub struct Turns {
    /// The instructions that each peer has had, and those of the peer that was last.
    had: HashMap<Peer, u64>,
    last: u64,
    /// Whether the last batch had no expensive jobs, for the sake of its cheap ones.
    has_skipped: bool,
}

/// The number of peers whose turns are remembered.
const MOST_PEERS: usize = 8_192;

/// The maximum number of expensive jobs of a batch.
pub const MOST_PICKED: usize = 256;

/// An expensive job: the index of its sub-batch, its peer and its instructions.
pub type Expensive = (usize, Peer, u64);

impl Turns {
    /// Picks at most [`MOST_PICKED`] jobs for these instructions. The first one is picked at any cost; but if it alone
    /// takes more, and there are cheap jobs, every second batch is left to those.
    pub fn pick(&mut self, jobs: &[Expensive], steps: u64, has_cheap: bool) -> Vec<usize> {
        let mut waiting: HashMap<Peer, VecDeque<(usize, u64)>> = HashMap::new();
        for (index, peer, cost) in jobs {
            waiting.entry(*peer).or_default().push_back((*index, *cost));
        }
        if self.had.len() > MOST_PEERS {
            self.had.clear();
        }
        let begin = |peer: &Peer| self.had.get(peer).copied().unwrap_or(0).max(self.last);
        let first = |peer: &Peer| waiting[peer].front().map_or(0, |it| it.0);
        let mut order: BinaryHeap<_> =
            waiting.keys().map(|it| Reverse((begin(it), first(it), *it))).collect();
        let (mut picked, mut sum) = (Vec::new(), 0u64);
        while let Some(Reverse((had, _, peer))) = order.pop() {
            let queue = waiting.entry(peer).or_default();
            let (index, cost) = match queue.pop_front() {
                Some(it) => it,
                None => continue,
            };
            sum = sum.saturating_add(cost);
            if sum > steps || picked.len() == MOST_PICKED {
                let is_skipped = has_cheap && !self.has_skipped;
                if !picked.is_empty() || is_skipped {
                    self.has_skipped = picked.is_empty();
                    return picked;
                }
            }
            picked.push(index);
            (self.last, self.has_skipped) = (had, false);
            self.had.insert(peer, had.saturating_add(cost));
            if let Some((next, _)) = queue.front() {
                order.push(Reverse((had.saturating_add(cost), *next, peer)));
            }
        }
        picked
    }
}

#[cfg(test)]
mod tests {
    use super::*;

    const A: Peer = Peer::User(1);
    const B: Peer = Peer::User(2);

    fn wants(peer: Peer, jobs: usize, cost: u64) -> Demand {
        Demand { peer, next: Some(cost), steps: jobs as u64 * cost, jobs }
    }

    fn of(steps: u64, jobs: usize) -> Share {
        Share { steps, jobs }
    }

    #[test]
    fn who_wants_less_than_there_is_gets_it() {
        let found = shares(&[wants(A, 3, 100), wants(B, 1, 50)], of(1_000, 10));
        assert_eq!(found, [of(300, 3), of(50, 1)]);
    }

    #[test]
    fn a_cheap_job_fits_beside_any_number_of_expensive_ones() {
        let mut all = vec![wants(A, 9, 240_000); 512];
        all.push(wants(A, 1, 1_064));
        let found = shares(&all, of(500_000, 4_096));
        assert_eq!(found[512], of(1_064, 1));
    }

    #[test]
    fn peers_share_and_not_connections() {
        let mut all = vec![wants(A, 4_096, 64); 99];
        all.push(wants(B, 4_096, 64));
        let found = shares(&all, of(64 * 4_000, 4_000));
        assert_eq!(found[99], of(64 * 2_000, 2_000));
        let of_others: usize = found[..99].iter().map(|it| it.jobs).sum();
        assert!(of_others <= 2_000 && of_others > 1_900, "{}", of_others);
    }

    #[test]
    fn what_one_does_not_want_goes_to_others() {
        let found = shares(&[wants(A, 1, 64), wants(A, 4_000, 64)], of(128_000, 4_096));
        assert_eq!(found, [of(64, 1), of(127_936, 4_000)]);
    }

    #[test]
    fn peers_take_turns_with_expensive_jobs() {
        let mut turns = Turns::default();
        let jobs = [(0, A, 90), (1, A, 90), (2, A, 90), (3, B, 90)];
        assert_eq!(turns.pick(&jobs, 100, false), [0]);
        assert_eq!(turns.pick(&jobs[1..], 100, false), [3]);
        assert_eq!(turns.pick(&[jobs[1], jobs[2], jobs[3]], 200, false), [1, 3]);
        assert_eq!(turns.pick(&jobs[2..3], 10, false), [2]);
    }

    #[test]
    fn a_job_larger_than_a_batch_leaves_every_second_one_to_cheap_jobs() {
        let mut turns = Turns::default();
        let jobs = [(0, A, 900)];
        let picked: Vec<usize> = (0..4).map(|_| turns.pick(&jobs, 100, true).len()).collect();
        assert_eq!(picked, [0, 1, 0, 1]);
        assert_eq!(turns.pick(&jobs, 100, false), [0]);
    }
}
