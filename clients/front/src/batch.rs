//! A batch: what is sent to the server as one round. It is gathered from the waiting sub-batches,
//! and its replies are distributed to them by position. Nothing here does I/O.

use crate::peers::Peer;
use crate::request::MOST_JOBS;
use crate::shares::{shares, Demand, Expensive, Share, Turns, MOST_PICKED};
use crate::sub_batch::{Next, Sent, SubBatch};
use crate::tally::Tally;

/// The request that ends a round.
pub const END: [u8; 5] = [0, 0, 0, 1, 8];

/// The maximum number of bytes of a batch that are allocated in advance.
const RESERVED: usize = 65_536;

const ALL: Share = Share { steps: u64::MAX, jobs: usize::MAX };

/// A sub-batch that waits for the server, with its owner and the peer that it comes from.
pub struct Queued<T> {
    pub owner: T,
    pub peer: Peer,
    pub sub_batch: SubBatch,
}

/// The content of a position in a batch.
enum Kind {
    /// Replies that the front creates itself.
    Known(Vec<u8>),
    /// A request that the server replies to.
    Sent(Sent),
}

/// A position in a batch: the index of its sub-batch among those that waited, and its content.
struct Position {
    queued: u32,
    kind: Kind,
}

/// A batch made from the sub-batches that waited.
pub struct Batch {
    text: Vec<u8>,
    positions: Vec<Position>,
    /// For each sub-batch that waited, whether no part of it fitted.
    left_out: Vec<bool>,
}

/// What each sub-batch may send.
enum Plan {
    /// Everything, since it fits.
    All,
    Shares(Vec<Share>),
}

/// The turns of peers, with expensive jobs and with classes.
#[derive(Default)]
pub struct AllTurns {
    jobs: Turns,
    classes: Turns,
}

impl Batch {
    /// Gathers a batch. Each sub-batch contributes as much as its share allows, or one expensive
    /// job when its turn comes. A batch has at most one class.
    pub fn gather<T>(queued: &mut [Queued<T>], steps: u64, turns: &mut AllTurns) -> Batch {
        let class = next_class(queued, &mut turns.classes);
        let plan = Plan::of(queued, steps / 2, &mut turns.jobs);
        let unsent = queued.iter().map(|it| it.sub_batch.unsent());
        let (requests, bytes) = unsent.fold((0, 0), |all, it| (all.0 + it.0, all.1 + it.1));
        // One allocation for each is enough for most batches.
        let mut batch = Batch {
            text: Vec::with_capacity(bytes.min(RESERVED) + END.len()),
            positions: Vec::with_capacity(requests.min(MOST_JOBS)),
            left_out: Vec::with_capacity(queued.len()),
        };
        for (index, it) in queued.iter_mut().enumerate() {
            let before = batch.positions.len();
            let share = match &plan {
                Plan::All => ALL,
                Plan::Shares(shares) => shares[index],
            };
            batch.take_from(index as u32, &mut it.sub_batch, share, class == Some(index));
            batch.left_out.push(batch.positions.len() == before);
        }
        batch.text.extend_from_slice(&END);
        batch
    }

    fn take_from(
        &mut self,
        queued: u32,
        sub_batch: &mut SubBatch,
        mut share: Share,
        has_turn: bool,
    ) {
        loop {
            if let Some(replies) = sub_batch.take_known() {
                self.positions.push(Position { queued, kind: Kind::Known(replies) });
            }
            let count = match sub_batch.next() {
                Next::Class => usize::from(has_turn),
                Next::Jobs { count, cost } => share.take(count, cost),
                Next::Nothing => 0,
            };
            if count == 0 {
                return;
            }
            let kind = Kind::Sent(sub_batch.send(count, &mut self.text));
            self.positions.push(Position { queued, kind });
        }
    }

    /// Returns the batch's text: the requests, and the end of the round.
    pub fn text(&self) -> &[u8] {
        &self.text
    }

    /// Returns the number of replies that the server has to send, without the end of the round.
    pub fn replies(&self) -> usize {
        self.positions.iter().filter(|it| matches!(it.kind, Kind::Sent(_))).count()
    }

    /// Returns whether no part of this sub-batch fitted.
    pub fn left_out(&self, queued: usize) -> bool {
        self.left_out.get(queued).copied().unwrap_or(true)
    }

    /// Distributes the server's replies, which are consecutive frames with these ends, and counts
    /// them. Returns false if one of them isn't a valid reply to its request.
    pub fn deal<T>(
        &self,
        queued: &mut [Queued<T>],
        text: &[u8],
        ends: &[usize],
        tally: &mut Tally,
    ) -> bool {
        let mut ends = ends.iter();
        let mut begin = 0;
        for position in &self.positions {
            let sub_batch = &mut queued[position.queued as usize].sub_batch;
            let sent = match &position.kind {
                Kind::Known(replies) => {
                    sub_batch.add_reply(replies);
                    continue;
                }
                Kind::Sent(sent) => sent,
            };
            let end = match ends.next() {
                Some(end) => *end,
                None => return false,
            };
            let reply = &text[begin..end];
            begin = end;
            match sent {
                Sent::Whole(asked) => {
                    tally.reply(*asked, &reply[4..]);
                    sub_batch.add_reply(reply);
                }
                Sent::Keys { position, is_last, asked } => {
                    tally.partial_reply(*asked, *is_last, &reply[4..]);
                    if sub_batch.join(*position, asked.keys, *is_last, &reply[4..]).is_none() {
                        return false;
                    }
                }
            }
        }
        true
    }
}

impl Plan {
    /// Plans a batch with this number of instructions for cheap jobs, and as many for others.
    fn of<T>(queued: &[Queued<T>], steps: u64, turns: &mut Turns) -> Plan {
        let sums = queued.iter().map(|it| (it.sub_batch.jobs(), it.sub_batch.steps()));
        let (jobs, wanted) = sums.fold((0, 0u64), |all, it| (all.0 + it.0, all.1 + it.1));
        if jobs <= MOST_JOBS && wanted <= steps {
            return Plan::All;
        }
        let demands: Vec<Demand> = queued.iter().map(demand).collect();
        let mut shares = shares(&demands, Share { steps, jobs: MOST_JOBS - MOST_PICKED });
        let is_left =
            |(index, it): &(usize, &Demand)| it.next.is_some() && shares[*index].jobs == 0;
        let left = demands.iter().enumerate().filter(is_left);
        let expensive: Vec<Expensive> =
            left.map(|(index, it)| (index, it.peer, it.next.unwrap_or(0))).collect();
        let has_cheap = shares.iter().any(|it| it.jobs > 0);
        for index in turns.pick(&expensive, steps, has_cheap) {
            shares[index] = Share { steps: demands[index].next.unwrap_or(0), jobs: 1 };
        }
        Plan::Shares(shares)
    }
}

fn demand<T>(it: &Queued<T>) -> Demand {
    let sub_batch = &it.sub_batch;
    Demand {
        peer: it.peer,
        next: sub_batch.next_cost(),
        steps: sub_batch.steps(),
        jobs: sub_batch.jobs(),
    }
}

/// Returns the index of the sub-batch whose class is judged next.
fn next_class<T>(queued: &[Queued<T>], turns: &mut Turns) -> Option<usize> {
    let all = queued.iter().enumerate();
    let classes = all.filter(|(_, it)| matches!(it.sub_batch.next(), Next::Class));
    let classes: Vec<Expensive> =
        classes.map(|(index, it)| (index, it.peer, it.sub_batch.bytes() as u64)).collect();
    if classes.is_empty() {
        return None;
    }
    turns.pick(&classes, 0, false).first().copied()
}

/// The sub-batches of a batch: those that are done, and those that continue to wait.
pub struct Dealt<T> {
    pub done: Vec<Queued<T>>,
    /// Those of which no part fitted. They come first in the next batch.
    pub left_out: Vec<Queued<T>>,
    pub unfinished: Vec<Queued<T>>,
}

impl<T> Dealt<T> {
    /// Sorts the sub-batches of a batch.
    pub fn of(queued: Vec<Queued<T>>, left_out: impl Fn(usize) -> bool) -> Dealt<T> {
        let mut it = Dealt { done: Vec::new(), left_out: Vec::new(), unfinished: Vec::new() };
        for (index, mut queued) in queued.into_iter().enumerate() {
            if queued.sub_batch.is_done() {
                it.done.push(queued);
            } else if left_out(index) {
                it.left_out.push(queued);
            } else {
                it.unfinished.push(queued);
            }
        }
        it
    }
}

#[cfg(test)]
#[path = "batch_tests.rs"]
mod tests;
