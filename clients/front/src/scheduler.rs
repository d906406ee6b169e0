//! The scheduler: the rounds of all connections wait here, are sent to the server in batches, and
//! get their replies. At most one batch is at the server; rounds that come meanwhile wait for the
//! next.

use crate::affinity::Affinity;
use crate::batch::{AllTurns, Batch, Dealt, Queued};
use crate::peers::Peer;
use crate::request::frame_length;
use crate::server::Server;
use crate::sub_batch::SubBatch;
use crate::tally::Tally;
use mio::unix::pipe::{Receiver, Sender};
use std::collections::VecDeque;
use std::io::{self, Read, Write};
use std::time::Instant;

const ROUND_ENDED: u8 = 9;
const LAST_REPLY: u8 = 8;

/// The maximum number of bytes of one read.
const READ_SIZE: usize = 65_536;

/// If the reply buffer is larger than this after a batch, it shrinks.
const KEPT: usize = 1_048_576;

/// The owner of a sub-batch: a connection, and the class's frame if the sub-batch is a class.
pub struct Owner {
    pub connection: u64,
    pub peer: Peer,
    pub class: Option<Vec<u8>>,
    /// The maximum instructions of its round.
    pub steps: u64,
    /// Whether the connection was closed since the sub-batch was queued.
    pub is_gone: bool,
    /// The time when the sub-batch was queued, and the number of requests in its round.
    pub queued: Instant,
    pub requests: usize,
}

/// A batch whose replies have all arrived.
pub struct Completed {
    pub sent: Instant,
    pub requests: usize,
}

/// A batch at the server, and the sub-batches that waited when it was gathered.
struct InFlight {
    batch: Batch,
    /// The number of bytes of the batch that are in the server's pipe, or were.
    written: usize,
    queued: Vec<Queued<Owner>>,
    sent: Instant,
}

/// The replies to a batch that have arrived so far: consecutive frames, and the end of each.
#[derive(Default)]
struct Replies {
    text: Vec<u8>,
    ends: Vec<usize>,
}

/// The server's two streams, the batch at the server, and the waiting sub-batches.
pub struct Scheduler {
    input: Sender,
    output: Receiver,
    buffer: Vec<u8>,
    replies: Replies,
    in_flight: Option<InFlight>,
    /// Whether the last batch had a single sub-batch.
    was_single: bool,
    waiting: VecDeque<Queued<Owner>>,
    steps: u64,
    turns: AllTurns,
    affinity: Affinity,
    /// The last completed batch, until it is counted.
    completed: Option<Completed>,
}

impl Scheduler {
    /// Creates a scheduler for this server, with a limit on the instructions of a batch.
    pub fn new(server: Server, steps: u64) -> io::Result<Scheduler> {
        let Server { input, output, process } = server;
        let (input, output) = (Sender::from(input), Receiver::from(output));
        input.set_nonblocking(true)?;
        output.set_nonblocking(true)?;
        Ok(Scheduler {
            input,
            output,
            buffer: vec![0; READ_SIZE],
            replies: Replies::default(),
            in_flight: None,
            was_single: false,
            waiting: VecDeque::new(),
            steps,
            turns: AllTurns::default(),
            affinity: Affinity::new(process),
            completed: None,
        })
    }

    /// Returns the stream of replies.
    pub fn output(&mut self) -> &mut Receiver {
        &mut self.output
    }

    /// Returns the stream of requests.
    pub fn input(&mut self) -> &mut Sender {
        &mut self.input
    }

    /// Returns the limit on the instructions of a batch.
    pub fn steps(&self) -> u64 {
        self.steps
    }

    /// Changes the limit on the instructions of a batch.
    pub fn set_steps(&mut self, steps: u64) {
        self.steps = steps;
    }

    /// Returns whether a batch is at the server.
    pub fn is_in_flight(&self) -> bool {
        self.in_flight.is_some()
    }

    /// Returns whether a part of the batch at the server is not in its pipe yet.
    pub fn is_writing(&self) -> bool {
        self.in_flight.as_ref().map_or(false, InFlight::has_unwritten)
    }

    /// Returns whether the last batch had a single sub-batch, and none waits.
    pub fn has_single_caller(&self) -> bool {
        self.was_single && self.waiting.is_empty()
    }

    /// Returns whether a batch is at the server and the server runs on this thread's CPU: it
    /// continues once this thread sleeps.
    pub fn wants_sleep(&self) -> bool {
        self.is_in_flight() && self.affinity.is_pinned()
    }

    /// Queues a sub-batch.
    pub fn queue(&mut self, owner: Owner, sub_batch: SubBatch) {
        self.waiting.push_back(Queued { peer: owner.peer, owner, sub_batch });
    }

    /// Drops what a connection that was closed has not sent to the server yet, and returns it. A
    /// class stays, since other connections may wait for the verdict.
    pub fn forget(&mut self, connection: u64) -> Option<Queued<Owner>> {
        let is_own =
            |it: &Queued<Owner>| it.owner.connection == connection && it.owner.class.is_none();
        let in_flight = self.in_flight.iter_mut().flat_map(|it| &mut it.queued);
        in_flight.filter(|it| is_own(it)).for_each(|it| it.owner.is_gone = true);
        let index = self.waiting.iter().position(is_own)?;
        self.waiting.remove(index)
    }

    /// Returns when the batch at the server was sent, if there is one.
    pub fn sent(&self) -> Option<Instant> {
        self.in_flight.as_ref().map(|it| it.sent)
    }

    /// Returns the number of sub-batches that wait or are at the server, and the number of their
    /// requests that aren't in a batch yet.
    pub fn waiting(&self) -> (usize, usize) {
        let in_flight = self.in_flight.iter().flat_map(|it| &it.queued);
        let all = in_flight.chain(&self.waiting);
        all.fold((0, 0), |(count, requests), it| (count + 1, requests + it.sub_batch.len()))
    }

    /// Takes the batch that was completed since the last call.
    pub fn take_completed(&mut self) -> Option<Completed> {
        self.completed.take()
    }

    /// Sends a batch of the waiting sub-batches, if there are any and no batch is at the server. What
    /// the server's pipe has no room for is left to [`Scheduler::write`]. An error means that the
    /// server has ended.
    pub fn send(&mut self, now: Instant) -> io::Result<()> {
        if self.in_flight.is_some() || self.waiting.is_empty() {
            return Ok(());
        }
        let mut queued: Vec<Queued<Owner>> = self.waiting.drain(..).collect();
        let batch = Batch::gather(&mut queued, self.steps, &mut self.turns);
        let only = match &queued[..] {
            [it] => Some(it.owner.connection),
            _ => None,
        };
        self.affinity.on_send(only, batch.replies());
        self.was_single = queued.len() == 1;
        self.in_flight = Some(InFlight { batch, written: 0, queued, sent: now });
        self.write()
    }

    /// Writes as much of the batch as the server's pipe has room for: a server that reads nothing
    /// must not hold up the event loop. An error means that the server has ended.
    pub fn write(&mut self) -> io::Result<()> {
        let in_flight = match &mut self.in_flight {
            Some(it) => it,
            None => return Ok(()),
        };
        while in_flight.has_unwritten() {
            match self.input.write(&in_flight.batch.text()[in_flight.written..]) {
                Ok(0) => return Err(io::ErrorKind::WriteZero.into()),
                Ok(count) => in_flight.written += count,
                Err(e) if e.kind() == io::ErrorKind::Interrupted => {}
                Err(e) if e.kind() == io::ErrorKind::WouldBlock => return Ok(()),
                Err(e) => return Err(e),
            }
        }
        Ok(())
    }

    /// Reads the replies that have arrived. After all replies and their end it distributes them,
    /// and returns the sub-batches that are done, or whose connections were closed; before that it
    /// returns `None`.
    ///
    /// Unfinished sub-batches that had no part in this batch come first in the next one. Those that
    /// had a part come after those that arrived meanwhile. An error means that the server has
    /// ended, or that its replies are invalid, as those to a round that it hasn't got whole.
    pub fn receive(&mut self, tally: &mut Tally) -> io::Result<Option<Vec<Queued<Owner>>>> {
        loop {
            let count = match self.output.read(&mut self.buffer) {
                Ok(0) => return Err(io::ErrorKind::UnexpectedEof.into()),
                Ok(count) => count,
                Err(e) if e.kind() == io::ErrorKind::WouldBlock => return Ok(None),
                Err(e) if e.kind() == io::ErrorKind::Interrupted => continue,
                Err(e) => return Err(e),
            };
            self.replies.text.extend_from_slice(&self.buffer[..count]);
            let in_flight = self.in_flight.take().ok_or(io::ErrorKind::InvalidData)?;
            if self.replies.are_complete(in_flight.batch.replies())? {
                if in_flight.has_unwritten() {
                    return Err(io::ErrorKind::InvalidData.into());
                }
                return self.deal(in_flight, tally).map(Some);
            }
            self.in_flight = Some(in_flight);
            if count < READ_SIZE {
                // The pipe is empty now, and later data causes another event.
                return Ok(None);
            }
        }
    }

    fn deal(&mut self, in_flight: InFlight, tally: &mut Tally) -> io::Result<Vec<Queued<Owner>>> {
        let InFlight { batch, mut queued, sent, .. } = in_flight;
        self.completed = Some(Completed { sent, requests: batch.replies() });
        if !batch.deal(&mut queued, &self.replies.text, &self.replies.ends, tally) {
            return Err(io::ErrorKind::InvalidData.into());
        }
        self.replies.clear();
        self.affinity.on_replies();
        let dealt = Dealt::of(queued, |index| batch.left_out(index));
        let Dealt { mut done, left_out, unfinished } = dealt;
        let (gone, left_out): (Vec<_>, Vec<_>) = left_out.into_iter().partition(is_gone);
        left_out.into_iter().rev().for_each(|it| self.waiting.push_front(it));
        let (also_gone, unfinished): (Vec<_>, Vec<_>) = unfinished.into_iter().partition(is_gone);
        self.waiting.extend(unfinished);
        done.extend(gone.into_iter().chain(also_gone));
        Ok(done)
    }
}

impl InFlight {
    fn has_unwritten(&self) -> bool {
        self.written < self.batch.text().len()
    }
}

fn is_gone(it: &Queued<Owner>) -> bool {
    it.owner.is_gone
}

impl Replies {
    /// Returns whether `wanted` replies and their end have arrived. It is an error if anything
    /// follows them.
    fn are_complete(&mut self, wanted: usize) -> io::Result<bool> {
        loop {
            let begin = self.ends.last().copied().unwrap_or(0);
            let frame = &self.text[begin..];
            let length = match frame_length(frame)? {
                Some(length) => length,
                None => return Ok(false),
            };
            if self.ends.len() == wanted {
                let is_end = frame == [0, 0, 0, 1, ROUND_ENDED];
                return if is_end { Ok(true) } else { Err(io::ErrorKind::InvalidData.into()) };
            }
            if !(1..=LAST_REPLY).contains(&frame[4]) {
                return Err(io::ErrorKind::InvalidData.into());
            }
            self.ends.push(begin + length);
        }
    }

    fn clear(&mut self) {
        self.ends.clear();
        self.text.clear();
        self.text.shrink_to(KEPT);
    }
}

#[cfg(test)]
mod tests {
    use super::*;

    /// Returns whether a batch with this number of replies is complete, if these bytes arrive one
    /// by one, and if they arrive at once. `None` is an error.
    fn are_complete(wanted: usize, bytes: &[u8]) -> (Option<bool>, Option<bool>) {
        let (mut slow, mut at_once) = (Replies::default(), Replies::default());
        let mut answer = Some(false);
        for byte in bytes {
            slow.text.push(*byte);
            if answer.is_some() {
                answer = slow.are_complete(wanted).ok();
            }
        }
        at_once.text.extend_from_slice(bytes);
        (answer, at_once.are_complete(wanted).ok())
    }

    #[test]
    fn replies_are_complete_with_their_end() {
        let bytes = [0, 0, 0, 1, 3, 0, 0, 0, 2, 4, 0, 0, 0, 0, 1, 9];
        for end in 0..bytes.len() {
            let answer = are_complete(2, &bytes[..end]);
            assert_eq!(answer, (Some(false), Some(false)), "a beginning of {} bytes", end);
        }
        assert_eq!(are_complete(2, &bytes), (Some(true), Some(true)));
        assert_eq!(are_complete(0, &[0, 0, 0, 1, 9]), (Some(true), Some(true)));
    }

    #[test]
    fn invalid_replies_are_errors() {
        let error = (None, None);
        assert_eq!(are_complete(2, &[0, 0, 0, 1, 3, 0, 0, 0, 1, 9]), error, "a reply too few");
        assert_eq!(are_complete(1, &[0, 0, 0, 1, 3, 0, 0, 0, 1, 3]), error, "a reply too many");
        assert_eq!(are_complete(1, &[0, 0, 0, 1, 10]), error, "an unknown kind");
        assert_eq!(are_complete(1, &[0, 0, 0, 0]), error, "a frame of no length");
        assert_eq!(are_complete(1, &[0, 2, 0, 1]), error, "a frame that is too long");
        let long_end = [0, 0, 0, 1, 3, 0, 0, 0, 2, 9, 0];
        assert_eq!(are_complete(1, &long_end), error, "an end that is too long");
    }

    #[test]
    fn bytes_after_the_end_are_an_error() {
        let mut replies = Replies { text: vec![0, 0, 0, 1, 9, 0], ends: Vec::new() };
        assert!(replies.are_complete(0).is_err());
    }
}
