//! One connection: the frames that arrived, the open round, and the replies on their way out. It
//! never blocks; the event loop calls it when its socket is ready.

mod definitions;

use crate::classes::{class_of, Class};
use crate::listen::Stream;
use crate::peers::Peer;
use crate::request::{frame_length, judge, remove_duplicates, Frame, MOST_JOBS};
use crate::shared::Shared;
use crate::sub_batch::SubBatch;
use crate::tally::{Tally, NO_CLASS};
use std::io::{self, Read, Write};
use std::mem::take;
use std::time::{Duration, Instant};

/// The instructions that a request costs in addition to those of its class.
const REQUEST_COST: u64 = 64;

/// If a buffer is larger than this after a round, it shrinks. If the front's own replies reach this
/// size, they are written before more frames are taken.
const KEPT: usize = 16_384;

/// The maximum number of bytes of one read, so that no connection delays the others.
pub const READ_SIZE: usize = 16_384;

/// The instructions that a round may have even if its peer's other rounds have reached their limit.
const LIGHT_ROUND: u64 = 500_000;

const UNKNOWN_CLASS: [u8; 6] = [0, 0, 0, 2, 8, 1];
const TOO_MANY_JOBS: [u8; 6] = [0, 0, 0, 2, 8, 5];
const NO_RESULTS: [u8; 7] = [0, 0, 0, 3, 7, 0, 0];
const ENDED: [u8; 5] = [0, 0, 0, 1, 9];

/// What a connection waits for.
pub enum Step {
    /// Its socket.
    Socket,
    /// The server's replies to a round with this number of requests.
    Round { sub_batch: SubBatch, requests: usize },
    /// The server's verdict on a class, given by its frame.
    Class(Vec<u8>),
    /// The verdict on a class that another connection has sent to the server.
    OthersClass,
    /// A time: its peer has sent too many bytes of refused classes.
    Pause,
}

/// The amount that a read found.
#[derive(Clone, Copy, PartialEq, Eq)]
enum Input {
    /// Nothing has arrived.
    Nothing,
    /// All bytes that had arrived.
    All,
    /// As much as one read takes; there may be more.
    Full,
}

/// The counts of a connection.
#[derive(Clone, Debug)]
pub struct Traffic {
    /// The peer, for people and for limits.
    pub peer: String,
    pub owner: Peer,
    pub opened: Instant,
    pub rounds: u64,
    pub requests: u64,
    pub received_bytes: u64,
    pub sent_bytes: u64,
    /// The longest time that the server took for one of its rounds.
    pub slowest: Duration,
    /// When its round began to wait for the server, if one does.
    pub waits_since: Option<Instant>,
}

/// A connection and its open round.
pub struct Connection {
    number: u64,
    stream: Stream,
    traffic: Traffic,
    /// Bytes that arrived, of which those before `taken` have been processed.
    input: Vec<u8>,
    taken: usize,
    /// Whether the socket may have more bytes to read.
    may_have_input: bool,
    /// Whether the peer has closed its sending side.
    peer_closed: bool,
    /// Replies, of which those before `written` have been sent.
    output: Vec<u8>,
    written: usize,
    /// Whether its next frame waits for the server.
    is_waiting: bool,
    classes: Vec<Class>,
    /// The number of new classes that it brought to the server.
    brought: usize,
    sub_batch: SubBatch,
    jobs: usize,
    requests: usize,
    /// The instructions that its open round may have.
    most_steps: u64,
    /// The bytes of its round at the server, and those of all its rounds that were last counted.
    sent_round_bytes: usize,
    counted_bytes: usize,
    /// When its open round began to arrive, or its replies to wait for the socket.
    begun: Option<Instant>,
    /// When its peer ended its input while it waited for the server.
    half_closed: Option<Instant>,
    /// When it may try again, after [`Step::Pause`].
    paused_until: Option<Instant>,
}

impl Connection {
    /// Creates a connection with this number, which has sent nothing yet.
    pub fn new(number: u64, stream: Stream) -> Connection {
        let traffic = Traffic {
            peer: stream.peer(),
            owner: stream.owner(),
            opened: Instant::now(),
            rounds: 0,
            requests: 0,
            received_bytes: 0,
            sent_bytes: 0,
            slowest: Duration::ZERO,
            waits_since: None,
        };
        Connection {
            number,
            stream,
            traffic,
            input: Vec::new(),
            taken: 0,
            may_have_input: false,
            peer_closed: false,
            output: Vec::new(),
            written: 0,
            is_waiting: false,
            classes: Vec::new(),
            brought: 0,
            sub_batch: SubBatch::default(),
            jobs: 0,
            requests: 0,
            most_steps: 0,
            sent_round_bytes: 0,
            counted_bytes: 0,
            begun: None,
            half_closed: None,
            paused_until: None,
        }
    }

    /// Returns its socket.
    pub fn stream(&mut self) -> &mut Stream {
        &mut self.stream
    }

    /// Returns its counts.
    pub fn traffic(&self) -> &Traffic {
        &self.traffic
    }

    /// Returns what it is doing, in a few words.
    pub fn state(&self) -> &'static str {
        match (self.is_writing(), self.is_waiting) {
            (true, _) => "takes no replies",
            (false, true) => "waits for the server",
            (false, false) if self.requests > 0 => "sends a round",
            (false, false) => "idle",
        }
    }

    /// Returns the number of requests in its open round.
    pub fn open_requests(&self) -> usize {
        self.requests
    }

    /// Returns whether it waits for its socket to accept replies.
    pub fn is_writing(&self) -> bool {
        self.written < self.output.len()
    }

    /// Returns whether its next frame waits for the server.
    pub fn is_waiting(&self) -> bool {
        self.is_waiting
    }

    /// Returns whether the socket may have more bytes to read.
    pub fn may_have_input(&self) -> bool {
        self.may_have_input
    }

    /// Marks the socket as readable, which an edge-triggered event reports only once. With
    /// `is_closed` it must be read to its end, because no further event comes.
    pub fn set_readable(&mut self, is_closed: bool, now: Instant) {
        self.may_have_input = true;
        self.peer_closed |= is_closed;
        if is_closed && self.is_waiting && self.stream.is_tcp() {
            self.half_closed.get_or_insert(now);
        }
    }

    /// Returns the bytes of its rounds that haven't been answered.
    pub fn round_bytes(&self) -> usize {
        self.counted_bytes
    }

    /// Returns when its open round began to arrive, or its replies to wait for the socket. A round
    /// that waits for the server isn't late.
    pub fn begun(&self) -> Option<Instant> {
        self.begun.filter(|_| !self.is_waiting)
    }

    /// Returns when its peer ended its input, if it still waits for the server.
    pub fn half_closed(&self) -> Option<Instant> {
        self.half_closed.filter(|_| self.is_waiting)
    }

    /// Returns when it may try again, after [`Step::Pause`].
    pub fn paused_until(&self) -> Option<Instant> {
        self.paused_until
    }

    /// Returns whether it has sent nothing that isn't answered.
    pub fn is_quiet(&self) -> bool {
        !self.is_writing() && !self.is_waiting && !self.has_open_round()
    }

    fn has_open_round(&self) -> bool {
        self.requests > 0 || self.taken < self.input.len()
    }

    /// Counts the bytes of its rounds, and notes when its round or its replies began to wait.
    fn count_bytes(&mut self, shared: &mut Shared) {
        let of_input = self.input.len() - self.taken + self.sub_batch.bytes();
        let bytes = of_input + self.sent_round_bytes + self.output.len() - self.written;
        shared.round_bytes = shared.round_bytes + bytes - self.counted_bytes;
        self.counted_bytes = bytes;
        if self.is_writing() || self.has_open_round() {
            self.begun.get_or_insert(shared.now);
        } else {
            self.begun = None;
        }
    }

    /// Reads what arrived or writes what waits, and continues as far as possible. An error ends the
    /// connection, and drops what it had sent of an open round.
    pub fn continue_io(&mut self, shared: &mut Shared) -> io::Result<Step> {
        if !self.is_writing() {
            self.read(shared)?;
        }
        self.advance(shared)
    }

    /// Does the same for a connection that isn't writing. Returns `None` if nothing has arrived.
    pub fn try_read(&mut self, shared: &mut Shared) -> io::Result<Option<Step>> {
        match self.read(shared)? {
            Input::Nothing => Ok(None),
            Input::All | Input::Full => self.advance(shared).map(Some),
        }
    }

    /// Takes the replies to its round.
    pub fn answer(&mut self, replies: &[u8]) {
        self.output.extend_from_slice(replies);
        self.output.extend_from_slice(&ENDED);
        self.is_waiting = false;
        self.sent_round_bytes = 0;
        self.begun = None;
    }

    /// Notes how long the round took that the server has answered.
    pub fn note_time(&mut self, time: Duration) {
        self.traffic.slowest = self.traffic.slowest.max(time);
        self.traffic.waits_since = None;
    }

    /// Takes the verdict on a class that it sent.
    pub fn take_verdict(&mut self, reply: &[u8], shared: &mut Shared) {
        match class_of(reply) {
            None => self.add_known(reply, &mut shared.tally),
            Some(class) => {
                self.brought += 1;
                self.take_class(class, shared);
            }
        }
        self.is_waiting = false;
    }

    /// Processes its next frame again: a class that now has a verdict, or that was to wait.
    pub fn retry(&mut self) {
        self.is_waiting = false;
        self.paused_until = None;
    }

    /// Reads what arrived, or a part of it.
    fn read(&mut self, shared: &mut Shared) -> io::Result<Input> {
        let buffer = &mut shared.buffer;
        self.input.drain(..take(&mut self.taken));
        if self.input.is_empty() {
            self.input.shrink_to(KEPT);
        }
        let input = match self.stream.read(buffer) {
            Ok(0) => return Err(io::ErrorKind::UnexpectedEof.into()),
            Ok(count) => {
                self.input.extend_from_slice(&buffer[..count]);
                shared.tally.received_bytes += count as u64;
                self.traffic.received_bytes += count as u64;
                if count < buffer.len() {
                    Input::All
                } else {
                    Input::Full
                }
            }
            Err(e) if is_temporary(&e) => Input::Nothing,
            Err(e) => return Err(e),
        };
        self.may_have_input = match input {
            Input::Nothing => false,
            Input::All => self.peer_closed,
            Input::Full => true,
        };
        Ok(input)
    }

    /// Writes as many replies as the socket accepts.
    fn write(&mut self, tally: &mut Tally) -> io::Result<()> {
        while self.is_writing() {
            match self.stream.write(&self.output[self.written..]) {
                Ok(0) => return Err(io::ErrorKind::WriteZero.into()),
                Ok(count) => {
                    self.written += count;
                    tally.sent_bytes += count as u64;
                    self.traffic.sent_bytes += count as u64;
                }
                Err(e) if e.kind() == io::ErrorKind::Interrupted => {}
                Err(e) if is_temporary(&e) => return Ok(()),
                Err(e) => return Err(e),
            }
        }
        self.output.clear();
        self.output.shrink_to(KEPT);
        self.written = 0;
        Ok(())
    }

    /// Writes the replies that are ready, and processes frames until one has to wait. While replies
    /// wait for the socket, no frame is processed.
    pub fn advance(&mut self, shared: &mut Shared) -> io::Result<Step> {
        let step = self.process(shared);
        self.count_bytes(shared);
        step
    }

    fn process(&mut self, shared: &mut Shared) -> io::Result<Step> {
        self.write(&mut shared.tally)?;
        while !self.is_writing() && !self.is_waiting {
            let step = self.take_frames(shared);
            if self.is_waiting {
                // The server must be asked even if this connection is closed, because others may
                // wait for the same class.
                let _ = self.write(&mut shared.tally);
                return step;
            }
            if self.output.is_empty() {
                return step;
            }
            self.write(&mut shared.tally)?;
        }
        Ok(Step::Socket)
    }

    /// Processes frames until one has to wait, none is left, or many replies are ready.
    fn take_frames(&mut self, shared: &mut Shared) -> io::Result<Step> {
        let input = take(&mut self.input);
        let step = self.take_frames_of(&input, shared);
        self.input = input;
        step
    }

    fn take_frames_of(&mut self, input: &[u8], shared: &mut Shared) -> io::Result<Step> {
        while self.output.len() < KEPT {
            let rest = &input[self.taken..];
            let length = match frame_length(rest)? {
                Some(length) => length,
                None => break,
            };
            let text = &rest[..length];
            let step = match judge(text).ok_or(io::ErrorKind::InvalidData)? {
                Frame::End => {
                    shared.tally.rounds += 1;
                    self.end_round(shared.now)
                }
                Frame::Define => self.define(text, shared)?,
                frame => self.add(frame, text, shared)?,
            };
            self.is_waiting = !matches!(step, Step::Socket);
            if !matches!(step, Step::OthersClass | Step::Pause) {
                self.taken += length;
            }
            if self.is_waiting {
                return Ok(step);
            }
        }
        Ok(Step::Socket)
    }

    /// Ends the open round. If no request waits for the server, its replies are complete.
    fn end_round(&mut self, now: Instant) -> Step {
        self.traffic.rounds += 1;
        self.traffic.requests += self.requests as u64;
        let requests = take(&mut self.requests);
        self.jobs = 0;
        let mut sub_batch = take(&mut self.sub_batch);
        if sub_batch.is_done() {
            self.answer(&sub_batch.into_replies());
            Step::Socket
        } else {
            self.sent_round_bytes = sub_batch.bytes();
            self.traffic.waits_since = Some(now);
            Step::Round { sub_batch, requests }
        }
    }

    fn count_request(&mut self, kind: u8, shared: &mut Shared) -> io::Result<()> {
        if self.requests == 0 {
            let most = shared.limits.round_steps;
            let of_peer = shared.peers.steps_left(self.traffic.owner, most);
            self.most_steps = of_peer.max(LIGHT_ROUND).min(most);
        }
        self.requests += 1;
        if self.requests > shared.limits.requests {
            return Err(io::ErrorKind::InvalidData.into());
        }
        shared.tally.request(kind);
        Ok(())
    }

    /// Adds a reply that the front creates itself.
    fn add_known(&mut self, reply: &[u8], tally: &mut Tally) {
        tally.own_reply(reply);
        self.sub_batch.add_known(reply);
    }

    /// Adds a request to the open round.
    fn add(&mut self, frame: Frame, text: &[u8], shared: &mut Shared) -> io::Result<Step> {
        self.count_request(text[4], shared)?;
        let tally = &mut shared.tally;
        match frame {
            Frame::Invoke(class) => match self.class(class) {
                None => self.add_known(&UNKNOWN_CLASS, tally),
                Some(class) => {
                    let cost = u64::from(class.steps) + REQUEST_COST;
                    self.add_job(text, cost, class.number, tally);
                }
            },
            Frame::InvokeAll { class, keys } => match self.class(class) {
                None => self.add_known(&UNKNOWN_CLASS, tally),
                Some(class) => self.add_invoke_all(text, keys, class, tally),
            },
            _ => self.add_job(text, REQUEST_COST, NO_CLASS, tally),
        }
        Ok(Step::Socket)
    }

    /// Returns the class with this number on this connection.
    fn class(&self, number: u32) -> Option<Class> {
        self.classes.get(number as usize).copied()
    }

    fn add_job(&mut self, text: &[u8], cost: u64, class: u32, tally: &mut Tally) {
        if self.jobs == MOST_JOBS || self.sub_batch.steps() + cost > self.most_steps {
            self.add_known(&TOO_MANY_JOBS, tally);
        } else {
            self.jobs += 1;
            self.sub_batch.add_job(text, cost, class);
        }
    }

    fn add_invoke_all(&mut self, text: &[u8], keys: usize, class: Class, tally: &mut Tally) {
        let mut text = text.to_vec();
        let keys = remove_duplicates(&mut text, keys);
        let cost = u64::from(class.steps) + REQUEST_COST;
        let steps = self.sub_batch.steps() + cost * keys as u64;
        if keys > MOST_JOBS - self.jobs || steps > self.most_steps {
            self.add_known(&TOO_MANY_JOBS, tally);
        } else if keys == 0 {
            self.add_known(&NO_RESULTS, tally);
        } else {
            self.jobs += keys;
            self.sub_batch.add_invoke_all(&text, keys, cost, class.number);
        }
    }
}

/// Returns whether the error means that the socket isn't ready now.
fn is_temporary(e: &io::Error) -> bool {
    matches!(e.kind(), io::ErrorKind::WouldBlock | io::ErrorKind::Interrupted)
}
