//! A round of a connection, or a class that it defines, on its way through the server. It may need
//! several batches; its replies are put back in the order of its requests.

use crate::request::{set_class, KEYS_AT};
use crate::tally::{Asked, NO_CLASS};
use std::collections::VecDeque;
use std::mem::size_of;

const DEFINE: u8 = 1;
const INVOKE_ALL: u8 = 7;
const RESULTS: u8 = 7;
const DENIED: u8 = 8;

/// A request of a sub-batch. There are many of them, so the numbers are as small as frames allow.
#[derive(Debug)]
enum Request {
    /// A frame that is one job: its length in bytes, and the maximum instructions that it takes.
    Job { bytes: u32, class: u32, cost: u64, kind: u8 },
    /// An invokeAll with `keys` keys, of which the first `sent` are already in batches. Each key
    /// takes at most `cost` instructions.
    InvokeAll { bytes: u32, class: u32, cost: u64, keys: u16, sent: u16 },
    /// A class, whose verification may take long.
    Class { bytes: u32 },
    /// Replies that the front creates itself.
    Known(Vec<u8>),
}

/// The next request that must go to the server.
#[derive(Clone, Copy)]
pub enum Next {
    Class,
    /// A number of jobs, each with this cost in instructions.
    Jobs {
        count: usize,
        cost: u64,
    },
    /// There is no request.
    Nothing,
}

/// The request that a part of a batch belongs to.
pub enum Sent {
    /// A whole request.
    Whole(Asked),
    /// Some keys of an invokeAll, which is at this position in the sub-batch's text.
    Keys { position: u32, is_last: bool, asked: Asked },
}

/// A round of a connection, or one of its classes, on its way through the server.
#[derive(Debug, Default)]
pub struct SubBatch {
    requests: VecDeque<Request>,
    text: Vec<u8>,
    /// The number of bytes of the text that are already in batches.
    sent: usize,
    replies: Vec<u8>,
    /// The start of a reply that is being joined from several.
    joined: Option<usize>,
    /// The maximum instructions and the number of the jobs that aren't in a batch yet.
    steps: u64,
    jobs: usize,
    /// The bytes of the replies that the front creates itself and that wait for others.
    known: usize,
}

/// The memory that a request takes beside its text.
const REQUEST_BYTES: usize = size_of::<Request>();

impl SubBatch {
    /// Creates a sub-batch of a single class from its frame.
    pub fn of_class(text: Vec<u8>) -> SubBatch {
        let requests = VecDeque::from(vec![Request::Class { bytes: text.len() as u32 }]);
        SubBatch { requests, text, ..SubBatch::default() }
    }

    /// Adds a request of one job, with the server's number of its class.
    pub fn add_job(&mut self, text: &[u8], cost: u64, class: u32) {
        self.add_text(text, class);
        let (bytes, kind) = (text.len() as u32, text[4]);
        self.steps += cost;
        self.jobs += 1;
        self.requests.push_back(Request::Job { bytes, class, cost, kind });
    }

    /// Adds an invokeAll with this number of distinct keys, at least one.
    pub fn add_invoke_all(&mut self, text: &[u8], keys: usize, cost: u64, class: u32) {
        self.add_text(text, class);
        self.steps += cost * keys as u64;
        self.jobs += keys;
        let (bytes, keys) = (text.len() as u32, keys as u16);
        self.requests.push_back(Request::InvokeAll { bytes, class, cost, keys, sent: 0 });
    }

    /// Adds a frame, and replaces the connection's class number by the server's.
    fn add_text(&mut self, text: &[u8], class: u32) {
        let begin = self.text.len();
        self.text.extend_from_slice(text);
        if class != NO_CLASS {
            set_class(&mut self.text[begin..], class);
        }
    }

    /// Returns the maximum instructions of the jobs that aren't in a batch yet.
    pub fn steps(&self) -> u64 {
        self.steps
    }

    /// Returns the number of those jobs.
    pub fn jobs(&self) -> usize {
        self.jobs
    }

    /// Returns the bytes of memory that it takes, without its replies.
    pub fn bytes(&self) -> usize {
        self.text.len() + self.known + REQUEST_BYTES * self.requests.len()
    }

    /// Returns the instructions of the next job, if the next request for the server is one.
    pub fn next_cost(&self) -> Option<u64> {
        let is_known = matches!(self.requests.front(), Some(Request::Known(_)));
        match self.requests.get(usize::from(is_known)) {
            Some(Request::Job { cost, .. } | Request::InvokeAll { cost, .. }) => Some(*cost),
            _ => None,
        }
    }

    /// Returns the number of requests and of bytes that aren't in a batch yet.
    pub fn unsent(&self) -> (usize, usize) {
        (self.requests.len(), self.text.len() - self.sent)
    }

    /// Adds a reply that is already known.
    pub fn add_known(&mut self, reply: &[u8]) {
        self.known += reply.len();
        if let Some(Request::Known(replies)) = self.requests.back_mut() {
            replies.extend_from_slice(reply);
        } else {
            self.requests.push_back(Request::Known(reply.to_vec()));
        }
    }

    /// Returns the number of requests that wait for the server.
    pub fn len(&self) -> usize {
        self.requests.iter().filter(|it| !matches!(it, Request::Known(_))).count()
    }

    /// Returns the replies in the order of the requests, once the sub-batch is done.
    pub fn into_replies(self) -> Vec<u8> {
        self.replies
    }

    /// Adds a reply of the server, with its length at the start.
    pub fn add_reply(&mut self, reply: &[u8]) {
        self.replies.extend_from_slice(reply);
    }

    /// Returns whether all replies have arrived, so that no request waits for the server.
    pub fn is_done(&mut self) -> bool {
        if let Some(replies) = self.take_known() {
            self.replies.extend_from_slice(&replies);
        }
        self.requests.is_empty()
    }

    /// Takes the next replies if they are known. Two known ones never follow each other.
    pub fn take_known(&mut self) -> Option<Vec<u8>> {
        if !matches!(self.requests.front(), Some(Request::Known(_))) {
            return None;
        }
        match self.requests.pop_front() {
            Some(Request::Known(replies)) => {
                self.known -= replies.len();
                Some(replies)
            }
            _ => None,
        }
    }

    /// Returns the next request for the server. Known replies must have been taken before.
    pub fn next(&self) -> Next {
        match self.requests.front() {
            Some(Request::Job { cost, .. }) => Next::Jobs { count: 1, cost: *cost },
            Some(Request::InvokeAll { keys, sent, cost, .. }) => {
                Next::Jobs { count: usize::from(keys - sent), cost: *cost }
            }
            Some(Request::Class { .. }) => Next::Class,
            Some(Request::Known(_)) | None => Next::Nothing,
        }
    }

    /// Moves the next class, the next job, or `count` keys of the next invokeAll into a batch's
    /// text.
    pub fn send(&mut self, count: usize, text: &mut Vec<u8>) -> Sent {
        if let Next::Jobs { cost, .. } = self.next() {
            self.steps -= cost * count as u64;
            self.jobs -= count;
        }
        match self.requests.front() {
            Some(Request::InvokeAll { keys, sent, .. })
                if *sent > 0 || usize::from(*keys) != count =>
            {
                self.send_keys(count, text)
            }
            Some(Request::Job { bytes, kind, class, .. }) => {
                let asked = Asked { kind: *kind, class: *class, keys: 0 };
                self.send_whole(*bytes, asked, text)
            }
            Some(Request::InvokeAll { bytes, keys, class, .. }) => {
                let asked = Asked { kind: INVOKE_ALL, class: *class, keys: *keys };
                self.send_whole(*bytes, asked, text)
            }
            Some(Request::Class { bytes }) => {
                self.send_whole(*bytes, Asked { kind: DEFINE, class: NO_CLASS, keys: 0 }, text)
            }
            Some(Request::Known(_)) | None => unreachable!("there is a next request"),
        }
    }

    fn send_whole(&mut self, bytes: u32, asked: Asked, text: &mut Vec<u8>) -> Sent {
        let end = self.sent + bytes as usize;
        text.extend_from_slice(&self.text[self.sent..end]);
        self.sent = end;
        self.requests.pop_front();
        Sent::Whole(asked)
    }

    /// Moves the next keys of the first invokeAll into a batch's text, as an invokeAll.
    fn send_keys(&mut self, count: usize, text: &mut Vec<u8>) -> Sent {
        let (bytes, keys, sent, class) = match self.requests.front_mut() {
            Some(Request::InvokeAll { bytes, keys, sent, class, .. }) => {
                *sent += count as u16;
                (*bytes as usize, usize::from(*keys), usize::from(*sent), *class)
            }
            _ => unreachable!("the first request is an invokeAll"),
        };
        let frame = &self.text[self.sent..self.sent + bytes];
        let first = KEYS_AT + 8 * (sent - count);
        let arguments = &frame[KEYS_AT + 8 * keys..];
        let length = KEYS_AT - 4 + 8 * count + arguments.len();
        text.extend_from_slice(&(length as u32).to_be_bytes());
        text.extend_from_slice(&frame[4..9]);
        text.extend_from_slice(&(count as u16).to_be_bytes());
        text.extend_from_slice(&frame[first..first + 8 * count]);
        text.extend_from_slice(arguments);
        let position = (self.sent + first) as u32;
        if sent == keys {
            self.sent += bytes;
            self.requests.pop_front();
        }
        let asked = Asked { kind: INVOKE_ALL, class, keys: count as u16 };
        Sent::Keys { position, is_last: sent == keys, asked }
    }

    /// Joins a reply, without its length, to `count` keys of the invokeAll at this position of the
    /// text with the replies before it. Returns `None` if it isn't a valid reply.
    pub fn join(&mut self, position: u32, count: u16, is_last: bool, reply: &[u8]) -> Option<()> {
        let replies = &mut self.replies;
        let begin = *self.joined.get_or_insert_with(|| {
            let begin = replies.len();
            replies.extend_from_slice(&[0, 0, 0, 0, RESULTS, 0, 0]);
            begin
        });
        let more = match (reply.first().copied()?, reply.len()) {
            (RESULTS, 3..) => {
                replies.extend_from_slice(&reply[3..]);
                u16::from_be_bytes([reply[1], reply[2]])
            }
            // A denial of the whole request becomes a denial for each key, because other keys of
            // the client's request have results.
            (DENIED, 2) => {
                let keys = &self.text[position as usize..][..8 * usize::from(count)];
                for key in keys.chunks(8) {
                    replies.extend_from_slice(key);
                    replies.extend_from_slice(&[2, reply[1]]);
                }
                count
            }
            _ => return None,
        };
        let count =
            u16::from_be_bytes([replies[begin + 5], replies[begin + 6]]).checked_add(more)?;
        replies[begin + 5..begin + 7].copy_from_slice(&count.to_be_bytes());
        if is_last {
            let length = (replies.len() - begin - 4) as u32;
            replies[begin..begin + 4].copy_from_slice(&length.to_be_bytes());
            self.joined = None;
        }
        Some(())
    }
}
