//! The definitions of a connection: which of them go to the server, and the replies to others.

use super::{Connection, Step};
use crate::classes::{Class, Lookup};
use crate::definition_log::By;
use crate::request::MOST_CLASSES;
use crate::shared::Shared;
use crate::tally::Tally;
use std::io;

const TOO_MANY_CLASSES: [u8; 6] = [0, 0, 0, 2, 8, 4];

/// The refusal of a class whose runs may take more instructions than the front allows: StepLimit.
const STEP_LIMIT: [u8; 10] = [0, 0, 0, 6, 2, 27, 0, 0, 0, 0];

impl Connection {
    /// Looks up a class, or sends it to the server.
    pub(super) fn define(&mut self, text: &[u8], shared: &mut Shared) -> io::Result<Step> {
        if self.requests >= shared.limits.requests {
            // This comes before the lookup, which marks a new class as sent to the server.
            return Err(io::ErrorKind::InvalidData.into());
        }
        let file = &text[5..];
        let reason = self.cannot_bring(shared);
        if reason.is_none() && !shared.classes.has(file) {
            let (owner, now) = (self.traffic.owner, shared.now);
            self.paused_until = shared.peers.bring(owner, file.len(), now);
            if self.paused_until.is_some() {
                return Ok(Step::Pause);
            }
        }
        let lookup = if self.classes.len() < MOST_CLASSES {
            shared.classes.find(file, self.number, reason.is_none())
        } else {
            Lookup::TooMany
        };
        if matches!(lookup, Lookup::Pending) {
            return Ok(Step::OthersClass);
        }
        self.count_request(text[4], shared)?;
        match lookup {
            Lookup::Class(class) => {
                if let Some(it) = shared.classes.by_number(class.number) {
                    shared.log.known(self.by(), it);
                }
                self.take_class(class, shared);
            }
            Lookup::New => return Ok(Step::Class(text.to_vec())),
            _ => {
                let reason = reason.unwrap_or_default();
                shared.log.denied(self.by(), file, TOO_MANY_CLASSES[5], reason);
                self.add_known(&TOO_MANY_CLASSES, &mut shared.tally);
            }
        }
        Ok(Step::Socket)
    }

    /// Returns the reason why this connection may bring no further class, or `None` if it may.
    fn cannot_bring(&self, shared: &Shared) -> Option<&'static str> {
        if self.classes.len() >= MOST_CLASSES {
            Some("the connection has 4,096 definitions")
        } else if self.brought >= shared.limits.classes {
            Some("the connection has reached its limit of classes (--classes)")
        } else {
            shared.peers.cannot_bring(self.traffic.owner)
        }
    }

    /// Takes a class of the server, unless its runs may take too many instructions.
    pub(super) fn take_class(&mut self, class: Class, shared: &mut Shared) {
        if u64::from(class.steps) > shared.limits.class_steps {
            self.add_known(&STEP_LIMIT, &mut shared.tally);
        } else {
            self.number_class(class, &mut shared.tally);
        }
    }

    /// Gives a class a number on this connection, and replies with it.
    fn number_class(&mut self, class: Class, tally: &mut Tally) {
        let mut reply = vec![0, 0, 0, 13, 1];
        reply.extend_from_slice(&(self.classes.len() as u32).to_be_bytes());
        reply.extend_from_slice(&class.steps.to_be_bytes());
        reply.extend_from_slice(&class.words.to_be_bytes());
        self.classes.push(class);
        self.add_known(&reply, tally);
    }

    /// Returns the connection and its peer for the log.
    fn by(&self) -> By<'_> {
        By { connection: self.number, peer: &self.traffic.peer }
    }
}
