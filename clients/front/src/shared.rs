//! The state and the limits that all connections share.

use crate::classes::Classes;
use crate::connection::READ_SIZE;
use crate::definition_log::DefinitionLog;
use crate::peers::{PeerLimits, Peers};
use crate::tally::Tally;
use std::time::Instant;

/// The limits of connections.
#[derive(Clone, Debug, PartialEq, Eq)]
pub struct Limits {
    /// The maximum number of new classes of a connection.
    pub classes: usize,
    /// The maximum number of requests of a round.
    pub requests: usize,
    /// The maximum instructions of a round.
    pub round_steps: u64,
    /// The maximum instructions of a run of a class.
    pub class_steps: u64,
    /// The maximum bytes of all rounds that haven't been answered.
    pub round_bytes: usize,
    pub peers: PeerLimits,
}

/// The state that all connections share.
pub struct Shared {
    /// The classes of the server.
    pub classes: Classes,
    /// The counts of all connections.
    pub tally: Tally,
    /// The log of definitions.
    pub log: DefinitionLog,
    pub peers: Peers,
    pub limits: Limits,
    /// The bytes of all rounds that haven't been answered.
    pub round_bytes: usize,
    /// The time when the last wait ended.
    pub now: Instant,
    /// The buffer for reads.
    pub buffer: Vec<u8>,
}

impl Shared {
    /// Creates the state, without classes and with these limits.
    pub fn new(limits: Limits) -> Shared {
        Shared {
            classes: Classes::default(),
            tally: Tally::default(),
            log: DefinitionLog::default(),
            peers: Peers::new(limits.peers.clone()),
            limits,
            round_bytes: 0,
            now: Instant::now(),
            buffer: vec![0; READ_SIZE],
        }
    }
}
