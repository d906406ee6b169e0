//! The delivery of the server's replies to connections.

use super::EventLoop;
use crate::batch::Queued;
use crate::classes::class_of;
use crate::connection::Connection;
use crate::definition_log::By;
use crate::peers::Peer;
use crate::scheduler::Owner;
use crate::shared::Shared;

impl EventLoop {
    /// Delivers the replies to a round, or the verdict on a class.
    pub(super) fn deliver(&mut self, queued: Queued<Owner>) {
        let Owner { connection, peer, class, steps, is_gone, queued: begun, requests } =
            queued.owner;
        self.shared.peers.done(peer, steps);
        if is_gone {
            return;
        }
        self.answered = connection;
        let replies = queued.sub_batch.into_replies();
        match class {
            None => {
                let time = self.shared.now.saturating_duration_since(begun);
                if let Some(publisher) = &self.publisher {
                    publisher.round(time, requests);
                }
                self.resume(connection, |it, _| {
                    it.note_time(time);
                    it.answer(&replies);
                });
            }
            Some(frame) => self.deliver_verdict(connection, peer, &frame[5..], &replies),
        }
    }

    /// Delivers the verdict on a class to the connection that sent it and to those that wait.
    fn deliver_verdict(&mut self, connection: u64, owner: Peer, file: &[u8], reply: &[u8]) {
        let class = class_of(reply);
        self.shared.peers.judged(owner, file.len(), class.is_some());
        let entry = self.connections.get(&connection);
        let peer = entry.map_or("gone".to_string(), |it| it.connection.traffic().peer.clone());
        let (by, most) = (By { connection, peer: &peer }, self.shared.limits.class_steps);
        self.shared.log.verdict(by, file, reply, most);
        if let Some(class) = class {
            self.shared.tally.class(class.number, class.steps);
            self.shared.classes.note(class, file, connection, peer);
        }
        let waiting = self.shared.classes.resolve(file, class);
        self.resume(connection, |it, shared| it.take_verdict(reply, shared));
        waiting.into_iter().for_each(|other| self.resume(other, |it, _| it.retry()));
    }

    /// Continues with a connection that waited for the server.
    pub(super) fn resume(
        &mut self,
        number: u64,
        deliver: impl FnOnce(&mut Connection, &mut Shared),
    ) {
        if let Some(entry) = self.connections.get_mut(&number) {
            deliver(&mut entry.connection, &mut self.shared);
            let step = entry.connection.advance(&mut self.shared);
            self.follow(number, step);
        }
    }
}
