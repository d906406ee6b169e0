//! What operators ask for: `jentry-front ctl`.

use super::EventLoop;
use crate::control::{Answer, Command, Target};
use crate::quotas::Quotas;
use crate::tally::Closed;
use std::time::Duration;

impl EventLoop {
    /// Answers the commands that have arrived.
    pub(super) fn serve_operators(&mut self) {
        let asked = self.control.as_ref().map(|it| it.take()).unwrap_or_default();
        for asked in asked {
            let answer = self.obey(&asked.command);
            asked.reply(answer);
        }
    }

    fn obey(&mut self, command: &Command) -> Result<Answer, String> {
        Ok(match command {
            Command::Status => self.status(),
            Command::Peers => Answer::Peers(self.shared.peers.rows()),
            Command::Connections => {
                let mut rows = self.connection_rows();
                rows.sort_by_key(|it| it.number);
                Answer::Connections(rows)
            }
            Command::Classes => Answer::Classes(self.class_rows()),
            Command::Kick(target) => Answer::Kicked(self.kick(*target)?),
            Command::Drain => {
                let is_new = !self.acceptor.is_draining();
                Answer::Drains(Some(self.connections.len()).filter(|_| is_new))
            }
            Command::Quota(values) => self.change_quotas(values).map(Answer::Quotas)?,
        })
    }

    fn status(&self) -> Answer {
        let (waiting_rounds, waiting_requests) = self.scheduler.waiting();
        let now = self.shared.now;
        Answer::Status {
            connections: self.connections.len(),
            most: self.acceptor.limit(),
            classes: self.shared.classes.accepted().len(),
            waiting_rounds,
            waiting_requests,
            batch: self.scheduler.sent().map_or(Duration::ZERO, |it| now.duration_since(it)),
        }
    }

    /// Closes connections, and returns their number.
    fn kick(&mut self, target: Target) -> Result<usize, String> {
        let found: Vec<u64> = match target {
            Target::Connection(number) if self.connections.contains_key(&number) => vec![number],
            Target::Connection(number) => return Err(format!("there is no connection {}", number)),
            Target::Peer(peer) => {
                let all = self.connections.iter();
                all.filter(|(_, it)| it.connection.traffic().owner == peer)
                    .map(|it| *it.0)
                    .collect()
            }
        };
        if let (Target::Peer(peer), true) = (target, found.is_empty()) {
            return Err(format!("the peer {} has no connections", peer));
        }
        found.iter().for_each(|number| self.close(*number, Closed::Kicked));
        Ok(found.len())
    }

    /// Changes limits, and returns all.
    fn change_quotas(&mut self, values: &[(String, u64)]) -> Result<Quotas, String> {
        let mut times = self.timers.limits();
        let (limits, steps) = (&self.shared.limits, self.scheduler.steps());
        let mut quotas = Quotas::of(self.acceptor.limit(), limits, steps, &times);
        quotas.change(values, self.acceptor.most())?;
        if values.is_empty() {
            return Ok(quotas);
        }
        quotas.write(&mut self.shared.limits, &mut times);
        self.shared.peers.set_limits(self.shared.limits.peers.clone());
        self.scheduler.set_steps(quotas.get("steps"));
        self.acceptor.set_limit(quotas.get("connections") as usize);
        self.timers.set_limits(times);
        self.close_largest();
        Ok(quotas)
    }
}
