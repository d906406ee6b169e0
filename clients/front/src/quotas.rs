//! The limits that can be changed while the front runs. Their names are those of the options.

use crate::event_loop::Times;
use crate::options;
use crate::shared::Limits;
use std::time::Duration;

/// The names, in the order in which they are listed.
pub const NAMES: [&str; 12] = [
    "connections",
    "classes",
    "peer-classes",
    "define-bytes",
    "max-steps",
    "requests",
    "round-steps",
    "peer-steps",
    "round-bytes",
    "steps",
    "idle",
    "round",
];

/// The value of each limit, by the index of its name.
#[derive(Clone, Copy, Debug, PartialEq, Eq)]
pub struct Quotas([u64; NAMES.len()]);

impl Quotas {
    /// Reads the limits of connections and of a batch.
    pub fn of(connections: usize, limits: &Limits, steps: u64, times: &Times) -> Quotas {
        let seconds = |time: Option<Duration>| time.map_or(0, |it| it.as_secs());
        Quotas([
            connections as u64,
            limits.classes as u64,
            limits.peers.classes as u64,
            limits.peers.bytes_a_second,
            limits.class_steps,
            limits.requests as u64,
            limits.round_steps,
            limits.peers.steps,
            limits.round_bytes as u64,
            steps,
            seconds(times.idle),
            seconds(times.round),
        ])
    }

    /// Returns the value of a limit; 0 if there is none of this name.
    pub fn get(&self, name: &str) -> u64 {
        NAMES.iter().position(|it| *it == name).map_or(0, |index| self.0[index])
    }

    /// Returns each limit with its name.
    pub fn all(&self) -> impl Iterator<Item = (&'static str, u64)> + '_ {
        NAMES.into_iter().zip(self.0)
    }

    /// Changes some limits, or none if one of the values is impossible. There can be no more than
    /// `connections` connections.
    pub fn change(&mut self, values: &[(String, u64)], connections: usize) -> Result<(), String> {
        let mut changed = *self;
        for (name, value) in values {
            let index = NAMES.iter().position(|it| it == name).ok_or_else(|| unknown(name))?;
            let (least, most) = options::range(NAMES[index]);
            if *value < least || *value > most {
                return Err(format!("{} is from {} to {}, and not {}", name, least, most, value));
            }
            changed.0[index] = *value;
        }
        if changed.get("connections") > connections as u64 {
            let reason = "the limit of open files when the front was started (ulimit -n)";
            return Err(format!("connections is at most {}, by {}", connections, reason));
        }
        let (classes, of_peer) = (changed.get("classes"), changed.get("peer-classes"));
        if classes > of_peer {
            return Err(format!(
                "classes, {}, can't be above peer-classes, {}; change both",
                classes, of_peer
            ));
        }
        *self = changed;
        Ok(())
    }

    /// Writes the limits of connections, without their number.
    pub fn write(&self, limits: &mut Limits, times: &mut Times) {
        let seconds = |name| Some(self.get(name)).filter(|it| *it > 0).map(Duration::from_secs);
        limits.classes = self.get("classes") as usize;
        limits.requests = self.get("requests") as usize;
        limits.round_steps = self.get("round-steps");
        limits.class_steps = self.get("max-steps");
        limits.round_bytes = self.get("round-bytes") as usize;
        limits.peers.classes = self.get("peer-classes") as usize;
        limits.peers.steps = self.get("peer-steps");
        limits.peers.bytes_a_second = self.get("define-bytes");
        times.idle = seconds("idle");
        times.round = seconds("round");
    }
}

fn unknown(name: &str) -> String {
    format!("there is no quota {:?}; those that can be changed are {}", name, NAMES.join(", "))
}

#[cfg(test)]
mod tests {
    use super::*;
    use crate::peers::PeerLimits;

    fn quotas() -> (Quotas, Limits, Times) {
        let peers = PeerLimits { classes: 1_024, definers: vec![7], steps: 9, bytes_a_second: 8 };
        let limits = Limits {
            classes: 64,
            requests: 65_536,
            round_steps: 6,
            class_steps: 5,
            round_bytes: 4 << 20,
            peers,
        };
        let stall = Duration::from_secs(10);
        let times = Times { idle: None, round: Some(Duration::from_secs(60)), stall };
        (Quotas::of(100, &limits, 3, &times), limits, times)
    }

    fn change(quotas: &mut Quotas, values: &[(&str, u64)]) -> Result<(), String> {
        let values: Vec<_> =
            values.iter().map(|(name, value)| (name.to_string(), *value)).collect();
        quotas.change(&values, 200)
    }

    #[test]
    fn each_quota_is_read_and_written() {
        let (mut quotas, mut limits, mut times) = quotas();
        let before = quotas;
        let values: Vec<_> =
            NAMES.iter().map(|name| (*name, before.get(name).max(1 << 20) - 1)).collect();
        for (name, value) in &values {
            let (least, most) = options::range(name);
            let value = (*value).clamp(least, most).min(199);
            let raised = value.max(least);
            assert_ne!(raised, before.get(name), "{}", name);
            quotas = before;
            let both = [(*name, raised), ("peer-classes", raised.clamp(1_024, 4_096))];
            change(&mut quotas, &both[..1 + usize::from(*name == "classes")]).unwrap_or_else(|e| {
                panic!("{}: {}", name, e);
            });
            quotas.write(&mut limits, &mut times);
            let connections = quotas.get("connections") as usize;
            assert_eq!(Quotas::of(connections, &limits, quotas.get("steps"), &times), quotas);
            assert_eq!(quotas.get(name), raised);
        }
        assert_eq!(limits.peers.definers, [7]);
    }

    #[test]
    fn an_impossible_value_changes_nothing() {
        let (before, ..) = quotas();
        for (values, wanted) in [
            (&[("steps", 5), ("steps", 0)][..], "steps is from 1 to 1000000000, and not 0"),
            (&[("idle", 5), ("stall", 5)], "there is no quota \"stall\"; those"),
            (&[("connections", 201)], "connections is at most 200"),
            (&[("peer-classes", 63)], "classes, 64, can't be above peer-classes, 63"),
            (&[("classes", 1_025)], "can't be above peer-classes, 1024"),
        ] {
            let mut quotas = before;
            let error = change(&mut quotas, values).expect_err(wanted);
            assert!(error.contains(wanted), "{}", error);
            assert_eq!(quotas, before);
        }
        let mut quotas = before;
        assert_eq!(change(&mut quotas, &[("classes", 2_000), ("peer-classes", 2_000)]), Ok(()));
    }
}
