//! Peers: the users and addresses that connections come from. Connections cost a peer nothing, so
//! limits by peer hold where those by connection don't.

use crate::options::user_id;
use std::collections::BTreeMap;
use std::fmt::{self, Display, Formatter};
use std::net::{IpAddr, Ipv6Addr};
use std::time::{Duration, Instant};

/// Where a connection comes from.
#[derive(Clone, Copy, Debug, PartialEq, Eq, Hash, PartialOrd, Ord)]
pub enum Peer {
    /// The user at the other end of a unix socket.
    User(u32),
    /// The address at the other end of a TCP connection; of an IPv6 address its first 64 bits.
    Address(IpAddr),
    Unknown,
}

impl Peer {
    /// Returns the peer at an address. A host has all IPv6 addresses of its 64 bits.
    pub fn at(address: IpAddr) -> Peer {
        match address {
            IpAddr::V4(_) => Peer::Address(address),
            IpAddr::V6(it) => match it.to_ipv4_mapped() {
                Some(it) => Peer::Address(it.into()),
                None => {
                    let [a, b, c, d, ..] = it.segments();
                    Peer::Address(Ipv6Addr::new(a, b, c, d, 0, 0, 0, 0).into())
                }
            },
        }
    }
}

impl Display for Peer {
    fn fmt(&self, out: &mut Formatter<'_>) -> fmt::Result {
        match self {
            Peer::User(user) => write!(out, "uid:{}", user),
            Peer::Address(it @ IpAddr::V4(_)) => write!(out, "{}", it),
            Peer::Address(it @ IpAddr::V6(_)) => write!(out, "{}/64", it),
            Peer::Unknown => out.write_str("unknown"),
        }
    }
}

impl Peer {
    /// Reads a peer as it is displayed; a user may also have a name.
    pub fn parse(text: &str) -> Result<Peer, String> {
        if let Some(user) = text.strip_prefix("uid:") {
            return user_id(user).map(Peer::User);
        }
        match text.strip_suffix("/64").unwrap_or(text).parse() {
            Ok(address) => Ok(Peer::at(address)),
            Err(_) if text == "unknown" => Ok(Peer::Unknown),
            Err(_) => Err("expected a peer, such as uid:1000 or 10.0.0.5".to_string()),
        }
    }
}

/// What a peer has, for `jentry-front ctl`.
#[derive(Clone, Copy, Debug, PartialEq, Eq)]
pub struct PeerRow {
    pub peer: Peer,
    pub connections: usize,
    pub classes: usize,
    /// The instructions of its rounds that wait.
    pub steps: u64,
}

/// The limits of each peer.
#[derive(Clone, Debug, PartialEq, Eq)]
pub struct PeerLimits {
    /// The maximum number of classes that it may bring.
    pub classes: usize,
    /// The users that may bring classes, if not everybody may.
    pub definers: Vec<u32>,
    /// The maximum instructions of its rounds that wait.
    pub steps: u64,
    /// The bytes of refused class files a second.
    pub bytes_a_second: u64,
}

/// How many seconds' bytes of class files may come at once.
const BURST_SECONDS: u64 = 8;

/// Any class file fits into a burst.
const LEAST_BURST: u64 = 131_072;

/// What a peer has.
struct Account {
    connections: usize,
    classes: usize,
    /// The instructions of its rounds that wait.
    steps: u64,
    /// The bytes of class files that it may still send, and when they were counted.
    bytes: u64,
    counted: Instant,
}

/// The peers that have connections, classes or rounds that wait.
pub struct Peers {
    limits: PeerLimits,
    /// A lookup among few peers compares less than a hash takes.
    accounts: BTreeMap<Peer, Account>,
    /// The instructions of all rounds that wait.
    steps: u64,
}

impl Peers {
    /// Creates the peers, which have nothing yet.
    pub fn new(limits: PeerLimits) -> Peers {
        Peers { limits, accounts: BTreeMap::new(), steps: 0 }
    }

    /// Changes the limits. What a peer has already it keeps.
    pub fn set_limits(&mut self, limits: PeerLimits) {
        self.limits = limits;
    }

    /// Returns what each peer has, in the order of the peers.
    pub fn rows(&self) -> Vec<PeerRow> {
        let row = |(peer, it): (&Peer, &Account)| {
            let (connections, classes, steps) = (it.connections, it.classes, it.steps);
            PeerRow { peer: *peer, connections, classes, steps }
        };
        self.accounts.iter().map(row).collect()
    }

    fn burst(&self) -> u64 {
        (BURST_SECONDS * self.limits.bytes_a_second).max(LEAST_BURST)
    }

    fn account(&mut self, peer: Peer) -> &mut Account {
        let bytes = self.burst();
        self.accounts.entry(peer).or_insert_with(|| Account {
            connections: 0,
            classes: 0,
            steps: 0,
            bytes,
            counted: Instant::now(),
        })
    }

    /// Counts a new connection.
    pub fn open(&mut self, peer: Peer) {
        self.account(peer).connections += 1;
    }

    /// Counts the end of a connection.
    pub fn close(&mut self, peer: Peer) {
        self.account(peer).connections -= 1;
    }

    /// Forgets the peers that have nothing.
    pub fn sweep(&mut self, now: Instant) {
        let (burst, rate) = (self.burst(), self.limits.bytes_a_second);
        self.accounts.retain(|_, it| {
            it.connections + it.classes > 0 || it.steps > 0 || it.refill(now, rate, burst) < burst
        });
    }

    /// Returns the reason why a peer may bring no further class, or `None` if it may.
    pub fn cannot_bring(&self, peer: Peer) -> Option<&'static str> {
        let may_define = match peer {
            _ if self.limits.definers.is_empty() => true,
            Peer::User(user) => self.limits.definers.contains(&user),
            _ => false,
        };
        if !may_define {
            return Some("this peer may not define classes (--define-uid)");
        }
        let brought = self.accounts.get(&peer).map_or(0, |it| it.classes);
        if brought >= self.limits.classes {
            return Some("the peer has reached its limit of classes (--peer-classes)");
        }
        None
    }

    /// Counts a class file that a peer sends to the server. If it has sent too many bytes, nothing
    /// is counted, and the time when it may try again is returned.
    pub fn bring(&mut self, peer: Peer, bytes: usize, now: Instant) -> Option<Instant> {
        let (burst, rate) = (self.burst(), self.limits.bytes_a_second);
        let account = self.account(peer);
        let (left, bytes) = (account.refill(now, rate, burst), bytes as u64);
        if left < bytes {
            let millis = 1_000 * (bytes - left) / rate.max(1);
            return Some(now + Duration::from_millis(millis.max(1)));
        }
        account.bytes -= bytes;
        account.classes += 1;
        None
    }

    /// Counts the verdict on a class file that a peer sent. An accepted one counts towards its
    /// classes, any other one towards its bytes.
    pub fn judged(&mut self, peer: Peer, bytes: usize, is_accepted: bool) {
        let burst = self.burst();
        let account = self.account(peer);
        if is_accepted {
            account.bytes = burst.min(account.bytes + bytes as u64);
        } else {
            account.classes -= 1;
        }
    }

    /// Returns the instructions that a peer's rounds may still have while others of it wait, or
    /// `most` if they may have more.
    pub fn steps_left(&self, peer: Peer, most: u64) -> u64 {
        if self.limits.steps.saturating_sub(self.steps) >= most {
            // That holds for each peer, and so nearly always.
            return most;
        }
        let waiting = self.accounts.get(&peer).map_or(0, |it| it.steps);
        self.limits.steps.saturating_sub(waiting).min(most)
    }

    /// Counts a round that waits.
    pub fn waits(&mut self, peer: Peer, steps: u64) {
        self.account(peer).steps += steps;
        self.steps += steps;
    }

    /// Counts a round that doesn't wait any more.
    pub fn done(&mut self, peer: Peer, steps: u64) {
        self.account(peer).steps -= steps;
        self.steps -= steps;
    }
}

impl Account {
    /// Adds the bytes for the time since the last call, and returns how many there are.
    fn refill(&mut self, now: Instant, rate: u64, burst: u64) -> u64 {
        let millis = now.saturating_duration_since(self.counted).as_millis() as u64;
        let more = rate.saturating_mul(millis) / 1_000;
        if more > 0 {
            self.bytes = burst.min(self.bytes.saturating_add(more));
            self.counted = now;
        }
        self.bytes
    }
}

#[cfg(test)]
mod tests {
    use super::*;

    const ONE: Peer = Peer::User(1);

    fn peers(classes: usize, definers: &[u32]) -> Peers {
        let definers = definers.to_vec();
        Peers::new(PeerLimits { classes, definers, steps: 100, bytes_a_second: 50_000 })
    }

    #[test]
    fn classes_are_limited_by_peer() {
        let (mut peers, now) = (peers(2, &[]), Instant::now());
        for _ in 0..2 {
            assert!(peers.cannot_bring(ONE).is_none());
            assert!(peers.bring(ONE, 700, now).is_none());
        }
        assert!(peers.cannot_bring(ONE).is_some());
        assert!(peers.cannot_bring(Peer::User(2)).is_none());
        peers.judged(ONE, 700, false);
        assert!(peers.cannot_bring(ONE).is_none());
    }

    #[test]
    fn only_definers_bring_classes() {
        let peers = peers(2, &[7]);
        assert!(peers.cannot_bring(Peer::User(7)).is_none());
        for other in [ONE, Peer::Unknown, Peer::at([127, 0, 0, 1].into())] {
            assert!(peers.cannot_bring(other).expect("a reason").contains("--define-uid"));
        }
    }

    #[test]
    fn refused_bytes_come_back_with_time_and_accepted_ones_at_once() {
        let (mut peers, now) = (peers(1_000, &[]), Instant::now());
        for _ in 0..4 {
            assert!(peers.bring(ONE, 100_000, now).is_none());
            peers.judged(ONE, 100_000, false);
        }
        let again = peers.bring(ONE, 100_000, now).expect("a time");
        assert!(again > now + Duration::from_millis(1_900) && again < now + Duration::from_secs(3));
        assert!(peers.bring(Peer::User(2), 100_000, now).is_none());
        assert!(peers.bring(ONE, 100_000, again + Duration::from_millis(1)).is_none());
        peers.judged(ONE, 100_000, true);
        assert!(peers.bring(ONE, 100_000, again + Duration::from_millis(1)).is_none());
    }

    #[test]
    fn who_has_nothing_is_forgotten() {
        let (mut peers, now) = (peers(9, &[]), Instant::now());
        peers.open(ONE);
        peers.waits(ONE, 60);
        assert_eq!([30, 100].map(|most| peers.steps_left(ONE, most)), [30, 40]);
        assert_eq!([100, 900].map(|most| peers.steps_left(Peer::User(2), most)), [100, 100]);
        peers.close(ONE);
        peers.sweep(now);
        assert_eq!(peers.accounts.len(), 1);
        peers.done(ONE, 60);
        peers.sweep(now);
        assert_eq!(peers.accounts.len(), 0);
    }

    #[test]
    fn a_peer_is_read_as_it_is_displayed() {
        for text in ["uid:1000", "10.0.0.5", "2001:db8:0:1::/64", "unknown"] {
            assert_eq!(Peer::parse(text).expect(text).to_string(), text);
        }
        assert_eq!(Peer::parse("uid:root"), Ok(Peer::User(0)));
        assert_eq!(Peer::parse("2001:db8:0:1::9"), Peer::parse("2001:db8:0:1::/64"));
        for text in ["", "uid:", "uid:-1", "1000", "10.0.0", "uid:nobody-has-this"] {
            assert!(Peer::parse(text).is_err(), "{}", text);
        }
    }

    #[test]
    fn addresses_of_a_network_are_one_peer() {
        let at = |text: &str| Peer::at(text.parse().expect("an address"));
        assert_eq!(at("2001:db8:0:1::5"), at("2001:db8:0:1:9::"));
        assert_ne!(at("2001:db8:0:1::5"), at("2001:db8:0:2::5"));
        assert_eq!(at("::ffff:10.0.0.1"), at("10.0.0.1"));
        assert_ne!(at("10.0.0.1"), at("10.0.0.2"));
    }
}
