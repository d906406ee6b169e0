//! The names by which the HTTP server may be called. A web page of a stranger can have its own name
//! lead to this server (DNS rebinding), and would then read it as its own.

use std::net::{IpAddr, Ipv6Addr};
use std::str::from_utf8;

/// The names that are accepted besides addresses, `localhost` and names without a dot, which no
/// stranger's DNS has.
#[derive(Clone, Debug, Default)]
pub struct Hosts(pub Vec<String>);

impl Hosts {
    /// Returns whether a request with this Host header is accepted. Browsers always send one.
    pub fn accepts(&self, header: Option<&[u8]>) -> bool {
        let host = match header.map(|it| from_utf8(it).map(str::trim)) {
            None => return true,
            Some(Err(_)) => return false,
            Some(Ok(host)) => host,
        };
        if let Some((address, _)) = host.strip_prefix('[').and_then(|it| it.split_once(']')) {
            return address.parse::<Ipv6Addr>().is_ok();
        }
        let name = host.rsplit_once(':').map_or(host, |(name, _)| name).trim_end_matches('.');
        name.parse::<IpAddr>().is_ok()
            || !name.is_empty() && !name.contains('.')
            || self.0.iter().any(|it| it.eq_ignore_ascii_case(name))
    }
}

#[cfg(test)]
mod tests {
    use super::*;

    #[test]
    fn names_of_strangers_are_not_accepted() {
        let hosts = Hosts(vec!["front.example.org".to_string()]);
        let accepts = |it: &str| hosts.accepts(Some(it.as_bytes()));
        for it in ["127.0.0.1:9464", "[::1]:9464", "10.0.0.1", "localhost:1", "cache7:9464"] {
            assert!(accepts(it), "{}", it);
        }
        assert!(accepts("Front.Example.org:9464") && hosts.accepts(None));
        for it in ["evil.example", "evil.example:9464", "127.0.0.1.evil.example", "", "[x]:1"] {
            assert!(!accepts(it), "{}", it);
        }
        assert!(!hosts.accepts(Some(&[0xff])));
    }
}
