//! The JSON of the control socket.

use super::{Answer, Command, Target};
use crate::peers::{Peer, PeerRow};
use crate::status::{ClassRow, ConnectionRow};
use serde_json::{json, Map, Value};

/// Reads a request.
pub fn command(text: &[u8]) -> Result<Command, String> {
    let request: Value = serde_json::from_slice(text)
        .map_err(|_| "expected a line of JSON, such as {\"command\":\"status\"}".to_string())?;
    match request["command"].as_str() {
        Some("status") => Ok(Command::Status),
        Some("peers") => Ok(Command::Peers),
        Some("connections") => Ok(Command::Connections),
        Some("classes") => Ok(Command::Classes),
        Some("drain") => Ok(Command::Drain),
        Some("kick") => target(request["target"].as_str().unwrap_or_default()).map(Command::Kick),
        Some("quota") => values(&request["set"]).map(Command::Quota),
        _ => Err("there is no such command; this front may be older than its ctl".to_string()),
    }
}

/// Reads a target: the number of a connection, or a peer.
fn target(text: &str) -> Result<Target, String> {
    if let Ok(number) = text.parse() {
        return Ok(Target::Connection(number));
    }
    Peer::parse(text).map(Target::Peer).map_err(|e| {
        format!("{:?} is no connection's number and no peer: {}; `ctl peers` lists them", text, e)
    })
}

fn values(set: &Value) -> Result<Vec<(String, u64)>, String> {
    let none = Map::new();
    let pairs = set.as_object().unwrap_or(&none).iter();
    let number = |(name, value): (&String, &Value)| {
        let value = value.as_u64().ok_or_else(|| format!("{} is no number", name))?;
        Ok((name.clone(), value))
    };
    pairs.map(number).collect()
}

/// Returns what a reply to a command has.
pub fn answer(answer: &Answer, about: &Value) -> Value {
    match answer {
        Answer::Status { connections, most, classes, waiting_rounds, waiting_requests, batch } => {
            let mut it = about.clone();
            // The limits are those of the start; the quotas are those of now.
            it.as_object_mut().map(|members| members.remove("limits"));
            it["connections"] = json!(connections);
            it["connections_limit"] = json!(most);
            it["classes"] = json!(classes);
            it["waiting_rounds"] = json!(waiting_rounds);
            it["waiting_requests"] = json!(waiting_requests);
            it["batch_age"] = json!(batch.as_secs_f64());
            it
        }
        Answer::Peers(rows) => rows.iter().map(peer).collect(),
        Answer::Connections(rows) => rows.iter().map(connection).collect(),
        Answer::Classes(rows) => rows.iter().map(class).collect(),
        Answer::Kicked(count) => json!({ "kicked": count }),
        Answer::Drains(count) => json!({ "drains": count }),
        Answer::Quotas(quotas) => {
            quotas.all().map(|(name, value)| (name.to_string(), json!(value))).collect()
        }
    }
}

fn peer(it: &PeerRow) -> Value {
    json!({
        "peer": it.peer.to_string(), "connections": it.connections, "classes": it.classes,
        "waiting_steps": it.steps,
    })
}

fn connection(row: &ConnectionRow) -> Value {
    let it = &row.traffic;
    json!({
        "number": row.number, "peer": it.owner.to_string(), "from": it.peer,
        "age": it.opened.elapsed().as_secs(), "state": row.state, "rounds": it.rounds,
        "requests": it.requests, "received": it.received_bytes, "sent": it.sent_bytes,
        "slowest": it.slowest.as_secs_f64(),
        "waits": it.waits_since.map_or(0.0, |since| since.elapsed().as_secs_f64()),
    })
}

fn class(row: &ClassRow) -> Value {
    let it = &row.accepted;
    json!({
        "number": it.class.number, "id": it.hash, "name": it.name, "bytes": it.bytes,
        "steps": it.class.steps, "words": it.class.words, "runs": row.tally.runs,
        "exceptions": row.tally.exceptions, "cost": row.tally.cost(),
        "connection": it.connection, "from": it.peer,
    })
}

#[cfg(test)]
mod tests {
    use super::*;

    #[test]
    fn requests_are_read() {
        let read = |text: &str| command(text.as_bytes()).expect(text);
        assert_eq!(read(r#"{"command":"peers"}"#), Command::Peers);
        let kick = Command::Kick;
        assert_eq!(read(r#"{"command":"kick","target":"7"}"#), kick(Target::Connection(7)));
        let user = Target::Peer(Peer::User(7));
        assert_eq!(read(r#"{"command":"kick","target":"uid:7"}"#), kick(user));
        assert_eq!(read(r#"{"command":"quota"}"#), Command::Quota(vec![]));
        let steps = Command::Quota(vec![("steps".to_string(), 5)]);
        assert_eq!(read(r#"{"command":"quota","set":{"steps":5}}"#), steps);
    }

    #[test]
    fn what_is_no_request_is_an_error() {
        for (text, wanted) in [
            (&b""[..], "expected a line of JSON"),
            (b"\0\0\0\x01\x08", "expected a line of JSON"),
            (b"[]", "no such command"),
            (b"{\"command\":\"forget\"}", "no such command"),
            (b"{\"command\":\"kick\"}", "no connection's number and no peer"),
            (b"{\"command\":\"kick\",\"target\":\"-1\"}", "such as uid:1000"),
            (b"{\"command\":\"quota\",\"set\":{\"steps\":-1}}", "steps is no number"),
        ] {
            let error = command(text).expect_err(wanted);
            assert!(error.contains(wanted), "{}", error);
        }
        let deep = "[".repeat(4_000);
        assert!(command(deep.as_bytes()).is_err());
    }
}
