//! Replies of the control socket as text for people.

use serde_json::Value;
use std::fmt::Write;

/// A column: its heading, and the member of a row that it shows.
type Column = (&'static str, &'static str);

const PEERS: &[Column] = &[
    ("PEER", "peer"),
    ("CONNECTIONS", "connections"),
    ("CLASSES", "classes"),
    ("WAITING-STEPS", "waiting_steps"),
];

const CONNECTIONS: &[Column] = &[
    ("NUMBER", "number"),
    ("PEER", "peer"),
    ("FROM", "from"),
    ("AGE", "age"),
    ("STATE", "state"),
    ("ROUNDS", "rounds"),
    ("REQUESTS", "requests"),
    ("RECEIVED", "received"),
    ("SENT", "sent"),
    ("SLOWEST", "slowest"),
    ("WAITS", "waits"),
];

const CLASSES: &[Column] = &[
    ("NUMBER", "number"),
    ("ID", "id"),
    ("STEPS", "steps"),
    ("WORDS", "words"),
    ("RUNS", "runs"),
    ("EXCEPTIONS", "exceptions"),
    ("COST", "cost"),
    ("CONNECTION", "connection"),
    ("FROM", "from"),
    ("NAME", "name"),
];

/// Returns the text of a reply to the command of this name.
pub fn text(command: &str, reply: &Value) -> String {
    match command {
        "peers" => table(PEERS, reply),
        "connections" => table(CONNECTIONS, reply),
        "classes" => table(CLASSES, reply),
        "kick" => format!("closed {} connections\n", shown(&reply["kicked"])),
        "drain" => match &reply["drains"] {
            Value::Null => "the front drains already\n".to_string(),
            count => format!("the front ends once it has answered {} connections\n", shown(count)),
        },
        _ => members(reply),
    }
}

/// Returns a value as text. Names are a client's, and a terminal would obey what they contain.
fn shown(value: &Value) -> String {
    match value {
        Value::String(text) => text.escape_debug().to_string(),
        Value::Number(number) if number.is_f64() => {
            format!("{:.3}", number.as_f64().unwrap_or_default())
        }
        Value::Array(values) => values.iter().map(shown).collect::<Vec<_>>().join(" "),
        other => other.to_string(),
    }
}

fn members(reply: &Value) -> String {
    let mut text = String::new();
    for (name, value) in reply.as_object().into_iter().flatten() {
        let _ = writeln!(text, "{:18} {}", name, shown(value));
    }
    text
}

fn table(columns: &[Column], reply: &Value) -> String {
    let heading = columns.iter().map(|it| it.0.to_string()).collect();
    let mut lines: Vec<Vec<String>> = vec![heading];
    for row in reply.as_array().into_iter().flatten() {
        lines.push(columns.iter().map(|it| shown(&row[it.1])).collect());
    }
    let width = |index: usize| lines.iter().map(|it| it[index].chars().count()).max().unwrap_or(0);
    let widths: Vec<usize> = (0..columns.len()).map(width).collect();
    let mut text = String::new();
    for line in &lines {
        let cells = line.iter().zip(&widths).map(|(cell, width)| format!("{:width$}", cell));
        let _ = writeln!(text, "{}", cells.collect::<Vec<_>>().join("  ").trim_end());
    }
    text
}

#[cfg(test)]
mod tests {
    use super::*;
    use serde_json::json;

    #[test]
    fn rows_are_aligned() {
        let rows = json!([
            {"peer": "uid:1000", "connections": 3, "classes": 12, "waiting_steps": 0},
            {"peer": "10.0.0.5", "connections": 12, "classes": 0, "waiting_steps": 5},
        ]);
        let wanted = "PEER      CONNECTIONS  CLASSES  WAITING-STEPS\n\
                      uid:1000  3            12       0\n\
                      10.0.0.5  12           0        5\n";
        assert_eq!(text("peers", &rows), wanted);
        assert_eq!(text("peers", &json!([])), "PEER  CONNECTIONS  CLASSES  WAITING-STEPS\n");
    }

    #[test]
    fn a_name_moves_no_cursor() {
        let rows = json!([{"name": "a\u{1b}[2J\nb\u{202e}"}]);
        let text = text("classes", &rows);
        assert_eq!(text.lines().count(), 2, "{:?}", text);
        assert!(text.ends_with("a\\u{1b}[2J\\nb\\u{202e}\n"), "{:?}", text);
    }

    #[test]
    fn other_replies_are_lines() {
        assert_eq!(text("kick", &json!({"kicked": 2})), "closed 2 connections\n");
        assert_eq!(text("drain", &json!({"drains": null})), "the front drains already\n");
        assert_eq!(text("quota", &json!({"steps": 5})), "steps              5\n");
    }
}
