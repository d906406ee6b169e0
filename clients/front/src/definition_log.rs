//! The log of definitions: one line for each, with the peer, the class's name and hash, and its
//! bounds or the reason why it isn't defined.

use crate::class_name::class_name;
use crate::classes::{class_of, hash, Accepted, Class};
use crate::logging::{event, Field, LogLimit};
use crate::request::number_at;
use crate::tally::{name, DENIALS, REFUSALS};
use log::Level;
use std::time::Instant;

/// The number of the refusal for too many steps.
const STEP_LIMIT: u8 = 27;

/// The connection that defines a class, and its peer.
#[derive(Clone, Copy)]
pub struct By<'a> {
    pub connection: u64,
    pub peer: &'a str,
}

/// Logs definitions. Those of classes that the server already has are limited separately, since
/// there are many more of them.
#[derive(Default)]
pub struct DefinitionLog {
    verdicts: LogLimit,
    known: LogLimit,
}

impl DefinitionLog {
    /// Logs the server's verdict on a new class. The front takes classes of at most `most` steps.
    pub fn verdict(&mut self, by: By, file: &[u8], reply: &[u8], most: u64) {
        if !self.verdicts.allows(Instant::now()) {
            return;
        }
        match class_of(reply) {
            Some(class) if u64::from(class.steps) > most => {
                let reason = format!("{} steps, and --max-steps is {}", class.steps, most);
                let of = [
                    ("number", Field::Number(STEP_LIMIT.into())),
                    ("name", Field::Word(name(&REFUSALS, STEP_LIMIT))),
                    ("reason", Field::Text(&reason)),
                ];
                line(Level::Warn, "denied class", by, file, &of);
            }
            Some(class) => {
                let (name, sha1) = (class_name(file), hash(file));
                let what = What { name: &name, sha1: &sha1, bytes: file.len() };
                accepted("accepted class", by, what, class);
            }
            None => unaccepted(by, file, reply),
        }
    }

    /// Logs a definition of a class that the server has.
    pub fn known(&mut self, by: By, it: &Accepted) {
        if self.known.allows(Instant::now()) {
            let what = What { name: &it.name, sha1: &it.hash, bytes: it.bytes };
            accepted("known class", by, what, it.class);
        }
    }

    /// Logs a definition that the front denies, with the reason.
    pub fn denied(&mut self, by: By, file: &[u8], number: u8, reason: &str) {
        if self.verdicts.allows(Instant::now()) {
            let (number, name) = (u64::from(number), name(&DENIALS, number));
            let of = [
                ("number", Field::Number(number)),
                ("name", Field::Word(name)),
                ("reason", Field::Text(reason)),
            ];
            line(Level::Warn, "denied class", by, file, &of);
        }
    }
}

/// What is logged of a class that the server has.
struct What<'a> {
    name: &'a str,
    sha1: &'a str,
    bytes: usize,
}

fn accepted(verdict: &str, by: By, what: What, class: Class) {
    let fields = [
        ("class", Field::Text(what.name)),
        ("steps", Field::Number(class.steps.into())),
        ("words", Field::Number(class.words.into())),
        ("sha1", Field::Word(what.sha1)),
        ("bytes", Field::Number(what.bytes as u64)),
        ("connection", Field::Number(by.connection)),
        ("peer", Field::Text(by.peer)),
    ];
    event(Level::Info, verdict, &fields);
}

/// Logs a class that the server refused or denied. The reply to a refused class is a number and a
/// detail: the opcode for refusal 17, the offset in the code for refusal 22.
fn unaccepted(by: By, file: &[u8], reply: &[u8]) {
    let (verdict, number, name, detail) = match reply {
        [_, _, _, _, 2, number, detail @ ..] if detail.len() == 4 => {
            ("refused class", *number, name(&REFUSALS, *number), number_at(detail, 0))
        }
        [_, _, _, _, 8, number] => ("denied class", *number, name(&DENIALS, *number), 0),
        _ => ("unanswered class", 0, "unknown", 0),
    };
    let detail = match (verdict, number) {
        ("refused class", 17) => ("opcode", Field::Number(detail.into())),
        ("refused class", 22) => ("pc", Field::Number(detail.into())),
        _ => ("detail", Field::Word("none")),
    };
    let number = ("number", Field::Number(number.into()));
    line(Level::Warn, verdict, by, file, &[number, ("name", Field::Word(name)), detail]);
}

/// Logs a line with these fields and those of the class file.
fn line(level: Level, what: &str, by: By, file: &[u8], of: &[(&str, Field)]) {
    let (class, sha1) = (class_name(file), hash(file));
    let mut fields = of.to_vec();
    fields.extend([
        ("class", Field::Text(&class)),
        ("sha1", Field::Word(&sha1)),
        ("bytes", Field::Number(file.len() as u64)),
        ("connection", Field::Number(by.connection)),
        ("peer", Field::Text(by.peer)),
    ]);
    event(level, what, &fields);
}
