//! JENTRY.APPLY: runs a class as a JCache provider needs it, with times to live and the entry before and after.
use crate::api::Text;
use crate::engine::{Done, KEEP, PUT, SET, UNTOUCHED};
use crate::entry::{self, Access, Entry, Lifetime};
use crate::run::{number_of, reply_type, reply_value, Plan};
use crate::server::{Answer, Failure, Server, Words};
use crate::words::long_of;

/// The effect of a time argument on an entry.
#[derive(Clone, Copy, PartialEq, Eq)]
enum Time {
    Delete,
    Live(Lifetime),
}

impl Time {
    /// Parses a time: milliseconds; 0 deletes the entry, -1 keeps its time to live, -2 removes its time to live.
    fn of(word: &[u8]) -> Result<Time, Failure> {
        match long_of(word) {
            Some(0) => Ok(Time::Delete),
            Some(-1) => Ok(Time::Live(Lifetime::Keep)),
            Some(-2) => Ok(Time::Live(Lifetime::Endless)),
            Some(time) if time > 0 => Ok(Time::Live(Lifetime::Milliseconds(time))),
            _ => Err("ERR a time is milliseconds, 0, -1 or -2".into()),
        }
    }
}

/// The change to an entry.
enum Change {
    None,
    Set(i64, Lifetime),
    Touch(Lifetime),
    Delete,
}

/// Returns the change that a run makes, given the times for a created, an updated and an accessed entry.
fn change_of(done: &Done, before: Option<i64>, times: [Time; 3]) -> Change {
    let [created, updated, accessed] = times;
    let after = match done.effect {
        KEEP => before,
        PUT => Some(done.put),
        _ => None,
    };
    let is_set = done.left == SET;
    let time = match (before, is_set) {
        (None, true) => created,
        (Some(_), true) => updated,
        (_, false) => accessed,
    };
    match (before, after, time) {
        (None, None, _) | (None, _, Time::Delete) => Change::None,
        (Some(_), None, _) | (Some(_), _, Time::Delete) => Change::Delete,
        (_, Some(value), Time::Live(lifetime)) if is_set => Change::Set(value, lifetime),
        (_, _, Time::Live(lifetime)) => Change::Touch(lifetime),
    }
}

impl Change {
    /// # Safety
    /// `key` must be a string of the server.
    unsafe fn make(&self, server: Server, words: Words, key: *mut Text, before: Entry) -> Answer {
        match *self {
            Change::None => Ok(()),
            Change::Set(value, lifetime) => entry::set(server, words, key, before, value, lifetime),
            Change::Touch(lifetime) => entry::touch(server, key, before, lifetime),
            Change::Delete => entry::delete(server, key, before),
        }
    }

    /// Returns the entry after the change.
    fn after(&self, before: Option<i64>) -> Option<i64> {
        match *self {
            Change::None => before,
            Change::Set(value, _) => Some(value),
            Change::Touch(_) => before,
            Change::Delete => None,
        }
    }
}

fn reply_entry(server: Server, entry: Option<i64>) {
    match entry {
        Some(value) => server.reply_text(value.to_string().as_bytes()),
        None => server.reply_null(),
    }
}

/// Replies what the run did to the entry: `keep` if it called neither setValue nor remove, `put` if it set a value, even the same one,
/// `delete` if it removed the entry.
fn reply_left(server: Server, done: &Done, before: Option<i64>) {
    server.reply_text(match (done.left, before) {
        (SET, _) => b"put",
        (UNTOUCHED, _) | (_, None) => b"keep",
        _ => b"delete",
    });
}

/// JENTRY.APPLY CREATED UPDATED ACCESSED MODE ID KEY [ARG ..]: runs a class, and replies its result, the type of the result, what it did to
/// the entry, the entry before and after, the instructions and the array words. Mode `dry` doesn't change the entry, and replies what `do`
/// would reply.
pub fn apply(server: Server, words: Words) -> Answer {
    let times =
        [Time::of(words.bytes(1)?)?, Time::of(words.bytes(2)?)?, Time::of(words.bytes(3)?)?];
    let is_dry = match words.bytes(4)? {
        word if word.eq_ignore_ascii_case(b"do") => false,
        word if word.eq_ignore_ascii_case(b"dry") => true,
        _ => return Err("ERR the mode is do or dry".into()),
    };
    let (key, name) = (words.text(6)?, words.bytes(6)?);
    let plan = Plan::of_class(words, 5)?;
    let number = number_of(name)?;
    let plan = plan.with_args(words.from(7))?;
    // SAFETY: the key is an argument of the command.
    let entry =
        unsafe { entry::read(server, key, if is_dry { Access::Read } else { Access::Write })? };
    let before = entry.value;
    let done = plan.run(number, before)?;
    let change = change_of(&done, before, times);
    if !is_dry {
        // SAFETY: as above.
        unsafe { change.make(server, words, key, entry)? };
    }
    server.reply_array(7);
    reply_value(server, &done);
    reply_type(server, &done);
    reply_left(server, &done, before);
    reply_entry(server, before);
    reply_entry(server, change.after(before));
    server.reply_long(done.steps.into());
    server.reply_long(done.words.into());
    Ok(())
}
