//! Entries: plain strings of the keyspace that hold a decimal long, read and written as Redis's own commands do.
//!
//! Redis runs one command at a time, so nothing else happens between the read and the write of a run.
use crate::api::{Text, REPLY_NULL, REPLY_TEXT};
pub use crate::direct::Access;
use crate::direct::{self, Found};
use crate::raw;
use crate::server::{Called, Failure, Server, Words};
use crate::words::long_of;

/// Where the module may write the value of an entry itself.
enum Place {
    Direct(direct::Place),
    Raw(raw::Place),
}

/// The entry at a key.
pub struct Entry {
    pub value: Option<i64>,
    /// Whether it has a time to live, or may have one.
    may_expire: bool,
    place: Option<Place>,
}

/// Reads the entry of a key by GET.
///
/// # Safety
/// `key` must be a string of the server.
unsafe fn get(server: Server, key: *mut Text) -> Result<Entry, Failure> {
    let reply = (server.api().call)(
        server.context(),
        b"GET\0".as_ptr().cast(),
        b"s\0".as_ptr().cast(),
        key,
    );
    let called = Called::of(server, reply)?;
    let value = match called.kind() {
        REPLY_NULL => None,
        REPLY_TEXT => {
            Some(long_of(called.bytes()).ok_or("ERR value is not an integer or out of range")?)
        }
        _ => return Err("ERR the entry can't be read".into()),
    };
    Ok(Entry { value, may_expire: value.is_some(), place: None })
}

/// Reads the entry of a key whose value isn't read in place.
///
/// # Safety
/// `key` must be a string of the server.
unsafe fn read_anew(server: Server, key: *mut Text, access: Access) -> Result<Entry, Failure> {
    let raw = if access == Access::Write { raw::look(server, key) } else { None };
    match raw {
        Some(place) => Ok(Entry {
            value: Some(place.value()),
            may_expire: true,
            place: Some(Place::Raw(place)),
        }),
        None => get(server, key),
    }
}

/// Reads the entry of a key, which may be written afterwards if the command is one that writes.
///
/// # Safety
/// `key` must be a string of the server. The result must be dropped before anything else is done with the key.
pub unsafe fn read(server: Server, key: *mut Text, access: Access) -> Result<Entry, Failure> {
    let entry = match direct::look(server, key, access) {
        Found::Unknown => return read_anew(server, key, access),
        Found::Absent => Entry { value: None, may_expire: false, place: None },
        Found::Place(place) => Entry {
            value: place.value(),
            may_expire: place.may_expire,
            place: Some(Place::Direct(place)),
        },
    };
    if direct::is_checked() {
        let Entry { value, may_expire, place } = entry;
        drop(place);
        let told = get(server, key)?;
        let is_same = told.value == value;
        direct::count(server, is_same);
        return Ok(if is_same { Entry { value, may_expire, place: None } } else { told });
    }
    Ok(entry)
}

/// What happens to an entry's time to live.
#[derive(Clone, Copy, PartialEq, Eq)]
pub enum Lifetime {
    /// It doesn't change.
    Keep,
    /// It is removed.
    Endless,
    /// It is set to this number of milliseconds.
    Milliseconds(i64),
}

/// Sets the value of an entry by SET.
unsafe fn set_anew(
    server: Server,
    key: *mut Text,
    may_expire: bool,
    value: i64,
    lifetime: Lifetime,
) -> Result<(), Failure> {
    let (call, context, name) = (server.api().call, server.context(), b"SET\0".as_ptr().cast());
    let reply = match lifetime {
        Lifetime::Milliseconds(time) => {
            call(context, name, b"!slcl\0".as_ptr().cast(), key, value, b"PX\0".as_ptr(), time)
        }
        Lifetime::Keep if may_expire => {
            call(context, name, b"!slc\0".as_ptr().cast(), key, value, b"KEEPTTL\0".as_ptr())
        }
        _ => call(context, name, b"!sl\0".as_ptr().cast(), key, value),
    };
    Called::of(server, reply).map(drop)
}

/// Sets the value of an entry, and writes it as a SET to the AOF and to replicas.
///
/// # Safety
/// `words` must be the command's arguments, `key` a string of the server, and `entry` the result of a read in this command; the entry must
/// not have changed since.
pub unsafe fn set(
    server: Server,
    words: Words,
    key: *mut Text,
    entry: Entry,
    value: i64,
    lifetime: Lifetime,
) -> Result<(), Failure> {
    let is_written = match (entry.place, lifetime) {
        (Some(Place::Direct(place)), Lifetime::Keep) => {
            direct::write(server, words, key, place, value)
        }
        (Some(Place::Raw(place)), Lifetime::Keep) => raw::write(server, words, key, place, value),
        _ => false,
    };
    if is_written {
        return Ok(());
    }
    set_anew(server, key, entry.may_expire, value, lifetime)?;
    direct::learn(server, key, value);
    Ok(())
}

/// Deletes the entry of a key by DEL.
///
/// # Safety
/// `key` must be a string of the server, and `entry` the result of its read.
pub unsafe fn delete(server: Server, key: *mut Text, entry: Entry) -> Result<(), Failure> {
    drop(entry);
    let reply = (server.api().call)(
        server.context(),
        b"DEL\0".as_ptr().cast(),
        b"!s\0".as_ptr().cast(),
        key,
    );
    Called::of(server, reply).map(drop)
}

/// Changes only the time to live.
///
/// # Safety
/// `key` must be a string of the server, and `entry` the result of its read.
pub unsafe fn touch(
    server: Server,
    key: *mut Text,
    entry: Entry,
    lifetime: Lifetime,
) -> Result<(), Failure> {
    drop(entry);
    let (call, context) = (server.api().call, server.context());
    let reply = match lifetime {
        Lifetime::Keep => return Ok(()),
        Lifetime::Endless => {
            call(context, b"PERSIST\0".as_ptr().cast(), b"!s\0".as_ptr().cast(), key)
        }
        Lifetime::Milliseconds(time) => {
            call(context, b"PEXPIRE\0".as_ptr().cast(), b"!sl\0".as_ptr().cast(), key, time)
        }
    };
    Called::of(server, reply).map(drop)
}
