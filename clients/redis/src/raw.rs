//! Reads and writes an integer as the bytes of a raw string, by functions of the module API alone.
//!
//! `StringDMA` turns an entry into a raw string, which takes more memory than an integer and stays one until a SET or an INCRBY. So this is
//! only done if `jentry.raw` is yes, and never by a command that only reads. It saves the calls of GET and SET on servers whose objects have
//! a layout that the module doesn't know. An entry that doesn't exist yet is created by SET.
use crate::api::{Key, Text, OK};
use crate::direct::{NO_EXPIRE, OF_STRINGS, READ, WRITE};
use crate::replicate;
use crate::server::{Server, Words};
use crate::words::{long_of, Decimal, MOST_BYTES};
use std::os::raw::c_int;
use std::ptr::copy_nonoverlapping;
use std::slice;
use std::sync::atomic::{AtomicBool, Ordering};

/// Whether the setting allows it.
static IS_ALLOWED: AtomicBool = AtomicBool::new(false);

/// Returns whether the setting allows raw strings.
pub fn is_allowed() -> bool {
    IS_ALLOWED.load(Ordering::Relaxed)
}

/// Applies the setting.
pub fn allow(is_allowed: bool) {
    IS_ALLOWED.store(is_allowed, Ordering::Relaxed);
}

/// An open key of an entry that is a raw string. It ends before anything else is done with the key.
pub struct Place {
    server: Server,
    handle: *mut Key,
    value: i64,
    /// The number of bytes of the string.
    length: usize,
}

impl Place {
    pub fn value(&self) -> i64 {
        self.value
    }

    /// Returns the bytes of the string and their number, or `None` if there is no string. No other key has them if they are for writing.
    unsafe fn bytes(&self, mode: c_int) -> Option<(*mut u8, usize)> {
        let mut length = 0;
        let bytes = (self.server.api().string_bytes)(self.handle, &mut length, mode);
        (!bytes.is_null()).then_some((bytes, length))
    }

    /// Writes the value over the bytes of the string. Returns whether that succeeded.
    unsafe fn write(&self, value: &[u8]) -> bool {
        if self.length != value.len()
            && (self.server.api().truncate)(self.handle, value.len()) != OK
        {
            return false;
        }
        match self.bytes(WRITE) {
            Some((bytes, length)) if length == value.len() => {
                copy_nonoverlapping(value.as_ptr(), bytes, length);
                true
            }
            _ => false,
        }
    }
}

impl Drop for Place {
    fn drop(&mut self) {
        // SAFETY: the handle is this one's own.
        unsafe { (self.server.api().close_key)(self.handle) };
    }
}

/// Reads the value of a key that the command may write. Returns `None` if the setting doesn't allow it, or if the key holds no long.
///
/// # Safety
/// `key` must be a string of the server.
pub unsafe fn look(server: Server, key: *mut Text) -> Option<Place> {
    if !is_allowed() {
        return None;
    }
    let (api, context) = (server.api(), server.context());
    let handle = (api.open_key)(context, key, READ | WRITE);
    if handle.is_null() {
        return None;
    }
    let mut place = Place { server, handle, value: 0, length: 0 };
    // A longer string is no long, and is left as it is.
    if (api.length)(handle) > MOST_BYTES {
        return None;
    }
    // There are none of a list, say, and the bytes of a key that doesn't exist are no long.
    let (bytes, length) = place.bytes(READ)?;
    place.value = long_of(slice::from_raw_parts(bytes, length))?;
    place.length = length;
    Some(place)
}

/// Does what a SET of the value with KEEPTTL does: writes it, notifies clients that watch or track the key and subscribers to events, and
/// writes the SET to the AOF and to replicas. If it returns false, a SET must follow.
///
/// The event comes last, because it runs the functions of other modules.
///
/// # Safety
/// `words` must be the command's arguments, `key` a string of the server, and `place` the result of a look at it in this command; the entry
/// must not have changed since.
pub unsafe fn write(
    server: Server,
    words: Words,
    key: *mut Text,
    place: Place,
    value: i64,
) -> bool {
    let (api, context) = (server.api(), server.context());
    let value = Decimal::of(value);
    if !place.write(value.bytes()) {
        return false;
    }
    let may_expire = (api.expire)(place.handle) != NO_EXPIRE;
    drop(place);
    (api.signal_modified)(context, key);
    let text = server.text_of(value.bytes());
    replicate::set(server, words, key, text, may_expire);
    (api.free_text)(context, text);
    (api.notify)(context, OF_STRINGS, b"set\0".as_ptr().cast(), key);
    true
}
