//! Reads and writes an integer in the memory where Redis stores it.
//!
//! Redis stores a string that is a long as an integer in its object. The module API reads a value by GET and writes it by SET, and these
//! calls cost more than a run; or it uses `StringDMA`, which converts the integer into a raw string in the keyspace. So the module reads
//! the object behind a key's handle directly, in the layout of a known release. On another release, or if a string or a handle that the
//! module creates at load time has another layout, or if `jentry.direct` is no, it uses GET. Each direct read is checked against what the API
//! reports about the key, and the first ones also against GET. After a mismatch the module never reads directly again.
//!
//! An object that only the entry refers to is written in place, as INCRBY does, and the module then does everything else that SET does.
//! Redis shares the objects of 0 to 9,999 among all keys. An entry gets one of these by `StringSet`, as it is. Valkey shares none of them,
//! since an entry's object has the key in its block.
use crate::api::{Key, Text, OK};
use crate::raw;
use crate::replicate;
use crate::server::{Server, Words};
use crate::shared::{self, Sharing};
use std::mem::size_of;
use std::os::raw::c_int;
use std::ptr::{read_volatile, NonNull};
use std::sync::atomic::{AtomicBool, AtomicU32, Ordering};

/// The `OpenKey` modes for reading and for writing.
pub const READ: c_int = 1;
pub const WRITE: c_int = 1 << 1;
/// A key on which the layout of handles is checked; it exists only during that check.
const SCRATCH: &[u8] = b"jentry:layout";
/// The string event class, for `NotifyKeyspaceEvent`.
pub const OF_STRINGS: c_int = 1 << 3;
/// The result of `GetExpire` if an entry has no time to live.
pub const NO_EXPIRE: i64 = -1;

/// A release whose layout is known.
struct Release {
    number: c_int,
    /// The number of flags in the 32 bits of the reference count, from the least significant bit on.
    flags: u32,
    /// Whether entries share the objects of small integers.
    shares: bool,
}

/// Redis 7.0 and 8.0, and Valkey 8.1.
const RELEASES: [Release; 3] = [
    Release { number: 0x0700, flags: 0, shares: true },
    Release { number: 0x0800, flags: 0, shares: true },
    Release { number: 0x0801, flags: 2, shares: false },
];
/// The number of direct reads that are checked against GET.
const CHECKS: u32 = 64;
/// The value of `CHECKS_LEFT` if direct reads are disabled.
const NEVER: u32 = u32::MAX;

static FLAGS: AtomicU32 = AtomicU32::new(0);
static CHECKS_LEFT: AtomicU32 = AtomicU32::new(NEVER);
/// Whether the setting allows direct reads, and whether the layouts are known.
static IS_ALLOWED: AtomicBool = AtomicBool::new(true);
static IS_KNOWN: AtomicBool = AtomicBool::new(false);

/// The members of a handle up to its value (`RedisModuleKey`).
#[repr(C)]
struct Handle {
    context: *mut u8,
    database: *mut u8,
    key: *mut Object,
    value: *mut Object,
}

/// An object (`redisObject`): type and encoding with four bits each, age, reference count with the release's flags, and a pointer or the
/// integer itself.
#[repr(C)]
#[derive(Clone, Copy)]
struct Object {
    kind: u8,
    age: [u8; 3],
    references: u32,
    payload: i64,
}

impl Object {
    fn references(&self) -> u32 {
        self.references >> FLAGS.load(Ordering::Relaxed)
    }

    /// Returns whether it is a string of this kind to which one reference exists, and whose bytes are at this address.
    fn is_text(&self, kind: u8, bytes: *const u8) -> bool {
        self.kind == kind && self.references() == 1 && self.payload == bytes as i64
    }
}

/// The first byte of three kinds of strings: bytes in a block of their own, an integer, and bytes in the object's own block.
const RAW: u8 = 0;
const INTEGER: u8 = 0x10;
const EMBEDDED: u8 = 0x80;
/// The reference count of an object that keys of Redis share. It never changes.
const SHARED: u32 = i32::MAX as u32;

/// What a command does to the entry that it reads.
#[derive(Clone, Copy, PartialEq, Eq)]
pub enum Access {
    Read,
    Write,
}

/// The result of a direct read.
pub enum Found {
    /// The value isn't known: use GET.
    Unknown,
    Absent,
    Place(Place),
}

/// An open key, with the integer of its entry, or without an entry. It ends before anything else is done with the key.
pub struct Place {
    server: Server,
    handle: *mut Key,
    object: Option<NonNull<Object>>,
    /// The integer when it was read.
    read: i64,
    /// Whether the entry has a time to live.
    pub may_expire: bool,
}

impl Place {
    /// Returns the value of the entry, if there is one.
    pub fn value(&self) -> Option<i64> {
        self.object.map(|_| self.read)
    }

    /// Writes the value into the entry's object, if only the entry refers to it. Returns the object.
    unsafe fn write_in_place(&self, value: i64) -> Option<NonNull<Object>> {
        let object = self.object?;
        let now = object.as_ptr();
        if (*now).references() != 1 || (*now).kind != INTEGER || (*now).payload != self.read {
            return None;
        }
        (*now).payload = value;
        Some(object)
    }

    /// Gives the entry the shared object of the value, if that is known, and keeps its time to live. Returns the object.
    unsafe fn share(&self, value: i64) -> Option<NonNull<Object>> {
        let api = self.server.api();
        let object = NonNull::new(shared::object_of::<Object>(value))?;
        let ends = if self.may_expire { (api.absolute_expire)(self.handle) } else { NO_EXPIRE };
        if (api.set_string)(self.handle, object.as_ptr().cast()) != OK {
            return None;
        }
        if ends != NO_EXPIRE {
            (api.set_absolute_expire)(self.handle, ends);
        }
        Some(object)
    }

    /// Writes the value, if the module can do that itself. Returns the object that the entry has then.
    unsafe fn write(&self, value: i64) -> Option<NonNull<Object>> {
        match shared::sharing_of(value) {
            Sharing::None => self.write_in_place(value),
            Sharing::BySet => None,
            Sharing::ByModule => self.share(value),
        }
    }
}

impl Drop for Place {
    fn drop(&mut self) {
        // SAFETY: the handle is this one's own.
        unsafe { (self.server.api().close_key)(self.handle) };
    }
}

/// Returns the number of characters of a long in decimal.
fn length_of(value: i64) -> usize {
    let mut rest = value.unsigned_abs();
    let mut length = 1 + usize::from(value < 0);
    while rest >= 10 {
        rest /= 10;
        length += 1;
    }
    length
}

/// Returns whether a string that the module creates has this layout: bytes in the object's block, one reference, and a pointer to the
/// address of the bytes that the API reports.
unsafe fn has_layout(server: Server) -> bool {
    let api = server.api();
    let text = server.text_of(b"0");
    let mut length = 0;
    let bytes = (api.text_bytes)(text, &mut length);
    let is_same = (*text.cast::<Object>()).is_text(EMBEDDED, bytes) && length == 1;
    (api.free_text)(server.context(), text);
    is_same
}

/// Returns the members of an open handle.
unsafe fn members(handle: *mut Key) -> Handle {
    // The server changes the members, so each look reads them all.
    read_volatile(handle.cast::<Handle>())
}

/// Returns whether the value of an open key is a raw string in this layout. `StringDMA` turns it into one.
unsafe fn has_value_layout(server: Server, handle: *mut Key) -> bool {
    let mut length = 0;
    let bytes = (server.api().string_bytes)(handle, &mut length, READ);
    let value = members(handle).value;
    !value.is_null() && (*value).is_text(RAW, bytes) && length == 1
}

/// Returns whether the handle of a key has this layout: its block is large enough, and its members change as a value is set and deleted. The
/// key is one that doesn't exist.
unsafe fn has_handle_layout(server: Server) -> bool {
    let (api, context) = (server.api(), server.context());
    let (key, value) = (server.text_of(SCRATCH), server.text_of(b"0"));
    let handle = (api.open_key)(context, key, READ | WRITE);
    let has_value = |has_one: bool| {
        let now = members(handle);
        now.context == context.cast() && now.key == key.cast() && now.value.is_null() != has_one
    };
    let is_same = !handle.is_null()
        && (api.block_size)(handle.cast()) >= size_of::<Handle>()
        && has_value(false)
        && (api.set_string)(handle, value) == OK
        && {
            let is_value = has_value(true) && has_value_layout(server, handle);
            (api.delete_key)(handle) == OK && is_value && has_value(false)
        };
    (api.close_key)(handle);
    (api.free_text)(context, value);
    (api.free_text)(context, key);
    is_same
}

/// Returns whether direct reads must still be checked against GET.
pub fn is_checked() -> bool {
    CHECKS_LEFT.load(Ordering::Relaxed) > 0
}

/// Disables direct reads.
fn end(server: Server) {
    IS_KNOWN.store(false, Ordering::Relaxed);
    CHECKS_LEFT.store(NEVER, Ordering::Relaxed);
    server.warn("this server keeps integers otherwise than its release: the module no longer reads them in place");
}

/// Counts a direct read that was checked against GET, or disables direct reads after a mismatch.
pub fn count(server: Server, is_same: bool) {
    let left = CHECKS_LEFT.load(Ordering::Relaxed);
    if !is_same {
        end(server);
    } else if left != NEVER {
        CHECKS_LEFT.store(left.saturating_sub(1), Ordering::Relaxed);
    }
}

/// Returns whether the setting allows direct reads.
pub fn is_allowed() -> bool {
    IS_ALLOWED.load(Ordering::Relaxed)
}

/// Applies the setting: direct reads start again with their checks against GET, if the layouts are known.
pub fn allow(is_allowed: bool) {
    IS_ALLOWED.store(is_allowed, Ordering::Relaxed);
    let is_on = is_allowed && IS_KNOWN.load(Ordering::Relaxed);
    CHECKS_LEFT.store(if is_on { CHECKS } else { NEVER }, Ordering::Relaxed);
}

/// Returns the release of this server, or why the module can't read directly on it.
unsafe fn known_release(server: Server) -> Result<&'static Release, &'static str> {
    if !cfg!(all(target_endian = "little", target_pointer_width = "64")) {
        return Err("this isn't a machine of 64 bits with the least significant byte first");
    }
    let release = RELEASES.iter().find(|it| it.number == server.release());
    let release = release.ok_or("this isn't Redis 7.0 or 8.0, or Valkey 8.1")?;
    FLAGS.store(release.flags, Ordering::Relaxed);
    if !has_layout(server) {
        Err("its strings have another layout")
    } else if !has_handle_layout(server) {
        Err("its handles of keys have another layout")
    } else {
        Ok(release)
    }
}

/// Enables direct reads if the server has the release and the layouts and the setting allows it, and logs which way is taken.
///
/// # Safety
/// It must be called while the server loads the module, after the settings.
pub unsafe fn begin(server: Server) {
    let release = known_release(server);
    if let Ok(release) = release {
        shared::begin(server, release.shares);
    }
    IS_KNOWN.store(release.is_ok(), Ordering::Relaxed);
    allow(is_allowed());
    let ways = if raw::is_allowed() {
        "integers are read and written as raw strings (jentry.raw)"
    } else {
        "integers are read by GET and written by SET"
    };
    match release {
        Ok(_) if is_allowed() => server.notice("integers are read and written in place"),
        Ok(_) => server.notice(&format!("{ways}: jentry.direct is no")),
        Err(why) => server.notice(&format!("{ways}: {why}")),
    }
}

/// Reads the value of an open key directly. Returns `None` if the API reports something else about the key.
unsafe fn value_at(key: *mut Text, mut place: Place) -> Option<Found> {
    // SAFETY: `begin` has found this layout.
    let inside = members(place.handle);
    let (api, context) = (place.server.api(), place.server.context());
    if inside.context != context.cast() || inside.key != key.cast() {
        return None;
    }
    let length = (api.length)(place.handle);
    let object = match NonNull::new(inside.value) {
        Some(object) => *object.as_ref(),
        None => return (length == 0).then_some(Found::Place(place)),
    };
    if object.kind != INTEGER {
        return Some(Found::Unknown);
    }
    let payload = object.payload;
    if object.references() == SHARED {
        shared::learn(payload, inside.value);
    }
    place.may_expire = (api.expire)(place.handle) != NO_EXPIRE;
    (place.object, place.read) = (NonNull::new(inside.value), payload);
    (length == length_of(payload)).then_some(Found::Place(place))
}

/// Reads the value of a key directly.
///
/// # Safety
/// `key` must be a string of the server.
pub unsafe fn look(server: Server, key: *mut Text, access: Access) -> Found {
    if CHECKS_LEFT.load(Ordering::Relaxed) == NEVER {
        return Found::Unknown;
    }
    let mode = if access == Access::Write { READ | WRITE } else { READ };
    let handle: *mut Key = (server.api().open_key)(server.context(), key, mode);
    if handle.is_null() {
        return Found::Absent;
    }
    let place = Place { server, handle, object: None, read: 0, may_expire: false };
    value_at(key, place).unwrap_or_else(|| {
        end(server);
        Found::Unknown
    })
}

/// Reads an entry that a SET has just given a value, if the shared object of the value isn't known.
///
/// # Safety
/// `key` must be a string of the server.
pub unsafe fn learn(server: Server, key: *mut Text, value: i64) {
    let is_shared = shared::sharing_of(value) == Sharing::ByModule;
    if is_shared && shared::object_of::<Object>(value).is_null() {
        look(server, key, Access::Read);
    }
}

/// Does what a SET of the value with KEEPTTL does, if the module can write the value itself: writes it, notifies clients that watch or track
/// the key and subscribers to events, and writes the SET to the AOF and to replicas. Returns false without doing anything if it can't.
///
/// The SET gets the object itself as its argument. If it is written to a file or a replica, the server keeps the object until the end of
/// the command, so a second run on the entry in the same command finds that others refer to it.
///
/// The event comes last: it runs the functions of other modules, which may delete the key and with it the object. So a change that they make
/// is also written behind the SET, in the order in which it happened.
///
/// # Safety
/// `words` must be the command's arguments, `key` a string of the server, and `place` the result of a read of it for writing in this
/// command; the entry must not have changed since.
pub unsafe fn write(
    server: Server,
    words: Words,
    key: *mut Text,
    place: Place,
    value: i64,
) -> bool {
    let (object, may_expire) = match place.write(value) {
        Some(object) => (object, place.may_expire),
        None => return false,
    };
    drop(place);
    (server.api().signal_modified)(server.context(), key);
    replicate::set(server, words, key, object.as_ptr().cast::<Text>(), may_expire);
    (server.api().notify)(server.context(), OF_STRINGS, b"set\0".as_ptr().cast(), key);
    true
}
