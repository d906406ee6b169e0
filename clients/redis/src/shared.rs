//! The integers that Redis shares among all keys: one object for each of 0 to 9,999, which lasts as long as the server. Valkey 8.1 shares none
//! among keys.
//!
//! With an eviction by age or by use Redis shares none, since that needs an age for each key. The module learns an object's address when it
//! reads an entry that has it.
use crate::api::{Context, Event};
use crate::server::{Called, Server};
use std::ffi::c_void;
use std::os::raw::c_int;
use std::ptr::null_mut;
use std::sync::atomic::{AtomicPtr, AtomicU8, Ordering};

/// The number of integers that Redis shares.
const COUNT: usize = 10_000;
/// The modules that learn of no change of a key: this one, and the vector sets that are part of Redis 8.0.
const QUIET: [&[u8]; 2] = [b"jentry", b"vectorset"];
/// The event class for keys that are new (`NOTIFY_NEW`).
const OF_NEW_KEYS: c_int = 1 << 14;
/// The server events for a change of a setting, and of the modules.
const MODULES_CHANGED: Event = Event { number: 9, version: 1 };
const SETTINGS_CHANGED: Event = Event { number: 16, version: 1 };

/// How entries get small integers.
#[derive(Clone, Copy, PartialEq, Eq)]
pub enum Sharing {
    /// Each entry has an object of its own.
    None,
    /// They get a shared object, by a SET.
    BySet,
    /// They get a shared object by the module. This deletes the key and adds it, which nobody else may see.
    ByModule,
}

static SHARING: AtomicU8 = AtomicU8::new(Sharing::BySet as u8);

#[allow(clippy::declare_interior_mutable_const)]
const NOT_KNOWN: AtomicPtr<c_void> = AtomicPtr::new(null_mut());
static OBJECTS: [AtomicPtr<c_void>; COUNT] = [NOT_KNOWN; COUNT];

fn place_of(value: i64) -> Option<&'static AtomicPtr<c_void>> {
    usize::try_from(value).ok().and_then(|value| OBJECTS.get(value))
}

/// Returns how an entry gets this value.
pub fn sharing_of(value: i64) -> Sharing {
    if place_of(value).is_none() {
        return Sharing::None;
    }
    match SHARING.load(Ordering::Relaxed) {
        it if it == Sharing::None as u8 => Sharing::None,
        it if it == Sharing::ByModule as u8 => Sharing::ByModule,
        _ => Sharing::BySet,
    }
}

/// Keeps the shared object of a value.
pub fn learn<T>(value: i64, object: *mut T) {
    if let Some(place) = place_of(value) {
        place.store(object.cast(), Ordering::Relaxed);
    }
}

/// Returns the shared object of a value, or null if it isn't known.
pub fn object_of<T>(value: i64) -> *mut T {
    place_of(value).map_or(null_mut(), |place| place.load(Ordering::Relaxed)).cast()
}

/// Returns whether the server has modules that may learn of a change of a key.
unsafe fn has_listeners(server: Server) -> bool {
    let call = server.api().call;
    let name = b"MODULE\0".as_ptr().cast();
    let reply = call(server.context(), name, b"c\0".as_ptr().cast(), b"LIST\0".as_ptr());
    Called::of(server, reply).map_or(true, |called| {
        let is_quiet = |place| QUIET.iter().any(|name| called.is_module(place, name));
        !(0..called.length()).all(is_quiet)
    })
}

/// Finds out how the server shares integers now.
unsafe fn look_up(server: Server) {
    let ages = |policy: &[u8]| policy.ends_with(b"lru") || policy.ends_with(b"lfu");
    let evicts = !server.has_setting(b"maxmemory\0", |value| value == b"0");
    let sharing = if evicts && server.has_setting(b"maxmemory-policy\0", ages) {
        Sharing::None
    } else if (server.api().notified_events)() & OF_NEW_KEYS != 0 || has_listeners(server) {
        Sharing::BySet
    } else {
        Sharing::ByModule
    };
    SHARING.store(sharing as u8, Ordering::Relaxed);
}

unsafe extern "C" fn changed(context: *mut Context, _event: Event, _what: u64, _data: *mut c_void) {
    look_up(Server::of(context));
}

/// Finds out how the server shares integers, now and after each change of its settings and modules, if this release shares any.
///
/// # Safety
/// `server` must be of the module's load.
pub unsafe fn begin(server: Server, shares: bool) {
    if !shares {
        SHARING.store(Sharing::None as u8, Ordering::Relaxed);
        return;
    }
    let subscribe = server.api().subscribe;
    subscribe(server.context(), MODULES_CHANGED, changed);
    subscribe(server.context(), SETTINGS_CHANGED, changed);
    look_up(server);
}
