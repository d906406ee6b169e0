//! Writes the SET of a run to the AOF and to replicas.
//!
//! `Replicate` looks up its command and copies its arguments, which costs more than the run. `ReplicateVerbatim` uses the arguments of the
//! running command as they are. So the module temporarily replaces them with those of a SET, if the number of arguments is the same, on
//! releases where the command's function gets the client's own arguments and no copy of them.
use crate::api::Text;
use crate::server::{Server, Words};
use std::ptr::null_mut;
use std::sync::atomic::{AtomicPtr, Ordering};

/// The releases whose arguments are known to be the client's own: Redis 7.0 and 8.0, and Valkey 8.1. On others the tests of what is logged
/// have to run before they are listed here.
const KNOWN: [i32; 3] = [0x0700, 0x0800, 0x0801];

/// The arguments of a SET other than key and value; they exist for the server's life. They are null on another release.
static SET: AtomicPtr<Text> = AtomicPtr::new(null_mut());
static KEEPTTL: AtomicPtr<Text> = AtomicPtr::new(null_mut());

/// Creates the arguments of a SET, if the module may replace those of a command by them.
///
/// # Safety
/// It must be called while the server loads the module.
pub unsafe fn begin(server: Server) {
    if KNOWN.contains(&server.release()) {
        SET.store(server.text_of(b"SET"), Ordering::Relaxed);
        KEEPTTL.store(server.text_of(b"KEEPTTL"), Ordering::Relaxed);
    }
}

/// Writes the SET of a value to the AOF and to replicas. If the entry has no time to live, KEEPTTL makes no difference.
///
/// # Safety
/// `words` must be the command's arguments, and `key` and `value` strings of the server.
pub unsafe fn set(server: Server, words: Words, key: *mut Text, value: *mut Text, ttl: bool) {
    let (set, keep) = (SET.load(Ordering::Relaxed), KEEPTTL.load(Ordering::Relaxed));
    let (api, context, name) = (server.api(), server.context(), b"SET\0".as_ptr().cast());
    match (words.count(), ttl) {
        (4, _) if !set.is_null() => {
            words.with([set, key, value, keep], || server.replicate_verbatim());
        }
        (3, false) if !set.is_null() => {
            words.with([set, key, value], || server.replicate_verbatim());
        }
        (_, true) => {
            let keep = b"KEEPTTL\0".as_ptr();
            (api.replicate)(context, name, b"ssc\0".as_ptr().cast(), key, value, keep);
        }
        (_, false) => {
            (api.replicate)(context, name, b"ss\0".as_ptr().cast(), key, value);
        }
    }
}
