//! The users who may change the classes: the setting `jentry.deployers`, next to the rules of Redis's ACL.
use crate::api::{Context, Text, CONFIG_DEFAULT, IS_ASYNC_LOADING, IS_LOADING, IS_REPLICATED, OK};
use crate::server::{api, Answer, Server};
use std::ffi::c_void;
use std::os::raw::{c_char, c_int};
use std::ptr::null_mut;
use std::slice;
use std::sync::atomic::{AtomicBool, AtomicPtr, Ordering};

/// The names of the users with blanks between them, or no name, for all users. It is null until the setting is registered.
static DEPLOYERS: AtomicPtr<Text> = AtomicPtr::new(null_mut());
/// Whether the running command brings a class from another node of the cluster.
static IS_FROM_NODE: AtomicBool = AtomicBool::new(false);

/// Runs an action whose commands bring classes from another node of the cluster.
pub fn from_node<T>(action: impl FnOnce() -> T) -> T {
    IS_FROM_NODE.store(true, Ordering::Relaxed);
    let told = action();
    IS_FROM_NODE.store(false, Ordering::Relaxed);
    told
}

/// Returns whether a master, a file or another node has accepted the command already.
pub fn is_settled(server: Server) -> bool {
    // While a replica loads beside its old entries, clients send commands, too.
    let is_file = server.is(IS_LOADING) && !server.is(IS_ASYNC_LOADING);
    server.is(IS_REPLICATED) || is_file
}

/// Returns the bytes of a string of the server, or none of a null pointer.
unsafe fn bytes_of<'a>(text: *mut Text) -> &'a [u8] {
    if text.is_null() {
        return &[];
    }
    let mut length = 0;
    slice::from_raw_parts((api().text_bytes)(text, &mut length), length)
}

/// Fails if the setting doesn't allow the command's user to change the classes.
pub fn check(server: Server) -> Answer {
    // SAFETY: only the main thread changes the setting, and not during a command of the module.
    let names = unsafe { bytes_of(DEPLOYERS.load(Ordering::Relaxed)) };
    let mut names = names.split(u8::is_ascii_whitespace).filter(|name| !name.is_empty()).peekable();
    if names.peek().is_none() || is_settled(server) || IS_FROM_NODE.load(Ordering::Relaxed) {
        return Ok(());
    }
    match server.user() {
        Some(user) if names.any(|name| *name == *user) => Ok(()),
        _ => Err("NOPERM only the users of jentry.deployers may change the classes".into()),
    }
}

unsafe extern "C" fn get(_name: *const c_char, _data: *mut c_void) -> *mut Text {
    DEPLOYERS.load(Ordering::Relaxed)
}

unsafe extern "C" fn set(
    _name: *const c_char,
    value: *mut Text,
    _data: *mut c_void,
    _error: *mut *mut Text,
) -> c_int {
    let bytes = bytes_of(value);
    let copy = (api().create_text)(null_mut(), bytes.as_ptr().cast(), bytes.len());
    let old = DEPLOYERS.swap(copy, Ordering::Relaxed);
    if !old.is_null() {
        (api().free_text)(null_mut(), old);
    }
    OK
}

/// Registers the setting. Returns whether that succeeded.
///
/// # Safety
/// `context` must be the one of the module's load.
pub unsafe fn register(context: *mut Context) -> bool {
    (api().register_text)(
        context,
        b"deployers\0".as_ptr().cast(),
        b"\0".as_ptr().cast(),
        CONFIG_DEFAULT,
        get,
        set,
        null_mut(),
        null_mut(),
    ) == OK
}
