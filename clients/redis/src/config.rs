//! The configuration: `max-steps`, the maximum number of instructions that a command may take on this server, and how the module may read
//! and write values itself.
use crate::api::{Context, GetBool, SetBool, Text, CONFIG_DEFAULT, OK};
use crate::direct;
use crate::raw;
use crate::rights;
use crate::server::{api, Server, Words};
use crate::words::long_of;
use std::ffi::c_void;
use std::os::raw::{c_char, c_int, c_longlong};
use std::ptr::null_mut;
use std::sync::atomic::{AtomicU32, Ordering};

/// The value if neither the module's arguments nor the configuration set it.
const DEFAULT_STEPS: u32 = 200_000;
/// No accepted class takes more instructions than this.
const MOST_STEPS: u32 = 4_000_000;

/// The name of the setting, for the errors that it causes.
pub const STEPS_SETTING: &str = "jentry.max-steps";

static MAX_STEPS: AtomicU32 = AtomicU32::new(DEFAULT_STEPS);

/// Returns the maximum number of instructions that a class may have when it is defined.
pub fn most_steps() -> u32 {
    MAX_STEPS.load(Ordering::Relaxed)
}

unsafe extern "C" fn get(_name: *const c_char, _data: *mut c_void) -> c_longlong {
    most_steps().into()
}

/// Sets the value. Redis has checked its range.
unsafe extern "C" fn set(
    _name: *const c_char,
    number: c_longlong,
    _data: *mut c_void,
    _error: *mut *mut Text,
) -> c_int {
    MAX_STEPS.store(u32::try_from(number).unwrap_or(MOST_STEPS), Ordering::Relaxed);
    OK
}

unsafe extern "C" fn get_direct(_name: *const c_char, _data: *mut c_void) -> c_int {
    direct::is_allowed().into()
}

unsafe extern "C" fn set_direct(
    _name: *const c_char,
    value: c_int,
    _data: *mut c_void,
    _error: *mut *mut Text,
) -> c_int {
    direct::allow(value != 0);
    OK
}

unsafe extern "C" fn get_raw(_name: *const c_char, _data: *mut c_void) -> c_int {
    raw::is_allowed().into()
}

unsafe extern "C" fn set_raw(
    _name: *const c_char,
    value: c_int,
    _data: *mut c_void,
    _error: *mut *mut Text,
) -> c_int {
    raw::allow(value != 0);
    OK
}

/// What the module's arguments may say.
struct Arguments {
    steps: u32,
    is_direct: bool,
    is_raw: bool,
}

/// Parses `yes` or `no`.
fn bool_of(word: &[u8]) -> Option<bool> {
    match word {
        b"yes" => Some(true),
        b"no" => Some(false),
        _ => None,
    }
}

/// Parses the module's arguments, pairs of a name and a value. Returns `None` if they are invalid.
fn read(words: Words) -> Option<Arguments> {
    let mut read = Arguments { steps: DEFAULT_STEPS, is_direct: true, is_raw: false };
    for place in (0..words.count()).step_by(2) {
        let name = words.bytes(place).ok()?.to_ascii_lowercase();
        let value = words.bytes(place + 1).ok()?;
        match &*name {
            b"max-steps" => {
                let number = long_of(value).and_then(|number| u32::try_from(number).ok());
                read.steps = number.filter(|number| (1..=MOST_STEPS).contains(number))?;
            }
            b"direct" => read.is_direct = bool_of(value)?,
            b"raw" => read.is_raw = bool_of(value)?,
            _ => return None,
        }
    }
    Some(read)
}

unsafe fn register_steps(context: *mut Context, steps: u32) -> bool {
    let name = b"max-steps\0".as_ptr().cast();
    (api().register_number)(
        context,
        name,
        steps.into(),
        CONFIG_DEFAULT,
        1,
        MOST_STEPS.into(),
        get,
        set,
        null_mut(),
        null_mut(),
    ) == OK
}

unsafe fn register_bool(
    context: *mut Context,
    name: &'static [u8],
    value: bool,
    get: GetBool,
    set: SetBool,
) -> bool {
    let (name, nothing) = (name.as_ptr().cast(), null_mut());
    let register = api().register_bool;
    register(context, name, value.into(), CONFIG_DEFAULT, get, set, nothing, null_mut()) == OK
}

/// Applies the module's arguments, and registers the settings for CONFIG. Returns whether that succeeded.
///
/// # Safety
/// `context` must be the one of the module's load.
pub unsafe fn register(context: *mut Context, words: Words) -> bool {
    let server = Server::of(context);
    let arguments = match read(words) {
        Some(arguments) => arguments,
        None => {
            server.warn("the module's words are `max-steps N`, where N is a number from 1 to 4000000, and `direct` and `raw`, with `yes` or `no`");
            return false;
        }
    };
    MAX_STEPS.store(arguments.steps, Ordering::Relaxed);
    direct::allow(arguments.is_direct);
    raw::allow(arguments.is_raw);
    register_steps(context, arguments.steps)
        && register_bool(context, b"direct\0", arguments.is_direct, get_direct, set_direct)
        && register_bool(context, b"raw\0", arguments.is_raw, get_raw, set_raw)
        && rights::register(context)
        && (api().load_configs)(context) == OK
}
