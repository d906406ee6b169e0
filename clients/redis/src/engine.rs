//! The verified core, through the interface of `clients/c/jentry.h`.
use crate::protocol::{EXCEPTIONS, REFUSALS};
use crate::texts::{line_of, MOST_TEXT};
use std::ffi::c_void;
use std::mem::size_of;
use std::ptr::null_mut;

/// A verdict: if `refusal` is 0 the class is accepted and has a number and bounds.
#[repr(C)]
#[derive(Clone, Copy, Default)]
pub struct Verdict {
    pub refusal: u32,
    pub detail: u32,
    pub number: u32,
    pub steps: u32,
    pub words: u32,
    pub slots: u32,
    pub depth: u32,
    pub id: [u8; 20],
}

/// An argument, of the kind `NULL`, `LONG`, `INTEGER` or `BOOLEAN`.
#[repr(C)]
#[derive(Clone, Copy, Default)]
pub struct Arg {
    pub kind: u32,
    pub unused: u32,
    pub value: i64,
}

/// A call on an entry.
#[repr(C)]
#[derive(Clone, Copy, Default)]
pub struct Call {
    pub number: u32,
    pub present: u32,
    pub key: i64,
    pub before: i64,
}

/// The outcome of a call.
#[repr(C)]
#[derive(Clone, Copy, Default)]
pub struct Done {
    pub outcome: u32,
    pub effect: u32,
    pub value: i64,
    pub put: i64,
    pub steps: u32,
    pub words: u32,
    pub left: u32,
    /// The index of the text of an exception that the processor itself threw, -1 without a text, or 0 for any other end.
    pub text: i32,
}

pub const NULL: u32 = 0;
pub const LONG: u32 = 1;
pub const INTEGER: u32 = 2;
pub const THREW: u32 = 3;
pub const NO_CLASS: u32 = 4;
pub const BOOLEAN: u32 = 7;
pub const KEEP: u32 = 0;
pub const PUT: u32 = 1;
pub const UNTOUCHED: u32 = 0;
pub const SET: u32 = 1;

/// The handle of the core's engine.
#[repr(C)]
struct Handle {
    at: *mut c_void,
    open: bool,
    unused: [u8; 7],
}

// The sizes that jentry.h asserts too.
const _: [(); 16] = [(); size_of::<Handle>()];
const _: [(); 48] = [(); size_of::<Verdict>()];
const _: [(); 16] = [(); size_of::<Arg>()];
const _: [(); 24] = [(); size_of::<Call>()];
const _: [(); 40] = [(); size_of::<Done>()];

extern "C" {
    fn jentry_open(handle: *mut Handle) -> u32;
    fn jentry_close(handle: *mut Handle);
    fn jentry_define(handle: *mut Handle, bytes: *const u8, length: usize, verdict: *mut Verdict);
    fn jentry_forget(handle: *mut Handle, number: u32) -> u32;
    fn jentry_invoke(
        handle: *mut Handle,
        call: *const Call,
        args: *const Arg,
        count: usize,
        done: *mut Done,
    );
    fn jentry_text(
        handle: *mut Handle,
        number: u32,
        index: u32,
        text: *mut u8,
        room: usize,
    ) -> usize;
    fn jentry_explain(bytes: *const u8, length: usize, text: *mut u8, room: usize) -> usize;
}

/// An engine. Only the thread that runs commands uses it.
pub struct Engine {
    handle: Handle,
}

impl Done {
    /// Returns whether the class was run. The outcomes between `THREW` and `BOOLEAN` are of denied calls.
    pub fn has_run(&self) -> bool {
        self.outcome <= THREW || self.outcome == BOOLEAN
    }
}

impl Engine {
    /// Creates an engine. Returns `None` if memory runs out.
    pub fn new() -> Option<Engine> {
        let mut handle = Handle { at: null_mut(), open: false, unused: [0; 7] };
        // SAFETY: the handle is zero-initialised.
        let answer = unsafe { jentry_open(&mut handle) };
        (answer == 0).then_some(Engine { handle })
    }

    /// Verifies a class, and keeps it if it is accepted.
    pub fn define(&mut self, bytes: &[u8]) -> Verdict {
        let mut verdict = Verdict::default();
        // SAFETY: the handle is the engine's own, and a slice's pointer is never null.
        unsafe { jentry_define(&mut self.handle, bytes.as_ptr(), bytes.len(), &mut verdict) };
        verdict
    }

    /// Removes the class with this number.
    pub fn forget(&mut self, number: u32) {
        // SAFETY: the handle is the engine's own.
        unsafe { jentry_forget(&mut self.handle, number) };
    }

    /// Runs a class on an entry.
    pub fn invoke(&mut self, call: &Call, args: &[Arg]) -> Done {
        let mut done = Done::default();
        // SAFETY: the handle is the engine's own, and a slice's pointer is never null.
        unsafe { jentry_invoke(&mut self.handle, call, args.as_ptr(), args.len(), &mut done) };
        done
    }

    /// Returns the text of an exception that the class with this number threw, as a part of a line, or `None` if the exception has none.
    pub fn text(&mut self, number: u32, index: i32) -> Option<String> {
        let index = u32::try_from(index).ok().filter(|index| *index > 0)?;
        let mut bytes = [0; MOST_TEXT];
        // SAFETY: the handle is the engine's own, and the array has this length.
        let length = unsafe {
            jentry_text(&mut self.handle, number, index, bytes.as_mut_ptr(), bytes.len())
        };
        Some(line_of(bytes.get(..length).unwrap_or(&bytes), length))
    }
}

impl Drop for Engine {
    fn drop(&mut self) {
        // SAFETY: the handle is the engine's own.
        unsafe { jentry_close(&mut self.handle) };
    }
}

/// The initial buffer size for an explanation, in bytes. If the text is longer, the class is verified a second time.
const ROOM: usize = 1 << 17;

/// Returns what `jentry explain` prints for a class file, or an empty text if memory runs out.
pub fn explain(bytes: &[u8]) -> Vec<u8> {
    let mut text = Vec::new();
    let mut room = ROOM;
    // The second attempt is for a text that doesn't fit in the first buffer.
    for _ in 0..2 {
        if text.try_reserve_exact(room).is_err() {
            return Vec::new();
        }
        text.resize(room, 0);
        // SAFETY: the text has `room` bytes.
        let length =
            unsafe { jentry_explain(bytes.as_ptr(), bytes.len(), text.as_mut_ptr(), room) };
        if length <= room {
            text.truncate(length);
            return text;
        }
        room = length;
    }
    text
}

/// Returns the name of a number that starts at 1.
fn named(names: &[&'static str], number: i64) -> &'static str {
    usize::try_from(number)
        .ok()
        .and_then(|number| names.get(number.checked_sub(1)?))
        .copied()
        .unwrap_or("Unknown")
}

/// Returns the name of a refusal.
pub fn refusal_name(number: u32) -> &'static str {
    named(&REFUSALS, number.into())
}

/// Returns the name of an exception.
pub fn exception_name(number: i64) -> &'static str {
    named(&EXCEPTIONS, number)
}
