//! The module's state: the classes, and the counters for INFO.
use crate::api::{Context, InfoContext};
use crate::classes::Classes;
use crate::engine::{Done, Engine, THREW};
use crate::protocol::{EXCEPTIONS, REFUSALS};
use crate::server::api;
use std::fmt::Arguments;
use std::io::Write;
use std::os::raw::c_int;
use std::ptr::null_mut;
use std::sync::atomic::{AtomicPtr, AtomicU64, Ordering};

/// A number that the main thread alone changes, and that a crash report reads, on whichever thread and in the middle of whichever command.
pub struct Count(AtomicU64);

impl Count {
    #[allow(clippy::declare_interior_mutable_const)]
    const ZERO: Count = Count(AtomicU64::new(0));

    fn get(&self) -> u64 {
        self.0.load(Ordering::Relaxed)
    }

    pub fn set(&self, number: u64) {
        self.0.store(number, Ordering::Relaxed);
    }

    pub fn add(&self, number: u64) {
        self.set(self.get().wrapping_add(number));
    }
}

/// Counts of the classes, and since the start of the server.
pub struct Counters {
    pub classes: Count,
    pub class_bytes: Count,
    runs: Count,
    steps: Count,
    pub costly: Count,
    /// One count for each exception, from number 1 on.
    exceptions: [Count; EXCEPTIONS.len()],
    /// One count for each refusal, from number 1 on.
    refusals: [Count; REFUSALS.len()],
}

pub static COUNTERS: Counters = Counters {
    classes: Count::ZERO,
    class_bytes: Count::ZERO,
    runs: Count::ZERO,
    steps: Count::ZERO,
    costly: Count::ZERO,
    exceptions: [Count::ZERO; EXCEPTIONS.len()],
    refusals: [Count::ZERO; REFUSALS.len()],
};

/// Increments the count for a number that starts at 1.
fn count_in(counts: &[Count], number: u64) {
    let place = usize::try_from(number).ok().and_then(|number| number.checked_sub(1));
    if let Some(count) = place.and_then(|place| counts.get(place)) {
        count.add(1);
    }
}

impl Counters {
    pub fn ran(&self, done: &Done) {
        self.runs.add(1);
        self.steps.add(done.steps.into());
        if done.outcome == THREW {
            count_in(&self.exceptions, done.value.unsigned_abs());
        }
    }

    pub fn refused(&self, refusal: u32) {
        count_in(&self.refusals, refusal.into());
    }
}

pub struct State {
    pub classes: Classes,
}

static STATE: AtomicPtr<State> = AtomicPtr::new(null_mut());

/// Creates the state, for the lifetime of the server.
pub fn begin(engine: Engine) {
    let state = Box::new(State { classes: Classes::new(engine) });
    STATE.store(Box::into_raw(state), Ordering::Release);
}

/// Runs an action on the state. The action must not call a server function that runs commands, since such a command could be one of the
/// module.
///
/// # Safety
/// `begin` must have been called, and this must be the server's main thread: only that one calls the module's functions, and the I/O
/// threads run no commands.
pub unsafe fn with_state<T>(action: impl FnOnce(&mut State) -> T) -> T {
    action(&mut *STATE.load(Ordering::Acquire))
}

/// The most bytes of a field's name, with the zero byte at its end.
const MOST_NAME: usize = 32;

/// Writes one field of INFO, without allocating.
unsafe fn tell(context: *mut InfoContext, name: Arguments, count: &Count) {
    let mut text = [0; MOST_NAME];
    // A name that is too long is cut off before the last zero byte.
    let _ = text.get_mut(..MOST_NAME - 1).map(|mut room| room.write_fmt(name));
    (api().info_count)(context, text.as_ptr().cast(), count.get());
}

/// Writes the section `jentry` of INFO. Redis puts the module's name and `_` before the name of each field. A crash report calls it, too, so
/// it reads the counters alone.
///
/// # Safety
/// Only Redis may call it.
pub unsafe extern "C" fn inform(context: *mut InfoContext, _is_crash: c_int) {
    (api().info_section)(context, b"\0".as_ptr().cast());
    let told = &COUNTERS;
    tell(context, format_args!("classes"), &told.classes);
    tell(context, format_args!("class_bytes"), &told.class_bytes);
    tell(context, format_args!("runs_total"), &told.runs);
    tell(context, format_args!("steps_total"), &told.steps);
    for (number, count) in (1..).zip(&told.exceptions) {
        tell(context, format_args!("exceptions_{number}_total"), count);
    }
    for (number, count) in (1..).zip(&told.refusals) {
        tell(context, format_args!("refusals_{number}_total"), count);
    }
    tell(context, format_args!("costly_total"), &told.costly);
}

/// Registers the function for INFO. Returns whether that succeeded.
///
/// # Safety
/// `context` must be the one of the module's load.
pub unsafe fn register(context: *mut Context) -> bool {
    (api().register_informer)(context, inform) == crate::api::OK
}
