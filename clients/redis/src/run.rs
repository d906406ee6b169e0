//! The commands that run a class on an entry.
use crate::api::Text;
use crate::classes::{Place, NO_CLASS_HERE};
use crate::config::{most_steps, STEPS_SETTING};
use crate::engine::{
    exception_name, Arg, Call, Done, BOOLEAN, INTEGER, KEEP, LONG, NO_CLASS, NULL, PUT, THREW,
};
use crate::entry::{self, Access, Entry, Lifetime};
use crate::server::{Answer, Failure, Server, Words};
use crate::state::{with_state, COUNTERS};
use crate::words::{arg_of, key_of, long_of};

const MOST_ARGS: usize = 8;

/// A class and its arguments, to run on one or more keys.
pub struct Plan {
    place: Place,
    /// The most instructions of a run.
    steps: u32,
    args: [Arg; MOST_ARGS],
    count: usize,
}

impl Plan {
    /// Looks up the class whose id is the argument at this index.
    pub fn of_class(words: Words, id: usize) -> Result<Plan, Failure> {
        let digits = words.bytes(id)?;
        // SAFETY: commands run on the main thread, after the load.
        let (place, steps) = unsafe { with_state(|state| state.classes.place(digits))? };
        Ok(Plan { place, steps, args: [Arg::default(); MOST_ARGS], count: 0 })
    }

    /// Adds all of these words as arguments.
    pub fn with_args(mut self, words: Words) -> Result<Plan, Failure> {
        self.count = words.count();
        if self.count > MOST_ARGS {
            return Err("ERR more than eight arguments".into());
        }
        for (place, arg) in self.args.iter_mut().enumerate().take(self.count) {
            *arg = arg_of(words.bytes(place)?).ok_or_else(|| {
                format!("ERR argument {} is no long, Integer, Boolean or null", place + 1)
            })?;
        }
        Ok(self)
    }

    /// Checks that runs on this many keys take no more instructions together than the server allows. A run on one key is always allowed,
    /// because DEFINE has checked it.
    fn held_to(self, keys: usize, most: u32) -> Result<Plan, Failure> {
        let steps = keys as u64 * u64::from(self.steps);
        if keys > 1 && steps > most.into() {
            return Err(format!(
                "COSTLY steps {steps} on {keys} keys, and this server takes {most} ({STEPS_SETTING}): name fewer keys"
            )
            .into());
        }
        Ok(self)
    }

    /// Runs the class on the entry `before`. Returns its result and what to do to the entry, but changes nothing.
    pub fn run(&self, key: i64, before: Option<i64>) -> Result<Done, Failure> {
        let call = Call {
            present: before.is_some().into(),
            key,
            before: before.unwrap_or(0),
            ..Call::default()
        };
        let args = self.args.get(..self.count).unwrap_or(&[]);
        // SAFETY: commands run on the main thread, after the load.
        let done = unsafe { with_state(|state| state.classes.invoke(self.place, &call, args)) };
        if done.has_run() {
            COUNTERS.ran(&done);
        }
        match done.outcome {
            NULL | LONG | INTEGER | BOOLEAN => Ok(done),
            THREW => Err(self.thrown(&done).into()),
            NO_CLASS => Err(NO_CLASS_HERE.into()),
            denied => Err(format!("ERR the engine denied the call ({denied})").into()),
        }
    }

    /// Returns the error for an exception: its number, its name, and the text that the processor gave it, if there is one. An empty text leaves a
    /// space behind the name.
    fn thrown(&self, done: &Done) -> String {
        // SAFETY: commands run on the main thread, after the load.
        let text = unsafe { with_state(|state| state.classes.text(self.place, done.text)) };
        let told = format!("THREW {} {}", done.value, exception_name(done.value));
        match text {
            Some(text) => format!("{told} {text}"),
            None => told,
        }
    }
}

/// Returns the processor's key for a Redis key.
pub fn number_of(name: &[u8]) -> Result<i64, Failure> {
    key_of(name).ok_or_else(|| "ERR the key doesn't end in a decimal long".into())
}

/// Applies the effect of a run to the entry.
fn apply(server: Server, words: Words, key: *mut Text, before: Entry, done: &Done) -> Answer {
    // SAFETY: the key is an argument of the command.
    unsafe {
        match done.effect {
            KEEP => Ok(()),
            PUT => entry::set(server, words, key, before, done.put, Lifetime::Keep),
            _ => entry::delete(server, key, before),
        }
    }
}

/// Replies the result of a run; a Boolean as 1 or 0.
pub fn reply_value(server: Server, done: &Done) {
    if done.outcome == NULL {
        server.reply_null();
    } else {
        server.reply_long(done.value);
    }
}

/// Replies the type of the result.
pub fn reply_type(server: Server, done: &Done) {
    server.reply_text(match done.outcome {
        NULL => b"null",
        LONG => b"Long",
        INTEGER => b"Integer",
        _ => b"Boolean",
    });
}

/// Replies the effect of a run on the entry. A put of the unchanged value is `keep`, because the core reports what must be done.
pub fn reply_effect(server: Server, done: &Done) {
    server.reply_text(match done.effect {
        KEEP => b"keep",
        PUT => b"put",
        _ => b"delete",
    });
}

/// Runs a plan on the entry of a key, which is an argument of the command and whose processor key is `number`, and applies its effect.
fn invoke_on(
    server: Server,
    words: Words,
    plan: &Plan,
    key: *mut Text,
    number: i64,
) -> Result<Done, Failure> {
    // SAFETY: the key is an argument of the command.
    let before = unsafe { entry::read(server, key, Access::Write)? };
    let done = plan.run(number, before.value)?;
    apply(server, words, key, before, &done)?;
    Ok(done)
}

/// Runs `ID KEY [ARG ..]`.
fn one(server: Server, words: Words) -> Result<Done, Failure> {
    let (key, name) = (words.text(2)?, words.bytes(2)?);
    let plan = Plan::of_class(words, 1)?;
    let number = number_of(name)?;
    invoke_on(server, words, &plan.with_args(words.from(3))?, key, number)
}

/// JENTRY.INVOKE ID KEY [ARG ..]: runs a class and replies its result.
pub fn invoke(server: Server, words: Words) -> Answer {
    let done = one(server, words)?;
    reply_value(server, &done);
    Ok(())
}

/// JENTRY.DETAIL ID KEY [ARG ..]: replies the result, its type, the effect, the instructions and the array words.
pub fn detail(server: Server, words: Words) -> Answer {
    let done = one(server, words)?;
    server.reply_array(5);
    reply_value(server, &done);
    reply_type(server, &done);
    reply_effect(server, &done);
    server.reply_long(done.steps.into());
    server.reply_long(done.words.into());
    Ok(())
}

/// JENTRY.PEEK ID KEY [ARG ..]: replies the result if the run doesn't change the entry, else an error.
pub fn peek(server: Server, words: Words) -> Answer {
    let (key, name) = (words.text(2)?, words.bytes(2)?);
    let plan = Plan::of_class(words, 1)?;
    let number = number_of(name)?;
    let plan = plan.with_args(words.from(3))?;
    // SAFETY: the key is an argument of the command.
    let done = plan.run(number, unsafe { entry::read(server, key, Access::Read)?.value })?;
    if done.effect != KEEP {
        return Err("WRITES the processor changes the entry: JENTRY.INVOKE it".into());
    }
    reply_value(server, &done);
    Ok(())
}

/// JENTRY.INVOKEALL ID N KEY .. [ARG ..]: replies for each key, in order, the result of its run or its error.
pub fn invoke_all(server: Server, words: Words) -> Answer {
    let count = long_of(words.bytes(2)?).ok_or("ERR value is not an integer or out of range")?;
    let count = usize::try_from(count)
        .ok()
        .filter(|count| *count > 0)
        .ok_or("ERR numkeys should be greater than 0")?;
    if count > words.from(3).count() {
        return Err("ERR Number of keys can't be greater than number of args".into());
    }
    let plan = Plan::of_class(words, 1)?.with_args(words.from(3 + count))?;
    let plan = plan.held_to(count, most_steps())?;
    server.reply_array(count);
    for place in 3..3 + count {
        let done = number_of(words.bytes(place)?)
            .and_then(|number| invoke_on(server, words, &plan, words.text(place)?, number));
        match done {
            Ok(done) => reply_value(server, &done),
            Err(failure) => server.reply_failure(failure),
        }
    }
    Ok(())
}
