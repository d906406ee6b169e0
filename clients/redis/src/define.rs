//! The commands on classes, and the exchange of new classes between the nodes of a cluster.
use crate::api::{Context, IS_CLUSTER, IS_MASTER};
use crate::classes::{Class, Denial, Origin};
use crate::config::most_steps;
use crate::engine::{explain as explanation, Verdict};
use crate::rights;
use crate::server::{now, Answer, Called, Failure, Server, Words};
use crate::state::{with_state, COUNTERS};
use crate::words::{digits_of, id_of, no_id};
use std::os::raw::c_char;
use std::slice;

/// The type of a message that carries a class to other nodes.
const BRINGS_CLASS: u8 = 1;

/// The most bytes that a class file may have.
const MOST_BYTES: usize = 65_536;

/// Returns the class file of a command. Of a file that is too large it returns one byte too many, which is refused like the whole: the core
/// hashes whatever it gets.
fn file_of(words: Words<'_>) -> Result<&[u8], Failure> {
    let bytes = words.bytes(1)?;
    Ok(bytes.get(..=MOST_BYTES).unwrap_or(bytes))
}

/// Replies an id and the bounds of its class as elements of an array.
fn reply_bounds(server: Server, verdict: &Verdict) {
    server.reply_text(&digits_of(&verdict.id));
    for bound in [verdict.steps, verdict.words, verdict.slots, verdict.depth] {
        server.reply_long(bound.into());
    }
}

/// JENTRY.DEFINE BYTES: verifies a class and keeps it. Replies its id and its bounds.
pub fn define(server: Server, words: Words) -> Answer {
    if words.count() != 2 {
        return Err(Failure::Arity);
    }
    let bytes = file_of(words)?;
    rights::check(server)?;
    // A replica accepts what its master accepted, and the classes of the AOF have been accepted before.
    let most = if rights::is_settled(server) { u32::MAX } else { most_steps() };
    // SAFETY: commands run on the main thread, after the load.
    let known =
        unsafe { with_state(|state| state.classes.of_file(bytes).map(|class| class.verdict)) };
    let verdict = match known {
        Some(verdict) => verdict,
        None => take(server, bytes, most).map_err(|denial| denial.failure(bytes))?,
    };
    server.reply_array(5);
    reply_bounds(server, &verdict);
    Ok(())
}

/// Accepts a new class: it is written to the AOF, and sent to the replicas and to the other nodes of a cluster.
fn take(server: Server, bytes: &[u8], most: u32) -> Result<Verdict, Denial> {
    let origin = Origin { user: server.user().unwrap_or_default(), time: now() };
    // SAFETY: commands run on the main thread, after the load.
    let verdict = unsafe {
        with_state(|state| {
            let answer = state.classes.define(bytes, most, origin);
            match &answer {
                Err(Denial::Refused(verdict)) => COUNTERS.refused(verdict.refusal),
                Err(Denial::Costly { .. }) => COUNTERS.costly.add(1),
                _ => {}
            }
            answer
        })?
    };
    server.replicate_verbatim();
    if server.is(IS_CLUSTER | IS_MASTER) {
        server.send_message(BRINGS_CLASS, bytes);
    }
    Ok(verdict)
}

/// Receives a new class from another node of the cluster. A master accepts it as if a client had sent it, so that its replicas and files
/// get it.
///
/// # Safety
/// Only Redis may call it, on its main thread; `bytes` must have the given number of bytes.
pub unsafe extern "C" fn receive(
    context: *mut Context,
    _sender: *const c_char,
    kind: u8,
    bytes: *const u8,
    length: u32,
) {
    let server = Server::of(context);
    if kind != BRINGS_CLASS || bytes.is_null() || !server.is(IS_MASTER) {
        return;
    }
    let file = slice::from_raw_parts(bytes, length as usize);
    if with_state(|state| state.classes.of_file(file).is_some()) {
        return;
    }
    let reply = rights::from_node(|| {
        (server.api().call)(
            context,
            b"JENTRY.DEFINE\0".as_ptr().cast(),
            b"!b\0".as_ptr().cast(),
            bytes,
            file.len(),
        )
    });
    if let Err(Failure::Told(text)) = Called::of(server, reply) {
        server.warn(&format!("a class of another node is left out: {text}"));
    }
}

/// JENTRY.FORGET ID: removes a class. Replies 1, or 0 if there was no such class.
pub fn forget(server: Server, words: Words) -> Answer {
    rights::check(server)?;
    let digits = words.bytes(1)?;
    // SAFETY: commands run on the main thread, after the load.
    let is_gone = unsafe { with_state(|state| state.classes.forget(digits))? };
    if is_gone {
        server.replicate_verbatim();
    }
    server.reply_long(is_gone.into());
    Ok(())
}

/// JENTRY.LIST: replies for each class its id, its bounds, the length of its file, its name, who defined it, and when.
pub fn list(server: Server, _words: Words) -> Answer {
    // SAFETY: commands run on the main thread, after the load; a reply runs no command.
    unsafe {
        with_state(|state| {
            server.reply_array(state.classes.all().len());
            for class in state.classes.all() {
                server.reply_array(9);
                reply_bounds(server, &class.verdict);
                server.reply_long(class.bytes.len() as i64);
                server.reply_text(class.name.as_bytes());
                if class.origin.user.is_empty() {
                    server.reply_null();
                } else {
                    server.reply_text(&class.origin.user);
                }
                server.reply_long(class.origin.time);
            }
        });
    }
    Ok(())
}

/// Replies what the runs of a class took.
fn reply_usage(server: Server, class: &Class) {
    let usage = &class.usage;
    server.reply_array(6);
    server.reply_text(&digits_of(&class.verdict.id));
    server.reply_text(class.name.as_bytes());
    for count in [usage.runs, usage.steps, usage.exceptions] {
        server.reply_long(count as i64);
    }
    if usage.runs == 0 {
        server.reply_null();
    } else {
        server.reply_long(usage.last);
    }
}

/// JENTRY.STATS [ID ..]: replies for each class, or for each of these, what its runs took since the start of the server, or null if there is
/// no such class.
pub fn stats(server: Server, words: Words) -> Answer {
    let ids = ids_of(words)?;
    // SAFETY: commands run on the main thread, after the load; a reply runs no command.
    unsafe {
        with_state(|state| {
            if ids.count() == 0 {
                server.reply_array(state.classes.all().len());
                state.classes.all().iter().for_each(|class| reply_usage(server, class));
                return Ok(());
            }
            server.reply_array(ids.count());
            for place in 0..ids.count() {
                match state.classes.find(ids.bytes(place)?)? {
                    Some(class) => reply_usage(server, class),
                    None => server.reply_null(),
                }
            }
            Ok(())
        })
    }
}

/// JENTRY.CLASS ID: replies the class file, or null.
pub fn class(server: Server, words: Words) -> Answer {
    let digits = words.bytes(1)?;
    // SAFETY: commands run on the main thread, after the load; a reply runs no command.
    unsafe {
        with_state(|state| {
            match state.classes.find(digits)? {
                Some(class) => server.reply_text(&class.bytes),
                None => server.reply_null(),
            }
            Ok(())
        })
    }
}

/// Returns the arguments of a command that takes ids alone. Fails if one of them is no id.
fn ids_of(words: Words<'_>) -> Result<Words<'_>, Failure> {
    let ids = words.from(1);
    for place in 0..ids.count() {
        let digits = ids.bytes(place)?;
        id_of(digits).ok_or_else(|| no_id(digits))?;
    }
    Ok(ids)
}

/// JENTRY.EXISTS ID ..: replies for each id 1 if there is such a class, else 0.
pub fn exists(server: Server, words: Words) -> Answer {
    let ids = ids_of(words)?;
    server.reply_array(ids.count());
    for place in 0..ids.count() {
        let digits = ids.bytes(place)?;
        // SAFETY: commands run on the main thread, after the load.
        let is_there =
            unsafe { with_state(|state| state.classes.find(digits).map(|it| it.is_some()))? };
        server.reply_long(is_there.into());
    }
    Ok(())
}

/// JENTRY.EXPLAIN BYTES: replies what `jentry explain` prints for a class file. The class isn't kept.
pub fn explain(server: Server, words: Words) -> Answer {
    let text = explanation(file_of(words)?);
    if text.is_empty() {
        return Err("ERR no memory for the explanation".into());
    }
    server.reply_text(&text);
    Ok(())
}
