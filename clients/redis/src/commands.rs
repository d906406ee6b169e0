//! The table of commands, and their registration.
use crate::api::{
    set_categories, Command, CommandArg, CommandInfo, Context, InfoVersion, KeySpec, SetCategories,
    Text, KEY_READ, KEY_WRITTEN, OK,
};
use crate::apply::apply;
use crate::define::{class, define, exists, explain, forget, list, receive, stats};
use crate::run::{detail, invoke, invoke_all, peek};
use crate::server::{api, Answer, Server, Words};
use crate::syntax::{self, Documented, Keys};
use crate::words::long_of;
use std::ffi::CString;
use std::mem::size_of;
use std::os::raw::c_int;
use std::ptr::null;

struct Row {
    name: &'static str,
    command: Command,
    kind: Kind,
    /// The arguments as in `ID KEY [ARG ..]`.
    syntax: &'static str,
    summary: &'static str,
}

/// What Redis has to know of a command.
struct Kind {
    flags: &'static str,
    /// The ACL categories, for servers that have them for the commands of modules.
    categories: &'static str,
    /// What the command does to its keys.
    access: u64,
}

const READS: Kind = Kind { flags: "readonly", categories: "read", access: KEY_READ };
const WRITES: Kind = Kind { flags: "write deny-oom", categories: "write", access: KEY_WRITTEN };
const WRITES_SEVERAL: Kind = Kind { flags: "write deny-oom getkeys-api", ..WRITES };
const JUDGES: Kind = Kind { categories: "read dangerous", ..READS };
const DEPLOYS: Kind = Kind { categories: "write admin dangerous", ..WRITES };
/// It is allowed without memory, because it frees some.
const FORGETS: Kind = Kind { flags: "write", ..DEPLOYS };

/// Wraps a command as a function that Redis can call.
macro_rules! exported {
    ($function:ident) => {{
        unsafe extern "C" fn call(
            context: *mut Context,
            argv: *mut *mut Text,
            argc: c_int,
        ) -> c_int {
            run($function, context, argv, argc)
        }
        call
    }};
}

/// Reports the positions of counted keys to the server. Redis 7.0 routes a cluster command to its node by these, and uses the key specs
/// only for access rights.
unsafe fn tell_keys(context: *mut Context, words: Words) {
    let count = words
        .bytes(2)
        .ok()
        .and_then(long_of)
        .and_then(|count| c_int::try_from(count).ok())
        .unwrap_or(0);
    let most = c_int::try_from(words.from(3).count()).unwrap_or(0);
    for place in 3..3 + count.clamp(0, most) {
        (api().key_at)(context, place, KEY_WRITTEN as c_int);
    }
}

/// Runs a command. If it fails, replies its error.
unsafe fn run(
    command: fn(Server, Words) -> Answer,
    context: *mut Context,
    argv: *mut *mut Text,
    argc: c_int,
) -> c_int {
    let (server, words) = (Server::of(context), Words::of(argv, argc));
    if (api().is_keys_request)(context) != 0 {
        tell_keys(context, words);
        return OK;
    }
    if let Err(failure) = command(server, words) {
        server.reply_failure(failure);
    }
    OK
}

fn rows() -> [Row; 13] {
    let row = |name, command, kind, syntax, summary| Row { name, command, kind, syntax, summary };
    let judges = "Judges a processor's class file and keeps the class";
    let invokes = "Runs a class on an entry";
    let details = "Runs a class on an entry, with its type, effect and steps";
    let peeks = "Runs a class that leaves the entry as it is";
    let several = "Runs a class on several entries";
    let applies = "Runs a class on an entry with times to live";
    let some = "ID KEY [ARG ..]";
    let applied = "CREATED UPDATED ACCESSED MODE ID KEY [ARG ..]";
    [
        row("define", exported!(define), DEPLOYS, "BYTES", judges),
        row("invoke", exported!(invoke), WRITES, some, invokes),
        row("detail", exported!(detail), WRITES, some, details),
        row("peek", exported!(peek), READS, some, peeks),
        row("invokeall", exported!(invoke_all), WRITES_SEVERAL, "ID N KEY .. [ARG ..]", several),
        row("apply", exported!(apply), WRITES, applied, applies),
        row("list", exported!(list), READS, "", "Lists the classes with their bounds and origins"),
        row("stats", exported!(stats), READS, "[ID ..]", "Tells what the runs of classes took"),
        row("class", exported!(class), READS, "ID", "Gets the class file of a class"),
        row("exists", exported!(exists), READS, "ID ..", "Tells which classes exist"),
        row("explain", exported!(explain), JUDGES, "BYTES", "Explains the verdict on a class file"),
        row("forget", exported!(forget), FORGETS, "ID", "Forgets a class"),
        row("help", exported!(help), READS, "", "Lists the commands"),
    ]
}

/// JENTRY.HELP: replies two lines for each command, its arguments and what it does.
fn help(server: Server, _words: Words) -> Answer {
    let rows = rows();
    server.reply_array(2 * rows.len());
    for row in rows {
        let line = format!("JENTRY.{} {}", row.name.to_uppercase(), row.syntax);
        server.reply_text(line.trim_end().as_bytes());
        server.reply_text(format!("    {}.", row.summary).as_bytes());
    }
    Ok(())
}

/// Returns a text for the server, which copies it.
fn text_of(text: &str) -> CString {
    CString::new(text).unwrap_or_default()
}

unsafe fn register_row(
    context: *mut Context,
    row: &Row,
    set_categories: Option<SetCategories>,
) -> bool {
    let keys = syntax::keys(row.syntax);
    let (first, step) = match keys {
        Keys::At(place) => (place, 1),
        _ => (0, 0),
    };
    let name = text_of(&format!("jentry.{}", row.name));
    let flags = text_of(row.kind.flags);
    let create = api().create_command;
    if create(context, name.as_ptr(), row.command, flags.as_ptr(), first, first, step) != OK {
        return false;
    }
    let object = (api().get_command)(context, name.as_ptr());
    let specs = syntax::key_specs(keys, row.kind.access);
    let summary = text_of(row.summary);
    let documented = Documented::of(row.syntax);
    // The size for history is that of Redis 7.0; the module has none.
    let version = InfoVersion {
        version: 1,
        history: 16,
        key_spec: size_of::<KeySpec>(),
        argument: size_of::<CommandArg>(),
    };
    let info = CommandInfo {
        version: &version,
        summary: summary.as_ptr(),
        complexity: null(),
        since: null(),
        history: null(),
        tips: null(),
        arity: syntax::arity(row.syntax),
        key_specs: if matches!(keys, Keys::None) { null() } else { specs.as_ptr() },
        args: documented.list(),
    };
    if object.is_null() || (api().set_command_info)(object, &info) != OK {
        return false;
    }
    let categories = text_of(row.kind.categories);
    if set_categories.map_or(false, |set| set(object, categories.as_ptr()) != OK) {
        Server::of(context).warn(&format!("jentry.{} has no ACL categories", row.name));
    }
    true
}

/// Registers all commands, and the receiver for classes from other nodes. Returns whether that succeeded.
///
/// # Safety
/// `context` must be the one of the module's load.
pub unsafe fn register(context: *mut Context) -> bool {
    (api().register_receiver)(context, 1, receive);
    let set_categories = set_categories(context);
    rows().iter().all(|row| register_row(context, row, set_categories))
}
