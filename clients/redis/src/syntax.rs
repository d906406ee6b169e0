//! The arguments of commands, from which clients, ACLs and COMMAND DOCS learn what a command takes.
use crate::api::{
    CommandArg, KeySpec, ARG_INTEGER, ARG_KEY, ARG_MULTIPLE, ARG_ONE_OF, ARG_OPTIONAL, ARG_STRING,
    ARG_TOKEN, BEGIN_INDEX, FIND_COUNT, FIND_RANGE,
};
use std::ffi::CString;
use std::os::raw::c_int;
use std::ptr::{null, null_mut};

/// The argument that counts the keys behind it, and the other numbers.
const COUNT: &str = "N";
const NUMBERS: [&str; 4] = [COUNT, "CREATED", "UPDATED", "ACCESSED"];
const KEY: &str = "KEY";
/// The argument that is one of two words.
const MODE: &str = "MODE";
const MODES: [&str; 2] = ["do", "dry"];

/// An argument as a syntax has it: `NAME`, `NAME ..` or `[NAME ..]`.
struct Argument {
    name: &'static str,
    is_optional: bool,
    is_multiple: bool,
}

/// Parses a syntax.
fn arguments(syntax: &'static str) -> Vec<Argument> {
    let mut found: Vec<Argument> = Vec::new();
    for word in syntax.split_whitespace() {
        let name = word.trim_matches(|it| it == '[' || it == ']');
        match found.last_mut() {
            Some(last) if name == ".." => last.is_multiple = true,
            _ => found.push(Argument {
                name,
                is_optional: word.starts_with('['),
                is_multiple: false,
            }),
        }
    }
    found
}

/// Returns the number of arguments with the command's name; if negative, the minimum number.
pub fn arity(syntax: &'static str) -> c_int {
    let arguments = arguments(syntax);
    let least = 1 + arguments.iter().filter(|it| !it.is_optional).count() as c_int;
    if arguments.iter().any(|it| it.is_optional || it.is_multiple) {
        -least
    } else {
        least
    }
}

/// The positions of a command's keys.
#[derive(Clone, Copy)]
pub enum Keys {
    None,
    /// One key, at this index.
    At(c_int),
    /// Several keys, after an argument at this index with their number.
    Counted(c_int),
}

/// Returns the positions of the keys.
pub fn keys(syntax: &'static str) -> Keys {
    let arguments = arguments(syntax);
    let place_of = |name| arguments.iter().position(|it| it.name == name).map(|it| it as c_int + 1);
    match (place_of(COUNT), place_of(KEY)) {
        (Some(place), _) => Keys::Counted(place),
        (None, Some(place)) => Keys::At(place),
        (None, None) => Keys::None,
    }
}

/// Returns how clients and ACLs find the keys of a command. An empty spec ends the list.
pub fn key_specs(keys: Keys, flags: u64) -> [KeySpec; 2] {
    let begin = |place| KeySpec { flags, begin: BEGIN_INDEX, place, ..KeySpec::NONE };
    let spec = match keys {
        Keys::None => KeySpec::NONE,
        Keys::At(place) => KeySpec { find: FIND_RANGE, find_by: [0, 1, 0], ..begin(place) },
        Keys::Counted(place) => KeySpec { find: FIND_COUNT, find_by: [0, 1, 1], ..begin(place) },
    };
    [spec, KeySpec::NONE]
}

/// The arguments of a command for COMMAND DOCS, and the texts and lists to which they point.
pub struct Documented {
    _names: Vec<CString>,
    _modes: Vec<CommandArg>,
    args: Vec<CommandArg>,
}

impl Documented {
    /// Returns the arguments of a syntax.
    pub fn of(syntax: &'static str) -> Documented {
        let name_of = |name: &str| CString::new(name.to_lowercase()).unwrap_or_default();
        let modes: Vec<CString> = MODES.iter().map(|name| name_of(name)).collect();
        let mut words: Vec<CommandArg> = modes
            .iter()
            .map(|name| CommandArg { token: name.as_ptr(), ..CommandArg::of(name, ARG_TOKEN) })
            .collect();
        words.push(CommandArg::NONE);
        let mut names = Vec::new();
        let mut args = Vec::new();
        for argument in arguments(syntax) {
            let name = name_of(argument.name);
            let kind = match argument.name {
                KEY => ARG_KEY,
                MODE => ARG_ONE_OF,
                name if NUMBERS.contains(&name) => ARG_INTEGER,
                _ => ARG_STRING,
            };
            let flag = |is_set: bool, flag| if is_set { flag } else { 0 };
            args.push(CommandArg {
                key_spec: if kind == ARG_KEY { 0 } else { -1 },
                flags: flag(argument.is_optional, ARG_OPTIONAL)
                    | flag(argument.is_multiple, ARG_MULTIPLE),
                parts: if kind == ARG_ONE_OF { words.as_ptr() } else { null() },
                ..CommandArg::of(&name, kind)
            });
            names.push(name);
        }
        args.push(CommandArg::NONE);
        names.extend(modes);
        Documented { _names: names, _modes: words, args }
    }

    /// Returns the list, which ends with an empty one, or null if the command has no arguments. It lasts as long as `self`.
    pub fn list(&self) -> *const CommandArg {
        if self.args.len() > 1 {
            self.args.as_ptr()
        } else {
            null_mut()
        }
    }
}
