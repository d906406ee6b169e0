//! A Redis module that runs verified processors next to the entries, which are plain strings that hold decimal longs.
//!
//! Redis runs one command at a time, which locks the whole keyspace: nothing else runs between the read and the write of an entry. Redis
//! calls all functions of the module on its main thread.
mod allocator;
mod api;
mod apply;
mod classes;
mod commands;
mod config;
mod define;
mod direct;
mod engine;
mod entry;
mod names;
mod persistence;
mod protocol;
mod raw;
mod replicate;
mod rights;
mod run;
mod server;
mod shared;
mod state;
mod syntax;
mod texts;
mod words;

use api::{Api, Context, Text, API_VERSION, ERR, HANDLE_IO_ERRORS, NO_IMPLICIT_SIGNALS, OK};
use engine::Engine;
use server::{Server, Words};
use std::os::raw::c_int;

/// Loads the module.
///
/// # Safety
/// Only Redis may call it.
#[no_mangle]
pub unsafe extern "C" fn RedisModule_OnLoad(
    context: *mut Context,
    argv: *mut *mut Text,
    argc: c_int,
) -> c_int {
    let api = match Api::of(context) {
        Ok(api) => api,
        Err(name) => {
            api::log_lack(context, name);
            return ERR;
        }
    };
    let name = b"jentry\0".as_ptr().cast();
    if (api.is_module_name_busy)(name) != 0 {
        return ERR;
    }
    (api.set_module_attributes)(context, name, 1, API_VERSION);
    (api.set_module_options)(context, HANDLE_IO_ERRORS | NO_IMPLICIT_SIGNALS);
    allocator::begin(&api);
    server::keep(api);
    let engine = match Engine::new() {
        Some(engine) => engine,
        None => return ERR,
    };
    state::begin(engine);
    let is_ready = config::register(context, Words::of(argv, argc))
        && persistence::register(context)
        && state::register(context)
        && commands::register(context);
    if !is_ready {
        return ERR;
    }
    let server = Server::of(context);
    replicate::begin(server);
    direct::begin(server);
    OK
}
