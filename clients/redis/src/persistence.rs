//! Saves the classes in RDB files, which replicas receive too and which form the first part of an AOF.
//!
//! A first part in the form of commands has no place for classes. So the module writes their definitions to the part that the server begins
//! when it rewrites the AOF.
use crate::api::{Api, Context, Event, Io, TypeMethods, BEFORE_RDB, ERR, OK};
use crate::classes::Origin;
use crate::server::{api, Server};
use crate::state::with_state;
use std::ffi::{c_void, CString};
use std::os::raw::c_int;
use std::ptr::null;
use std::slice;
use std::sync::atomic::{AtomicBool, Ordering};

/// The data type's name, for which Redis requires nine letters, and its version. Version 1 had the class files alone.
const NAME: &[u8] = b"jentrycls\0";
const VERSION: c_int = 2;
/// The server event for a child process, and that it was born.
const CHILD: Event = Event { number: 13, version: 1 };
const IS_BORN: u64 = 0;
/// The server event for a load, and its kinds: an RDB file or a master's data begins, an AOF begins, and the end of either.
const LOADING: Event = Event { number: 3, version: 1 };
const FILE_BEGINS: u64 = 0;
const AOF_BEGINS: u64 = 1;
const MASTER_BEGINS: u64 = 2;
const LOAD_ENDS: u64 = 3;

/// Whether the data that is being loaded may be without classes, and has had none so far.
static IS_WITHOUT: AtomicBool = AtomicBool::new(false);

/// Writes the number of classes, and of each its file, who defined it, and when.
unsafe extern "C" fn save(io: *mut Io, _when: c_int) {
    with_state(|state| {
        let classes = state.classes.all();
        (api().save_unsigned)(io, classes.len() as u64);
        for class in classes {
            (api().save_bytes)(io, class.bytes.as_ptr(), class.bytes.len());
            (api().save_bytes)(io, class.origin.user.as_ptr(), class.origin.user.len());
            (api().save_unsigned)(io, class.origin.time.unsigned_abs());
        }
    });
}

/// Writes the classes if there are some, so that a file without classes can be read without the module.
unsafe extern "C" fn save_if_some(io: *mut Io, when: c_int) {
    if with_state(|state| !state.classes.all().is_empty()) {
        save(io, when);
    }
}

/// Reads the bytes of a class file, or of a name. Returns `None` if reading fails.
unsafe fn load_bytes(api: &Api, io: *mut Io) -> Option<Vec<u8>> {
    let mut length = 0;
    let bytes = (api.load_bytes)(io, &mut length);
    if bytes.is_null() {
        return None;
    }
    let mut file = Vec::new();
    let has_room = file.try_reserve_exact(length).is_ok();
    if has_room {
        file.extend_from_slice(slice::from_raw_parts(bytes, length));
    }
    (api.free)(bytes.cast());
    (has_room && (api.is_io_error)(io) == 0).then_some(file)
}

/// Reads one class file and who defined the class. Returns `None` if reading fails.
unsafe fn load_file(api: &Api, io: *mut Io, version: c_int) -> Option<(Vec<u8>, Origin)> {
    let file = load_bytes(api, io)?;
    if version == 1 {
        return Some((file, Origin::default()));
    }
    let user = load_bytes(api, io)?;
    let time = i64::try_from((api.load_unsigned)(io)).ok()?;
    Some((file, Origin { user, time }))
}

/// Replaces the classes by those of a file or of a master, once all of them have been read. Each is verified again, and one that is refused
/// now is left out.
unsafe extern "C" fn load(io: *mut Io, version: c_int, _when: c_int) -> c_int {
    let api = api();
    if !(1..=VERSION).contains(&version) {
        return ERR;
    }
    let count = (api.load_unsigned)(io);
    let mut files = Vec::new();
    for _ in 0..count {
        match load_file(api, io, version) {
            Some(file) if files.try_reserve(1).is_ok() => files.push(file),
            _ => return ERR,
        }
    }
    if (api.is_io_error)(io) != 0 {
        return ERR;
    }
    IS_WITHOUT.store(false, Ordering::Relaxed);
    with_state(|state| {
        state.classes.replace(files, |denial| {
            let text = CString::new(format!("a class of the file is left out: {}", denial.text()))
                .unwrap_or_default();
            (api.log_io)(io, b"warning\0".as_ptr().cast(), b"%s\0".as_ptr().cast(), text.as_ptr());
        });
    });
    OK
}

/// Returns whether the server rewrites the AOF, and writes its first part as commands.
unsafe fn is_rewriting_as_commands(server: Server) -> bool {
    let (api, context) = (server.api(), server.context());
    let info = (api.server_info)(context, b"persistence\0".as_ptr().cast());
    let mut error = 0;
    let field = b"aof_rewrite_in_progress\0".as_ptr().cast();
    let is_rewriting = (api.info_number)(info, field, &mut error) == 1;
    (api.free_info)(context, info);
    is_rewriting && server.has_setting(b"aof-use-rdb-preamble\0", |value| value == b"no")
}

/// Writes the classes to the new part of the AOF, if the server has just begun to rewrite the AOF as commands.
unsafe extern "C" fn child_changed(
    context: *mut Context,
    _event: Event,
    what: u64,
    _data: *mut c_void,
) {
    let server = Server::of(context);
    if what != IS_BORN || !is_rewriting_as_commands(server) {
        return;
    }
    with_state(|state| {
        for class in state.classes.all() {
            (api().replicate)(
                context,
                b"JENTRY.DEFINE\0".as_ptr().cast(),
                // Replicas know the classes.
                b"Rb\0".as_ptr().cast(),
                class.bytes.as_ptr(),
                class.bytes.len(),
            );
        }
    });
}

/// Forgets all classes at the end of a load whose data had none. Those of an AOF may also be in its commands.
unsafe extern "C" fn load_changed(
    _context: *mut Context,
    _event: Event,
    what: u64,
    _data: *mut c_void,
) {
    match what {
        FILE_BEGINS | MASTER_BEGINS => IS_WITHOUT.store(true, Ordering::Relaxed),
        AOF_BEGINS => IS_WITHOUT.store(false, Ordering::Relaxed),
        LOAD_ENDS if IS_WITHOUT.swap(false, Ordering::Relaxed) => {
            with_state(|state| state.classes.replace(Vec::new(), |_| {}));
        }
        _ => {}
    }
}

/// Registers the functions that save and load the classes. Returns whether that succeeded.
///
/// # Safety
/// `context` must be the one of the module's load.
pub unsafe fn register(context: *mut Context) -> bool {
    let mut methods = TypeMethods {
        version: 5,
        rdb_load: None,
        rdb_save: None,
        aof_rewrite: None,
        mem_usage: None,
        digest: None,
        free: None,
        aux_load: Some(load),
        aux_save: Some(save),
        aux_save_triggers: BEFORE_RDB,
        others: [null(); 8],
        aux_save2: Some(save_if_some),
    };
    !(api().create_data_type)(context, NAME.as_ptr().cast(), VERSION, &mut methods).is_null()
        && (api().subscribe)(context, CHILD, child_changed) == OK
        && (api().subscribe)(context, LOADING, load_changed) == OK
}
