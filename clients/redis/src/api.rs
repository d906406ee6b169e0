//! The part of the Redis module API that the module uses, with the names and C types of Redis 7.0.
//!
//! No header is needed: a module looks up each function by name, through the pointer at the start of the context of its load.
use std::ffi::{c_void, CStr};
use std::mem::{size_of, transmute_copy};
use std::os::raw::{c_char, c_int, c_long, c_longlong, c_ulonglong};
use std::ptr::{null, null_mut};

/// The context of a command or an event (`RedisModuleCtx`).
pub enum Context {}
/// A reference-counted string (`RedisModuleString`).
pub enum Text {}
/// The reply to a command that the module called.
pub enum Reply {}
/// An open key.
pub enum Key {}
/// An RDB file that is being read or written.
pub enum Io {}
/// A registered data type.
pub enum Type {}
/// A registered command.
pub enum CommandObject {}
/// The reply to INFO that is being built.
pub enum InfoContext {}
/// A section of INFO that the module reads.
pub enum ServerInfo {}

pub const OK: c_int = 0;
pub const ERR: c_int = 1;
pub const API_VERSION: c_int = 1;
/// Calls `aux_save` before the keys are saved.
pub const BEFORE_RDB: c_int = 1;
pub const HANDLE_IO_ERRORS: c_int = 1;
/// Closing a key that was opened for writing doesn't signal a change of it.
pub const NO_IMPLICIT_SIGNALS: c_int = 1 << 1;
pub const CONFIG_DEFAULT: u32 = 0;

/// Bits of `GetContextFlags`.
pub const IS_MASTER: c_int = 1 << 2;
pub const IS_CLUSTER: c_int = 1 << 5;
pub const IS_REPLICATED: c_int = 1 << 12;
pub const IS_LOADING: c_int = 1 << 13;
pub const IS_ASYNC_LOADING: c_int = 1 << 23;

/// The types of a reply.
pub const REPLY_TEXT: c_int = 0;
pub const REPLY_NULL: c_int = 4;

pub type Command = unsafe extern "C" fn(*mut Context, *mut *mut Text, c_int) -> c_int;
pub type AuxLoad = unsafe extern "C" fn(*mut Io, c_int, c_int) -> c_int;
pub type AuxSave = unsafe extern "C" fn(*mut Io, c_int);
pub type Receiver = unsafe extern "C" fn(*mut Context, *const c_char, u8, *const u8, u32);
pub type Informer = unsafe extern "C" fn(*mut InfoContext, c_int);
pub type GetNumber = unsafe extern "C" fn(*const c_char, *mut c_void) -> c_longlong;
pub type SetNumber =
    unsafe extern "C" fn(*const c_char, c_longlong, *mut c_void, *mut *mut Text) -> c_int;

pub type GetBool = unsafe extern "C" fn(*const c_char, *mut c_void) -> c_int;
pub type SetBool = unsafe extern "C" fn(*const c_char, c_int, *mut c_void, *mut *mut Text) -> c_int;
pub type GetText = unsafe extern "C" fn(*const c_char, *mut c_void) -> *mut Text;
pub type SetText =
    unsafe extern "C" fn(*const c_char, *mut Text, *mut c_void, *mut *mut Text) -> c_int;
/// A server event, and the version of its data.
#[repr(C)]
#[derive(Clone, Copy)]
pub struct Event {
    pub number: u64,
    pub version: u64,
}

pub type Subscriber = unsafe extern "C" fn(*mut Context, Event, u64, *mut c_void);

/// The methods of a data type. These are the members of version 5, which Redis 7.2 has; a server takes those that it knows.
#[repr(C)]
pub struct TypeMethods {
    pub version: u64,
    pub rdb_load: Option<unsafe extern "C" fn(*mut Io, c_int) -> *mut c_void>,
    pub rdb_save: Option<unsafe extern "C" fn(*mut Io, *mut c_void)>,
    pub aof_rewrite: Option<unsafe extern "C" fn(*mut Io, *mut Text, *mut c_void)>,
    pub mem_usage: Option<unsafe extern "C" fn(*const c_void) -> usize>,
    pub digest: Option<unsafe extern "C" fn(*mut c_void, *mut c_void)>,
    pub free: Option<unsafe extern "C" fn(*mut c_void)>,
    pub aux_load: Option<AuxLoad>,
    pub aux_save: Option<AuxSave>,
    pub aux_save_triggers: c_int,
    /// Four methods of version 3, and four of version 4.
    pub others: [*const c_void; 8],
    /// A file gets nothing of the module if this one saves nothing. It is called in place of `aux_save` where the server has it.
    pub aux_save2: Option<AuxSave>,
}

const _: [(); 152] = [(); size_of::<TypeMethods>()];

/// The search for a command's keys starts at the argument with this index.
pub const BEGIN_INDEX: c_int = 2;
/// The keys are a range from there, or follow an argument with their number.
pub const FIND_RANGE: c_int = 2;
pub const FIND_COUNT: c_int = 3;
/// The command reads the key; or it reads and then writes it.
pub const KEY_READ: u64 = 1 | 1 << 4;
pub const KEY_WRITTEN: u64 = 1 << 1 | 1 << 4 | 1 << 5;

/// How clients and ACLs find the keys of a command. The unions of the API have the layout of their largest member.
#[repr(C)]
pub struct KeySpec {
    pub notes: *const c_char,
    pub flags: u64,
    pub begin: c_int,
    pub padding: c_int,
    pub place: c_int,
    pub begin_rest: [c_int; 3],
    pub find: c_int,
    /// For a range: the last key relative to the first, the step, a limit. For a count: the index of the count, the index of the first key,
    /// the step.
    pub find_by: [c_int; 3],
}

impl KeySpec {
    pub const NONE: KeySpec = KeySpec {
        notes: null_mut(),
        flags: 0,
        begin: 0,
        padding: 0,
        place: 0,
        begin_rest: [0; 3],
        find: 0,
        find_by: [0; 3],
    };
}

const _: [(); 56] = [(); size_of::<KeySpec>()];

/// The types of a command's argument, and flags of it.
pub const ARG_STRING: c_int = 0;
pub const ARG_INTEGER: c_int = 1;
pub const ARG_KEY: c_int = 3;
pub const ARG_TOKEN: c_int = 6;
pub const ARG_ONE_OF: c_int = 7;
pub const ARG_OPTIONAL: c_int = 1;
pub const ARG_MULTIPLE: c_int = 1 << 1;

/// An argument of a command, for COMMAND DOCS. An empty one ends a list.
#[repr(C)]
pub struct CommandArg {
    pub name: *const c_char,
    pub kind: c_int,
    /// The index of the key spec, or -1 if it is no key.
    pub key_spec: c_int,
    pub token: *const c_char,
    pub summary: *const c_char,
    pub since: *const c_char,
    pub flags: c_int,
    pub deprecated: *const c_char,
    /// What it is one of.
    pub parts: *const CommandArg,
}

impl CommandArg {
    pub const NONE: CommandArg = CommandArg {
        name: null(),
        kind: ARG_STRING,
        key_spec: -1,
        token: null(),
        summary: null(),
        since: null(),
        flags: 0,
        deprecated: null(),
        parts: null(),
    };

    /// Returns an argument, which points to the name.
    pub fn of(name: &CStr, kind: c_int) -> CommandArg {
        CommandArg { name: name.as_ptr(), kind, ..CommandArg::NONE }
    }
}

const _: [(); 64] = [(); size_of::<CommandArg>()];

/// The sizes of the parts of `CommandInfo`, from which a server knows the module's version of them.
#[repr(C)]
pub struct InfoVersion {
    pub version: c_int,
    pub history: usize,
    pub key_spec: usize,
    pub argument: usize,
}

/// The data for COMMAND INFO and for access rights on keys.
#[repr(C)]
pub struct CommandInfo {
    pub version: *const InfoVersion,
    pub summary: *const c_char,
    pub complexity: *const c_char,
    pub since: *const c_char,
    pub history: *const c_void,
    pub tips: *const c_char,
    pub arity: c_int,
    pub key_specs: *const KeySpec,
    pub args: *const CommandArg,
}

/// Sets the ACL categories of a command. Redis has it from 7.2 on.
pub type SetCategories = unsafe extern "C" fn(*mut CommandObject, *const c_char) -> c_int;

/// Returns the function that sets ACL categories, if the server has it.
///
/// # Safety
/// `context` must be the one of the module's load.
pub unsafe fn set_categories(context: *mut Context) -> Option<SetCategories> {
    let found = find(context, "RedisModule_SetCommandACLCategories\0");
    (!found.is_null()).then(|| transmute_copy(&found))
}

type GetApi = unsafe extern "C" fn(*const c_char, *mut *mut c_void) -> c_int;

/// Returns the server's function of this name, or null.
///
/// # Safety
/// `context` must be the one of the module's load.
unsafe fn find(context: *mut Context, name: &'static str) -> *mut c_void {
    let get = *(context as *const GetApi);
    let mut found = null_mut();
    get(name.as_ptr().cast(), &mut found);
    found
}

type Log = unsafe extern "C" fn(*mut Context, *const c_char, *const c_char, ...);

/// Logs that the server lacks a function, if the server has the function that logs.
///
/// # Safety
/// `context` must be the one of the module's load, and `name` must end with a zero byte.
pub unsafe fn log_lack(context: *mut Context, name: &'static str) {
    let found = find(context, "RedisModule_Log\0");
    if !found.is_null() {
        let log: Log = transmute_copy(&found);
        let text = b"jentry: this server lacks %s, and Redis 7.0 or later is needed\0";
        log(context, b"warning\0".as_ptr().cast(), text.as_ptr().cast(), name.as_ptr());
    }
}

macro_rules! interface {
    ($($field:ident $name:literal: $kind:ty;)*) => {
        /// The server's functions.
        #[derive(Clone, Copy)]
        pub struct Api { $(pub $field: $kind,)* }

        impl Api {
            /// Looks up each function.
            ///
            /// # Errors
            /// Returns the name of the first function that the server lacks, with a zero byte at its end.
            ///
            /// # Safety
            /// `context` must be the one of the module's load.
            pub unsafe fn of(context: *mut Context) -> Result<Api, &'static str> {
                Ok(Api { $($field: {
                    let found = find(context, concat!("RedisModule_", $name, "\0"));
                    if found.is_null() {
                        return Err(concat!("RedisModule_", $name, "\0"));
                    }
                    transmute_copy::<*mut c_void, $kind>(&found)
                },)* })
            }
        }
    };
}

interface! {
    set_module_attributes "SetModuleAttribs": unsafe extern "C" fn(*mut Context, *const c_char, c_int, c_int);
    is_module_name_busy "IsModuleNameBusy": unsafe extern "C" fn(*const c_char) -> c_int;
    create_command "CreateCommand": unsafe extern "C" fn(*mut Context, *const c_char, Command, *const c_char, c_int, c_int, c_int) -> c_int;
    get_command "GetCommand": unsafe extern "C" fn(*mut Context, *const c_char) -> *mut CommandObject;
    set_command_info "SetCommandInfo": unsafe extern "C" fn(*mut CommandObject, *const CommandInfo) -> c_int;
    create_data_type "CreateDataType": unsafe extern "C" fn(*mut Context, *const c_char, c_int, *mut TypeMethods) -> *mut Type;
    set_module_options "SetModuleOptions": unsafe extern "C" fn(*mut Context, c_int);
    register_number "RegisterNumericConfig": unsafe extern "C" fn(*mut Context, *const c_char, c_longlong, u32, c_longlong, c_longlong, GetNumber, SetNumber, *mut c_void, *mut c_void) -> c_int;
    load_configs "LoadConfigs": unsafe extern "C" fn(*mut Context) -> c_int;
    register_informer "RegisterInfoFunc": unsafe extern "C" fn(*mut Context, Informer) -> c_int;
    info_section "InfoAddSection": unsafe extern "C" fn(*mut InfoContext, *const c_char) -> c_int;
    info_count "InfoAddFieldULongLong": unsafe extern "C" fn(*mut InfoContext, *const c_char, c_ulonglong) -> c_int;
    context_flags "GetContextFlags": unsafe extern "C" fn(*mut Context) -> c_int;
    call "Call": unsafe extern "C" fn(*mut Context, *const c_char, *const c_char, ...) -> *mut Reply;
    log "Log": Log;
    log_io "LogIOError": unsafe extern "C" fn(*mut Io, *const c_char, *const c_char, ...);
    is_keys_request "IsKeysPositionRequest": unsafe extern "C" fn(*mut Context) -> c_int;
    key_at "KeyAtPosWithFlags": unsafe extern "C" fn(*mut Context, c_int, c_int);
    wrong_arity "WrongArity": unsafe extern "C" fn(*mut Context) -> c_int;
    create_text "CreateString": unsafe extern "C" fn(*mut Context, *const c_char, usize) -> *mut Text;
    free_text "FreeString": unsafe extern "C" fn(*mut Context, *mut Text);
    text_bytes "StringPtrLen": unsafe extern "C" fn(*const Text, *mut usize) -> *const u8;
    reply_error "ReplyWithError": unsafe extern "C" fn(*mut Context, *const c_char) -> c_int;
    reply_array "ReplyWithArray": unsafe extern "C" fn(*mut Context, c_long) -> c_int;
    reply_long "ReplyWithLongLong": unsafe extern "C" fn(*mut Context, c_longlong) -> c_int;
    reply_text "ReplyWithStringBuffer": unsafe extern "C" fn(*mut Context, *const u8, usize) -> c_int;
    reply_null "ReplyWithNull": unsafe extern "C" fn(*mut Context) -> c_int;
    register_bool "RegisterBoolConfig": unsafe extern "C" fn(*mut Context, *const c_char, c_int, u32, GetBool, SetBool, *mut c_void, *mut c_void) -> c_int;
    register_text "RegisterStringConfig": unsafe extern "C" fn(*mut Context, *const c_char, *const c_char, u32, GetText, SetText, *mut c_void, *mut c_void) -> c_int;
    client_id "GetClientId": unsafe extern "C" fn(*mut Context) -> c_ulonglong;
    client_user "GetClientUserNameById": unsafe extern "C" fn(*mut Context, u64) -> *mut Text;
    absolute_expire "GetAbsExpire": unsafe extern "C" fn(*mut Key) -> c_longlong;
    set_absolute_expire "SetAbsExpire": unsafe extern "C" fn(*mut Key, c_longlong) -> c_int;
    notified_events "GetNotifyKeyspaceEvents": unsafe extern "C" fn() -> c_int;
    subscribe "SubscribeToServerEvent": unsafe extern "C" fn(*mut Context, Event, Subscriber) -> c_int;
    milliseconds "Milliseconds": unsafe extern "C" fn() -> c_longlong;
    server_info "GetServerInfo": unsafe extern "C" fn(*mut Context, *const c_char) -> *mut ServerInfo;
    info_number "ServerInfoGetFieldUnsigned": unsafe extern "C" fn(*mut ServerInfo, *const c_char, *mut c_int) -> c_ulonglong;
    free_info "FreeServerInfo": unsafe extern "C" fn(*mut Context, *mut ServerInfo);
    set_string "StringSet": unsafe extern "C" fn(*mut Key, *mut Text) -> c_int;
    delete_key "DeleteKey": unsafe extern "C" fn(*mut Key) -> c_int;
    block_size "MallocSize": unsafe extern "C" fn(*mut c_void) -> usize;
    server_version "GetServerVersion": unsafe extern "C" fn() -> c_int;
    open_key "OpenKey": unsafe extern "C" fn(*mut Context, *mut Text, c_int) -> *mut Key;
    close_key "CloseKey": unsafe extern "C" fn(*mut Key);
    length "ValueLength": unsafe extern "C" fn(*mut Key) -> usize;
    string_bytes "StringDMA": unsafe extern "C" fn(*mut Key, *mut usize, c_int) -> *mut u8;
    truncate "StringTruncate": unsafe extern "C" fn(*mut Key, usize) -> c_int;
    expire "GetExpire": unsafe extern "C" fn(*mut Key) -> c_longlong;
    signal_modified "SignalModifiedKey": unsafe extern "C" fn(*mut Context, *mut Text) -> c_int;
    notify "NotifyKeyspaceEvent": unsafe extern "C" fn(*mut Context, c_int, *const c_char, *mut Text) -> c_int;
    replicate "Replicate": unsafe extern "C" fn(*mut Context, *const c_char, *const c_char, ...) -> c_int;
    free_reply "FreeCallReply": unsafe extern "C" fn(*mut Reply);
    reply_kind "CallReplyType": unsafe extern "C" fn(*mut Reply) -> c_int;
    reply_protocol "CallReplyProto": unsafe extern "C" fn(*mut Reply, *mut usize) -> *const u8;
    reply_bytes "CallReplyStringPtr": unsafe extern "C" fn(*mut Reply, *mut usize) -> *const u8;
    reply_length "CallReplyLength": unsafe extern "C" fn(*mut Reply) -> usize;
    reply_element "CallReplyArrayElement": unsafe extern "C" fn(*mut Reply, usize) -> *mut Reply;
    replicate_verbatim "ReplicateVerbatim": unsafe extern "C" fn(*mut Context) -> c_int;
    save_unsigned "SaveUnsigned": unsafe extern "C" fn(*mut Io, u64);
    load_unsigned "LoadUnsigned": unsafe extern "C" fn(*mut Io) -> u64;
    save_bytes "SaveStringBuffer": unsafe extern "C" fn(*mut Io, *const u8, usize);
    load_bytes "LoadStringBuffer": unsafe extern "C" fn(*mut Io, *mut usize) -> *mut u8;
    is_io_error "IsIOError": unsafe extern "C" fn(*mut Io) -> c_int;
    register_receiver "RegisterClusterMessageReceiver": unsafe extern "C" fn(*mut Context, u8, Receiver);
    send_message "SendClusterMessage": unsafe extern "C" fn(*mut Context, *const c_char, u8, *const u8, u32) -> c_int;
    try_alloc "TryAlloc": unsafe extern "C" fn(usize) -> *mut c_void;
    free "Free": unsafe extern "C" fn(*mut c_void);
}
