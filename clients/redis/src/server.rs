//! A command's access to the server: its arguments, and the functions to reply.
use crate::api::{Api, Context, Reply, Text};
use std::cell::Cell;
use std::ffi::CString;
use std::os::raw::c_int;
use std::ptr::{null, null_mut, NonNull};
use std::slice;
use std::sync::atomic::{AtomicPtr, Ordering};

static API: AtomicPtr<Api> = AtomicPtr::new(null_mut());

/// Stores the server's functions for the lifetime of the server.
pub fn keep(api: Api) {
    API.store(Box::into_raw(Box::new(api)), Ordering::Release);
}

/// Returns the server's functions.
///
/// # Safety
/// `keep` must have been called.
pub unsafe fn api() -> &'static Api {
    &*API.load(Ordering::Acquire)
}

/// Returns the time in milliseconds since 1970.
pub fn now() -> i64 {
    // SAFETY: nothing asks for the time before `keep`.
    unsafe { (api().milliseconds)() }
}

/// The reasons for which a command fails.
pub enum Failure {
    /// The text of the error reply.
    Told(String),
    /// An argument is missing, or there is one too many.
    Arity,
}

impl From<&str> for Failure {
    fn from(text: &str) -> Failure {
        Failure::Told(text.into())
    }
}

impl From<String> for Failure {
    fn from(text: String) -> Failure {
        Failure::Told(text)
    }
}

pub type Answer = Result<(), Failure>;

/// A command's context. It is only used on the server's main thread, while the command runs.
#[derive(Clone, Copy)]
pub struct Server {
    api: &'static Api,
    context: *mut Context,
}

impl Server {
    /// # Safety
    /// `keep` must have been called, and `context` must be that of a command or an event that lasts as long as the returned value.
    pub unsafe fn of(context: *mut Context) -> Server {
        Server { api: api(), context }
    }

    pub fn reply_long(self, value: i64) {
        unsafe { (self.api.reply_long)(self.context, value) };
    }

    pub fn reply_null(self) {
        unsafe { (self.api.reply_null)(self.context) };
    }

    pub fn reply_text(self, text: &[u8]) {
        unsafe { (self.api.reply_text)(self.context, text.as_ptr(), text.len()) };
    }

    /// Starts an array of this many replies.
    pub fn reply_array(self, count: usize) {
        unsafe { (self.api.reply_array)(self.context, count as _) };
    }

    /// Replies an error. Line breaks become spaces, because an error reply is one line; a text with a zero byte becomes empty.
    pub fn reply_failure(self, failure: Failure) {
        match failure {
            Failure::Arity => unsafe {
                (self.api.wrong_arity)(self.context);
            },
            Failure::Told(text) => {
                let text = CString::new(text.replace(['\r', '\n'], " ")).unwrap_or_default();
                unsafe { (self.api.reply_error)(self.context, text.as_ptr()) };
            }
        }
    }

    /// Writes the command itself to the AOF and sends it to the replicas.
    pub fn replicate_verbatim(self) {
        unsafe { (self.api.replicate_verbatim)(self.context) };
    }

    /// Returns whether all of these flags of the context are set.
    pub fn is(self, flags: c_int) -> bool {
        unsafe { (self.api.context_flags)(self.context) & flags == flags }
    }

    /// Returns the name of the user whose connection sent the command. There is none for a script and for a command of a module.
    pub fn user(self) -> Option<Vec<u8>> {
        // SAFETY: the context is that of a command, and the string is freed once.
        unsafe {
            let id = (self.api.client_id)(self.context);
            let text = (self.api.client_user)(self.context, id);
            if text.is_null() {
                return None;
            }
            let mut length = 0;
            let bytes = (self.api.text_bytes)(text, &mut length);
            let name = slice::from_raw_parts(bytes, length).to_vec();
            (self.api.free_text)(self.context, text);
            Some(name)
        }
    }

    /// Writes a warning to the server's log.
    pub fn warn(self, text: &str) {
        self.log(b"warning\0", text);
    }

    /// Writes a line to the server's log that is no warning.
    pub fn notice(self, text: &str) {
        self.log(b"notice\0", text);
    }

    fn log(self, level: &'static [u8], text: &str) {
        let text = CString::new(text).unwrap_or_default();
        unsafe {
            (self.api.log)(
                self.context,
                level.as_ptr().cast(),
                b"%s\0".as_ptr().cast(),
                text.as_ptr(),
            )
        };
    }

    /// Returns whether a setting of the server has a value that fits.
    pub fn has_setting(self, name: &'static [u8], fits: impl Fn(&[u8]) -> bool) -> bool {
        // SAFETY: the names end with zero bytes, and the reply is freed once.
        unsafe {
            let reply = (self.api.call)(
                self.context,
                b"CONFIG\0".as_ptr().cast(),
                b"cc\0".as_ptr().cast(),
                b"GET\0".as_ptr(),
                name.as_ptr(),
            );
            Called::of(self, reply).map_or(false, |called| called.element(1).map_or(false, fits))
        }
    }

    /// Sends a message to the other nodes of the cluster.
    pub fn send_message(self, kind: u8, bytes: &[u8]) {
        if let Ok(count) = u32::try_from(bytes.len()) {
            unsafe {
                (self.api.send_message)(self.context, null_mut(), kind, bytes.as_ptr(), count)
            };
        }
    }

    /// Returns a new string of the server, which the caller has to free.
    pub fn text_of(self, bytes: &[u8]) -> *mut Text {
        unsafe { (self.api.create_text)(self.context, bytes.as_ptr().cast(), bytes.len()) }
    }

    /// Returns the release of the server, in the form of `GetServerVersion` without the last byte.
    pub fn release(self) -> c_int {
        unsafe { (self.api.server_version)() >> 8 }
    }

    pub fn api(self) -> &'static Api {
        self.api
    }

    pub fn context(self) -> *mut Context {
        self.context
    }
}

/// The arguments of a command, including its name, in the server's memory.
#[derive(Clone, Copy)]
pub struct Words<'a> {
    api: &'static Api,
    texts: &'a [Cell<*mut Text>],
}

impl<'a> Words<'a> {
    /// # Safety
    /// The arguments must be those of a command that lasts for `'a`.
    pub unsafe fn of(argv: *mut *mut Text, argc: c_int) -> Words<'a> {
        let count = usize::try_from(argc).unwrap_or(0);
        Words { api: api(), texts: slice::from_raw_parts(argv.cast::<Cell<*mut Text>>(), count) }
    }

    pub fn count(self) -> usize {
        self.texts.len()
    }

    /// Returns the argument at an index, to pass it to another command.
    pub fn text(self, place: usize) -> Result<*mut Text, Failure> {
        self.texts.get(place).map(Cell::get).ok_or(Failure::Arity)
    }

    /// Returns the bytes of the argument at an index.
    pub fn bytes(self, place: usize) -> Result<&'a [u8], Failure> {
        let text = self.text(place)?;
        let mut length = 0;
        // SAFETY: the arguments last for `'a`, and Redis doesn't change the bytes of a command's arguments.
        unsafe { Ok(slice::from_raw_parts((self.api.text_bytes)(text, &mut length), length)) }
    }

    /// Replaces the first arguments by others while the action runs.
    ///
    /// # Safety
    /// The others must be strings of the server, at most as many as these arguments, and the action must not use `self`.
    pub unsafe fn with<const N: usize>(self, others: [*mut Text; N], action: impl FnOnce()) {
        let mut own = others;
        let swap = |texts: &mut [*mut Text; N]| {
            for (text, cell) in texts.iter_mut().zip(self.texts) {
                *text = cell.replace(*text);
            }
        };
        swap(&mut own);
        action();
        swap(&mut own);
    }

    /// Returns the arguments from an index on.
    pub fn from(self, place: usize) -> Words<'a> {
        Words { api: self.api, texts: self.texts.get(place..).unwrap_or(&[]) }
    }
}

/// The reply to a command that the module called.
pub struct Called {
    api: &'static Api,
    reply: NonNull<Reply>,
}

impl Called {
    /// Wraps the result of `Call`.
    ///
    /// # Errors
    /// Returns an error if the result is null, for example because there is no such command, or if the reply is an error.
    ///
    /// # Safety
    /// Nothing else may free the reply.
    pub unsafe fn of(server: Server, reply: *mut Reply) -> Result<Called, Failure> {
        let reply = NonNull::new(reply).ok_or("ERR the server denied a command of the module")?;
        let called = Called { api: server.api, reply };
        if called.is_error() {
            return Err(String::from_utf8_lossy(called.bytes()).into_owned().into());
        }
        Ok(called)
    }

    /// Returns whether it is an error, from the first byte of the protocol: the server needn't parse the reply for that.
    fn is_error(&self) -> bool {
        let mut length = 0;
        // SAFETY: the reply lasts as long as this.
        unsafe {
            let bytes = (self.api.reply_protocol)(self.reply.as_ptr(), &mut length);
            !bytes.is_null() && length > 0 && *bytes == b'-'
        }
    }

    pub fn kind(&self) -> c_int {
        unsafe { (self.api.reply_kind)(self.reply.as_ptr()) }
    }

    /// Returns the bytes of a text or of an error.
    pub fn bytes(&self) -> &[u8] {
        let mut length = 0;
        unsafe {
            let at = (self.api.reply_bytes)(self.reply.as_ptr(), &mut length);
            if at.is_null() {
                &[]
            } else {
                slice::from_raw_parts(at, length)
            }
        }
    }

    /// Returns the length of an array.
    pub fn length(&self) -> usize {
        unsafe { (self.api.reply_length)(self.reply.as_ptr()) }
    }

    /// Returns the element of an array at an index, if it is a text.
    pub fn element(&self, place: usize) -> Option<&[u8]> {
        // SAFETY: the element lasts as long as the reply.
        unsafe { self.text_of((self.api.reply_element)(self.reply.as_ptr(), place)) }
    }

    unsafe fn text_of(&self, reply: *mut Reply) -> Option<&[u8]> {
        let mut length = 0;
        let at = if reply.is_null() { null() } else { (self.api.reply_bytes)(reply, &mut length) };
        (!at.is_null()).then(|| slice::from_raw_parts(at, length))
    }

    /// Returns whether an element of the reply to MODULE LIST is about the module with this name.
    pub fn is_module(&self, place: usize, name: &[u8]) -> bool {
        // SAFETY: the elements last as long as the reply. The element is a list of names and values, and `name` is the first.
        unsafe {
            let module = (self.api.reply_element)(self.reply.as_ptr(), place);
            !module.is_null() && self.text_of((self.api.reply_element)(module, 1)) == Some(name)
        }
    }
}

impl Drop for Called {
    fn drop(&mut self) {
        unsafe { (self.api.free_reply)(self.reply.as_ptr()) };
    }
}
