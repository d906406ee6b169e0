//! The server's process: its start, its messages on standard error, and its end, which also ends
//! the front.

use crate::logging;
use log::{error, warn};
use nix::unistd::{setpgid, Pid};
use std::env;
use std::ffi::OsString;
use std::io::{self, BufRead, BufReader};
use std::os::unix::process::CommandExt;
use std::process::{exit, Child, ChildStderr, ChildStdin, ChildStdout, Command, Stdio};
use std::sync::mpsc::{channel, Receiver};
use std::thread;
use std::time::Duration;

/// The front's exit status after the server has ended.
const STATUS: i32 = 3;

/// The first word of the command line by which the front starts itself to become the server.
pub const BECOME: &str = "become-server";

/// How long the front waits for the server to end after the end of its replies, and for its last
/// message after its end.
const PATIENCE: Duration = Duration::from_secs(5);

/// Keeps glibc from returning a round's memory to the system, because allocating it again page by
/// page costs as much as the calls of the round.
const MALLOC_SETTINGS: [(&str, &str); 2] =
    [("MALLOC_MMAP_THRESHOLD_", "33554432"), ("MALLOC_TRIM_THRESHOLD_", "67108864")];

/// A running server: its streams and its process id.
pub struct Server {
    pub input: ChildStdin,
    pub output: ChildStdout,
    pub process: u32,
}

/// Becomes the server, in a process group of its own: a signal of a terminal, which all processes of
/// a group get, ends the front alone, and that needs the server to answer what was sent. Returns
/// only if it fails, with the reason.
pub fn become_server(words: &[OsString]) -> String {
    let no_process = Pid::from_raw(0);
    let error = match (setpgid(no_process, no_process), words.split_first()) {
        (Err(e), _) => e.to_string(),
        (Ok(()), Some((program, words))) => Command::new(program).args(words).exec().to_string(),
        (Ok(()), None) => "there is no program".to_string(),
    };
    format!(
        "can't start {}: {}",
        words.first().cloned().unwrap_or_default().to_string_lossy(),
        error
    )
}

/// Starts the server, and a thread that ends the front when the server ends. `before_exit` is
/// called right before that, with the server's status and last message.
pub fn start(
    program: &[OsString],
    before_exit: impl Fn(String) + Send + 'static,
) -> io::Result<Server> {
    let mut command = Command::new(env::current_exe()?);
    command
        .arg(BECOME)
        .args(program)
        .stdin(Stdio::piped())
        .stdout(Stdio::piped())
        .stderr(Stdio::piped());
    let unset = MALLOC_SETTINGS.iter().filter(|(name, _)| env::var_os(name).is_none());
    command.envs(unset.copied());
    let mut child = command.spawn()?;
    match (child.stdin.take(), child.stdout.take(), child.stderr.take()) {
        (Some(input), Some(output), Some(messages)) => {
            let last_message = log_messages(messages);
            let process = child.id();
            thread::spawn(move || wait_for_end(child, &last_message, before_exit));
            Ok(Server { input, output, process })
        }
        _ => Err(io::ErrorKind::BrokenPipe.into()),
    }
}

/// Logs what the server writes to standard error, line by line. The receiver gets the last line at
/// the end of the stream.
fn log_messages(messages: ChildStderr) -> Receiver<String> {
    let (sender, receiver) = channel();
    thread::spawn(move || {
        let mut last = String::new();
        for line in BufReader::new(messages).split(b'\n').flatten() {
            last = String::from_utf8_lossy(&line).into_owned();
            warn!("server: {}", last);
        }
        let _ = sender.send(last);
    });
    receiver
}

/// Waits for the server to end, then ends the front, which closes all connections.
fn wait_for_end(mut child: Child, last_message: &Receiver<String>, before_exit: impl Fn(String)) {
    let status = match child.wait() {
        Ok(status) => status.to_string(),
        Err(e) => e.to_string(),
    };
    let message = match last_message.recv_timeout(PATIENCE) {
        Ok(message) if !message.is_empty() => message,
        _ => "it said nothing".to_string(),
    };
    let how = format!("({}): {}", status, message);
    error!("the server has ended {}", how);
    before_exit(how);
    logging::flush();
    exit(STATUS);
}

/// Ends the front after the server's replies have ended or are invalid, if the server itself
/// doesn't end soon.
pub fn end_soon() {
    thread::spawn(|| {
        thread::sleep(PATIENCE);
        error!("the server's replies have ended or are invalid");
        logging::flush();
        exit(STATUS);
    });
}
