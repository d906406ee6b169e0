//! The control socket: what operators ask of a front that runs. `jentry-front ctl` is its client.
//!
//! Each connection sends one request and gets one reply, each a line of JSON. Threads of their own
//! read and write, so a slow operator delays no call; the event loop only gathers the rows.

pub mod client;
mod json;
mod table;

use crate::peers::{Peer, PeerRow};
use crate::quotas::Quotas;
use crate::status::{ClassRow, ConnectionRow};
use log::{info, warn};
use mio::Waker;
use nix::sys::socket::getsockopt;
use nix::sys::socket::sockopt::PeerCredentials;
use serde_json::{json, Value};
use signal_hook::consts::SIGTERM;
use signal_hook::low_level::raise;
use std::io::{self, Read, Write};
use std::mem::take;
use std::os::unix::io::AsRawFd;
use std::os::unix::net::{UnixListener, UnixStream};
use std::sync::atomic::{AtomicUsize, Ordering};
use std::sync::mpsc::{sync_channel, SyncSender};
use std::sync::{Arc, Mutex, PoisonError};
use std::thread;
use std::time::{Duration, Instant};

/// The maximum number of connections at a time.
pub const MOST_CONNECTIONS: usize = 8;

/// The maximum length of a request.
const LONGEST: usize = 4_096;

/// How long a request may take to arrive, and its reply to be taken.
const PATIENCE: Duration = Duration::from_secs(5);

/// How long the event loop may take. It doesn't answer while it writes to a server that hangs.
const ANSWER_PATIENCE: Duration = Duration::from_secs(5);

/// How long the accepting thread waits when it can't accept.
const PAUSE: Duration = Duration::from_millis(50);

/// What an operator asks for.
#[derive(Clone, Debug, PartialEq, Eq)]
pub enum Command {
    Status,
    Peers,
    Connections,
    Classes,
    Kick(Target),
    Drain,
    /// Changes limits, and returns all.
    Quota(Vec<(String, u64)>),
}

/// Whose connections are to be closed.
#[derive(Clone, Copy, Debug, PartialEq, Eq)]
pub enum Target {
    Connection(u64),
    Peer(Peer),
}

/// The reply of the event loop.
pub enum Answer {
    Status {
        connections: usize,
        most: usize,
        classes: usize,
        waiting_rounds: usize,
        waiting_requests: usize,
        /// The age of the batch at the server.
        batch: Duration,
    },
    Peers(Vec<PeerRow>),
    Connections(Vec<ConnectionRow>),
    Classes(Vec<ClassRow>),
    Kicked(usize),
    /// The number of connections that are answered before the front ends, unless it ends already.
    Drains(Option<usize>),
    Quotas(Quotas),
}

/// A command, and where the reply goes.
pub struct Asked {
    pub command: Command,
    reply: SyncSender<Result<Answer, String>>,
}

impl Asked {
    /// Replies. An operator who doesn't wait any longer is gone.
    pub fn reply(self, answer: Result<Answer, String>) {
        let _ = self.reply.try_send(answer);
    }
}

/// Passes commands to the event loop.
pub struct Control {
    asked: Mutex<Vec<Asked>>,
    waker: Arc<Waker>,
    /// What the front says of itself.
    about: Value,
    count: AtomicUsize,
}

impl Control {
    /// Creates the control of an event loop with this waker.
    pub fn new(waker: Arc<Waker>, about: Value) -> Control {
        Control { asked: Mutex::default(), waker, about, count: AtomicUsize::new(0) }
    }

    /// Takes the commands that have arrived.
    pub fn take(&self) -> Vec<Asked> {
        take(&mut *self.asked.lock().unwrap_or_else(PoisonError::into_inner))
    }

    /// Has the event loop answer a command.
    fn ask(&self, command: Command) -> Result<Answer, String> {
        let (reply, answer) = sync_channel(1);
        let asked = Asked { command, reply };
        self.asked.lock().unwrap_or_else(PoisonError::into_inner).push(asked);
        let _ = self.waker.wake();
        answer.recv_timeout(ANSWER_PATIENCE).unwrap_or_else(|_| {
            let seconds = ANSWER_PATIENCE.as_secs();
            Err(format!("the front didn't answer within {} s; the server may hang", seconds))
        })
    }

    /// Serves a request. Returns the reply.
    fn serve(&self, request: &[u8], by: &str) -> Value {
        let answer = json::command(request).and_then(|command| {
            let answer = self.ask(command.clone());
            note(&command, &answer, by);
            answer
        });
        match answer {
            Ok(it) => json!({ "ok": json::answer(&it, &self.about) }),
            Err(e) => json!({ "error": e }),
        }
    }
}

/// Logs a command that changes something, and who gave it.
fn note(command: &Command, answer: &Result<Answer, String>, by: &str) {
    match (command, answer) {
        (Command::Quota(values), _) if values.is_empty() => {}
        (_, Ok(Answer::Kicked(count))) => {
            info!("control: {:?} by {}: {} connections closed", command, by, count)
        }
        (Command::Drain | Command::Quota(_), Ok(_)) => info!("control: {:?} by {}", command, by),
        (_, Err(e)) => warn!("control: {:?} by {}: {}", command, by, e),
        _ => {}
    }
}

/// Accepts the connections of the control socket.
pub fn run(listener: &UnixListener, control: &Arc<Control>) {
    loop {
        let stream = match listener.accept() {
            Ok((stream, _)) => stream,
            Err(_) => {
                thread::sleep(PAUSE);
                continue;
            }
        };
        if control.count.fetch_add(1, Ordering::SeqCst) >= MOST_CONNECTIONS {
            let text = json!({ "error": "too many operators at a time; try again" });
            let _ = write(&stream, &text, Instant::now() + PAUSE);
            control.count.fetch_sub(1, Ordering::SeqCst);
            continue;
        }
        let control = control.clone();
        thread::spawn(move || {
            let _ = talk(&stream, &control);
            control.count.fetch_sub(1, Ordering::SeqCst);
        });
    }
}

/// Reads a request and replies to it.
fn talk(stream: &UnixStream, control: &Control) -> io::Result<()> {
    let by = match getsockopt(stream.as_raw_fd(), PeerCredentials) {
        Ok(peer) => format!("pid {} uid {}", peer.pid(), peer.uid()),
        Err(_) => "unknown".to_string(),
    };
    let reply = match read(stream, Instant::now() + PATIENCE) {
        Ok(request) => control.serve(&request, &by),
        Err(e) => json!({ "error": e.to_string() }),
    };
    write(stream, &reply, Instant::now() + PATIENCE)?;
    // A second SIGTERM would end the front at once.
    if matches!(reply["ok"]["drains"], Value::Number(_)) {
        raise(SIGTERM)?;
    }
    Ok(())
}

/// Returns the time until a deadline, or an error after it.
fn left(deadline: Instant) -> io::Result<Option<Duration>> {
    let left = deadline.saturating_duration_since(Instant::now());
    if left.is_zero() {
        let reason = "the request or the reply took too long";
        return Err(io::Error::new(io::ErrorKind::TimedOut, reason));
    }
    Ok(Some(left))
}

/// Reads a line, or what comes before the end of the input.
fn read(mut stream: &UnixStream, deadline: Instant) -> io::Result<Vec<u8>> {
    let (mut text, mut buffer) = (Vec::new(), [0; LONGEST]);
    loop {
        stream.set_read_timeout(left(deadline)?)?;
        match stream.read(&mut buffer) {
            Ok(0) => return Ok(text),
            Ok(count) => text.extend_from_slice(&buffer[..count]),
            Err(e) if is_temporary(&e) => continue,
            Err(e) => return Err(e),
        }
        if let Some(end) = text.iter().position(|byte| *byte == b'\n') {
            text.truncate(end);
            return Ok(text);
        }
        if text.len() > LONGEST {
            let reason = "the request is too long";
            return Err(io::Error::new(io::ErrorKind::InvalidData, reason));
        }
    }
}

fn write(mut stream: &UnixStream, reply: &Value, deadline: Instant) -> io::Result<()> {
    let text = format!("{}\n", reply);
    let mut rest = text.as_bytes();
    while !rest.is_empty() {
        stream.set_write_timeout(left(deadline)?)?;
        match stream.write(rest) {
            Ok(0) => return Err(io::ErrorKind::WriteZero.into()),
            Ok(count) => rest = &rest[count..],
            Err(e) if is_temporary(&e) => {}
            Err(e) => return Err(e),
        }
    }
    Ok(())
}

/// Returns whether a read or a write has to be tried again, or to find that its time is over.
fn is_temporary(e: &io::Error) -> bool {
    matches!(e.kind(), io::ErrorKind::WouldBlock | io::ErrorKind::Interrupted)
}
