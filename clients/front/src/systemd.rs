//! Messages to systemd (sd_notify): that the front is ready or ends, and that it works.

use crate::status::Board;
use log::warn;
use nix::sys::socket::{sendto, MsgFlags, UnixAddr};
use std::env;
use std::os::unix::io::AsRawFd;
use std::os::unix::net::UnixDatagram;
use std::process::id;
use std::sync::Arc;
use std::thread;
use std::time::Duration;

/// How long the watchdog waits for the event loop, which responds between two reads.
const PATIENCE: Duration = Duration::from_secs(1);

/// Sends a message such as `READY=1`, if systemd has asked for messages.
pub fn notify(message: &str) {
    if let Some(address) = env::var("NOTIFY_SOCKET").ok().filter(|it| !it.is_empty()) {
        if let Err(e) = send(&address, message) {
            warn!("can't send {} to systemd: {}", message, e);
        }
    }
}

/// Sends a message to a path, or to an abstract address that begins with `@`.
fn send(address: &str, message: &str) -> nix::Result<()> {
    let to = match address.strip_prefix('@') {
        Some(name) => UnixAddr::new_abstract(name.as_bytes())?,
        None => UnixAddr::new(address)?,
    };
    let socket = UnixDatagram::unbound().map_err(|_| nix::errno::Errno::last())?;
    sendto(socket.as_raw_fd(), message.as_bytes(), &to, MsgFlags::empty()).map(|_| ())
}

/// Returns the time within which systemd wants to hear that this process works.
pub fn watchdog_time() -> Option<Duration> {
    let number = |name: &str| env::var(name).ok()?.parse::<u64>().ok();
    let is_own = number("WATCHDOG_PID").map_or(true, |it| it == u64::from(id()));
    number("WATCHDOG_USEC").filter(|it| is_own && *it > 0).map(Duration::from_micros)
}

/// Tells systemd that the front works, as long as the event loop responds and the server answers
/// its batches within the time `stall`.
pub fn watch(board: Arc<Board>, time: Duration, stall: Duration) {
    thread::spawn(move || loop {
        if board.refresh(false, PATIENCE) && board.stalled(stall).is_none() {
            notify("WATCHDOG=1");
        }
        thread::sleep(time / 3);
    });
}

#[cfg(test)]
mod tests {
    use super::*;

    #[test]
    fn a_message_arrives_at_its_path() {
        let name = format!("jentry-front-test-{}", id());
        assert!(send(&format!("@{}", name), "READY=1").is_err());
        let path = env::temp_dir().join(&name);
        let receiver = UnixDatagram::bind(&path).expect("a socket");
        send(path.to_str().expect("text"), "READY=1").expect("sent");
        let mut buffer = [0; 16];
        let count = receiver.recv(&mut buffer).expect("a message");
        assert_eq!(&buffer[..count], b"READY=1");
        std::fs::remove_file(path).expect("removed");
    }
}
