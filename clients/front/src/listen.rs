//! Listening sockets, and the threads that accept connections.

use crate::options::Address;
use crate::peers::Peer;
use crate::socket_file::{self, Rights, SocketFile};
use mio::event::Source;
use mio::net::{TcpStream, UnixStream};
use mio::{Interest, Registry, Token, Waker};
use nix::poll::{poll, PollFd, PollFlags};
use nix::sys::resource::{getrlimit, Resource};
use nix::sys::socket::sockopt::{
    AcceptConn, KeepAlive, PeerCredentials, TcpKeepCount, TcpKeepIdle, TcpKeepInterval,
};
use nix::sys::socket::{getsockopt, setsockopt};
use std::io::{self, Read, Write};
use std::mem::take;
use std::net::{Shutdown, TcpListener, TcpStream as StdTcpStream};
use std::os::unix::io::{AsFd, AsRawFd, OwnedFd, RawFd};
use std::os::unix::net::{UnixListener, UnixStream as StdUnixStream};
use std::sync::atomic::{AtomicBool, AtomicU64, AtomicUsize, Ordering};
use std::sync::{Arc, Condvar, Mutex};
use std::thread;
use std::time::Duration;

/// The number of file descriptors that the front needs in addition to its connections.
const OTHER_FILES: usize = 16;

/// How long a thread waits after it couldn't accept, for example because there are no free file
/// descriptors.
const PAUSE: Duration = Duration::from_millis(50);

/// The seconds without data after which a TCP connection is probed, those between two probes, and
/// their number.
const KEEP_ALIVE_IDLE: u32 = 60;
const KEEP_ALIVE_INTERVAL: u32 = 15;
const KEEP_ALIVE_PROBES: u32 = 4;

/// A listening socket.
pub enum Listener {
    Unix(UnixListener),
    Tcp(TcpListener),
}

impl Listener {
    fn as_raw_fd(&self) -> RawFd {
        match self {
            Listener::Unix(it) => it.as_raw_fd(),
            Listener::Tcp(it) => it.as_raw_fd(),
        }
    }
}

/// A connection's non-blocking socket.
pub enum Stream {
    Unix(UnixStream),
    Tcp(TcpStream),
}

impl Stream {
    /// Returns the peer for limits: the user for a unix socket, the address for a TCP one.
    pub fn owner(&self) -> Peer {
        match self {
            Stream::Unix(it) => getsockopt(it.as_raw_fd(), PeerCredentials)
                .map_or(Peer::Unknown, |it| Peer::User(it.uid())),
            Stream::Tcp(it) => it.peer_addr().map_or(Peer::Unknown, |it| Peer::at(it.ip())),
        }
    }

    /// Returns whether it is a TCP connection. Only of a unix socket the end of the peer's input
    /// and the peer's end can be distinguished.
    pub fn is_tcp(&self) -> bool {
        matches!(self, Stream::Tcp(_))
    }

    /// Returns the peer for people: process and user for a unix socket, the address for a TCP one.
    pub fn peer(&self) -> String {
        match self {
            Stream::Unix(it) => match getsockopt(it.as_raw_fd(), PeerCredentials) {
                Ok(peer) => format!("pid {} uid {}", peer.pid(), peer.uid()),
                Err(_) => "unknown".to_string(),
            },
            Stream::Tcp(it) => it.peer_addr().map_or("unknown".to_string(), |it| it.to_string()),
        }
    }
}

impl Read for Stream {
    fn read(&mut self, buffer: &mut [u8]) -> io::Result<usize> {
        match self {
            Stream::Unix(it) => it.read(buffer),
            Stream::Tcp(it) => it.read(buffer),
        }
    }
}

impl Write for Stream {
    fn write(&mut self, text: &[u8]) -> io::Result<usize> {
        match self {
            Stream::Unix(it) => it.write(text),
            Stream::Tcp(it) => it.write(text),
        }
    }

    fn flush(&mut self) -> io::Result<()> {
        Ok(())
    }
}

impl Source for Stream {
    fn register(
        &mut self,
        registry: &Registry,
        token: Token,
        interest: Interest,
    ) -> io::Result<()> {
        match self {
            Stream::Unix(it) => it.register(registry, token, interest),
            Stream::Tcp(it) => it.register(registry, token, interest),
        }
    }

    fn reregister(
        &mut self,
        registry: &Registry,
        token: Token,
        interest: Interest,
    ) -> io::Result<()> {
        match self {
            Stream::Unix(it) => it.reregister(registry, token, interest),
            Stream::Tcp(it) => it.reregister(registry, token, interest),
        }
    }

    fn deregister(&mut self, registry: &Registry) -> io::Result<()> {
        match self {
            Stream::Unix(it) => it.deregister(registry),
            Stream::Tcp(it) => it.deregister(registry),
        }
    }
}

/// Passes connections from the accepting threads to the event loop, and limits their number.
pub struct Acceptor {
    limit: AtomicUsize,
    /// The most that this limit can be, by the limit of open files.
    most: usize,
    count: AtomicUsize,
    rejected: AtomicU64,
    arrived: Mutex<Vec<Stream>>,
    waker: Arc<Waker>,
    /// Two connected sockets. The accepting threads end when the first is shut down.
    stop: (StdUnixStream, StdUnixStream),
    is_stopped: AtomicBool,
    /// Whether the front is to end once it has answered what was sent.
    is_draining: AtomicBool,
    /// Whether all connections have ended after that.
    is_drained: Mutex<bool>,
    drained: Condvar,
}

impl Acceptor {
    /// Creates an acceptor that allows at most `limit` connections at a time, and wakes the event
    /// loop for each. The limit can be changed up to `most`.
    pub fn new(limit: usize, most: usize, waker: Arc<Waker>) -> io::Result<Acceptor> {
        Ok(Acceptor {
            limit: AtomicUsize::new(limit),
            most,
            count: AtomicUsize::new(0),
            rejected: AtomicU64::new(0),
            arrived: Mutex::default(),
            waker,
            stop: StdUnixStream::pair()?,
            is_stopped: AtomicBool::new(false),
            is_draining: AtomicBool::new(false),
            is_drained: Mutex::new(false),
            drained: Condvar::new(),
        })
    }

    /// Ends the accepting threads. Connections that haven't been accepted stay with their listener.
    pub fn stop(&self) {
        self.is_stopped.store(true, Ordering::SeqCst);
        let _ = self.stop.0.shutdown(Shutdown::Both);
    }

    /// Does the same, and has the event loop answer what the connections have sent.
    pub fn drain(&self) {
        self.stop();
        self.is_draining.store(true, Ordering::SeqCst);
        let _ = self.waker.wake();
    }

    /// Returns whether [`Acceptor::drain`] was called.
    pub fn is_draining(&self) -> bool {
        self.is_draining.load(Ordering::SeqCst)
    }

    /// Notes that all connections have ended after [`Acceptor::drain`].
    pub fn set_drained(&self) {
        if let Ok(mut it) = self.is_drained.lock() {
            *it = true;
            self.drained.notify_all();
        }
    }

    /// Waits for the end of all connections, but at most for `patience`. Returns the number of
    /// those that are left.
    pub fn wait_drained(&self, patience: Duration) -> usize {
        if let Ok(it) = self.is_drained.lock() {
            drop(self.drained.wait_timeout_while(it, patience, |is_drained| !*is_drained));
        }
        self.count.load(Ordering::SeqCst)
    }

    /// Waits until a connection has arrived at a listener. Returns false after
    /// [`Acceptor::stop`].
    fn waits(&self, listener: &Listener) -> bool {
        let mut files = [listener.as_raw_fd(), self.stop.1.as_raw_fd()]
            .map(|it| PollFd::new(it, PollFlags::POLLIN));
        // An error is a signal that interrupted it.
        let _ = poll(&mut files, -1);
        !self.is_stopped.load(Ordering::SeqCst)
    }

    /// Passes a connection to the event loop, or closes it if the limit is reached.
    fn hand_over(&self, stream: Stream) {
        if self.count.fetch_add(1, Ordering::SeqCst) >= self.limit() {
            self.release();
            self.rejected.fetch_add(1, Ordering::Relaxed);
            return;
        }
        if let Ok(mut arrived) = self.arrived.lock() {
            arrived.push(stream);
        }
        // It only fails if the event loop has ended, and then the process ends.
        let _ = self.waker.wake();
    }

    /// Returns the maximum number of connections at a time.
    pub fn limit(&self) -> usize {
        self.limit.load(Ordering::Relaxed)
    }

    /// Returns the most that the maximum number of connections can be.
    pub fn most(&self) -> usize {
        self.most
    }

    /// Changes the maximum number of connections. Those that are open stay.
    pub fn set_limit(&self, limit: usize) {
        self.limit.store(limit, Ordering::Relaxed);
    }

    /// Returns the number of connections that were closed at once because the limit was reached.
    pub fn rejected(&self) -> u64 {
        self.rejected.load(Ordering::Relaxed)
    }

    /// Takes the connections that have arrived.
    pub fn take_arrived(&self) -> Vec<Stream> {
        self.arrived.lock().map_or_else(|_| Vec::new(), |mut arrived| take(&mut *arrived))
    }

    /// Must be called when a connection is closed.
    pub fn release(&self) {
        self.count.fetch_sub(1, Ordering::SeqCst);
    }
}

/// A listening socket, its name for the log, and the file that this process has created for it.
pub struct Opened {
    pub listener: Listener,
    pub name: String,
    pub file: Option<SocketFile>,
}

/// Opens a listening socket.
pub fn open(address: &Address, rights: Rights) -> io::Result<Opened> {
    let (listener, name, file) = match address {
        Address::Unix(path) => {
            let (listener, file) = socket_file::bind(path, rights)?;
            (Listener::Unix(listener), path.clone(), Some(file))
        }
        Address::Tcp(address) => {
            let listener = TcpListener::bind(address)?;
            let name = listener.local_addr()?.to_string();
            (Listener::Tcp(listener), name, None)
        }
        Address::Stdin => (inherited()?, "the standard input".to_string(), None),
    };
    Ok(Opened { listener, name, file })
}

/// Returns standard input as a listening socket, as systemd passes it.
fn inherited() -> io::Result<Listener> {
    let socket: OwnedFd = io::stdin().as_fd().try_clone_to_owned()?;
    if !getsockopt(socket.as_raw_fd(), AcceptConn)? {
        let reason = "it is a socket that doesn't listen (a unit of systemd needs Accept=no)";
        return Err(io::Error::new(io::ErrorKind::InvalidInput, reason));
    }
    let listener = TcpListener::from(socket);
    if listener.local_addr().is_ok() {
        return Ok(Listener::Tcp(listener));
    }
    let listener = UnixListener::from(OwnedFd::from(listener));
    listener.local_addr()?;
    Ok(Listener::Unix(listener))
}

/// Returns the number of connections that this process may have by its limit of open files, if it
/// is known, given that it needs `others` files for other purposes.
pub fn connections_by_files(others: usize) -> Option<usize> {
    let (files, _) = getrlimit(Resource::RLIMIT_NOFILE).ok()?;
    let files = usize::try_from(files).unwrap_or(usize::MAX);
    Some(files.saturating_sub(OTHER_FILES + others))
}

/// Accepts the connections of a listener, until the acceptor is stopped.
pub fn run(listener: &Listener, acceptor: &Acceptor) {
    while acceptor.waits(listener) {
        match accept(listener) {
            Ok(Some(stream)) => acceptor.hand_over(stream),
            Ok(None) => {}
            Err(_) => thread::sleep(PAUSE),
        }
    }
}

/// Accepts the next connection. Returns `None` if it has already been reset.
fn accept(listener: &Listener) -> io::Result<Option<Stream>> {
    Ok(match listener {
        Listener::Unix(it) => {
            let (stream, _) = it.accept()?;
            stream.set_nonblocking(true).ok().map(|_| Stream::Unix(UnixStream::from_std(stream)))
        }
        Listener::Tcp(it) => {
            let (stream, _) = it.accept()?;
            keep_alive(&stream);
            let ready = stream.set_nonblocking(true).and(stream.set_nodelay(true));
            ready.ok().map(|_| Stream::Tcp(TcpStream::from_std(stream)))
        }
    })
}

/// Has the system end a connection whose peer is unreachable, after two minutes.
fn keep_alive(stream: &StdTcpStream) {
    let file = stream.as_raw_fd();
    // A connection works without these settings too.
    let _ = setsockopt(file, KeepAlive, &true);
    let _ = setsockopt(file, TcpKeepIdle, &KEEP_ALIVE_IDLE);
    let _ = setsockopt(file, TcpKeepInterval, &KEEP_ALIVE_INTERVAL);
    let _ = setsockopt(file, TcpKeepCount, &KEEP_ALIVE_PROBES);
}
