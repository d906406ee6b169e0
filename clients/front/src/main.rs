//! jentry-front: lets many connections share one jentry cache.
//!
//! It starts one server (`jentry serve`), listens, and speaks the server's protocol with each
//! connection. A connection's round is processed after its end has arrived. The front isn't part of
//! the verified server.
#![forbid(unsafe_code)]

mod affinity;
mod batch;
mod builtins;
mod by_number;
mod class_name;
mod classes;
mod connection;
mod control;
mod definition_log;
mod event_loop;
#[cfg(test)]
mod golden_tests;
mod http;
mod listen;
mod logging;
mod metrics;
mod options;
mod peers;
mod protocol;
mod quotas;
mod request;
mod scheduler;
mod server;
mod shared;
mod shares;
mod socket_file;
mod spin_wait;
mod status;
mod sub_batch;
mod systemd;
mod tally;

use control::Control;
use event_loop::{EventLoop, WAKER};
use http::Hosts;
use listen::{Acceptor, Opened};
use log::{error, info, warn};
use mio::{Poll, Waker};
use nix::unistd::gethostname as hostname;
use options::Options;
use prometheus::Registry;
use scheduler::Scheduler;
use serde_json::{json, Value};
use shared::Shared;
use signal_hook::consts::{SIGHUP, SIGINT, SIGTERM};
use signal_hook::iterator::Signals;
use signal_hook::low_level::{emulate_default_handler, signal_name};
use socket_file::SocketFile;
use status::{Board, Publisher};
use std::ffi::OsString;
use std::fmt::Display;
use std::io;
use std::net::TcpListener;
use std::os::unix::net::UnixListener;
use std::process::{exit, id};
use std::sync::{Arc, Mutex, PoisonError};
use std::thread;
use std::time::Duration;

/// The exit status for an invalid command line, the same as `jentry`'s.
const USAGE_STATUS: i32 = 1;

/// The exit status if the front can't start.
const START_STATUS: i32 = 3;

/// How long the front waits at its end until the viewers of the page have been told that the server
/// ended.
const FAREWELL: Duration = Duration::from_millis(500);

/// The jobs of a round that clients send.
const CLIENTS_JOBS: usize = 4_096;

/// Returns the maximum number of connections, and the most that it can be by the number of files
/// that this process may open.
fn connection_limits(options: &Options) -> (usize, usize) {
    let http = if options.http.is_some() { http::MOST_CONNECTIONS } else { 0 };
    let control = if options.control.is_some() { control::MOST_CONNECTIONS + 1 } else { 0 };
    match listen::connections_by_files(http + control) {
        Some(most) if most < options.connections => {
            warn!(
                "at most {} connections, since this process may not open more files (ulimit -n)",
                most
            );
            (most, most)
        }
        most => (options.connections, most.unwrap_or(usize::MAX)),
    }
}

/// Why the front can't start, and its exit status.
struct Failure {
    reason: String,
    status: i32,
}

impl From<String> for Failure {
    fn from(reason: String) -> Failure {
        Failure { reason, status: START_STATUS }
    }
}

/// What a signal needs that ends the front.
struct Ending {
    files: Vec<SocketFile>,
    acceptor: Arc<Acceptor>,
    board: Arc<Board>,
    drain: Duration,
}

impl Ending {
    /// Stops accepting connections, waits until those that are open have been answered, and ends by
    /// this signal.
    fn end(&self, signal: i32) {
        systemd::notify("STOPPING=1");
        self.board.set_draining();
        self.files.iter().for_each(SocketFile::remove);
        self.acceptor.drain();
        let left = self.acceptor.wait_drained(self.drain);
        info!("ended by {}, with {} open connections", name_of(signal), left);
        logging::flush();
        let _ = emulate_default_handler(signal);
    }
}

fn name_of(signal: i32) -> &'static str {
    signal_name(signal).unwrap_or("a signal")
}

/// Ends the front by SIGTERM and SIGINT once it has answered what was sent; a second one of them
/// ends it at once. SIGHUP only opens the log's file again.
fn handle_signals(ending: Ending) -> io::Result<()> {
    let mut signals = Signals::new([SIGHUP, SIGINT, SIGTERM])?;
    let mut ending = Some(ending);
    thread::spawn(move || {
        for signal in signals.forever() {
            if signal == SIGHUP {
                logging::reopen();
                info!("SIGHUP: the log's file, if there is one, was opened again");
            } else if let Some(ending) = ending.take() {
                thread::spawn(move || ending.end(signal));
            } else {
                info!("ended by a second {}", name_of(signal));
                logging::flush();
                let _ = emulate_default_handler(signal);
            }
        }
    });
    Ok(())
}

/// The listening sockets.
struct Listeners {
    front: Vec<Opened>,
    http: Option<TcpListener>,
    control: Option<(UnixListener, SocketFile)>,
}

impl Listeners {
    /// Opens the sockets of the options. If one can't be opened, no file is left of the others.
    fn new(options: &Options) -> Result<Listeners, Failure> {
        let mut it = Listeners { front: Vec::new(), http: None, control: None };
        match it.open(options) {
            Ok(()) => Ok(it),
            Err(failure) => {
                it.files().iter().for_each(SocketFile::remove);
                Err(failure)
            }
        }
    }

    fn open(&mut self, options: &Options) -> Result<(), Failure> {
        if let Some((path, rights)) = &options.control {
            let opened = socket_file::bind(path, *rights);
            self.control = Some(opened.map_err(|e| cannot_listen(path, &e))?);
        }
        for address in &options.addresses {
            let opened = listen::open(address, options.rights);
            self.front.push(opened.map_err(|e| cannot_listen(address, &e))?);
        }
        if let Some(address) = &options.http {
            self.http = Some(TcpListener::bind(address).map_err(|e| cannot_listen(address, &e))?);
        }
        Ok(())
    }

    /// Returns the files of all unix sockets.
    fn files(&self) -> Vec<SocketFile> {
        let of_control = self.control.iter().map(|it| it.1.clone());
        self.front.iter().filter_map(|it| it.file.clone()).chain(of_control).collect()
    }
}

/// Returns why a socket can't be opened. A file that may not be replaced is an error of the command
/// line.
fn cannot_listen(address: &impl Display, e: &io::Error) -> Failure {
    let is_usage = e.kind() == io::ErrorKind::AlreadyExists;
    let reason = format!("can't listen on {}: {}", address, e);
    Failure { reason, status: if is_usage { USAGE_STATUS } else { START_STATUS } }
}

/// Listens, starts the server, and serves until it ends. Returns an error if it fails before that.
fn run(options: Options) -> Result<(), Failure> {
    let (limit, most) = connection_limits(&options);
    if options.limits.requests < CLIENTS_JOBS {
        warn!(
            "--requests {}: the clients send rounds of up to {} requests, and larger ones end them",
            options.limits.requests, CLIENTS_JOBS
        );
    }
    let listeners = Listeners::new(&options)?;
    let files = listeners.files();
    serve(options, listeners, (limit, most)).map_err(|reason| {
        files.iter().for_each(SocketFile::remove);
        reason.into()
    })
}

/// Starts the server, and serves until it ends.
fn serve(options: Options, listeners: Listeners, limits: (usize, usize)) -> Result<(), String> {
    let files = listeners.files();
    let Listeners { front, http, control } = listeners;
    let (limit, most) = limits;
    let poll = Poll::new().map_err(setup_failed)?;
    let waker = Arc::new(Waker::new(poll.registry(), WAKER).map_err(setup_failed)?);
    let board = Arc::new(Board::new(Registry::new(), waker.clone()));
    let acceptor = Arc::new(Acceptor::new(limit, most, waker.clone()).map_err(setup_failed)?);
    let (drain, stall) = (options.drain, options.times.stall);
    let (names, about) = (http_names(&options), about(&options, &front));
    let ending =
        Ending { files: files.clone(), acceptor: acceptor.clone(), board: board.clone(), drain };
    handle_signals(ending).map_err(setup_failed)?;
    let (http_waker, for_end) = (Arc::new(Mutex::new(None::<Waker>)), board.clone());
    let (waker_for_end, acceptor_for_end) = (http_waker.clone(), acceptor.clone());
    let mut server = server::start(&options.program, move |how| {
        acceptor_for_end.stop();
        files.iter().for_each(SocketFile::remove);
        say_ended(&for_end, &waker_for_end, how);
    })
    .map_err(|e| format!("can't start {}: {}", options.program[0].to_string_lossy(), e))?;
    let mut shared = Shared::new(options.limits);
    if builtins::define(&mut server, &mut shared).is_err() {
        drop(server);
        server::end_soon();
        loop {
            thread::park();
        }
    }
    let publisher = publisher(&board, http.is_some(), stall)?;
    if let Some(listener) = http {
        let settings = http::Settings { stall, hosts: Hosts(names), about: about.clone() };
        let waker = http::start(listener, board, server.process, settings).map_err(setup_failed)?;
        *http_waker.lock().unwrap_or_else(PoisonError::into_inner) = Some(waker);
    }
    let control = control.map(|(listener, _)| start_control(listener, waker, about));
    let scheduler = Scheduler::new(server, options.steps).map_err(setup_failed)?;
    let event_loop =
        EventLoop::new(poll, acceptor.clone(), scheduler, shared, options.times, publisher)
            .map_err(setup_failed)?
            .with_control(control);
    for Opened { listener, name, .. } in front {
        let acceptor = acceptor.clone();
        info!("listening on {}", name);
        thread::spawn(move || listen::run(&listener, &acceptor));
    }
    systemd::notify("READY=1");
    event_loop.run()
}

/// Starts to serve operators.
fn start_control(listener: UnixListener, waker: Arc<Waker>, about: Value) -> Arc<Control> {
    let control = Arc::new(Control::new(waker, about));
    let served = control.clone();
    thread::spawn(move || control::run(&listener, &served));
    control
}

/// Returns the names by which the HTTP server may be called: those of the options, and the host
/// that it listens on.
fn http_names(options: &Options) -> Vec<String> {
    let host = options.http.iter().filter_map(|it| it.rsplit_once(':'));
    options.http_names.iter().cloned().chain(host.map(|it| it.0.to_string())).collect()
}

/// Returns what the page says of this front.
fn about(options: &Options, front: &[Opened]) -> Value {
    let words: Vec<_> = options.program.iter().map(|it| it.to_string_lossy()).collect();
    let commit = option_env!("JENTRY_COMMIT").map_or(String::new(), |it| format!(" ({})", it));
    let limits = &options.limits;
    json!({
        "host": hostname().ok().map(|it| it.to_string_lossy().into_owned()),
        "process": id(),
        "version": format!("{}{}", env!("CARGO_PKG_VERSION"), commit),
        "sockets": front.iter().map(|it| &it.name).collect::<Vec<_>>(),
        "server": words.join(" "),
        "limits": {
            "--classes": limits.classes, "--peer-classes": limits.peers.classes,
            "--max-steps": limits.class_steps, "--requests": limits.requests,
            "--round-steps": limits.round_steps, "--peer-steps": limits.peers.steps,
            "--round-bytes": limits.round_bytes, "--steps": options.steps,
            "--define-bytes": limits.peers.bytes_a_second,
            "--stall": options.times.stall.as_secs(), "--drain": options.drain.as_secs(),
        },
    })
}

/// Returns what publishes the counts, if the HTTP thread or systemd's watchdog asks for them.
fn publisher(
    board: &Arc<Board>,
    has_http: bool,
    stall: Duration,
) -> Result<Option<Publisher>, String> {
    let watchdog = systemd::watchdog_time();
    if let Some(time) = watchdog {
        systemd::watch(board.clone(), time, stall);
    }
    if !has_http && watchdog.is_none() {
        return Ok(None);
    }
    Publisher::new(board.clone()).map(Some).map_err(|e| e.to_string())
}

/// Has the HTTP thread, if there is one, report how the server ended.
fn say_ended(board: &Board, waker: &Mutex<Option<Waker>>, how: String) {
    if let Some(waker) = &*waker.lock().unwrap_or_else(PoisonError::into_inner) {
        board.set_ended(how, FAREWELL, || waker.wake().is_ok());
    }
}

fn setup_failed(e: io::Error) -> String {
    format!("can't open what it needs: {}", e)
}

fn main() {
    let words: Vec<OsString> = std::env::args_os().collect();
    match words.get(1).and_then(|it| it.to_str()) {
        Some("ctl") => exit(control::client::run(words.into_iter().skip(1))),
        Some(server::BECOME) => {
            eprintln!("{}", server::become_server(&words[2..]));
            exit(START_STATUS);
        }
        _ => {}
    }
    let options = options::parse(words).unwrap_or_else(|e| {
        let _ = e.print();
        exit(if e.use_stderr() { USAGE_STATUS } else { 0 });
    });
    if let Err(e) = logging::start(&options.log) {
        eprintln!("jentry-front: can't open the log's file: {}", e);
        exit(START_STATUS);
    }
    if let Err(failure) = run(options) {
        error!("{}", failure.reason);
        logging::flush();
        exit(failure.status);
    }
}
