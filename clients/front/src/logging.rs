//! The log: one line for each event on standard error or in a file, with time and level, as text or
//! as JSON.
//!
//! A separate thread writes the lines, so a slow reader of standard error never delays calls. If
//! too many lines wait, further ones are dropped, and their number is logged.

use env_logger::fmt::Formatter;
use env_logger::{Builder, Target};
use log::{log, warn, Level, LevelFilter, Record};
use serde_json::{json, Map, Value};
use std::fs::{File, OpenOptions};
use std::io::{self, Write};
use std::path::PathBuf;
use std::sync::atomic::{AtomicBool, AtomicUsize, Ordering};
use std::sync::mpsc::{sync_channel, Receiver, SyncSender};
use std::sync::Mutex;
use std::thread;
use std::time::{Duration, Instant};

/// The maximum number of lines that wait to be written.
const QUEUE: usize = 1_024;

/// The maximum number of lines per second that clients can cause.
const LINES_A_SECOND: usize = 20;
const SECOND: Duration = Duration::from_secs(1);

/// How long the process waits at its end for lines to be written.
const PATIENCE: Duration = Duration::from_secs(1);

static QUEUE_INPUT: Mutex<Option<SyncSender<Entry>>> = Mutex::new(None);
static DROPPED: AtomicUsize = AtomicUsize::new(0);
/// Whether the file is to be opened again, where the queue had no room for [`Entry::Reopen`].
static REOPENS: AtomicBool = AtomicBool::new(false);
static IS_JSON: AtomicBool = AtomicBool::new(false);

/// The target of events with fields.
const EVENT: &str = "jentry_front::event";

/// A message to the writer thread.
enum Entry {
    Line(Vec<u8>),
    /// A request for a reply after all lines before it have been written.
    Flush(SyncSender<()>),
    /// A request to open the file again, because it may have been renamed.
    Reopen,
}

/// Puts lines into the queue, or drops them if it is full.
struct QueueWriter(SyncSender<Entry>);

impl Write for QueueWriter {
    fn write(&mut self, line: &[u8]) -> io::Result<usize> {
        if self.0.try_send(Entry::Line(line.to_vec())).is_err() {
            DROPPED.fetch_add(1, Ordering::Relaxed);
        }
        Ok(line.len())
    }

    fn flush(&mut self) -> io::Result<()> {
        Ok(())
    }
}

/// Where the lines go.
enum Output {
    Stderr,
    File(PathBuf, File),
}

impl Output {
    fn open(path: Option<PathBuf>) -> io::Result<Output> {
        path.map_or(Ok(Output::Stderr), |path| {
            let file = OpenOptions::new().create(true).append(true).open(&path)?;
            Ok(Output::File(path, file))
        })
    }

    /// Opens the file again. If that fails, the lines go to the file that is open.
    fn reopen(&mut self) {
        if let Output::File(path, _) = self {
            match Output::open(Some(path.clone())) {
                Ok(it) => *self = it,
                Err(e) => {
                    let message = format!("jentry-front: can't open {}: {}\n", path.display(), e);
                    let _ = self.write_all(message.as_bytes());
                }
            }
        }
    }
}

impl Write for Output {
    fn write(&mut self, line: &[u8]) -> io::Result<usize> {
        match self {
            Output::Stderr => io::stderr().write(line),
            Output::File(_, file) => file.write(line),
        }
    }

    fn flush(&mut self) -> io::Result<()> {
        Ok(())
    }
}

/// The log's options.
#[derive(Clone, Debug, PartialEq, Eq)]
pub struct Settings {
    /// The least important level that is logged.
    pub level: LevelFilter,
    /// The file for the log, in place of standard error.
    pub file: Option<PathBuf>,
    /// Whether each line is a JSON object.
    pub is_json: bool,
}

/// The value of a field of an event.
#[derive(Clone, Copy)]
pub enum Field<'a> {
    Number(u64),
    /// A word that needs no quotes.
    Word(&'a str),
    /// Any text, also a client's.
    Text(&'a str),
}

/// Logs an event with fields.
pub fn event(level: Level, event: &str, fields: &[(&str, Field)]) {
    if IS_JSON.load(Ordering::Relaxed) {
        let mut it = Map::new();
        it.insert("event".to_string(), json!(event));
        for (name, field) in fields {
            let value = match field {
                Field::Number(number) => json!(number),
                Field::Word(text) | Field::Text(text) => json!(text),
            };
            it.insert((*name).to_string(), value);
        }
        return log!(target: EVENT, level, "{}", Value::from(it));
    }
    let field = |(name, field): &(&str, Field)| match field {
        Field::Number(number) => format!(" {}={}", name, number),
        Field::Word(word) => format!(" {}={}", name, word),
        Field::Text(text) => format!(" {}={:?}", name, text),
    };
    log!(target: EVENT, level, "{}:{}", event, fields.iter().map(field).collect::<String>());
}

/// Writes a line of JSON: the object of an event, or the message of another line.
fn write_json(out: &mut Formatter, record: &Record) -> io::Result<()> {
    let text = record.args().to_string();
    let members = match record.target() {
        EVENT => text.trim_start_matches('{').to_string(),
        _ => format!("\"message\":{}}}", json!(text)),
    };
    let (time, level) = (out.timestamp(), record.level());
    writeln!(out, "{{\"time\":\"{}\",\"level\":\"{}\",{}", time, level, members)
}

/// Starts the log.
pub fn start(settings: &Settings) -> io::Result<()> {
    let Settings { level, file, is_json } = settings.clone();
    IS_JSON.store(is_json, Ordering::Relaxed);
    let (input, output) = sync_channel(QUEUE);
    let mut out = Output::open(file)?;
    thread::spawn(move || write_lines(&output, &mut out, Output::reopen));
    if let Ok(mut it) = QUEUE_INPUT.lock() {
        *it = Some(input.clone());
    }
    Builder::new()
        .filter_module("jentry_front", level)
        .format(move |out, record| {
            if is_json {
                return write_json(out, record);
            }
            let (time, level) = (out.timestamp(), record.level());
            writeln!(out, "{} {:5} jentry-front: {}", time, level, record.args())
        })
        .target(Target::Pipe(Box::new(QueueWriter(input))))
        .init();
    Ok(())
}

fn queue() -> Option<SyncSender<Entry>> {
    QUEUE_INPUT.lock().ok().and_then(|it| it.clone())
}

/// Opens the file of the log again, after the lines so far, or before them if nobody takes them. It
/// doesn't wait: the thread that calls it also handles the signals that end the front.
pub fn reopen() {
    if queue().map_or(false, |it| it.try_send(Entry::Reopen).is_err()) {
        REOPENS.store(true, Ordering::Relaxed);
    }
}

/// Waits until all lines so far have been written, for at most a second.
pub fn flush() {
    let (done, is_done) = sync_channel(1);
    if queue().map_or(false, |it| it.try_send(Entry::Flush(done)).is_ok()) {
        let _ = is_done.recv_timeout(PATIENCE);
    }
}

/// Limits the lines that clients can cause, so that they don't fill a disk.
#[derive(Default)]
pub struct LogLimit {
    /// The start of the current second, and the number of lines in it.
    begun: Option<Instant>,
    lines: usize,
    suppressed: usize,
}

impl LogLimit {
    /// Returns whether another line is allowed. The next allowed line is preceded by the number of
    /// dropped ones.
    pub fn allows(&mut self, now: Instant) -> bool {
        let is_new = self.begun.map_or(true, |it| now.saturating_duration_since(it) >= SECOND);
        if is_new {
            (self.begun, self.lines) = (Some(now), 0);
            if self.suppressed > 0 {
                warn!("{} lines of this kind were not logged", self.suppressed);
                self.suppressed = 0;
            }
        }
        self.lines += 1;
        let allowed = self.lines <= LINES_A_SECOND;
        self.suppressed += usize::from(!allowed);
        allowed
    }
}

fn write_lines<W: Write>(queue: &Receiver<Entry>, out: &mut W, reopen: fn(&mut W)) {
    for entry in queue {
        if REOPENS.swap(false, Ordering::Relaxed) {
            reopen(out);
        }
        match entry {
            Entry::Reopen => reopen(out),
            Entry::Line(line) => {
                let _ = out.write_all(&line);
            }
            Entry::Flush(done) => {
                let _ = done.try_send(());
            }
        }
        let dropped = DROPPED.swap(0, Ordering::Relaxed);
        if dropped > 0 {
            let _ = writeln!(out, "jentry-front: {} log lines were dropped", dropped);
        }
    }
}

#[cfg(test)]
mod tests {
    use super::*;

    #[test]
    fn strangers_cause_few_lines_a_second() {
        let (mut limit, now) = (LogLimit::default(), Instant::now());
        let allowed = (0..1_000).filter(|_| limit.allows(now)).count();
        assert_eq!((allowed, limit.suppressed), (LINES_A_SECOND, 1_000 - LINES_A_SECOND));
        assert!(limit.allows(now + SECOND));
        assert_eq!(limit.suppressed, 0);
    }

    #[test]
    fn a_full_queue_drops_lines_and_says_how_many() {
        let (input, output) = sync_channel(2);
        let mut writer = QueueWriter(input);
        for line in ["one\n", "two\n", "three\n", "four\n"] {
            writer.write_all(line.as_bytes()).expect("never waits");
        }
        drop(writer);
        let mut out = Vec::new();
        write_lines(&output, &mut out, |_| {});
        let text = String::from_utf8(out).expect("text");
        assert_eq!(text, "one\njentry-front: 2 log lines were dropped\ntwo\n");
    }
}
