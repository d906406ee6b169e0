//! The responses of the HTTP thread: metrics, health, the page and its events, and the history of
//! the last ten minutes.

use super::connection::Response;
use super::page;
use super::process::{self, Process};
use super::request::Route;
use super::{Settings, MOST_WATCHERS};
use crate::status::Board;
use prometheus::proto::MetricFamily;
use prometheus::{Counter, Gauge, IntGauge, Opts, Registry, TextEncoder};
use serde_json::{json, Value};
use std::collections::VecDeque;
use std::sync::Arc;
use std::time::{Duration, Instant};

/// The number of samples on the page, for ten minutes.
const HISTORY: usize = 600;

/// The event loop isn't healthy if it hasn't responded for this long.
const LONG_SILENCE: Duration = Duration::from_secs(5);

const TEXT: &str = "Content-Type: text/plain; charset=utf-8\r\nCache-Control: no-store\r\n";
const METRICS: &str =
    "Content-Type: text/plain; version=0.0.4; charset=utf-8\r\nCache-Control: no-store\r\n";
const PAGE: &str = "Content-Type: text/html; charset=utf-8\r\nCache-Control: no-store\r\n\
    X-Content-Type-Options: nosniff\r\nReferrer-Policy: no-referrer\r\n\
    Content-Security-Policy: default-src 'none'; style-src 'unsafe-inline'; \
    script-src 'unsafe-inline'; connect-src 'self'; img-src data:; base-uri 'none'; \
    form-action 'none'; frame-ancestors 'none'\r\n";
const GET_ONLY: &str = "Content-Type: text/plain; charset=utf-8\r\nAllow: GET, HEAD\r\n";

/// The state of the histogram of rounds and of the counters at one time.
#[derive(Clone, Debug, Default)]
struct Sample {
    requests: f64,
    /// Cumulative counts by upper bound.
    buckets: Vec<(f64, u64)>,
}

/// Metrics that the HTTP thread computes itself.
struct OwnMetrics {
    server_up: IntGauge,
    server: ProcessMetrics,
    front: ProcessMetrics,
    front_files: Gauge,
    age: Gauge,
    batch_age: Gauge,
}

/// Metrics of a process.
struct ProcessMetrics {
    memory: Gauge,
    start: Gauge,
    cpu: Counter,
}

/// Creates responses, and keeps the history for the page.
pub struct Watch {
    board: Arc<Board>,
    server: String,
    settings: Settings,
    own: OwnMetrics,
    last: Option<(Instant, Sample)>,
    /// Seconds since 1970, calls per second, median and 99th percentile of a round's time, waiting
    /// requests.
    history: VecDeque<[f64; 5]>,
}

fn gauge(registry: &Registry, name: &str, help: &str) -> prometheus::Result<Gauge> {
    let gauge = Gauge::with_opts(Opts::new(name, help))?;
    registry.register(Box::new(gauge.clone()))?;
    Ok(gauge)
}

impl ProcessMetrics {
    fn new(registry: &Registry, prefix: &str, of: &str) -> prometheus::Result<ProcessMetrics> {
        let of_process = |name: &str, help: &str| {
            gauge(registry, &format!("{}_{}", prefix, name), &format!("{} of {}.", help, of))
        };
        let name = format!("{}_cpu_seconds_total", prefix);
        let cpu = Counter::new(name, format!("Processor time of {}.", of))?;
        registry.register(Box::new(cpu.clone()))?;
        Ok(ProcessMetrics {
            memory: of_process("resident_memory_bytes", "Resident memory")?,
            start: of_process("start_time_seconds", "Start, in seconds since 1970,")?,
            cpu,
        })
    }

    fn set(&self, it: &Process) {
        self.memory.set(it.memory_bytes as f64);
        self.start.set(it.start_seconds);
        self.cpu.inc_by((it.cpu_seconds - self.cpu.get()).max(0.0));
    }
}

impl OwnMetrics {
    fn new(registry: &Registry) -> prometheus::Result<OwnMetrics> {
        let up = IntGauge::new("jentry_server_up", "Whether the server runs.")?;
        registry.register(Box::new(up.clone()))?;
        let of = |name: &str, help: &str| gauge(registry, name, help);
        Ok(OwnMetrics {
            server_up: up,
            server: ProcessMetrics::new(registry, "jentry_server", "the server")?,
            front: ProcessMetrics::new(registry, "process", "the front")?,
            front_files: of("process_open_fds", "Open files of the front.")?,
            age: of("jentry_counts_age_seconds", "Time since the event loop gave its counts.")?,
            batch_age: of(
                "jentry_batch_age_seconds",
                "Time since the batch at the server was sent, 0 without one.",
            )?,
        })
    }

    fn set(&self, server: Option<Process>, board: &Board) {
        self.server_up.set(i64::from(server.is_some()));
        // Once it has ended, its last values stay.
        if let Some(server) = &server {
            self.server.set(server);
        }
        let front = process::read("self").unwrap_or_default();
        self.front.set(&front);
        self.front_files.set(front.open_files as f64);
        self.age.set(board.age().map_or(0.0, |it| it.as_secs_f64()));
        self.batch_age.set(board.batch_age().as_secs_f64());
    }
}

impl Watch {
    /// Observes this board, and the server by its process id.
    pub fn new(board: Arc<Board>, server: u32, settings: Settings) -> prometheus::Result<Watch> {
        let own = OwnMetrics::new(board.registry())?;
        let history = VecDeque::with_capacity(HISTORY);
        let server = server.to_string();
        Ok(Watch { board, server, settings, own, last: None, history })
    }

    /// Returns the response to a request. For [`Route::Events`] it reports that there are too many
    /// viewers.
    pub fn response(&self, route: Route) -> Response {
        let text = |status, text: &str| Response { status, headers: TEXT, body: text.into() };
        match route {
            Route::Page { .. } => {
                Response { status: "200 OK", headers: PAGE, body: page::HTML.into() }
            }
            Route::Metrics { .. } => self.metrics(),
            Route::Health { .. } => self.health(),
            Route::Events => full(),
            Route::Misdirected => text(
                "421 Misdirected Request",
                "this server isn't called so; --http-name NAME allows the name\n",
            ),
            Route::NotFound { .. } => text("404 Not Found", "there are /, /metrics and /healthz\n"),
            Route::BadMethod => {
                let body = "only GET and HEAD\n".into();
                Response { status: "405 Method Not Allowed", headers: GET_ONLY, body }
            }
            Route::Bad => text("400 Bad Request", "no request of HTTP without a body\n"),
            Route::TooLong => {
                text("431 Request Header Fields Too Large", "the request is too long\n")
            }
        }
    }

    fn families(&self) -> Vec<MetricFamily> {
        let server = match self.board.ended() {
            Some(_) => None,
            None => process::read(&self.server),
        };
        self.own.set(server, &self.board);
        self.board.registry().gather()
    }

    fn metrics(&self) -> Response {
        match TextEncoder::new().encode_to_string(&self.families()) {
            Ok(text) => Response { status: "200 OK", headers: METRICS, body: text.into_bytes() },
            Err(e) => {
                let (status, body) = ("500 Internal Server Error", format!("{}\n", e).into_bytes());
                Response { status, headers: TEXT, body }
            }
        }
    }

    fn health(&self) -> Response {
        let problem = match (self.board.ended(), self.board.age()) {
            (Some(how), _) => Some(format!("the server has ended: {}\n", how)),
            (None, _) if self.board.is_draining() => Some("the front is to end\n".to_string()),
            (None, Some(age)) if age < LONG_SILENCE => self.stalled().map(|it| it + "\n"),
            (None, Some(age)) => Some(format!("no answer for {} seconds\n", age.as_secs())),
            (None, None) => Some("no answer yet\n".to_string()),
        };
        let (status, body) = match problem {
            None => ("200 OK", "ok\n".into()),
            Some(problem) => ("503 Service Unavailable", problem.into_bytes()),
        };
        Response { status, headers: TEXT, body }
    }

    /// Returns what to say of a server that doesn't answer.
    fn stalled(&self) -> Option<String> {
        let age = self.board.stalled(self.settings.stall)?;
        Some(format!("the server hasn't answered a batch for {} seconds", age.as_secs()))
    }

    /// Adds a sample to the history.
    pub fn sample(&mut self) {
        let families = self.families();
        let now = Instant::now();
        let sample = Sample {
            requests: page::total(&families, "jentry_requests_total"),
            buckets: page::buckets(&families, "jentry_round_seconds"),
        };
        if let Some((at, last)) = &self.last {
            let seconds = (now - *at).as_secs_f64().max(1e-3);
            let calls = (sample.requests - last.requests) / seconds;
            let waiting = page::total(&families, "jentry_waiting_requests");
            let between = page::difference(&sample.buckets, &last.buckets);
            let (median, most) = (page::quantile(&between, 0.5), page::quantile(&between, 0.99));
            if self.history.len() == HISTORY {
                self.history.pop_front();
            }
            self.history.push_back([process::now_seconds(), calls, median, most, waiting]);
        }
        self.last = Some((now, sample));
    }

    fn state(&self, history: Value) -> String {
        let mut state = page::state(&self.families(), &self.board.tables(), history);
        state["problem"] = json!(self.stalled());
        state["about"] = self.settings.about.clone();
        format!("event: state\ndata: {}\n\n", state)
    }

    /// Returns the first event for a page, with the whole history.
    pub fn first_event(&self) -> String {
        self.state(json!(self.history))
    }

    /// Returns the next event, with the newest sample.
    pub fn event(&self) -> String {
        self.state(self.history.back().map_or(json!([]), |it| json!([it])))
    }
}

/// Returns the stream of a page too many, which says so and has the page try again.
fn full() -> Response {
    let headers = "Content-Type: text/event-stream\r\nCache-Control: no-store\r\n";
    let body = format!("retry: 10000\nevent: full\ndata: {}\n\n", MOST_WATCHERS);
    Response { status: "200 OK", headers, body: body.into_bytes() }
}

/// Returns the last event, which says how the server ended.
pub fn ended_event(how: &str) -> String {
    format!("event: ended\ndata: {}\n\n", json!(how))
}
