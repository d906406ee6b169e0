//! The metrics of the event loop, with the prometheus crate. When they are published, the counters
//! take over the counts of the event loop's [`Tally`]; between publications they cost nothing.

use crate::tally::{Tally, CLOSED, DENIALS, EXCEPTIONS, REFUSALS, REPLIES, REQUESTS};
use prometheus::local::LocalHistogram;
use prometheus::{
    Histogram, HistogramOpts, IntCounter, IntCounterVec, IntGauge, Opts, Registry, Result,
};
use std::time::Duration;

/// The label value for numbers without a name.
const OTHER: &str = "other";

/// The upper bounds of times, in seconds.
const SECONDS: [f64; 22] = [
    1e-5, 2e-5, 5e-5, 1e-4, 2e-4, 5e-4, 1e-3, 2e-3, 5e-3, 0.01, 0.02, 0.05, 0.1, 0.2, 0.5, 1.0,
    2.0, 5.0, 10.0, 20.0, 50.0, 100.0,
];

/// The upper bounds of the number of requests of a round or a batch.
const SIZES: [f64; 9] = [1.0, 2.0, 4.0, 8.0, 16.0, 64.0, 256.0, 1_024.0, 4_096.0];

/// Selects a count.
type OfTally = fn(&Tally) -> u64;
type OfGauges = fn(&Gauges) -> usize;

/// Name, help, and the count.
type Single = (&'static str, &'static str, OfTally);

const SINGLES: [Single; 6] = [
    ("jentry_runs_total", "Runs of processors, one for each key of an invokeAll.", |it| it.runs),
    (
        "jentry_steps_total",
        "Instructions of all runs at most: each run counts the bound of its class.",
        |it| it.steps,
    ),
    ("jentry_rounds_total", "Rounds that connections sent to their end.", |it| it.rounds),
    ("jentry_connections_opened_total", "Connections that were opened.", |it| it.opened),
    ("jentry_received_bytes_total", "Bytes read from connections.", |it| it.received_bytes),
    ("jentry_sent_bytes_total", "Bytes written to connections.", |it| it.sent_bytes),
];

/// Name, help, label, the values of the label, and the counts.
type Labelled =
    (&'static str, &'static str, &'static str, &'static [&'static str], fn(&Tally) -> &[u64]);

const BY_NAME: [Labelled; 5] = [
    ("jentry_requests_total", "Requests by kind.", "kind", &REQUESTS, |it| &it.requests),
    ("jentry_replies_total", "Replies by kind.", "kind", &REPLIES, |it| &it.replies),
    (
        "jentry_connections_closed_total",
        "Connections that were closed, by reason.",
        "reason",
        &CLOSED,
        |it| &it.closed,
    ),
    (
        "jentry_gets_total",
        "Gets that found an entry, and that found none.",
        "result",
        &["miss", "hit"],
        |it| &it.gets,
    ),
    (
        "jentry_removes_total",
        "Removes that found an entry, and that found none.",
        "result",
        &["absent", "removed"],
        |it| &it.removes,
    ),
];

const BY_NUMBER: [Labelled; 3] = [
    (
        "jentry_denials_total",
        "Requests, and keys of an invokeAll, that were denied, by number.",
        "number",
        &DENIALS,
        |it| &it.denials,
    ),
    (
        "jentry_exceptions_total",
        "Java exceptions that ended a run, by number.",
        "number",
        &EXCEPTIONS,
        |it| &it.exceptions,
    ),
    (
        "jentry_refusals_total",
        "Classes that the server refused, by number.",
        "number",
        &REFUSALS,
        |it| &it.refusals,
    ),
];

/// The current values.
#[derive(Clone, Copy, Debug, Default)]
pub struct Gauges {
    pub waiting_rounds: usize,
    pub waiting_requests: usize,
    pub connections: usize,
    pub connections_limit: usize,
    pub classes: usize,
    pub class_bytes: usize,
    pub round_bytes: usize,
    /// The number of rejected connections since the start of the process.
    pub rejected: u64,
}

/// Counters with one label.
struct Family {
    /// The counters, each with its index in the counts.
    counters: Vec<(usize, IntCounter)>,
    counts: fn(&Tally) -> &[u64],
}

/// The metrics of the event loop.
pub struct Metrics {
    singles: Vec<(IntCounter, OfTally)>,
    families: Vec<Family>,
    rejected: IntCounter,
    gauges: Vec<(IntGauge, OfGauges)>,
    round_seconds: LocalHistogram,
    round_requests: LocalHistogram,
    batch_seconds: LocalHistogram,
    batch_requests: LocalHistogram,
}

fn counter(registry: &Registry, name: &str, help: &str) -> Result<IntCounter> {
    let counter = IntCounter::new(name, help)?;
    registry.register(Box::new(counter.clone()))?;
    Ok(counter)
}

fn gauge(registry: &Registry, name: &str, help: &str) -> Result<IntGauge> {
    let gauge = IntGauge::new(name, help)?;
    registry.register(Box::new(gauge.clone()))?;
    Ok(gauge)
}

fn histogram(
    registry: &Registry,
    name: &str,
    help: &str,
    bounds: &[f64],
) -> Result<LocalHistogram> {
    let options = HistogramOpts::new(name, help).buckets(bounds.to_vec());
    let histogram = Histogram::with_opts(options)?;
    registry.register(Box::new(histogram.clone()))?;
    Ok(histogram.local())
}

/// Creates counters whose label is a name, or with `by_number` the number of that name.
fn family(registry: &Registry, of: Labelled, by_number: bool) -> Result<Family> {
    let (name, help, label, names, counts) = of;
    let vec = IntCounterVec::new(Opts::new(name, help), &[label])?;
    registry.register(Box::new(vec.clone()))?;
    let mut counters = Vec::new();
    for (index, name) in names.iter().enumerate() {
        let value = match (by_number, index) {
            (true, 0) => OTHER.to_string(),
            (true, _) => index.to_string(),
            (false, _) if name.is_empty() => continue,
            (false, _) => name.to_string(),
        };
        counters.push((index, vec.with_label_values(&[&value])));
    }
    Ok(Family { counters, counts })
}

/// Raises a counter to a value, which is at least its own.
fn raise(counter: &IntCounter, value: u64) {
    counter.inc_by(value - counter.get());
}

impl Metrics {
    /// Creates metrics in this registry, all with value 0.
    pub fn new(registry: &Registry) -> Result<Metrics> {
        let mut singles = Vec::new();
        for (name, help, value) in SINGLES {
            singles.push((counter(registry, name, help)?, value));
        }
        let mut families = Vec::new();
        for of in BY_NAME {
            families.push(family(registry, of, false)?);
        }
        for of in BY_NUMBER {
            families.push(family(registry, of, true)?);
        }
        let seconds = |name, help| histogram(registry, name, help, &SECONDS);
        let sizes = |name, help| histogram(registry, name, help, &SIZES);
        Ok(Metrics {
            singles,
            families,
            rejected: counter(
                registry,
                "jentry_connections_rejected_total",
                "Connections that were closed at once, since there were as many as may be.",
            )?,
            gauges: gauges(registry)?,
            round_seconds: seconds(
                "jentry_round_seconds",
                "Time from the end of a round of a connection to its replies.",
            )?,
            round_requests: sizes("jentry_round_requests", "Requests of a round of a connection.")?,
            batch_seconds: seconds(
                "jentry_batch_seconds",
                "Time that the server took for a batch, which has requests of several rounds.",
            )?,
            batch_requests: sizes("jentry_batch_requests", "Requests of a batch.")?,
        })
    }

    /// Counts a round to which the server has replied.
    pub fn round(&self, time: Duration, requests: usize) {
        self.round_seconds.observe(time.as_secs_f64());
        self.round_requests.observe(requests as f64);
    }

    /// Counts a batch to which the server has replied.
    pub fn batch(&self, time: Duration, requests: usize) {
        self.batch_seconds.observe(time.as_secs_f64());
        self.batch_requests.observe(requests as f64);
    }

    /// Updates the registry from the counts.
    pub fn publish(&self, tally: &Tally, now: &Gauges) {
        for (counter, value) in &self.singles {
            raise(counter, value(tally));
        }
        for family in &self.families {
            let counts = (family.counts)(tally);
            for (index, counter) in &family.counters {
                raise(counter, counts[*index]);
            }
        }
        raise(&self.rejected, now.rejected);
        for (gauge, value) in &self.gauges {
            gauge.set(value(now) as i64);
        }
        for it in
            [&self.round_seconds, &self.round_requests, &self.batch_seconds, &self.batch_requests]
        {
            it.flush();
        }
    }
}

fn gauges(registry: &Registry) -> Result<Vec<(IntGauge, OfGauges)>> {
    let all: [(&str, &str, OfGauges); 7] = [
        (
            "jentry_waiting_rounds",
            "Rounds and classes of connections that wait for the server or are there.",
            |it| it.waiting_rounds,
        ),
        ("jentry_waiting_requests", "Requests that wait to be sent to the server.", |it| {
            it.waiting_requests
        }),
        ("jentry_connections", "Open connections.", |it| it.connections),
        ("jentry_connections_limit", "The most open connections.", |it| it.connections_limit),
        ("jentry_classes", "Classes that the server has accepted.", |it| it.classes),
        ("jentry_class_bytes", "Length of their class files.", |it| it.class_bytes),
        (
            "jentry_round_bytes",
            "Memory of rounds that connections send, that wait, or whose replies wait.",
            |it| it.round_bytes,
        ),
    ];
    all.into_iter().map(|(name, help, value)| Ok((gauge(registry, name, help)?, value))).collect()
}

#[cfg(test)]
mod tests {
    use super::*;
    use prometheus::TextEncoder;

    fn text(registry: &Registry) -> String {
        TextEncoder::new().encode_to_string(&registry.gather()).expect("text")
    }

    #[test]
    fn counters_follow_the_tally() {
        let registry = Registry::new();
        let metrics = Metrics::new(&registry).expect("metrics");
        let mut tally = Tally::default();
        tally.request(2);
        tally.own_reply(&[0, 0, 0, 2, 8, 5]);
        metrics.publish(&tally, &Gauges { connections: 3, ..Gauges::default() });
        tally.request(2);
        metrics.round(Duration::from_micros(30), 2);
        metrics.publish(&tally, &Gauges { connections: 2, rejected: 1, ..Gauges::default() });
        let text = text(&registry);
        for line in [
            "jentry_requests_total{kind=\"put\"} 2",
            "jentry_requests_total{kind=\"define\"} 0",
            "jentry_denials_total{number=\"5\"} 1",
            "jentry_denials_total{number=\"other\"} 0",
            "jentry_connections 2",
            "jentry_connections_rejected_total 1",
            "jentry_round_seconds_bucket{le=\"0.00002\"} 0",
            "jentry_round_seconds_bucket{le=\"0.00005\"} 1",
            "jentry_round_requests_sum 2",
        ] {
            assert!(text.lines().any(|it| it == line), "{} in\n{}", line, text);
        }
        assert!(!text.contains("kind=\"\""), "{}", text);
    }
}
