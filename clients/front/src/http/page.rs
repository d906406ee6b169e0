//! The page's HTML, and the JSON of its events.

use super::process;
use crate::status::{ClassRow, ConnectionRow, Tables, MOST_ROWS};
use crate::tally::{name, DENIALS, EXCEPTIONS, REFUSALS};
use prometheus::proto::{MetricFamily, MetricType};
use serde_json::{json, Map, Value};

/// The page, which is self-contained.
pub const HTML: &str = include_str!("page.html");

fn find<'f>(families: &'f [MetricFamily], name: &str) -> Option<&'f MetricFamily> {
    families.iter().find(|it| it.get_name() == name)
}

/// Returns the sum of all series of a counter or gauge.
pub fn total(families: &[MetricFamily], name: &str) -> f64 {
    let family = match find(families, name) {
        Some(it) => it,
        None => return 0.0,
    };
    let is_counter = family.get_field_type() == MetricType::COUNTER;
    let value = |it: &prometheus::proto::Metric| {
        if is_counter {
            it.get_counter().get_value()
        } else {
            it.get_gauge().get_value()
        }
    };
    family.get_metric().iter().map(value).sum()
}

/// Returns the cumulative counts of a histogram by upper bound, up to the total at infinity.
pub fn buckets(families: &[MetricFamily], name: &str) -> Vec<(f64, u64)> {
    let metric = find(families, name).and_then(|it| it.get_metric().first());
    metric.map_or(Vec::new(), |it| {
        let histogram = it.get_histogram();
        let buckets = histogram.get_bucket().iter();
        let mut all: Vec<(f64, u64)> =
            buckets.map(|it| (it.get_upper_bound(), it.get_cumulative_count())).collect();
        all.push((f64::INFINITY, histogram.get_sample_count()));
        all
    })
}

/// Returns the difference of two states of a histogram.
pub fn difference(later: &[(f64, u64)], earlier: &[(f64, u64)]) -> Vec<(f64, u64)> {
    later.iter().zip(earlier).map(|(one, other)| (one.0, one.1.saturating_sub(other.1))).collect()
}

/// Computes a quantile from cumulative counts, linear between bounds like Prometheus's
/// histogram_quantile. Returns 0 without observations, and the last finite bound if the quantile is
/// above it.
pub fn quantile(buckets: &[(f64, u64)], part: f64) -> f64 {
    let wanted = match buckets.last() {
        Some((_, count)) if *count > 0 => part * *count as f64,
        _ => return 0.0,
    };
    let (mut below, mut before) = (0.0, 0.0);
    for (bound, count) in buckets {
        let count = *count as f64;
        if count >= wanted {
            let share = if count > before { (wanted - before) / (count - before) } else { 1.0 };
            return if bound.is_finite() { below + (bound - below) * share } else { below };
        }
        (below, before) = (*bound, count);
    }
    below
}

/// Returns the non-zero counts of a family by number, each with its name.
fn numbered(families: &[MetricFamily], family: &str, names: &[&'static str]) -> Vec<Value> {
    let metrics = find(families, family).map_or(&[][..], |it| it.get_metric());
    let mut rows: Vec<(u8, Value)> = Vec::new();
    for metric in metrics {
        let label = metric.get_label().first().map_or("", |it| it.get_value());
        let (count, number) = (metric.get_counter().get_value(), label.parse().unwrap_or(0));
        if count > 0.0 {
            let row = json!({"number": label, "name": name(names, number), "count": count});
            rows.push((number, row));
        }
    }
    rows.sort_by_key(|it| it.0);
    rows.into_iter().map(|it| it.1).collect()
}

fn class_row(row: &ClassRow) -> Value {
    let it = &row.accepted;
    json!({
        "number": it.class.number, "name": it.name, "sha1": it.hash, "bytes": it.bytes,
        "steps": it.class.steps, "words": it.class.words, "runs": row.tally.runs,
        "cost": row.tally.cost(), "exceptions": row.tally.exceptions,
        "by": format!("connection {} ({})", it.connection, it.peer),
    })
}

fn connection_row(row: &ConnectionRow) -> Value {
    let it = &row.traffic;
    json!({
        "number": row.number, "peer": it.peer, "age": it.opened.elapsed().as_secs(),
        "rounds": it.rounds, "requests": it.requests, "received": it.received_bytes,
        "sent": it.sent_bytes, "state": row.state, "slowest": it.slowest.as_secs_f64(),
        "waits": it.waits_since.map_or(0.0, |since| since.elapsed().as_secs_f64()),
    })
}

/// The metrics whose sums are on the page.
const TOTALS: [&str; 23] = [
    "jentry_requests_total",
    "jentry_replies_total",
    "jentry_rounds_total",
    "jentry_runs_total",
    "jentry_steps_total",
    "jentry_exceptions_total",
    "jentry_denials_total",
    "jentry_refusals_total",
    "jentry_waiting_rounds",
    "jentry_waiting_requests",
    "jentry_connections",
    "jentry_connections_limit",
    "jentry_connections_opened_total",
    "jentry_connections_closed_total",
    "jentry_connections_rejected_total",
    "jentry_received_bytes_total",
    "jentry_sent_bytes_total",
    "jentry_classes",
    "jentry_class_bytes",
    "jentry_server_resident_memory_bytes",
    "jentry_server_start_time_seconds",
    "process_resident_memory_bytes",
    "process_start_time_seconds",
];

/// Returns the data of an event, as JSON on one line.
pub fn state(families: &[MetricFamily], tables: &Tables, history: Value) -> Value {
    let totals: Map<String, Value> =
        TOTALS.iter().map(|name| (name.to_string(), json!(total(families, name)))).collect();
    json!({
        "now": process::now_seconds(),
        "totals": totals,
        "history": history,
        "most_rows": MOST_ROWS,
        "classes": tables.classes.iter().map(class_row).collect::<Vec<_>>(),
        "connections": tables.connections.iter().map(connection_row).collect::<Vec<_>>(),
        "exceptions": numbered(families, "jentry_exceptions_total", &EXCEPTIONS),
        "denials": numbered(families, "jentry_denials_total", &DENIALS),
        "refusals": numbered(families, "jentry_refusals_total", &REFUSALS),
    })
}

#[cfg(test)]
mod tests {
    use super::*;

    #[test]
    fn quantiles_are_linear_between_bounds() {
        let buckets = [(1.0, 0), (2.0, 50), (4.0, 100), (f64::INFINITY, 100)];
        assert_eq!(quantile(&buckets, 0.25), 1.5);
        assert_eq!(quantile(&buckets, 0.5), 2.0);
        assert_eq!(quantile(&buckets, 0.75), 3.0);
        assert_eq!(quantile(&[(1.0, 0), (f64::INFINITY, 9)], 0.5), 1.0);
        assert_eq!(quantile(&[(1.0, 0), (f64::INFINITY, 0)], 0.5), 0.0);
        assert_eq!(quantile(&[], 0.5), 0.0);
    }

    #[test]
    fn a_difference_is_what_came_between() {
        assert_eq!(difference(&[(1.0, 5), (2.0, 9)], &[(1.0, 2), (2.0, 2)]), [(1.0, 3), (2.0, 7)]);
    }

    #[test]
    fn the_page_asks_nobody_else() {
        assert!(!HTML.contains("http:") && !HTML.contains("https:") && !HTML.contains("//cdn"));
    }
}
