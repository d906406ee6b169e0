//! Parses the HTTP requests that the front supports.

use super::hosts::Hosts;
use httparse::{Request, Status, EMPTY_HEADER};

/// The maximum length of a request, in bytes.
pub const LONGEST: usize = 8_192;

const MOST_HEADERS: usize = 64;

/// The target of a request.
#[derive(Clone, Copy, Debug, PartialEq, Eq)]
pub enum Route {
    Page {
        is_head: bool,
    },
    Metrics {
        is_head: bool,
    },
    Health {
        is_head: bool,
    },
    /// A stream of events for the page.
    Events,
    NotFound {
        is_head: bool,
    },
    /// The Host header names another server.
    Misdirected,
    /// A method other than GET and HEAD.
    BadMethod,
    /// Not HTTP, or HTTP that isn't supported here.
    Bad,
    /// A request that is too long.
    TooLong,
}

impl Route {
    /// Returns whether the response has counts of the event loop.
    pub fn needs_counts(self) -> bool {
        matches!(self, Route::Metrics { .. } | Route::Health { .. } | Route::Events)
    }

    /// Returns whether the response has no body.
    pub fn is_head(self) -> bool {
        match self {
            Route::Page { is_head }
            | Route::Metrics { is_head }
            | Route::Health { is_head }
            | Route::NotFound { is_head } => is_head,
            Route::Events | Route::Misdirected | Route::BadMethod => false,
            Route::Bad | Route::TooLong => false,
        }
    }

    fn of(method: &str, target: &str) -> Route {
        let is_head = method == "HEAD";
        if !is_head && method != "GET" {
            return Route::BadMethod;
        }
        match target.split('?').next() {
            Some("/") => Route::Page { is_head },
            Some("/metrics") => Route::Metrics { is_head },
            Some("/healthz") => Route::Health { is_head },
            Some("/events") if !is_head => Route::Events,
            _ => Route::NotFound { is_head },
        }
    }
}

/// A complete request.
#[derive(Debug, PartialEq, Eq)]
pub struct Parsed {
    pub route: Route,
    /// Its length in bytes.
    pub length: usize,
    /// Whether another request may follow on its connection.
    pub keeps_alive: bool,
}

/// Parses the request at the start of the input. Returns `None` if it hasn't fully arrived.
pub fn parse(input: &[u8], hosts: &Hosts) -> Option<Parsed> {
    let fail = |route| Some(Parsed { route, length: input.len(), keeps_alive: false });
    let mut headers = [EMPTY_HEADER; MOST_HEADERS];
    let mut request = Request::new(&mut headers);
    let length = match request.parse(input) {
        Ok(Status::Complete(length)) if length <= LONGEST => length,
        Ok(Status::Partial) if input.len() < LONGEST => return None,
        Ok(_) | Err(httparse::Error::TooManyHeaders) => return fail(Route::TooLong),
        Err(_) => return fail(Route::Bad),
    };
    let header = |name: &str| {
        let found = request.headers.iter().find(|it| it.name.eq_ignore_ascii_case(name));
        found.map(|it| it.value)
    };
    let has_body = header("transfer-encoding").is_some()
        || header("content-length").map_or(false, |it| it != b"0");
    if !hosts.accepts(header("host")) {
        return fail(Route::Misdirected);
    }
    let route = match (request.method, request.path) {
        (Some(method), Some(target)) => Route::of(method, target),
        _ => Route::Bad,
    };
    if has_body {
        // A body isn't read, so the next request couldn't be distinguished from it.
        return fail(if route == Route::BadMethod { route } else { Route::Bad });
    }
    let connection = header("connection").unwrap_or_default();
    let closes = connection.eq_ignore_ascii_case(b"close") || request.version != Some(1);
    let is_bad = matches!(route, Route::Bad | Route::BadMethod);
    Some(Parsed { route, length, keeps_alive: !closes && !is_bad })
}

#[cfg(test)]
mod tests {
    use super::*;

    fn route(text: &str) -> Option<(Route, bool)> {
        parse(text.as_bytes(), &Hosts::default()).map(|it| (it.route, it.keeps_alive))
    }

    #[test]
    fn requests_have_routes() {
        let page = Route::Page { is_head: false };
        assert_eq!(route("GET / HTTP/1.1\r\nHost: a\r\n\r\n"), Some((page, true)));
        assert_eq!(route("GET /?x HTTP/1.0\r\n\r\n"), Some((page, false)));
        let metrics = Route::Metrics { is_head: true };
        let text = "HEAD /metrics HTTP/1.1\r\nConnection: close\r\n\r\n";
        assert_eq!(route(text), Some((metrics, false)));
        assert_eq!(route("GET /events HTTP/1.1\r\n\r\n"), Some((Route::Events, true)));
        let missing = Route::NotFound { is_head: false };
        assert_eq!(route("GET /metrics/../x HTTP/1.1\r\n\r\n"), Some((missing, true)));
        assert_eq!(route("PUT /metrics HTTP/1.1\r\n\r\n"), Some((Route::BadMethod, false)));
    }

    #[test]
    fn a_request_for_another_server_is_misdirected() {
        let text = "GET / HTTP/1.1\r\nHost: evil.example\r\n\r\n";
        assert_eq!(route(text), Some((Route::Misdirected, false)));
    }

    #[test]
    fn a_request_has_its_length() {
        let text = b"GET / HTTP/1.1\r\n\r\nGET /metrics HTTP/1.1\r\n\r\n";
        let hosts = Hosts::default();
        assert_eq!(parse(text, &hosts).map(|it| it.length), Some(18));
        for end in 0..18 {
            assert_eq!(parse(&text[..end], &hosts), None, "a beginning of {} bytes", end);
        }
    }

    #[test]
    fn what_is_not_needed_is_refused() {
        assert_eq!(route("\0\0\0\t\x03"), Some((Route::Bad, false)));
        let body = "GET / HTTP/1.1\r\nContent-Length: 5\r\n\r\nabcde";
        assert_eq!(route(body), Some((Route::Bad, false)));
        let chunked = "GET / HTTP/1.1\r\nTransfer-Encoding: chunked\r\n\r\n";
        assert_eq!(route(chunked), Some((Route::Bad, false)));
        let long = format!("GET / HTTP/1.1\r\nX: {}", "a".repeat(LONGEST));
        assert_eq!(route(&long), Some((Route::TooLong, false)));
        let many = format!("GET / HTTP/1.1\r\n{}\r\n", "X: a\r\n".repeat(MOST_HEADERS + 1));
        assert_eq!(route(&many), Some((Route::TooLong, false)));
    }
}
