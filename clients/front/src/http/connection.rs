//! An HTTP connection: its input, its output, and its time limits.

use super::hosts::Hosts;
use super::request::{parse, Route, LONGEST};
use mio::net::TcpStream;
use std::io::{self, Read, Write};
use std::time::{Duration, Instant};

/// The time limit of a request, from the last reply or from its own first byte, and of a reply from
/// its start.
const PATIENCE: Duration = Duration::from_secs(10);

/// How long a connection may be idle before its next request.
const KEEP_ALIVE: Duration = Duration::from_secs(120);

/// A response: its status line, its headers without the length, and its body.
pub struct Response {
    pub status: &'static str,
    pub headers: &'static str,
    pub body: Vec<u8>,
}

/// A connection.
pub struct Connection {
    stream: TcpStream,
    input: Vec<u8>,
    output: Vec<u8>,
    written: usize,
    /// The time of its last request or response.
    active: Instant,
    /// Whether it has already got a complete response.
    was_answered: bool,
    is_watching: bool,
    closes: bool,
}

impl Connection {
    /// Creates a connection without requests.
    pub fn new(stream: TcpStream) -> Connection {
        Connection {
            stream,
            input: Vec::new(),
            output: Vec::new(),
            written: 0,
            active: Instant::now(),
            was_answered: false,
            is_watching: false,
            closes: false,
        }
    }

    /// Returns whether it receives events.
    pub fn is_watching(&self) -> bool {
        self.is_watching
    }

    /// Returns the time of its last request or response.
    pub fn active(&self) -> Instant {
        self.active
    }

    /// Returns whether it has exceeded its time limit.
    pub fn is_late(&self) -> bool {
        let is_idle = self.was_answered && self.input.is_empty() && !self.is_writing();
        let patience = if is_idle { KEEP_ALIVE } else { PATIENCE };
        (!self.is_watching || self.is_writing()) && self.active.elapsed() >= patience
    }

    fn is_writing(&self) -> bool {
        self.written < self.output.len()
    }

    /// Writes and reads as far as the socket is ready. Returns the request once it is complete. An
    /// error ends the connection.
    pub fn on_ready(&mut self, hosts: &Hosts) -> io::Result<Option<Route>> {
        self.write()?;
        loop {
            if self.is_writing() {
                return Ok(None);
            }
            if !self.is_watching {
                if let Some(it) = parse(&self.input, hosts) {
                    self.input.drain(..it.length);
                    self.closes = !it.keeps_alive;
                    self.active = Instant::now();
                    return Ok(Some(it.route));
                }
            }
            if !self.read()? {
                return Ok(None);
            }
        }
    }

    /// Reads once. Returns false if nothing has arrived.
    fn read(&mut self) -> io::Result<bool> {
        let mut buffer = [0; LONGEST];
        let room = LONGEST - self.input.len().min(LONGEST - 1);
        match self.stream.read(&mut buffer[..room]) {
            Ok(0) => Err(io::ErrorKind::UnexpectedEof.into()),
            // A connection that receives events must not send anything more.
            Ok(_) if self.is_watching => Err(io::ErrorKind::InvalidData.into()),
            Ok(count) => {
                if self.was_answered && self.input.is_empty() {
                    self.active = Instant::now();
                }
                self.input.extend_from_slice(&buffer[..count]);
                Ok(true)
            }
            Err(e) if e.kind() == io::ErrorKind::WouldBlock => Ok(false),
            Err(e) if e.kind() == io::ErrorKind::Interrupted => Ok(true),
            Err(e) => Err(e),
        }
    }

    /// Writes as far as the socket is ready. An error ends the connection.
    pub fn write(&mut self) -> io::Result<()> {
        while self.is_writing() {
            match self.stream.write(&self.output[self.written..]) {
                Ok(0) => return Err(io::ErrorKind::WriteZero.into()),
                Ok(count) => self.written += count,
                Err(e) if e.kind() == io::ErrorKind::WouldBlock => return Ok(()),
                Err(e) if e.kind() == io::ErrorKind::Interrupted => {}
                Err(e) => return Err(e),
            }
        }
        self.output = Vec::new();
        self.written = 0;
        if self.closes && self.was_answered {
            return Err(io::ErrorKind::ConnectionAborted.into());
        }
        Ok(())
    }

    /// Sends a response. What the socket doesn't accept now is written when it is ready.
    pub fn respond(&mut self, response: &Response, is_head: bool) {
        let connection = if self.closes { "close" } else { "keep-alive" };
        let head = format!(
            "HTTP/1.1 {}\r\n{}Content-Length: {}\r\nConnection: {}\r\n\r\n",
            response.status,
            response.headers,
            response.body.len(),
            connection
        );
        self.output = head.into_bytes();
        if !is_head {
            self.output.extend_from_slice(&response.body);
        }
        self.was_answered = true;
        self.active = Instant::now();
    }

    /// Starts a stream of events, which ends with the connection.
    pub fn watch(&mut self, event: &str) {
        let head = "HTTP/1.1 200 OK\r\nContent-Type: text/event-stream\r\n\
                    Cache-Control: no-store\r\nX-Content-Type-Options: nosniff\r\n\
                    Connection: close\r\n\r\n";
        self.output = [head, event].concat().into_bytes();
        self.is_watching = true;
        self.closes = false;
        self.active = Instant::now();
    }

    /// Sends an event, unless an earlier one is still being written. An error ends the connection.
    pub fn tell(&mut self, event: &str) -> io::Result<()> {
        self.write()?;
        if !self.is_writing() {
            self.output = event.as_bytes().to_vec();
            self.active = Instant::now();
            self.write()?;
        }
        Ok(())
    }
}
