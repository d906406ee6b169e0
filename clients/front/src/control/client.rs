//! `jentry-front ctl`: the command by which an operator controls a front that runs.

use super::table;
use clap::{Arg, ArgAction, ArgMatches, Command};
use serde_json::{json, Map, Value};
use std::ffi::OsString;
use std::io::{self, Read, Write};
use std::os::unix::net::UnixStream;
use std::time::Duration;

/// The control socket of the service in the package.
const DEFAULT_PATH: &str = "/run/jentry-front/control";

/// How long the front may be silent.
const PATIENCE: Duration = Duration::from_secs(15);

/// The exit status if the front refuses a command, as if the command line is invalid.
const REFUSED_STATUS: i32 = 1;

/// The exit status if the front can't be reached.
const UNREACHED_STATUS: i32 = 3;

const AFTER_HELP: &str = "\
A front has a control socket if it was started with --control PATH; the service of the package has one. \
Status 1: the front refuses the command, or the command line is invalid. Status 3: the front can't be reached.

Example: jentry-front ctl quota peer-classes=128 define-bytes=16384";

/// Why a command failed, and the exit status.
struct Failure {
    reason: String,
    status: i32,
}

fn unreached(reason: String) -> Failure {
    Failure { reason, status: UNREACHED_STATUS }
}

/// Runs the command whose words begin with `ctl`. Returns the exit status.
pub fn run(words: impl IntoIterator<Item = OsString>) -> i32 {
    let matches = match command().try_get_matches_from(words) {
        Ok(it) => it,
        Err(e) => {
            let _ = e.print();
            return if e.use_stderr() { REFUSED_STATUS } else { 0 };
        }
    };
    match answer(&matches) {
        // Whoever reads only the first lines closes the pipe.
        Ok(text) => match io::stdout().write_all(text.as_bytes()) {
            Err(e) if e.kind() != io::ErrorKind::BrokenPipe => UNREACHED_STATUS,
            _ => 0,
        },
        Err(failure) => {
            eprintln!("jentry-front ctl: {}", failure.reason);
            failure.status
        }
    }
}

fn command() -> Command {
    let no_words = [
        ("status", "Which front it is, and how much it has to do"),
        ("peers", "Users and addresses that have connections, classes or rounds that wait"),
        ("connections", "All connections: where they come from, what they do, how slow they are"),
        ("classes", "All classes: who defined them, how often they ran, and what that cost"),
        ("drain", "End the front as SIGTERM does, once it has answered what was sent"),
    ];
    let kick = Command::new("kick")
        .about("Close a connection, or all connections of a peer; what hasn't run is dropped")
        .arg(Arg::new("target").value_name("NUMBER|PEER").required(true).help(
            "A connection's number, or a peer as `ctl peers` lists it, such as uid:1000 or 10.0.0.5",
        ));
    let quota = Command::new("quota")
        .about("Print the limits, and change those that are given, until the front ends")
        .arg(Arg::new("set").value_name("NAME=VALUE").num_args(0..).value_parser(pair));
    Command::new("jentry-front ctl")
        .bin_name("jentry-front ctl")
        .about("Controls a front that runs")
        .after_help(AFTER_HELP)
        .subcommand_required(true)
        .disable_help_subcommand(true)
        .subcommands(no_words.map(|(name, about)| Command::new(name).about(about)))
        .subcommands([kick, quota])
        .arg(
            Arg::new("control")
                .long("control")
                .value_name("PATH")
                .default_value(DEFAULT_PATH)
                .global(true)
                .help("The front's control socket"),
        )
        .arg(
            Arg::new("json")
                .long("json")
                .action(ArgAction::SetTrue)
                .global(true)
                .help("Print the reply as JSON, in place of a table"),
        )
}

fn pair(text: &str) -> Result<(String, u64), String> {
    let (name, value) = text.split_once('=').ok_or("expected NAME=VALUE")?;
    let value = value.parse().map_err(|_| format!("{:?} is no number", value))?;
    Ok((name.to_string(), value))
}

/// Returns the request of a command, as JSON.
fn request(name: &str, words: &ArgMatches) -> Value {
    match name {
        "kick" => json!({ "command": name, "target": words.get_one::<String>("target") }),
        "quota" => {
            let pairs = words.get_many::<(String, u64)>("set").into_iter().flatten();
            let set: Map<String, Value> =
                pairs.map(|(name, value)| (name.clone(), json!(value))).collect();
            json!({ "command": name, "set": set })
        }
        _ => json!({ "command": name }),
    }
}

fn answer(matches: &ArgMatches) -> Result<String, Failure> {
    let (name, words) = matches.subcommand().unwrap_or(("status", matches));
    let path = words.get_one::<String>("control").map_or(DEFAULT_PATH, String::as_str);
    let reply = ask(path, &request(name, words))?;
    if let Some(reason) = reply["error"].as_str() {
        return Err(Failure { reason: reason.to_string(), status: REFUSED_STATUS });
    }
    if words.get_flag("json") {
        return Ok(format!("{}\n", reply["ok"]));
    }
    Ok(table::text(name, &reply["ok"]))
}

/// Returns what to do if the control socket can't be connected to.
fn remedy(kind: io::ErrorKind) -> &'static str {
    match kind {
        io::ErrorKind::PermissionDenied => "only the front's user and root may connect",
        io::ErrorKind::ConnectionRefused => "the front that listened there has ended",
        _ => "the front has to run, and to be started with --control PATH; name that path here too",
    }
}

/// Sends a request, and returns the reply.
fn ask(path: &str, request: &Value) -> Result<Value, Failure> {
    let mut stream = UnixStream::connect(path).map_err(|e| {
        unreached(format!("can't connect to {}: {}: {}", path, e, remedy(e.kind())))
    })?;
    let mut text = Vec::new();
    let mut exchange = || -> io::Result<usize> {
        stream.set_read_timeout(Some(PATIENCE))?;
        stream.set_write_timeout(Some(PATIENCE))?;
        // A front that takes no request may have said why.
        let sent = stream.write_all(format!("{}\n", request).as_bytes());
        stream.read_to_end(&mut text).and_then(|count| sent.map(|()| count))
    };
    let found = exchange();
    let reply = serde_json::from_slice(&text).ok();
    match (reply, found) {
        (Some(reply), _) => Ok(reply),
        (None, Err(e)) if matches!(e.kind(), io::ErrorKind::WouldBlock) => {
            let seconds = PATIENCE.as_secs();
            Err(unreached(format!("the front at {} didn't answer within {} s", path, seconds)))
        }
        _ => Err(unreached(format!(
            "what listens on {} isn't a front's control socket, or has just ended",
            path
        ))),
    }
}

#[cfg(test)]
mod tests {
    use super::*;

    #[test]
    fn clap_accepts_the_definitions() {
        command().debug_assert();
    }

    fn requests(line: &str) -> Result<String, String> {
        let words = std::iter::once("ctl").chain(line.split_whitespace());
        let matches = command().try_get_matches_from(words).map_err(|e| e.to_string())?;
        let (name, words) = matches.subcommand().ok_or("no command")?;
        Ok(request(name, words).to_string())
    }

    #[test]
    fn commands_are_requests() {
        for (line, wanted) in [
            ("peers", r#"{"command":"peers"}"#),
            ("kick 7", r#"{"command":"kick","target":"7"}"#),
            ("quota", r#"{"command":"quota","set":{}}"#),
            ("quota steps=5 idle=0", r#"{"command":"quota","set":{"idle":0,"steps":5}}"#),
        ] {
            assert_eq!(requests(line).as_deref(), Ok(wanted));
        }
    }

    #[test]
    fn words_that_make_no_sense_are_errors() {
        for (line, wanted) in [
            ("", "requires a subcommand"),
            ("kick", "NUMBER|PEER"),
            ("quota steps", "expected NAME=VALUE"),
            ("quota steps=-1", "is no number"),
            ("forget 7", "forget"),
            ("peers 7", "'7'"),
        ] {
            let error = requests(line).expect_err(line);
            assert!(error.contains(wanted), "{}: {}", line, error);
        }
    }
}
