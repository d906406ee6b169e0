//! The command line.

use crate::event_loop::Times;
use crate::logging::Settings;
use crate::peers::PeerLimits;
use crate::shared::Limits;
use crate::socket_file::Rights;
use clap::builder::PossibleValuesParser;
use clap::{value_parser, Arg, ArgAction, ArgGroup, ArgMatches, Command};
use log::LevelFilter;
use nix::unistd::{Group, User};
use std::ffi::OsString;
use std::fmt::{self, Display, Formatter};
use std::path::PathBuf;
use std::time::Duration;

/// The permissions of a unix socket that has a group.
const GROUP_MODE: u32 = 0o660;

/// The permissions of the control socket.
const CONTROL_MODE: &str = "0600";

const USAGE: &str = "jentry-front [OPTIONS] <--unix PATH | --tcp [HOST:]PORT | --stdin> \
                     PROGRAM [WORDS]...";

const AFTER_HELP: &str = "\
Options come before PROGRAM. What comes after it is the server's. \
The server speaks the frames of `jentry serve` on its standard streams.

`jentry-front ctl --help` says how a front that runs is controlled.

Example: jentry-front --unix /run/jentry.sock jentry serve";

/// An address to listen on.
#[derive(Clone, Debug, PartialEq, Eq)]
pub enum Address {
    /// A unix socket at this path.
    Unix(String),
    /// A TCP address, `HOST:PORT`.
    Tcp(String),
    /// Standard input, which is a listening socket.
    Stdin,
}

impl Display for Address {
    fn fmt(&self, out: &mut Formatter<'_>) -> fmt::Result {
        match self {
            Address::Unix(text) | Address::Tcp(text) => out.write_str(text),
            Address::Stdin => out.write_str("the standard input"),
        }
    }
}

/// The options and the server's command line.
#[derive(Debug, PartialEq, Eq)]
pub struct Options {
    pub addresses: Vec<Address>,
    /// The maximum number of connections at a time.
    pub connections: usize,
    pub limits: Limits,
    pub times: Times,
    /// The maximum number of instructions of a batch.
    pub steps: u64,
    /// The permissions of unix sockets, and the group that they are given to.
    pub rights: Rights,
    /// The address for `/metrics`, `/healthz` and the page, if they are enabled.
    pub http: Option<String>,
    /// The names by which that server may be called.
    pub http_names: Vec<String>,
    /// The path and the permissions of the control socket, if there is one.
    pub control: Option<(String, Rights)>,
    pub log: Settings,
    /// How long the front answers what was sent after a signal that ends it.
    pub drain: Duration,
    /// The server's program and its arguments.
    pub program: Vec<OsString>,
}

/// Parses the command line, which starts with the front's own name.
///
/// The error is clap's, which is also returned for `--help` and `--version`.
pub fn parse(words: impl IntoIterator<Item = OsString>) -> Result<Options, clap::Error> {
    command().try_get_matches_from(words).map(|matches| options(&matches))
}

fn command() -> Command {
    Command::new("jentry-front")
        .version(env!("CARGO_PKG_VERSION"))
        .about("Starts one jentry server and lets many connections share it")
        .override_usage(USAGE)
        .after_help(AFTER_HELP)
        .args(address_args())
        .args(limit_args())
        .args(rights_args())
        .arg(
            Arg::new("http")
                .long("http")
                .value_name("[HOST:]PORT")
                .value_parser(tcp_address)
                .help("Serve /metrics, /healthz and a page, on 127.0.0.1 without a host"),
        )
        .arg(
            Arg::new("http-name")
                .long("http-name")
                .value_name("NAME")
                .action(ArgAction::Append)
                .help("A name with dots by which browsers may call that server; can be repeated"),
        )
        .args(control_args())
        .args(log_args())
        .arg(
            Arg::new("program")
                .value_name("PROGRAM")
                .required(true)
                .num_args(1..)
                .trailing_var_arg(true)
                .value_parser(value_parser!(OsString))
                .help("The server and its arguments, such as `jentry serve`"),
        )
        .group(
            ArgGroup::new("address").args(["unix", "tcp", "stdin"]).multiple(true).required(true),
        )
}

fn address_args() -> [Arg; 3] {
    let unix = Arg::new("unix")
        .long("unix")
        .value_name("PATH")
        .action(ArgAction::Append)
        .help("Listen on a unix socket; can be given several times");
    let tcp = Arg::new("tcp")
        .long("tcp")
        .value_name("[HOST:]PORT")
        .action(ArgAction::Append)
        .value_parser(tcp_address)
        .help("Listen on TCP, on 127.0.0.1 without a host; can be given several times");
    let stdin = Arg::new("stdin")
        .long("stdin")
        .action(ArgAction::SetTrue)
        .help("Listen on the socket that is the standard input, as systemd passes it");
    [unix, tcp, stdin]
}

fn control_args() -> [Arg; 2] {
    let path = Arg::new("control")
        .long("control")
        .value_name("PATH")
        .overrides_with("control")
        .help("Listen on a unix socket for `jentry-front ctl`; the last PATH counts");
    let mode = Arg::new("control-mode")
        .long("control-mode")
        .value_name("OCTAL")
        .value_parser(file_mode)
        .default_value(CONTROL_MODE)
        .help("The permissions of that socket; whoever may connect may end the front");
    [path, mode]
}

fn log_args() -> [Arg; 3] {
    let level = Arg::new("log")
        .long("log")
        .value_name("LEVEL")
        .default_value("info")
        .value_parser(PossibleValuesParser::new(["error", "warn", "info", "debug"]))
        .help("The least important level of events in the log");
    let file = Arg::new("log-file")
        .long("log-file")
        .value_name("PATH")
        .value_parser(value_parser!(PathBuf))
        .help("Append the log to a file in place of standard error; SIGHUP opens it again");
    let format = Arg::new("log-format")
        .long("log-format")
        .value_name("FORMAT")
        .default_value("text")
        .value_parser(PossibleValuesParser::new(["text", "json"]))
        .help("The form of the log's lines");
    [level, file, format]
}

/// The numbers: name, value, least, most, default, and help.
const NUMBERS: [(&str, &str, u64, u64, &str, &str); 14] = [
    ("connections", "N", 1, 4_096, "1024", "The most connections at a time, 1 to 4096"),
    ("classes", "N", 0, 4_096, "64", "The most new classes that a connection may bring, 0 to 4096"),
    (
        "peer-classes",
        "N",
        0,
        4_096,
        "1024",
        "The most new classes of a user or an address, at least those of a connection",
    ),
    (
        "define-bytes",
        "N",
        1,
        1_000_000_000,
        "65536",
        "The bytes of refused class files a second of a user or an address; more wait",
    ),
    (
        "max-steps",
        "N",
        1,
        4_000_000,
        "4000000",
        "The most instructions of a run; a class that may take more is refused as StepLimit",
    ),
    (
        "requests",
        "N",
        1,
        1_000_000,
        "65536",
        "The most requests of a round, 1 to 1000000; clients send 4096, and fewer end them",
    ),
    (
        "round-steps",
        "N",
        1,
        1_000_000_000_000,
        "10000000000",
        "The most instructions of a round; further requests are denied",
    ),
    (
        "peer-steps",
        "N",
        1,
        1_000_000_000_000,
        "100000000000",
        "The most instructions that may wait, of a user or an address",
    ),
    (
        "round-bytes",
        "N",
        1_048_576,
        1_000_000_000_000,
        "268435456",
        "The most memory of all rounds; the connection with the largest is closed",
    ),
    (
        "steps",
        "N",
        1,
        1_000_000_000,
        "1000000",
        "The most instructions of a batch, 1 to 1000000000",
    ),
    (
        "idle",
        "SECONDS",
        0,
        1_000_000,
        "0",
        "Close a connection after so long without progress, 0 for never",
    ),
    (
        "round",
        "SECONDS",
        0,
        1_000_000,
        "60",
        "The most time for a round to arrive, or its replies to be taken, 0 for any",
    ),
    (
        "stall",
        "SECONDS",
        1,
        1_000_000,
        "10",
        "The time without a reply after which the server hangs",
    ),
    (
        "drain",
        "SECONDS",
        0,
        3_600,
        "5",
        "How long SIGTERM and SIGINT let the front answer what was sent, before it ends",
    ),
];

fn limit_args() -> impl Iterator<Item = Arg> {
    NUMBERS.into_iter().map(|(name, value, least, most, default, help)| {
        let parser = value_parser!(u64).range(least..=most);
        let arg = Arg::new(name).long(name).value_name(value).value_parser(parser);
        arg.default_value(default).help(help)
    })
}

/// Returns the least and the most value of a number's option.
pub fn range(name: &str) -> (u64, u64) {
    NUMBERS.iter().find(|it| it.0 == name).map_or((0, 0), |it| (it.2, it.3))
}

fn rights_args() -> [Arg; 3] {
    let mode =
        Arg::new("mode").long("mode").value_name("OCTAL").value_parser(file_mode).help(
            "The permissions of unix sockets, such as 0660; 0660 with --group, else by umask",
        );
    let group = Arg::new("group")
        .long("group")
        .value_name("GROUP")
        .value_parser(group_id)
        .help("The group of unix sockets, a name or a number");
    let definers = Arg::new("define-uid")
        .long("define-uid")
        .value_name("USER")
        .action(ArgAction::Append)
        .value_parser(user_id)
        .help("A user who may bring new classes, a name or a number; without it everybody may");
    [mode, group, definers]
}

fn file_mode(text: &str) -> Result<u32, String> {
    let mode = u32::from_str_radix(text, 8).ok().filter(|it| *it <= 0o777);
    mode.ok_or_else(|| "expected permissions such as 0660".to_string())
}

fn group_id(text: &str) -> Result<u32, String> {
    let found = || Group::from_name(text).ok().flatten().map(|it| it.gid.as_raw());
    text.parse().ok().or_else(found).ok_or_else(|| "there is no such group".to_string())
}

/// Returns the number of a user, given by name or number.
pub fn user_id(text: &str) -> Result<u32, String> {
    let found = || User::from_name(text).ok().flatten().map(|it| it.uid.as_raw());
    text.parse().ok().or_else(found).ok_or_else(|| "there is no such user".to_string())
}

/// Returns a TCP address with its port; the host defaults to the loopback address.
fn tcp_address(text: &str) -> Result<String, String> {
    let (host, port) = text.rsplit_once(':').unwrap_or(("127.0.0.1", text));
    match port.parse::<u16>() {
        Ok(port) if !host.is_empty() => Ok(format!("{}:{}", host, port)),
        _ => Err("expected [HOST:]PORT with a port from 0 to 65535".to_string()),
    }
}

fn limits(matches: &ArgMatches) -> Limits {
    let number = |name: &str| matches.get_one::<u64>(name).copied().unwrap_or_default();
    let classes = number("classes") as usize;
    Limits {
        classes,
        requests: number("requests") as usize,
        round_steps: number("round-steps"),
        class_steps: number("max-steps"),
        round_bytes: number("round-bytes") as usize,
        peers: PeerLimits {
            classes: classes.max(number("peer-classes") as usize),
            definers: matches.get_many("define-uid").into_iter().flatten().copied().collect(),
            steps: number("peer-steps"),
            bytes_a_second: number("define-bytes"),
        },
    }
}

fn rights(matches: &ArgMatches) -> Rights {
    let group = matches.get_one::<u32>("group").copied();
    let mode = matches.get_one::<u32>("mode").copied().or_else(|| group.map(|_| GROUP_MODE));
    Rights { mode, group }
}

fn control(matches: &ArgMatches) -> Option<(String, Rights)> {
    let mode = matches.get_one::<u32>("control-mode").copied();
    matches.get_one::<String>("control").map(|it| (it.clone(), Rights { mode, group: None }))
}

fn log_settings(matches: &ArgMatches) -> Settings {
    let text = |name: &str| matches.get_one::<String>(name).cloned().unwrap_or_default();
    Settings {
        level: text("log").parse().unwrap_or(LevelFilter::Info),
        file: matches.get_one::<PathBuf>("log-file").cloned(),
        is_json: text("log-format") == "json",
    }
}

fn options(matches: &ArgMatches) -> Options {
    let number = |name: &str| matches.get_one::<u64>(name).copied().unwrap_or_default();
    let seconds = |name: &str| Some(number(name)).filter(|it| *it > 0).map(Duration::from_secs);
    let texts = |name: &str| matches.get_many::<String>(name).into_iter().flatten().cloned();
    let mut addresses: Vec<Address> = texts("unix").map(Address::Unix).collect();
    addresses.extend(texts("tcp").map(Address::Tcp));
    if matches.get_flag("stdin") {
        addresses.push(Address::Stdin);
    }
    Options {
        addresses,
        connections: number("connections") as usize,
        limits: limits(matches),
        times: Times {
            idle: seconds("idle"),
            round: seconds("round"),
            stall: Duration::from_secs(number("stall")),
        },
        steps: number("steps"),
        rights: rights(matches),
        http: texts("http").next(),
        http_names: texts("http-name").collect(),
        control: control(matches),
        log: log_settings(matches),
        drain: Duration::from_secs(number("drain")),
        program: matches.get_many::<OsString>("program").into_iter().flatten().cloned().collect(),
    }
}

#[cfg(test)]
mod tests {
    use super::*;

    fn parse_line(line: &str) -> Result<Options, String> {
        let words = std::iter::once("jentry-front").chain(line.split_whitespace());
        parse(words.map(OsString::from)).map_err(|e| e.to_string())
    }

    fn error(line: &str) -> String {
        parse_line(line).expect_err(line)
    }

    #[test]
    fn clap_accepts_the_definitions() {
        command().debug_assert();
    }

    #[test]
    fn words_after_the_program_are_the_servers() {
        let it = parse_line("--unix a --tcp 7 --steps 5 jentry serve --workers 1 --unix b")
            .expect("options");
        let tcp = Address::Tcp("127.0.0.1:7".to_string());
        assert_eq!(it.addresses, [Address::Unix("a".to_string()), tcp]);
        assert_eq!(it.steps, 5);
        assert_eq!(it.program, ["jentry", "serve", "--workers", "1", "--unix", "b"]);
    }

    #[test]
    fn limits_have_defaults() {
        let it = parse_line("--unix a --http 0 jentry serve").expect("options");
        assert_eq!(it.http.as_deref(), Some("127.0.0.1:0"));
        let it = parse_line("--unix a --unix b jentry serve").expect("options");
        assert_eq!(it.addresses.len(), 2);
        let limits = &it.limits;
        assert_eq!((it.connections, limits.classes, limits.requests), (1_024, 64, 65_536));
        assert_eq!((limits.class_steps, limits.peers.classes), (4_000_000, 1_024));
        assert_eq!((it.steps, it.times.idle, it.drain.as_secs()), (1_000_000, None, 5));
        assert_eq!(it.times.round, Some(Duration::from_secs(60)));
        let it = parse_line("--unix a --classes 2000 jentry serve").expect("options");
        assert_eq!(it.limits.peers.classes, 2_000);
        let log = Settings { level: LevelFilter::Info, file: None, is_json: false };
        assert_eq!(it.log, log);
    }

    #[test]
    fn users_and_groups_have_names_or_numbers() {
        let it = parse_line("--unix a --group root --define-uid root --define-uid 7 jentry serve")
            .expect("options");
        assert_eq!(it.rights, Rights { mode: Some(0o660), group: Some(0) });
        assert_eq!(it.limits.peers.definers, [0, 7]);
        let it = parse_line("--unix a --mode 0600 jentry serve").expect("options");
        assert_eq!(it.rights, Rights { mode: Some(0o600), group: None });
        assert!(error("--unix a --mode 999 jentry").contains("expected permissions"));
        assert!(error("--unix a --group nobody-has-this jentry").contains("no such group"));
    }

    #[test]
    fn the_control_socket_is_the_owners() {
        assert_eq!(parse_line("--unix a jentry").expect("options").control, None);
        let it = parse_line("--unix a --control b --control c jentry").expect("options");
        let rights = Rights { mode: Some(0o600), group: None };
        assert_eq!(it.control, Some(("c".to_string(), rights)));
        assert_eq!((range("steps"), range("none")), ((1, 1_000_000_000), (0, 0)));
    }

    #[test]
    fn errors_name_the_word_and_the_usage() {
        let address = error("jentry serve");
        assert!(address.contains("--unix <PATH>|--tcp <[HOST:]PORT>|--stdin"), "{}", address);
        assert!(error("--unix a").contains("<PROGRAM>"));
        assert!(error("--unix a --steps 0 jentry").contains("0 is not in 1..=1000000000"));
        assert!(error("--unix a --tcp x jentry").contains("expected [HOST:]PORT"));
        let unknown = error("--what 0 jentry");
        assert!(unknown.contains("--what") && unknown.contains(USAGE), "{}", unknown);
        assert!(error("--unix").contains("--unix <PATH>"));
    }

    #[test]
    fn help_and_version_are_no_usage_errors() {
        for word in ["--help", "--version"] {
            let it = parse([OsString::from("jentry-front"), word.into()]).expect_err(word);
            assert!(!it.use_stderr());
        }
        assert!(error("--version").contains(env!("CARGO_PKG_VERSION")));
        assert!(error("--help").contains("--idle <SECONDS>"));
    }
}
