//! The frames of `protocol/frames.tsv`: the front takes the requests for what they are, and counts the
//! replies as what they are.

use crate::protocol::requests::{DEFINE, GET, INVOKE, INVOKE_ALL, REMOVE};
use crate::request::{frame_length, judge, remove_duplicates, set_class, Frame};
use crate::tally::{name, Asked, Tally, DENIALS, EXCEPTIONS, NO_CLASS, REPLIES};
use std::fs;
use std::path::Path;

/// A frame, and its line in the language of `examples/frames.py`.
struct Golden {
    line: String,
    frame: Vec<u8>,
}

/// Returns the bytes of a text of the table: pairs of digits, `00*8` for eight of them, and files.
fn bytes_of(top: &Path, text: &str) -> Vec<u8> {
    let mut bytes = Vec::new();
    for word in text.split(' ') {
        if word.contains('/') {
            bytes.extend(fs::read(top.join(word)).expect("a file"));
            continue;
        }
        let (byte, count) = word.split_once('*').unwrap_or((word, "1"));
        let byte = u8::from_str_radix(byte, 16).expect("a byte");
        bytes.resize(bytes.len() + count.parse::<usize>().expect("a count"), byte);
    }
    bytes
}

/// Returns the requests (`>`) or the replies (`<`) of the table.
fn rows(side: &str) -> Vec<Golden> {
    let top = Path::new(env!("CARGO_MANIFEST_DIR")).join("../..");
    let table = fs::read_to_string(top.join("protocol/frames.tsv")).expect("the table");
    let cells = table.lines().map(|line| line.split('\t').collect::<Vec<_>>());
    let rows = cells.filter(|row| row[0] == side);
    rows.map(|row| Golden { line: row[1].to_string(), frame: bytes_of(&top, row[3]) }).collect()
}

fn row<'a>(rows: &'a [Golden], line: &str) -> &'a Golden {
    rows.iter().find(|it| it.line == line).expect("a row of this line")
}

/// Returns what the front should take a request for.
fn wanted(line: &str) -> Frame {
    let words: Vec<&str> = line.split(' ').collect();
    let class = || words[1].parse().expect("a class");
    match words[0] {
        "define" => Frame::Define,
        "end" => Frame::End,
        "invoke" => Frame::Invoke(class()),
        "invokeall" => Frame::InvokeAll { class: class(), keys: words[2].split(',').count() },
        _ => Frame::Plain,
    }
}

#[test]
fn requests_are_taken_for_what_they_are() {
    let rows = rows(">");
    assert!(rows.len() > 20);
    for it in &rows {
        assert_eq!(judge(&it.frame), Some(wanted(&it.line)), "{}", it.line);
        assert_eq!(frame_length(&it.frame).ok(), Some(Some(it.frame.len())), "{}", it.line);
        let cut = &it.frame[..it.frame.len() - 1];
        assert_eq!(frame_length(cut).ok(), Some(None), "{}", it.line);
    }
}

#[test]
fn requests_are_changed_to_others() {
    let rows = rows(">");
    let mut frame = row(&rows, "invoke 0 7").frame.clone();
    set_class(&mut frame, 1);
    assert_eq!(frame, row(&rows, "invoke 1 7").frame);
    let mut frame = row(&rows, "invokeall 0 7,7,9 5").frame.clone();
    assert_eq!(remove_duplicates(&mut frame, 3), 2);
    assert_eq!(judge(&frame), Some(Frame::InvokeAll { class: 0, keys: 2 }));
}

/// Returns the request that a reply is counted for.
fn asked(line: &str) -> Asked {
    let (kind, class, keys) = match line.split(' ').next() {
        Some("defined" | "refused") => (DEFINE, NO_CLASS, 0),
        Some("results") => (INVOKE_ALL, 0, 3),
        Some("value") => (GET, NO_CLASS, 0),
        Some("flag") => (REMOVE, NO_CLASS, 0),
        _ => (INVOKE, 0, 0),
    };
    Asked { kind, class, keys }
}

/// Returns the counts after a reply.
fn tally_of(reply: &Golden) -> Tally {
    let mut tally = Tally::default();
    tally.class(0, 14);
    match asked(&reply.line).kind {
        DEFINE => tally.own_reply(&reply.frame),
        _ => tally.reply(asked(&reply.line), &reply.frame[4..]),
    }
    tally
}

/// Returns the replies of the table to requests.
fn replies() -> Vec<Golden> {
    rows("<").into_iter().filter(|it| it.line != "end").collect()
}

#[test]
fn replies_are_counted_by_kind() {
    let replies = replies();
    assert!(replies.len() > 20);
    for it in &replies {
        let kind = it.frame[4];
        let word = it.line.split(' ').next().expect("a word").replace("threw", "result");
        assert_eq!(tally_of(it).replies[usize::from(kind)], 1, "{}", it.line);
        assert_eq!(name(&REPLIES, kind), word, "{}", it.line);
    }
}

/// Returns the numbers that were counted, in the words of a line, each with its count.
fn counted(tally: &Tally) -> Vec<(String, u64)> {
    let refusals = (0..).zip(tally.refusals).map(|it| (it, format!("refused {},", it.0)));
    let exceptions = (0..).zip(tally.exceptions);
    let exceptions =
        exceptions.map(|it| (it, format!("threw {} {}", it.0, name(&EXCEPTIONS, it.0))));
    let denials = (0..).zip(tally.denials);
    let denials = denials.map(|it| (it, format!("denied {} {}", it.0, name(&DENIALS, it.0))));
    let all = refusals.chain(exceptions).chain(denials);
    all.filter(|((_, count), _)| *count > 0).map(|((_, count), words)| (words, count)).collect()
}

#[test]
fn refusals_exceptions_and_denials_are_counted_by_number() {
    for it in replies() {
        let words = counted(&tally_of(&it));
        let of_line =
            ["refused ", "threw ", "denied "].iter().map(|word| it.line.matches(word).count());
        let all: u64 = words.iter().map(|(_, count)| count).sum();
        assert_eq!(all, of_line.sum::<usize>() as u64, "{}: {:?}", it.line, words);
        for (words, count) in words {
            assert_eq!(it.line.matches(&words).count() as u64, count, "{}: {}", it.line, words);
        }
    }
}

#[test]
fn gets_and_removes_are_counted_by_whether_there_was_an_entry() {
    for it in replies() {
        let tally = tally_of(&it);
        let wanted = match it.line.as_str() {
            "value none" => ([1, 0], [0, 0]),
            "flag false" => ([0, 0], [1, 0]),
            "flag true" => ([0, 0], [0, 1]),
            line => ([0, u64::from(line.starts_with("value "))], [0, 0]),
        };
        assert_eq!((tally.gets, tally.removes), wanted, "{}", it.line);
    }
}
