//! stand_in: speaks the server's protocol on standard input and output without a machine. Every class is accepted and adds one to its entry. It is for
//! measuring the cost of the clients and the front alone. It ignores its arguments, so it can replace `jentry serve`.

use std::collections::HashMap;
use std::io::{stdin, stdout, BufReader, Read, Write};

type Key = [u8; 8];

#[derive(Default)]
struct Server {
    entries: HashMap<Key, i64>,
    classes: u32,
    out: Vec<u8>,
}

fn key_at(text: &[u8], at: usize) -> Key {
    Key::try_from(&text[at..at + 8]).expect("a key")
}

impl Server {
    fn tell(&mut self, parts: &[&[u8]]) {
        let length: usize = parts.iter().map(|it| it.len()).sum();
        self.out.extend_from_slice(&(length as u32).to_be_bytes());
        parts.iter().for_each(|it| self.out.extend_from_slice(it));
    }

    fn add_one(&mut self, key: Key) -> [u8; 8] {
        let value = self.entries.entry(key).or_default();
        *value += 1;
        value.to_be_bytes()
    }

    fn invoke_all(&mut self, text: &[u8]) {
        let count = [text[5], text[6]];
        let mut told = Vec::new();
        for at in 0..usize::from(u16::from_be_bytes(count)) {
            let key = key_at(text, 7 + 8 * at);
            told.extend_from_slice(&key);
            told.extend_from_slice(&[0, 1]);
            told.extend_from_slice(&self.add_one(key));
        }
        self.tell(&[&[7], &count, &told]);
    }

    /// Takes a request or the end of a round. Returns whether it was the end.
    fn take(&mut self, text: &[u8]) -> bool {
        match text[0] {
            1 => {
                let number = self.classes.to_be_bytes();
                self.classes += 1;
                self.tell(&[&[1], &number, &[0, 0, 0, 14, 0, 0, 0, 0]]);
            }
            2 => {
                self.entries.insert(key_at(text, 1), i64::from_be_bytes(key_at(text, 9)));
                self.tell(&[&[3]]);
            }
            3 => match self.entries.get(&key_at(text, 1)).copied() {
                Some(value) => self.tell(&[&[4, 1], &value.to_be_bytes()]),
                None => self.tell(&[&[4, 0]]),
            },
            4 => {
                let was = self.entries.remove(&key_at(text, 1)).is_some();
                self.tell(&[&[5, u8::from(was)]]);
            }
            5 => self.tell(&[&[5, u8::from(self.entries.contains_key(&key_at(text, 1)))]]),
            6 => {
                let value = self.add_one(key_at(text, 5));
                self.tell(&[&[6, 0, 1], &value]);
            }
            7 => self.invoke_all(text),
            _ => {
                self.tell(&[&[9]]);
                return true;
            }
        }
        false
    }
}

fn main() {
    let (mut input, mut output) = (BufReader::with_capacity(65_536, stdin()), stdout());
    let (mut server, mut text, mut head) = (Server::default(), Vec::new(), [0; 4]);
    while input.read_exact(&mut head).is_ok() {
        text.resize(u32::from_be_bytes(head) as usize, 0);
        input.read_exact(&mut text).expect("a frame");
        if server.take(&text) {
            output.write_all(&server.out).and_then(|_| output.flush()).expect("written");
            server.out.clear();
        }
    }
}
