//! The classes of the server, by class file. Equal files are one class of the server, no matter how
//! many connections define them.

use crate::class_name::class_name;
use crate::request::number_at;
use sha1::{Digest, Sha1};
use std::collections::HashMap;

/// A class of the server.
#[derive(Clone, Copy, Debug, PartialEq, Eq)]
pub struct Class {
    /// Its number at the server.
    pub number: u32,
    /// The maximum instructions of a run, as the server computed.
    pub steps: u32,
    /// The maximum array words of a run.
    pub words: u32,
}

/// The state of a file: sent to the server, with the connections that wait for the verdict; or a
/// class.
enum State {
    Pending(Vec<u64>),
    Accepted(Class),
}

/// The result of looking up a file for a connection.
pub enum Lookup {
    /// The server has it.
    Class(Class),
    /// It is new: the connection must send it to the server, and then call [`Classes::resolve`].
    New,
    /// Another connection has sent it to the server; [`Classes::resolve`] returns the connections
    /// that wait.
    Pending,
    /// It is new, and the connection may send no more classes.
    TooMany,
}

/// A class that the server has accepted, with details for the page.
#[derive(Clone, Debug)]
pub struct Accepted {
    pub class: Class,
    /// The class's name.
    pub name: String,
    /// The SHA-1 of its file in hexadecimal, as `sha1sum` prints it.
    pub hash: String,
    /// The length of its file.
    pub bytes: usize,
    /// The connection that sent it, and that connection's peer.
    pub connection: u64,
    pub peer: String,
}

/// The files that the server has or is verifying.
#[derive(Default)]
pub struct Classes {
    states: HashMap<Vec<u8>, State>,
    accepted: Vec<Accepted>,
    /// Their indices by the server's number.
    by_number: HashMap<u32, usize>,
    bytes: usize,
}

impl Classes {
    /// Looks up a file for a connection. If `may_bring` is false, a new file isn't marked as
    /// pending.
    pub fn find(&mut self, file: &[u8], connection: u64, may_bring: bool) -> Lookup {
        match self.states.get_mut(file) {
            Some(State::Accepted(class)) => Lookup::Class(*class),
            Some(State::Pending(waiting)) => {
                waiting.push(connection);
                Lookup::Pending
            }
            None if may_bring => {
                self.states.insert(file.to_vec(), State::Pending(Vec::new()));
                Lookup::New
            }
            None => Lookup::TooMany,
        }
    }

    /// Returns whether the server has a file, or is verifying it.
    pub fn has(&self, file: &[u8]) -> bool {
        self.states.contains_key(file)
    }

    /// Returns the classes in the order in which the server accepted them.
    pub fn accepted(&self) -> &[Accepted] {
        &self.accepted
    }

    /// Returns the total length of their files.
    pub fn bytes(&self) -> usize {
        self.bytes
    }

    /// Records a class that the server has accepted.
    pub fn note(&mut self, class: Class, file: &[u8], connection: u64, peer: String) {
        let bytes = file.len();
        self.bytes += bytes;
        let (name, hash) = (class_name(file), hash(file));
        self.by_number.insert(class.number, self.accepted.len());
        self.accepted.push(Accepted { class, name, hash, bytes, connection, peer });
    }

    /// Returns an accepted class by the server's number.
    pub fn by_number(&self, number: u32) -> Option<&Accepted> {
        self.accepted.get(*self.by_number.get(&number)?)
    }

    /// Stores the verdict on a new file: a class, or `None`. Returns the connections that waited
    /// for it.
    pub fn resolve(&mut self, file: &[u8], class: Option<Class>) -> Vec<u64> {
        let before = match class {
            Some(class) => self.states.insert(file.to_vec(), State::Accepted(class)),
            None => self.states.remove(file),
        };
        match before {
            Some(State::Pending(waiting)) => waiting,
            _ => Vec::new(),
        }
    }
}

/// Returns the SHA-1 of a class file in hexadecimal.
pub fn hash(file: &[u8]) -> String {
    Sha1::digest(file).iter().map(|byte| format!("{:02x}", byte)).collect()
}

/// Returns the class in a reply, which starts with its length, if the reply is Defined.
pub fn class_of(reply: &[u8]) -> Option<Class> {
    if reply.len() == 17 && reply[4] == 1 {
        let (number, steps) = (number_at(reply, 5), number_at(reply, 9));
        Some(Class { number, steps, words: number_at(reply, 13) })
    } else {
        None
    }
}

#[cfg(test)]
mod tests {
    use super::*;

    const CLASS: Class = Class { number: 5, steps: 14, words: 0 };

    #[test]
    fn one_brings_a_file_and_others_wait() {
        let mut classes = Classes::default();
        assert!(matches!(classes.find(b"a", 7, true), Lookup::New));
        assert!(matches!(classes.find(b"a", 8, true), Lookup::Pending));
        assert!(matches!(classes.find(b"a", 9, false), Lookup::Pending));
        assert!(matches!(classes.find(b"b", 8, true), Lookup::New));
        assert_eq!(classes.resolve(b"a", Some(CLASS)), [8, 9]);
        assert!(matches!(classes.find(b"a", 9, false), Lookup::Class(CLASS)));
    }

    #[test]
    fn a_refused_file_is_new_again() {
        let mut classes = Classes::default();
        assert!(matches!(classes.find(b"a", 7, true), Lookup::New));
        assert!(matches!(classes.find(b"a", 8, true), Lookup::Pending));
        assert_eq!(classes.resolve(b"a", None), [8]);
        assert!(matches!(classes.find(b"a", 8, false), Lookup::TooMany));
        assert!(matches!(classes.find(b"a", 8, true), Lookup::New));
        assert!(classes.resolve(b"a", None).is_empty());
    }

    #[test]
    fn a_hash_is_that_of_sha1sum() {
        assert_eq!(hash(b"abc"), "a9993e364706816aba3e25717850c26c9cd0d89d");
    }

    #[test]
    fn only_defined_has_a_class() {
        let defined = [0, 0, 0, 13, 1, 0, 0, 0, 5, 0, 0, 0, 14, 0, 0, 0, 0];
        assert_eq!(class_of(&defined), Some(CLASS));
        assert_eq!(class_of(&[0, 0, 0, 6, 2, 3, 0, 0, 0, 0]), None);
    }
}
