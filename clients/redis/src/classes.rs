//! The classes that this server has, by id.
use crate::config::STEPS_SETTING;
use crate::engine::{explain, refusal_name, Arg, Call, Done, Engine, Verdict, NO_CLASS, THREW};
use crate::names::name_of;
use crate::server::{now, Failure};
use crate::state::COUNTERS;
use crate::words::{digits_of, id_of, no_id, Id};

/// The maximum number of classes.
const MOST_CLASSES: usize = 4096;
/// An engine keeps some 500 bytes for each class that it has forgotten. After this many a new one takes its place.
const MOST_FORGOTTEN: usize = 256;

/// The error for an id without a class.
pub const NO_CLASS_HERE: &str = "NOCLASS no class of this id here: JENTRY.DEFINE it";

pub struct Class {
    /// The hexadecimal digits of its id.
    digits: [u8; 40],
    pub bytes: Vec<u8>,
    /// The verdict of an accepted class: its id, its number and its bounds.
    pub verdict: Verdict,
    /// The engine in which the class has its number.
    engine: u64,
    pub name: String,
    pub origin: Origin,
    pub usage: Usage,
}

/// Who defined a class, and when. A replica and the AOF don't know the user.
#[derive(Clone, Default)]
pub struct Origin {
    pub user: Vec<u8>,
    /// Milliseconds since 1970.
    pub time: i64,
}

/// The runs of a class since the start of the server.
#[derive(Clone, Copy, Default)]
pub struct Usage {
    pub runs: u64,
    pub steps: u64,
    pub exceptions: u64,
    /// The time of the last run in milliseconds since 1970.
    pub last: i64,
}

impl Usage {
    fn add(&mut self, done: &Done, time: i64) {
        self.runs = self.runs.wrapping_add(1);
        self.steps = self.steps.wrapping_add(done.steps.into());
        self.exceptions = self.exceptions.wrapping_add((done.outcome == THREW).into());
        self.last = time;
    }
}

/// A class in an engine, for runs in one command.
#[derive(Clone, Copy)]
pub struct Place {
    engine: u64,
    number: u32,
}

/// The reasons for which a class isn't accepted.
pub enum Denial {
    /// The core refuses the class.
    Refused(Verdict),
    /// A run may take `steps` instructions, more than the `most` that this server allows.
    Costly {
        steps: u32,
        most: u32,
    },
    /// A different class file has the same SHA-1.
    SameId(Id),
    TooMany,
    NoMemory,
}

/// The classes, sorted by id, and the engine that runs them.
pub struct Classes {
    engine: Engine,
    /// How many engines there have been before this one.
    engines: u64,
    /// How many classes this engine has forgotten.
    forgotten: usize,
    known: Vec<Class>,
    /// The index of the class that was last found.
    last: usize,
}

impl Classes {
    pub fn new(engine: Engine) -> Classes {
        Classes { engine, engines: 0, forgotten: 0, known: Vec::new(), last: 0 }
    }

    pub fn all(&self) -> &[Class] {
        &self.known
    }

    /// Returns the class with this id in hexadecimal digits. Fails if the text is no id.
    pub fn find(&mut self, digits: &[u8]) -> Result<Option<&Class>, Failure> {
        if self.known.get(self.last).map_or(true, |class| class.digits != *digits) {
            let id = id_of(digits).ok_or_else(|| no_id(digits))?;
            match self.place_of(&id) {
                Ok(place) => self.last = place,
                Err(_) => return Ok(None),
            }
        }
        Ok(self.known.get(self.last))
    }

    fn place_of(&self, id: &Id) -> Result<usize, usize> {
        self.known.binary_search_by(|class| class.verdict.id.cmp(id))
    }

    /// Returns the class of a class file, if it is already defined.
    pub fn of_file(&self, bytes: &[u8]) -> Option<&Class> {
        self.known.iter().find(|class| class.bytes == bytes)
    }

    /// Verifies a new class, and keeps it if a run takes at most `most` instructions.
    pub fn define(&mut self, bytes: &[u8], most: u32, origin: Origin) -> Result<Verdict, Denial> {
        if self.known.len() >= MOST_CLASSES {
            return Err(Denial::TooMany);
        }
        let mut kept = Vec::new();
        kept.try_reserve_exact(bytes.len()).map_err(|_| Denial::NoMemory)?;
        kept.extend_from_slice(bytes);
        self.known.try_reserve(1).map_err(|_| Denial::NoMemory)?;
        if self.forgotten >= MOST_FORGOTTEN {
            self.renew();
        }
        let verdict = self.engine.define(bytes);
        if verdict.refusal != 0 {
            return Err(Denial::Refused(verdict));
        }
        let denial = match self.place_of(&verdict.id) {
            Ok(_) => Denial::SameId(verdict.id),
            Err(_) if verdict.steps > most => Denial::Costly { steps: verdict.steps, most },
            Err(place) => {
                let class = Class {
                    digits: digits_of(&verdict.id),
                    name: name_of(&kept).unwrap_or_default(),
                    bytes: kept,
                    verdict,
                    engine: self.engines,
                    origin,
                    usage: Usage::default(),
                };
                self.known.insert(place, class);
                self.count();
                return Ok(verdict);
            }
        };
        self.forget_number(verdict.number);
        Err(denial)
    }

    /// Counts the classes and their bytes for INFO.
    fn count(&self) {
        COUNTERS.classes.set(self.known.len() as u64);
        COUNTERS.class_bytes.set(self.known.iter().map(|class| class.bytes.len() as u64).sum());
    }

    fn forget_number(&mut self, number: u32) {
        self.engine.forget(number);
        self.forgotten += 1;
    }

    /// Replaces the engine by a new one, which frees what the old one kept, unless memory runs out. Each class gets its number in the new
    /// one when it runs next.
    fn renew(&mut self) {
        if let Some(engine) = Engine::new() {
            self.engine = engine;
            self.engines += 1;
            self.forgotten = 0;
        }
    }

    /// Returns the place of the class that was last found, and the most instructions of its runs. If the class isn't in this engine yet, it is
    /// verified again; returns `None` if memory runs out.
    fn place_of_last(&mut self) -> Option<(Place, u32)> {
        let class = self.known.get_mut(self.last)?;
        if class.engine != self.engines {
            let verdict = self.engine.define(&class.bytes);
            if verdict.refusal != 0 {
                return None;
            }
            (class.verdict, class.engine) = (verdict, self.engines);
        }
        Some((Place { engine: class.engine, number: class.verdict.number }, class.verdict.steps))
    }

    /// Returns where the class with this id in hexadecimal digits runs, and the most instructions of its runs.
    pub fn place(&mut self, digits: &[u8]) -> Result<(Place, u32), Failure> {
        self.find(digits)?.ok_or(NO_CLASS_HERE)?;
        self.place_of_last().ok_or_else(|| Denial::NoMemory.text().into())
    }

    /// Removes the class with this id in hexadecimal digits. Returns whether there was one. Fails if the text is no id.
    pub fn forget(&mut self, digits: &[u8]) -> Result<bool, Failure> {
        let id = id_of(digits).ok_or_else(|| no_id(digits))?;
        Ok(match self.place_of(&id) {
            Ok(place) => {
                let class = self.known.remove(place);
                if class.engine == self.engines {
                    self.forget_number(class.verdict.number);
                }
                self.count();
                true
            }
            Err(_) => false,
        })
    }

    /// Replaces all classes. Calls `denied` for each class that isn't accepted.
    pub fn replace(&mut self, files: Vec<(Vec<u8>, Origin)>, mut denied: impl FnMut(Denial)) {
        while let Some(class) = self.known.pop() {
            if class.engine == self.engines {
                self.forget_number(class.verdict.number);
            }
        }
        self.renew();
        for (file, origin) in files {
            if let Err(denial) = self.define(&file, u32::MAX, origin) {
                denied(denial);
            }
        }
        self.count();
    }

    /// Returns the class at a place, which nearly always is the one that was last found.
    fn class_at(&mut self, place: Place) -> Option<&mut Class> {
        let is_at =
            |class: &Class| class.engine == place.engine && class.verdict.number == place.number;
        if !self.known.get(self.last).map_or(false, is_at) {
            self.last = self.known.iter().position(is_at)?;
        }
        self.known.get_mut(self.last)
    }

    /// Runs the class at a place, whose number the call gets. If the class has been forgotten since, the outcome is `NO_CLASS`.
    pub fn invoke(&mut self, place: Place, call: &Call, args: &[Arg]) -> Done {
        if place.engine != self.engines {
            return Done { outcome: NO_CLASS, ..Done::default() };
        }
        let done = self.engine.invoke(&Call { number: place.number, ..*call }, args);
        if done.has_run() {
            if let Some(class) = self.class_at(place) {
                class.usage.add(&done, now());
            }
        }
        done
    }

    /// Returns the text of an exception that the class at a place threw, as a part of a line, or `None` if the exception has none.
    pub fn text(&mut self, place: Place, index: i32) -> Option<String> {
        if place.engine == self.engines {
            self.engine.text(place.number, index)
        } else {
            None
        }
    }
}

/// Returns the parts of ` in METHOD line L: REMEDY` that `explain` reports for a refused class.
fn reason_of(bytes: &[u8]) -> String {
    let text = explain(bytes);
    let text = String::from_utf8_lossy(&text);
    let mut method = String::new();
    let mut line = String::new();
    let mut remedy = String::new();
    // The first line is the verdict. A method line with bounds belongs to a table of all methods, and doesn't show where the fault is.
    for told in text.lines().skip(1) {
        if let Some(name) = told.strip_prefix("method ") {
            if !name.contains(" steps=") {
                method = format!(" in {name}");
            }
        } else if let Some(number) = told.strip_prefix("line ") {
            line = format!(" line {number}");
        } else if !told.starts_with("instruction ") {
            remedy = format!(": {told}");
        }
    }
    method + &line + &remedy
}

/// Returns the text of a refusal: its number and its name, with the opcode or the offset for those that have one.
fn verdict_text(verdict: &Verdict) -> String {
    let name = refusal_name(verdict.refusal);
    match verdict.refusal {
        17 => format!("REFUSED {} {name} opcode {}", verdict.refusal, verdict.detail),
        22 => format!("REFUSED {} {name} at {}", verdict.refusal, verdict.detail),
        number => format!("REFUSED {number} {name}"),
    }
}

impl Denial {
    /// Returns the text of the denial alone.
    pub fn text(&self) -> String {
        match self {
            Denial::Refused(verdict) => verdict_text(verdict),
            Denial::Costly { steps, most } => {
                format!("COSTLY steps {steps}, and this server takes {most} ({STEPS_SETTING})")
            }
            Denial::SameId(id) => {
                format!("ERR another class has the id {}", String::from_utf8_lossy(&digits_of(id)))
            }
            Denial::TooMany => "ERR too many classes".into(),
            Denial::NoMemory => "ERR no memory for the class".into(),
        }
    }

    /// Returns the error for the client that sent the class; for a refusal it also says why, and what to write instead.
    pub fn failure(&self, bytes: &[u8]) -> Failure {
        match self {
            Denial::Refused(_) => (self.text() + &reason_of(bytes)).into(),
            _ => self.text().into(),
        }
    }
}
