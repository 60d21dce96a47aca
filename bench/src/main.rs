//! The race: the original Rust and the proved library in turn on the same inputs, in one program.
//!
//! A row is timed in rounds. A round runs the original once and the proved library once, whichever is first in turn, and
//! compares what they answer. The ratio is the original's shortest time to ours; the spread is that of the rounds.

mod error;
#[allow(dead_code)]
mod format;
mod hyphen;
mod inputs;
mod original;
mod proved;
#[allow(dead_code)]
mod reader;
mod rows;
mod timing;
#[allow(dead_code, unused_imports)]
mod wire;

use error::Error;

/// How many words the exports say.
#[cfg(feature = "exports")]
pub const WORDS: usize = 12;

/// Where an atom stands: its first place, where its body starts and the place after it.
#[derive(Debug, Default, PartialEq, Eq, Clone, Copy)]
pub struct Places {
    pub first: u64,
    pub body: u64,
    pub after: u64,
}

impl Places {
    /// A word of the three, each at its own bits.
    pub const fn word(self) -> u64 {
        self.first ^ (self.body << 20) ^ (self.after << 40)
    }
}

/// What reading a whole file found. A read has the places of every atom in its sum, a run those of its last atom by
/// themselves.
#[derive(Debug, PartialEq, Eq, Clone, Copy)]
pub struct Found {
    pub sum: u64,
    pub atoms: u64,
    pub place: u64,
    pub budget: u64,
    pub last: Places,
}

#[derive(Debug, Default, PartialEq, Eq, Clone, Copy)]
pub struct Tally {
    pub atoms: u64,
    pub body: u64,
    pub charge: u64,
    pub letters: u64,
    pub last: Places,
}

/// The arguments: files of hyphenation patterns, read as `NAME=PATH`; `--rounds N`; `--only WORD`.
fn main() -> std::io::Result<()> {
    let mut race = timing::Race::new();
    let mut dictionaries = Vec::new();
    let mut words = std::env::args().skip(1);
    while let Some(word) = words.next() {
        match word.as_str() {
            "--rounds" => race.rounds = words.next().and_then(|count| count.parse().ok()).unwrap_or(race.rounds),
            "--only" => race.only = words.next(),
            _ => {
                let (name, path) = word.split_once('=').unwrap_or(("dictionary", &word));
                dictionaries.push((format!("dictionary {name}"), hyphen::pack(&std::fs::read(path)?)?));
            }
        }
    }
    rows::dictionaries(&mut race, &dictionaries);
    rows::files(&mut race)?;
    rows::texts(&mut race)?;
    rows::writers(&mut race);
    race.close();
    Ok(())
}
