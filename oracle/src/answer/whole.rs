//! The run and the tally. The original has neither: they are document 01's words in a plain loop over its `read_atom`.

use super::source::{exact, place, read_placed};
use super::{size, Oracle};
use crate::format::Nucleus;
use crate::wire::{After, Answer, Places, Reading, Refusal, Request, Skip, Value, Way};

/// The longest input that the tally takes.
const LONGEST: usize = 16_777_216;

impl Oracle {
    pub(super) fn answer_whole<'a>(&'a mut self, request: &Request<'a>) -> Answer<'a> {
        match *request {
            Request::Run(budget, source) => self.run(budget, source),
            Request::Tally(source) => self.tally(source),
            _ => unreachable!("every other code is answered elsewhere"),
        }
    }

    fn run(&mut self, budget: u64, source: &[u8]) -> Answer<'static> {
        let mut budget = size(budget);
        let (mut start, mut atoms, mut last) = (0, 0, Places::default());
        while start < source.len() as u64 {
            let reading = Reading { way: Way::ExactLent, place: start, source };
            if self.long_string(&reading, budget as u64) {
                return Answer::Skipped(Skip::Length);
            }
            let mut reader = exact(&reading);
            match read_placed(&mut reader, &reading, &mut budget, &mut self.scratch) {
                Err(error) => {
                    let place = place(&reader, &reading);
                    let after = After::Run { place, budget: budget as u64, atoms, start, last };
                    return Answer::Given(after, Err(error.into()));
                }
                Ok((_, places)) => last = places,
            }
            atoms += 1;
            start = last.after;
        }
        let after = After::Run { place: start, budget: budget as u64, atoms, start, last };
        Answer::Given(after, Ok(Value::Nothing))
    }

    fn tally(&mut self, source: &[u8]) -> Answer<'static> {
        let mut last = Places::default();
        if source.len() > LONGEST {
            return Answer::Given(After::Last(last), Err(Refusal::TooLong));
        }
        let (mut start, mut atoms, mut body, mut charge, mut letters) = (0, 0, 0, 0, 0);
        while start < source.len() as u64 {
            let reading = Reading { way: Way::ExactLent, place: start, source };
            if self.long_string(&reading, u64::MAX) {
                return Answer::Skipped(Skip::Length);
            }
            let mut budget = usize::MAX;
            match read_placed(&mut exact(&reading), &reading, &mut budget, &mut self.scratch) {
                Err(error) => return Answer::Given(After::LastAndStart(last, start), Err(error.into())),
                Ok((atom, places)) => {
                    last = places;
                    if let Some(Nucleus::Bytes(bytes)) = &atom.nucleus {
                        letters += count_letters(bytes.as_slice(&self.scratch));
                    }
                }
            }
            atoms += 1;
            body += last.after - last.body;
            charge += (usize::MAX - budget) as u64;
            start = last.after;
        }
        Answer::Given(After::Last(last), Ok(Value::Tally { atoms, body, charge, letters }))
    }
}

/// A letter is a string byte outside 0x80 to 0xBF; the pair CC with 80 to BF, or CD with 80 to AF, counts as none.
fn count_letters(mut bytes: &[u8]) -> u64 {
    let mut letters = 0;
    loop {
        bytes = match bytes {
            [] => return letters,
            [0xcc, 0x80..=0xbf, rest @ ..] | [0xcd, 0x80..=0xaf, rest @ ..] | [0x80..=0xbf, rest @ ..] => rest,
            [_, rest @ ..] => {
                letters += 1;
                rest
            }
        };
    }
}
