//! Several reads by one `SliceReader`, which is held throughout.

use std::mem::take;

use super::Oracle;
use crate::reader::SliceReader;
use crate::wire::{put_word, After, Answer, HeldRead, Reading, Request, Value, Way};

impl Oracle {
    pub(super) fn answer_sequence<'a>(&'a mut self, request: &Request<'_>) -> Answer<'a> {
        let Request::Sequence(mut budget, source, reads) = *request else {
            unreachable!("every other code is answered elsewhere")
        };
        let mut line = take(&mut self.written);
        line.clear();
        let mut reader = SliceReader::from(source);
        for read in reads.all() {
            let held = &source[source.len() - reader.len()..];
            let answer = self.read_held(&mut reader, *read, budget, held);
            answer.put(&mut line);
            if let Answer::Given(After::PlaceAndBudget(_, left), _) = answer {
                budget = left;
            }
            put_word(&mut line, reader.len() as u64);
        }
        self.written = line;
        Answer::Several(&self.written)
    }

    /// Asks the reader for what its request alone would ask a reader of what this one still holds.
    fn read_held<'s, 'a>(
        &'s mut self,
        reader: &mut SliceReader<'a>,
        read: HeldRead,
        budget: u64,
        held: &'a [u8],
    ) -> Answer<'s> {
        let reading = Reading { way: Way::Filled, place: 0, source: held };
        let request = match read {
            HeldRead::Atom => Request::ReadAtom(budget, reading),
            HeldRead::Integer(kind, count) => Request::IntegerReadFrom(kind, count, reading),
            HeldRead::Float(kind, count) => Request::FloatReadFrom(kind, count, reading),
            HeldRead::Bytes(length) => Request::BufferedReadBytes(length, reading),
            HeldRead::Remaining => {
                let told = Value::Words(reader.len() as u64, u64::from(reader.is_empty()));
                return Answer::Given(After::Place(0), Ok(told));
            }
        };
        self.read(reader, &request, &reading)
    }
}
