//! One call asked of both, and everything that it may change compared.

use crate::call::{Call, Entry, Reading, Room};
use crate::expected::{Judge, Said};
use crate::ffi::POT_WORDS;
use crate::lent::Lent;
use crate::proved::{ask, halves, Slice, Slices};

const NO_ROOM: u64 = 9;
/// The most atoms of a walk: under filled reading past refused atoms it could go on for long.
const LONGEST_WALK: usize = 300;

pub struct Checker {
    judge: Judge,
    source: Lent,
    bytes: Lent,
    words: Lent,
}

impl Checker {
    pub fn new() -> Self {
        Self { judge: Judge::new(), source: Lent::new(), bytes: Lent::new(), words: Lent::new() }
    }

    /// Compares one call, and what it wrote is read back by every entry and checked.
    pub fn check(&mut self, call: &Call<'_>, room: Room) {
        if let Call::Walk(budget, entry, source) = *call {
            return self.walk(budget, entry, source, room);
        }
        let Some(said) = self.compare(call, room) else { return };
        let copied = matches!(call, Call::ReadAtom(..));
        if !copied && !said.bytes.is_empty() {
            self.read_back(call, &said.bytes);
            self.check_back(call, &said.bytes);
        }
    }

    /// What the writers of values write is in shortest form. A header alone need not be an atom.
    fn check_back(&mut self, call: &Call<'_>, written: &[u8]) {
        if matches!(call, Call::WriteHeader(_)) {
            return;
        }
        let said = self.compare(&Call::Check(written), Room { words: POT_WORDS, bytes: 0 });
        let accepted = said.is_some_and(|said| said.number == 0);
        assert!(accepted || matches!(call, Call::WriteAtomHeader(..)), "written and not accepted: {call:?}");
    }

    fn read_back(&mut self, call: &Call<'_>, written: &[u8]) {
        let room = Room { words: POT_WORDS, bytes: written.len() };
        for entry in Entry::ALL {
            let reading = Reading { entry, place: 0, source: written };
            let read = match call {
                Call::WriteHeader(_) => Call::ReadHeader(reading),
                _ => Call::ReadAtom(u64::MAX, reading),
            };
            let said = self.compare(&read, room).expect("every signature and atom has an answer");
            if let Call::WriteInteger(_, bits) = *call {
                let (low, high) = halves(bits);
                assert_eq!((said.words[6], said.words[7]), (low, high), "not what was written: {call:?}");
            }
        }
    }

    /// One atom after another, past refused ones too, until the end or until the place stays. The three places of each
    /// rise or stay level.
    fn walk(&mut self, mut budget: u64, entry: Entry, source: &[u8], room: Room) {
        let room = Room { words: room.words.max(POT_WORDS), ..room };
        let mut place = 0;
        let mut last = [0; 3];
        for _ in 0..LONGEST_WALK {
            let call = Call::ReadAtom(budget, Reading { entry, place, source });
            let said = self.compare(&call, room).expect("every atom has an answer");
            if said.number == 0 {
                let level = last.into_iter().zip(said.places()).all(|(old, new)| old <= new);
                assert!(level, "the places fall: {call:?}");
                last = said.places();
            }
            let stays = said.words[0] == place;
            (place, budget) = (said.words[0], said.words[1]);
            if stays || place >= source.len() as u64 {
                return;
            }
        }
    }

    /// Asks both and compares; hands back what was expected, or nothing if the call is outside the domain.
    fn compare(&mut self, call: &Call<'_>, room: Room) -> Option<Said> {
        let full = self.judge.expected(call)?;
        let fits = self.with_room(call, full, room.bytes);
        let short = room.words < POT_WORDS;
        let said = if short { Said::new(NO_ROOM, &[], &[]) } else { fits };
        let words: Vec<u8> = said.words.iter().flat_map(|word| word.to_ne_bytes()).collect();
        let first_words = if short { &[][..] } else { &words };

        let source = call.source();
        self.source.fill(source.len(), source);
        self.bytes.fill(room.bytes, &[]);
        self.words.fill(8 * room.words, &[]);
        let lent = Slices {
            source: Slice { start: self.source.start(source.len()), length: source.len() },
            bytes: Slice { start: self.bytes.start(room.bytes), length: room.bytes },
            words: Slice { start: self.words.start(8 * room.words).cast(), length: room.words },
        };
        // SAFETY: three buffers of those lengths, each in a room of its own.
        let number = unsafe { ask(call, &lent) };

        let same = number == said.number
            && self.words.holds(8 * room.words, first_words)
            && self.bytes.holds(room.bytes, &said.bytes)
            && self.source.holds(source.len(), source);
        if !same {
            self.report(call, room, number, &said);
        }
        Some(said)
    }

    /// The answer where the output or the scratch has that room: "output shorter than the whole write; scratch shorter
    /// than the string", of the scratch "past header, charged".
    fn with_room(&mut self, call: &Call<'_>, said: Said, room: usize) -> Said {
        if said.bytes.len() <= room {
            return said;
        }
        match *call {
            Call::ReadAtom(_, reading) => {
                let past_header = self.judge.header(reading).words[0];
                Said::new(NO_ROOM, &[past_header, said.words[1]], &[])
            }
            _ => Said::new(NO_ROOM, &[], &[]),
        }
    }

    fn report(&mut self, call: &Call<'_>, room: Room, number: u64, said: &Said) -> ! {
        eprintln!("a difference: {call:x?} with {room:?}");
        eprintln!("expected: {said:x?}");
        eprintln!("answered: number {number}");
        let words: Vec<u64> = self.words.buffer(8 * room.words).chunks_exact(8).map(word).collect();
        eprintln!("words: {words:x?}");
        eprintln!("bytes: {:x?}", &self.bytes.buffer(room.bytes));
        eprintln!("source kept: {}", self.source.holds(call.source().len(), call.source()));
        std::process::abort();
    }
}

fn word(bytes: &[u8]) -> u64 {
    u64::from_ne_bytes(bytes.try_into().expect("eight bytes"))
}
