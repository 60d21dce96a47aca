//! What a call must answer: the original's answer by the layout of words, and document 01's table where the original has
//! no answer, since its types or its domain shut the call out.

use oracle::answer::{Oracle, RESERVE};
use oracle::wire::{
    After, Answer, Answers, Float, Integer, Nucleus, Places, Refusal, Request, Skip, Text, Value, Variant,
};

use crate::call::{Call, Entry, Parts, Reading};
use crate::ffi::{POT_AFTER, POT_BODY, POT_FIRST, POT_WORDS};
use crate::proved::halves;

/// An answer: its number, its words, and the bytes that it leaves in the output or the scratch.
#[derive(Debug, Clone, PartialEq, Eq)]
pub struct Said {
    pub number: u64,
    pub words: [u64; POT_WORDS],
    pub bytes: Vec<u8>,
}

impl Said {
    /// The answer of these words, and zeros behind them.
    pub fn new(number: u64, said: &[u64], bytes: &[u8]) -> Self {
        let mut words = [0; POT_WORDS];
        words[..said.len()].copy_from_slice(said);
        Self { number, words, bytes: bytes.to_vec() }
    }

    /// The answer with the places of an atom.
    fn at(mut self, places: Places) -> Self {
        self.words[POT_FIRST] = places.first;
        self.words[POT_BODY] = places.body;
        self.words[POT_AFTER] = places.after;
        self
    }

    /// The three places that it says.
    pub const fn places(&self) -> [u64; 3] {
        [self.words[POT_FIRST], self.words[POT_BODY], self.words[POT_AFTER]]
    }

    fn refused(refusal: Refusal) -> Self {
        Self::new(refusal.number(), &data(refusal), &[])
    }
}

/// The original, asked in the exports' terms.
pub struct Judge {
    oracle: Oracle,
}

impl Judge {
    pub const fn new() -> Self {
        Self { oracle: Oracle::new(RESERVE) }
    }

    /// The answer to the call with room for all it writes; none if it is outside the domain and the table leaves it open.
    pub fn expected(&mut self, call: &Call<'_>) -> Option<Said> {
        match *call {
            Call::ReadHeader(reading) => self.given(&Request::ReadHeader(reading.for_original())),
            Call::ReadAtom(budget, reading) => Some(self.atom(budget, reading)),
            Call::SkipAtom(budget, reading) => Some(self.skipped(budget, reading)),
            Call::Run(budget, source) => self.given(&Request::Run(budget, source)),
            Call::Tally(source) => self.given(&Request::Tally(source)),
            Call::Check(source) => self.given(&Request::Check(source)),
            Call::WriteHeader(version) => self.given(&Request::WriteHeader(version)),
            Call::WriteAtomHeader(kind, arg) => {
                self.named(&Request::KindFromU8(kind), &Request::WriteAtomHeader(kind, arg))
            }
            Call::WriteSpecial(special) => {
                self.named(&Request::SpecialTryFrom(special), &Request::WriteSpecial(special as u8))
            }
            Call::WriteNone => self.given(&Request::WriteNone),
            Call::WriteUnit => self.given(&Request::WriteUnit),
            Call::WriteNamed => self.given(&Request::WriteNamed),
            Call::WriteBool(value) => self.given(&Request::WriteBool(value != 0)),
            Call::WriteInteger(writer, bits) => self.given(&Request::WriteInteger(writer, bits)),
            Call::WriteVariant(parts) => self.integer(parts, Request::IntegerWriteTo),
            Call::WriteBytes(bytes) => self.given(&Request::WriteBytes(bytes)),
            Call::WriteF32(bits) => self.given(&Request::WriteF32(bits)),
            Call::WriteF64(bits) => self.given(&Request::WriteF64(bits)),
            Call::Cast(to, parts) => match variant(to) {
                Some(to) => self.integer(parts, |integer| Request::IntegerAs(to, integer)),
                None => Some(Said::refused(Refusal::ImpreciseCastWouldLoseData)),
            },
            Call::AsF32(parts) => self.integer(parts, Request::IntegerAsF32),
            Call::AsF64(parts) => self.integer(parts, Request::IntegerAsF64),
            Call::F32AsF64(bits) => self.given(&Request::FloatAsF64(Float::F32(bits))),
            Call::F64AsF32(bits) => self.given(&Request::FloatAsF32(Float::F64(bits))),
            Call::F32AsInteger(bits) => self.given(&Request::FloatAsInteger(Float::F32(bits))),
            Call::F64AsInteger(bits) => self.given(&Request::FloatAsInteger(Float::F64(bits))),
            Call::Walk(..) => unreachable!("a walk is many reads"),
        }
    }

    /// The original's answer in words; refusal 8 of a value outside a writer's width, where the original has none.
    fn given(&mut self, request: &Request<'_>) -> Option<Said> {
        match self.oracle.answer(request) {
            Answer::Given(after, outcome) => Some(said(after, outcome)),
            Answer::Skipped(Skip::Width) => Some(Said::refused(Refusal::ImpreciseCastWouldLoseData)),
            Answer::Skipped(Skip::Length) => None,
            Answer::Several(_) => unreachable!("no sequence of reads is asked for"),
        }
    }

    /// The second answer if the first request, which names a kind or a special, is taken.
    fn named(&mut self, name: &Request<'_>, request: &Request<'_>) -> Option<Said> {
        self.given(name).and_then(|name| if name.number == 0 { self.given(request) } else { Some(name) })
    }

    /// The answer to a request about an integer; refusal 8 if its variant does not hold it, or there is no such variant.
    fn integer<'a>(&mut self, parts: Parts, request: impl Fn(Integer) -> Request<'a>) -> Option<Said> {
        match variant(parts.variant) {
            Some(variant) if variant.holds(parts.bits) => self.given(&request(Integer { variant, bits: parts.bits })),
            _ => Some(Said::refused(Refusal::ImpreciseCastWouldLoseData)),
        }
    }

    /// An atom. A float's stored bits, which the original does not keep, stand in the source.
    fn atom(&mut self, budget: u64, reading: Reading<'_>) -> Said {
        let mut said = self.unless_too_long(&Request::ReadAtom(budget, reading.for_original()), budget, reading);
        if said.number == 0 && said.words[4] == FLOAT {
            said.words[7] = stored(reading.source, said.words[POT_BODY], said.words[3] + 1);
        }
        said
    }

    /// A skip, which is the step under exact reading, whatever entry the call names.
    fn skipped(&mut self, budget: u64, reading: Reading<'_>) -> Said {
        let reading = Reading { entry: Entry::Exact, ..reading };
        self.unless_too_long(&Request::Step(budget, reading.place, reading.source), budget, reading)
    }

    /// The answer to a request about one atom. A string too long for the original to reserve is refused by 4, at the end
    /// of the source and charged.
    fn unless_too_long(&mut self, request: &Request<'_>, budget: u64, reading: Reading<'_>) -> Said {
        self.given(request).unwrap_or_else(|| {
            let length = self.header(reading).words[2];
            Said::new(Refusal::Eof.number(), &[reading.source.len() as u64, budget - length], &[])
        })
    }

    /// An atom's header: place, kind and argument, or place.
    pub fn header(&mut self, reading: Reading<'_>) -> Said {
        self.given(&Request::ReadAtomHeader(reading.for_original())).expect("every header is in the domain")
    }
}

/// What an atom of a float holds.
const FLOAT: u64 = 3;

fn variant(number: u64) -> Option<Variant> {
    Variant::ALL.get(usize::try_from(number).ok()?).copied()
}

/// A number's bytes in the source, zeros past its end.
fn stored(source: &[u8], start: u64, count: u64) -> u64 {
    let byte = |place: u64| source.get((start + place) as usize).copied().map_or(0, u64::from);
    (0..count).fold(0, |bits, place| bits | byte(place) << (8 * place))
}

/// An answer of the original by the layout of words.
fn said(after: After, outcome: Result<Value<'_>, Refusal>) -> Said {
    let mut words = match after {
        After::Nothing => vec![],
        After::Place(place) => vec![place],
        After::PlaceAndBudget(place, budget) => vec![place, budget],
        After::Run { place, budget, atoms, start, .. } if outcome.is_err() => vec![place, budget, atoms, start],
        After::Run { place, budget, atoms, .. } => vec![place, budget, atoms],
        // A tally that is refused as a whole says 0 where another says the start of the refused atom.
        After::Last(_) if outcome.is_err() => vec![0],
        After::Last(_) => vec![],
        After::LastAndStart(_, start) => vec![start],
    };
    let places = places(after, outcome);
    match outcome {
        Ok(value) => {
            let bytes = value_words(value, &mut words);
            Said::new(0, &words, bytes).at(places)
        }
        Err(refusal) => {
            words.extend(data(refusal));
            Said::new(refusal.number(), &words, &[]).at(places)
        }
    }
}

/// The places that an answer tells: an atom's own, or those of the last atom of a run or a tally. Zeros in every other.
fn places(after: After, outcome: Result<Value<'_>, Refusal>) -> Places {
    match (after, outcome) {
        (_, Ok(Value::Atom(_, _, places, _) | Value::Step(places, _))) => places,
        (After::Run { last, .. } | After::Last(last) | After::LastAndStart(last, _), _) => last,
        _ => Places::default(),
    }
}

/// Adds the words of a value, and hands back its bytes.
fn value_words<'a>(value: Value<'a>, words: &mut Vec<u64>) -> &'a [u8] {
    match value {
        Value::Nothing => {}
        Value::Word(word) => words.push(word),
        Value::Words(first, second) => words.extend([first, second]),
        Value::Wide(bits) => words.extend(<[u64; 2]>::from(halves(bits))),
        Value::Integer(integer) => words.extend(integer_words(integer)),
        Value::Float(float) => words.extend(float_words(float)),
        Value::Bytes(bytes) => {
            words.push(bytes.len() as u64);
            return bytes;
        }
        Value::Text(text) => return text_words(text, words),
        Value::Atom(kind, arg, _, nucleus) => {
            words.extend([u64::from(kind), arg]);
            return nucleus_words(nucleus, words);
        }
        Value::Step(places, string) => words.extend([places.body, u64::from(string)]),
        Value::Tally { atoms, body, charge, letters } => words.extend([atoms, body, charge, letters]),
    }
    &[]
}

fn nucleus_words<'a>(nucleus: Nucleus<'a>, words: &mut Vec<u64>) -> &'a [u8] {
    match nucleus {
        Nucleus::None => words.push(0),
        Nucleus::Boolean(boolean) => words.extend([1, u64::from(boolean)]),
        Nucleus::Integer(integer) => {
            words.push(2);
            words.extend(integer_words(integer));
        }
        Nucleus::Float(float) => {
            words.push(FLOAT);
            words.extend(float_words(float));
        }
        Nucleus::Bytes(text) => {
            words.push(4);
            return text_words(text, words);
        }
        Nucleus::Unit => words.push(5),
        Nucleus::Named => words.push(6),
        Nucleus::DynamicMap => words.push(7),
        Nucleus::DynamicEnd => words.push(8),
    }
    &[]
}

fn text_words<'a>(text: Text<'a>, words: &mut Vec<u64>) -> &'a [u8] {
    match text {
        Text::Lent(start, length) => {
            words.extend([start, length, 1]);
            &[]
        }
        Text::Copied(bytes) => {
            words.extend([0, bytes.len() as u64, 0]);
            bytes
        }
    }
}

const fn integer_words(integer: Integer) -> [u64; 3] {
    let (low, high) = halves(integer.bits);
    [integer.variant as u64, low, high]
}

const fn float_words(float: Float) -> [u64; 2] {
    match float {
        Float::F32(bits) => [4, bits as u64],
        Float::F64(bits) => [8, bits],
    }
}

/// A refusal's data, zeros where it has none.
const fn data(refusal: Refusal) -> [u64; 2] {
    match refusal {
        Refusal::InvalidKind(code) => [code as u64, 0],
        Refusal::UnknownSpecial(value) => [value, 0],
        Refusal::UnsupportedByteCount(kind, count) => [kind as u64, count],
        Refusal::UnexpectedKind(kind, wanted) => [kind as u64, wanted as u64],
        _ => [0, 0],
    }
}
