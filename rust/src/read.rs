use std::iter::FusedIterator;

use crate::calls::{self, Answer};
use crate::{Atom, Kind, Nucleus, Places, Refusal, Refused, Stopped};

/// An atom that was read.
#[derive(Clone, Copy, Debug, PartialEq)]
#[non_exhaustive]
pub struct Read<'a> {
    /// The atom.
    pub atom: Atom<'a>,
    /// The place after it.
    pub place: usize,
    /// The budget left.
    pub budget: u64,
}

/// An atom's answer; `bytes` is what its string would be a part of.
fn read((number, w): Answer, bytes: &[u8], start: usize) -> Result<Read<'_>, Stopped> {
    let (place, budget) = (w[0] as usize, w[1]);
    if number != 0 {
        let refusal = Refusal::of(number, w[2], w[3]);
        return Err(Stopped { refusal, place, budget, start, atoms: 0, last: Places::of(&w) });
    }
    let atom = Atom { kind: Kind::of(w[2]), arg: w[3], places: Places::of(&w), nucleus: Nucleus::of(&w, bytes) };
    Ok(Read { atom, place, budget })
}

/// A signature's answer: the version, and what follows it.
fn version((number, w): Answer, source: &[u8]) -> Result<(u8, &[u8]), Stopped> {
    let place = w[0] as usize;
    if number != 0 {
        let refusal = Refusal::of(number, 0, 0);
        return Err(Stopped { refusal, place, budget: 0, start: 0, atoms: 0, last: Places::of(&w) });
    }
    Ok((w[1] as u8, &source[place..]))
}

/// Reads the signature of a file: its version, and what follows it. It names no way and reads exactly, as
/// [`read_header_exact`] does.
///
/// ```
/// use dimewagon::{read_header, Refusal};
///
/// assert_eq!(read_header(b"Pot\x01\x40\x05")?, (1, &[0x40, 0x05][..]));
/// assert_eq!(read_header(b"Pox\x01").unwrap_err().refusal, Refusal::IncompatibleVersion);
/// let stopped = read_header(b"Pot").unwrap_err();
/// assert_eq!((stopped.refusal, stopped.place), (Refusal::Eof, 3));
/// # Ok::<(), dimewagon::Stopped>(())
/// ```
pub fn read_header(source: &[u8]) -> Result<(u8, &[u8]), Stopped> {
    version(calls::pot_read_header(source, 0), source)
}

/// Reads the signature of a file, with zeros for the bytes past the end: its version, and what follows it. It is for an
/// old file whose trailing zeros were trimmed; one that was cut looks the same.
///
/// ```
/// // Version 0, trimmed.
/// let (version, body) = dimewagon::read_header_filled(b"Pot")?;
/// assert_eq!((version, body), (0, &b""[..]));
/// # Ok::<(), dimewagon::Stopped>(())
/// ```
pub fn read_header_filled(source: &[u8]) -> Result<(u8, &[u8]), Stopped> {
    version(calls::pot_read_header_filled(source, 0), source)
}

/// Reads the signature of a file exactly: its version, and what follows it.
///
/// ```
/// use dimewagon::{read_header_exact, Refusal};
///
/// assert_eq!(read_header_exact(b"Pot\x01\x40\x05")?, (1, &[0x40, 0x05][..]));
/// assert_eq!(read_header_exact(b"Pot").unwrap_err().refusal, Refusal::Eof);
/// # Ok::<(), dimewagon::Stopped>(())
/// ```
pub fn read_header_exact(source: &[u8]) -> Result<(u8, &[u8]), Stopped> {
    version(calls::pot_read_header_exact(source, 0), source)
}

/// Reads one atom at a place; a string is a part of the source. It names no way and reads exactly, as
/// [`read_atom_exact`] does.
///
/// ```
/// use dimewagon::{read_atom, Refusal};
///
/// let read = read_atom(&[0x00, 0xE2, 0x61, 0x62], 1, 9)?;
/// assert_eq!(read.atom.nucleus.bytes(), Some(&b"ab"[..]));
/// assert_eq!((read.place, read.budget), (4, 7));
/// // A number of two bytes, cut after the first.
/// let stopped = read_atom(&[0x41, 0x2C], 0, 9).unwrap_err();
/// assert_eq!((stopped.refusal, stopped.place), (Refusal::Eof, 2));
/// # Ok::<(), dimewagon::Stopped>(())
/// ```
pub fn read_atom(source: &[u8], place: usize, budget: u64) -> Result<Read<'_>, Stopped> {
    read(calls::pot_read_atom(source, place, budget), source, place.min(source.len()))
}

/// Reads one atom at a place, with zeros for the header and number bytes past the end; a string is a part of the source,
/// and refused where it runs out. It is for an old file whose trailing zeros were trimmed; one that was cut looks the
/// same. At the end it answers None for ever, so that a loop must stop by the place.
///
/// ```
/// use dimewagon::{read_atom_filled, Integer, Nucleus};
///
/// // 5, and 200 in two bytes, of which the second, a zero, was trimmed.
/// let trimmed = [0x40, 0x05, 0x21, 0xC8];
/// let (mut found, mut place) = (Vec::new(), 0);
/// while place < trimmed.len() {
///     let read = read_atom_filled(&trimmed, place, u64::MAX)?;
///     found.push(read.atom.nucleus);
///     place = read.place;
/// }
/// assert_eq!(found, [Nucleus::Integer(Integer::U8(5)), Nucleus::Integer(Integer::I16(200))]);
/// assert_eq!(read_atom_filled(&trimmed, place, 0)?.atom.nucleus, Nucleus::None);
/// # Ok::<(), dimewagon::Stopped>(())
/// ```
pub fn read_atom_filled(source: &[u8], place: usize, budget: u64) -> Result<Read<'_>, Stopped> {
    read(calls::pot_read_atom_filled(source, place, budget), source, place.min(source.len()))
}

/// Reads one atom at a place exactly; a string is a part of the source.
///
/// ```
/// use dimewagon::{read_atom, read_atom_exact};
///
/// let source = [0x00, 0xE2, 0x61, 0x62];
/// let read = read_atom_exact(&source, 1, 9)?;
/// assert_eq!(read.atom.nucleus.bytes(), Some(&b"ab"[..]));
/// assert_eq!(read, read_atom(&source, 1, 9)?);
/// # Ok::<(), dimewagon::Stopped>(())
/// ```
pub fn read_atom_exact(source: &[u8], place: usize, budget: u64) -> Result<Read<'_>, Stopped> {
    read(calls::pot_read_atom_exact(source, place, budget), source, place.min(source.len()))
}

/// Reads one atom at a place exactly; a string is copied into the scratch.
///
/// ```
/// use dimewagon::{read_atom_copied, Nucleus};
///
/// let mut scratch = [0; 4];
/// let read = read_atom_copied(&[0xE2, 0x61, 0x62], 0, 2, &mut scratch)?;
/// assert_eq!(read.atom.nucleus, Nucleus::Bytes(b"ab"));
/// assert_eq!(scratch, [0x61, 0x62, 0, 0]);
/// # Ok::<(), dimewagon::Stopped>(())
/// ```
pub fn read_atom_copied<'a>(
    source: &[u8],
    place: usize,
    budget: u64,
    scratch: &'a mut [u8],
) -> Result<Read<'a>, Stopped> {
    let answer = calls::pot_read_atom_copied(source, place, budget, scratch);
    read(answer, scratch, place.min(source.len()))
}

/// An atom that was read without its value.
#[derive(Clone, Copy, Debug, PartialEq, Eq)]
#[non_exhaustive]
pub struct Skipped {
    /// The place after it.
    pub place: usize,
    /// The budget left.
    pub budget: u64,
    /// Where it stands in the source.
    pub places: Places,
    /// Whether it is a string.
    pub string: bool,
}

/// Reads one atom at a place exactly, and builds no value.
///
/// ```
/// let source = [0xE2, 0x61, 0x62, 0x00];
/// let skipped = dimewagon::skip_atom(&source, 0, 9)?;
/// assert_eq!((skipped.place, skipped.budget, skipped.string), (3, 7, true));
/// assert_eq!(&source[skipped.places.body_range()], b"ab");
/// # Ok::<(), dimewagon::Stopped>(())
/// ```
pub fn skip_atom(source: &[u8], place: usize, budget: u64) -> Result<Skipped, Stopped> {
    let (number, w) = calls::pot_skip_atom(source, place, budget);
    let (start, place, budget) = (place.min(source.len()), w[0] as usize, w[1]);
    if number != 0 {
        let refusal = Refusal::of(number, w[2], w[3]);
        return Err(Stopped { refusal, place, budget, start, atoms: 0, last: Places::of(&w) });
    }
    Ok(Skipped { place, budget, places: Places::of(&w), string: w[3] == 1 })
}

/// The atoms of a source, read exactly, until its end or the first refusal. Each starts where the one before ends.
#[derive(Clone, Debug)]
pub struct Atoms<'a> {
    source: &'a [u8],
    place: usize,
    budget: u64,
    atoms: u64,
    last: Places,
    stopped: bool,
}

impl<'a> Atoms<'a> {
    /// The version of a file, and its atoms. Places count from the file's start.
    ///
    /// ```
    /// let (version, mut atoms) = dimewagon::Atoms::of_file(b"Pot\x01\x40\x05\x24")?;
    /// assert_eq!(version, 1);
    /// let number = atoms.next().unwrap()?;
    /// assert_eq!(number.places.range(), 4..6);
    /// let stopped = atoms.next().unwrap().unwrap_err();
    /// assert_eq!((stopped.start, stopped.last), (6, number.places));
    /// assert!(atoms.next().is_none());
    /// # Ok::<(), dimewagon::Stopped>(())
    /// ```
    pub fn of_file(file: &'a [u8]) -> Result<(u8, Self), Stopped> {
        let (version, body) = read_header(file)?;
        Ok((version, Self { place: file.len() - body.len(), ..Self::new(file) }))
    }

    /// The atoms of a source, which has no signature, with the largest budget.
    ///
    /// ```
    /// assert_eq!(dimewagon::Atoms::new(&[0x40, 0x05, 0x00]).count(), 2);
    /// ```
    pub fn new(source: &'a [u8]) -> Self {
        Self::with_budget(source, u64::MAX)
    }

    /// The atoms of a source, which has no signature, with a budget for what their values take in memory.
    ///
    /// ```
    /// use dimewagon::{Atoms, Refusal};
    ///
    /// let mut atoms = Atoms::with_budget(&[0x40, 0x05, 0x40, 0x06], 1);
    /// assert!(atoms.next().unwrap().is_ok());
    /// assert_eq!(atoms.next().unwrap().unwrap_err().refusal, Refusal::TooManyBytesRead);
    /// ```
    pub fn with_budget(source: &'a [u8], budget: u64) -> Self {
        Self { source, place: 0, budget, atoms: 0, last: Places::default(), stopped: false }
    }

    /// The place after the atoms that were read.
    ///
    /// ```
    /// let mut atoms = dimewagon::Atoms::new(&[0x40, 0x05, 0x00]);
    /// atoms.next();
    /// assert_eq!(atoms.place(), 2);
    /// ```
    pub fn place(&self) -> usize {
        self.place
    }

    /// The budget left.
    ///
    /// ```
    /// let mut atoms = dimewagon::Atoms::with_budget(&[0x40, 0x05, 0x00], 9);
    /// atoms.next();
    /// assert_eq!(atoms.budget(), 8);
    /// ```
    pub fn budget(&self) -> u64 {
        self.budget
    }
}

impl<'a> Iterator for Atoms<'a> {
    type Item = Result<Atom<'a>, Stopped>;

    fn next(&mut self) -> Option<Self::Item> {
        if self.stopped || self.place >= self.source.len() {
            return None;
        }
        match read_atom(self.source, self.place, self.budget) {
            Ok(read) => {
                (self.place, self.budget, self.last) = (read.place, read.budget, read.atom.places);
                self.atoms += 1;
                Some(Ok(read.atom))
            }
            Err(stopped) => {
                (self.place, self.budget) = (stopped.place, stopped.budget);
                self.stopped = true;
                Some(Err(Stopped { atoms: self.atoms, last: self.last, ..stopped }))
            }
        }
    }

    /// An atom has at least one byte.
    fn size_hint(&self) -> (usize, Option<usize>) {
        let most = if self.stopped { 0 } else { self.source.len() - self.place };
        (most.min(1), Some(most))
    }
}

impl FusedIterator for Atoms<'_> {}

/// What a run answers.
#[derive(Clone, Copy, Debug, PartialEq, Eq)]
#[non_exhaustive]
pub struct Ran {
    /// How many atoms were read.
    pub atoms: u64,
    /// The budget left.
    pub budget: u64,
    /// The places of the last atom that was read, zeros if there was none.
    pub last: Places,
}

/// Reads all atoms of a source, which has no signature, exactly, and builds no value.
///
/// ```
/// let source = [0xE3, 0x6E, 0xC3, 0xA9, 0x41, 0x2C, 0x01];
/// let ran = dimewagon::run(&source, 20)?;
/// assert_eq!((ran.atoms, ran.budget, ran.last.range()), (2, 15, 4..7));
/// let stopped = dimewagon::run(&source, 4).unwrap_err();
/// assert_eq!(stopped.to_string(), "refusal 5 at 4: the budget is exceeded");
/// assert_eq!((stopped.atoms, stopped.last.range()), (1, 0..4));
/// # Ok::<(), dimewagon::Stopped>(())
/// ```
pub fn run(source: &[u8], budget: u64) -> Result<Ran, Stopped> {
    let (number, w) = calls::pot_run(source, budget);
    let (place, budget, atoms, last) = (w[0] as usize, w[1], w[2], Places::of(&w));
    if number != 0 {
        let refusal = Refusal::of(number, w[4], w[5]);
        return Err(Stopped { refusal, place, budget, start: w[3] as usize, atoms, last });
    }
    Ok(Ran { atoms, budget, last })
}

/// What a source holds.
#[derive(Clone, Copy, Debug, PartialEq, Eq)]
#[non_exhaustive]
pub struct Tally {
    /// Its atoms.
    pub atoms: u64,
    /// The bytes of their bodies.
    pub body: u64,
    /// What their values take in memory.
    pub charge: u64,
    /// The letters of their strings: in UTF-8 the characters, but for combining marks from U+0300 to U+036F. Of any bytes
    /// a letter is one outside 0x80 to 0xBF, but for the pair 0xCC with 0x80 to 0xBF, or 0xCD with 0x80 to 0xAF, which
    /// counts as none.
    pub letters: u64,
    /// The places of the last atom, zeros if there was none.
    pub last: Places,
}

/// Counts all atoms of a source, which has no signature, exactly and without a budget. An input of more than 16,777,216
/// bytes is refused as a whole.
///
/// ```
/// let tally = dimewagon::tally(&[0xE3, 0x6E, 0xC3, 0xA9, 0x41, 0x2C, 0x01])?;
/// assert_eq!((tally.atoms, tally.body, tally.charge, tally.letters), (2, 5, 5, 2));
/// assert_eq!(tally.last.range(), 4..7);
/// // A mark after its letter counts as no letter: é as one character, and as e with U+0301.
/// assert_eq!(dimewagon::tally(b"\xE2\xC3\xA9")?.letters, 1);
/// assert_eq!(dimewagon::tally(b"\xE3e\xCC\x81")?.letters, 1);
/// let refused = dimewagon::tally(&[0x40, 0x00, 0x24]).unwrap_err();
/// assert_eq!(refused.to_string(), "refusal 6 at 2: Int of 5 bytes");
/// assert_eq!(refused.last.range(), 0..2);
/// # Ok::<(), dimewagon::Refused>(())
/// ```
pub fn tally(source: &[u8]) -> Result<Tally, Refused> {
    let (number, w) = calls::pot_tally(source);
    let last = Places::of(&w);
    if number != 0 {
        return Err(Refused { refusal: Refusal::of(number, w[1], w[2]), start: w[0] as usize, last });
    }
    Ok(Tally { atoms: w[0], body: w[1], charge: w[2], letters: w[3], last })
}

/// Checks that all atoms of a source, which has no signature and any length, are whole, known and in shortest form: a
/// header of the fewest bytes, a number of the smallest count that holds it, a float of the smallest width that has its
/// value. A NaN may have any width. What the writers of values write is accepted, and sources that are accepted and mean
/// the same have the same bytes.
///
/// The first bad atom is refused, by 3, 4 or 6 as it is by exact reading, and by [`Refusal::NotShortest`] only if by
/// none of these.
///
/// ```
/// use dimewagon::{check, read_header, Refusal, Refused};
///
/// /// A file has a signature, which is read first.
/// fn accept(file: &[u8]) -> Result<(), Refused> {
///     let (_version, atoms) = read_header(file)?;
///     check(atoms)
/// }
///
/// assert_eq!(accept(b"Pot\x01\x41\x2C\x01\x40\x05"), Ok(()));
/// // 5 in two bytes, behind 300. The place counts from the first atom, as the signature is not among what is checked.
/// let refused = accept(b"Pot\x01\x41\x2C\x01\x41\x05\x00").unwrap_err();
/// assert_eq!((refused.refusal, refused.start), (Refusal::NotShortest, 3));
/// assert_eq!(refused.to_string(), "refusal 11 at 3: not in shortest form");
/// ```
pub fn check(source: &[u8]) -> Result<(), Refused> {
    let (number, w) = calls::pot_check(source);
    if number != 0 {
        let refusal = Refusal::of(number, w[1], w[2]);
        return Err(Refused { refusal, start: w[0] as usize, last: Places::of(&w) });
    }
    Ok(())
}
