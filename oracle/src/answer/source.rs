//! The two readers over a source in memory, where they stand in it, and an atom with its places.

use std::io::Cursor;

use crate::format::{read_atom, read_atom_header, Atom};
use crate::reader::{IoReader, Reader, SliceReader};
use crate::wire::{Places, Reading, Way};
use crate::Error;

/// A reader that can tell how many bytes it has left.
pub trait Source<'a>: Reader<'a> {
    fn left(&self) -> usize;
}

impl<'a> Source<'a> for SliceReader<'a> {
    fn left(&self) -> usize {
        self.len()
    }
}

impl<'a> Source<'a> for IoReader<Cursor<&'a [u8]>> {
    fn left(&self) -> usize {
        let length = self.reader.get_ref().len();
        let position = usize::try_from(self.reader.position()).expect("the oracle is a 64-bit build");
        length.saturating_sub(position)
    }
}

pub fn filled<'a>(reading: &Reading<'a>) -> SliceReader<'a> {
    SliceReader::from(reading.rest())
}

pub fn exact<'a>(reading: &Reading<'a>) -> IoReader<Cursor<&'a [u8]>> {
    IoReader::new(Cursor::new(reading.rest()))
}

/// The place of a reader in the source that it was opened over.
pub fn place<'a>(reader: &impl Source<'a>, reading: &Reading<'a>) -> u64 {
    (reading.source.len() - reader.left()) as u64
}

/// Reads an atom by a reader that stands where the reading starts. Its places are where the readers stand: this one
/// before the read and after it, and another, at the same start, after the header alone.
pub fn read_placed<'a>(
    reader: &mut impl Source<'a>,
    reading: &Reading<'a>,
    budget: &mut usize,
    scratch: &mut Vec<u8>,
) -> Result<(Atom<'a>, Places), Error> {
    let first = place(reader, reading);
    let atom = read_atom(reader, budget, scratch)?;
    Ok((atom, Places { first, body: past_header(reading), after: place(reader, reading) }))
}

/// The place after the header of an atom that was read.
fn past_header(reading: &Reading<'_>) -> u64 {
    match reading.way {
        Way::Filled => past_header_of(filled(reading), reading),
        Way::ExactLent | Way::ExactCopied | Way::Unnamed => past_header_of(exact(reading), reading),
    }
}

fn past_header_of<'a>(mut reader: impl Source<'a>, reading: &Reading<'a>) -> u64 {
    read_atom_header(&mut reader).expect("the atom was read before");
    place(&reader, reading)
}
