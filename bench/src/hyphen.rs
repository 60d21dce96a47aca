//! Packs a file of hyphenation patterns (`.dic` of Hunspell's hyphen) as atoms.
//!
//! A map of its patterns: the key is the pattern's text as a string; the value is a sequence of UInts, the position and
//! the weight of each break in turn, and then, for a pattern that changes the spelling, that change as a string.

use std::io;

use crate::format::{write_atom_header, write_bytes, write_header, write_u64, Kind, CURRENT_VERSION};

struct Pattern {
    text: String,
    /// Positions, counted in bytes of the text, and weights.
    breaks: Vec<(u64, u64)>,
    change: Option<String>,
}

/// The signature and the atoms of a file of patterns.
pub fn pack(dictionary: &[u8]) -> io::Result<Vec<u8>> {
    let patterns: Vec<Pattern> = decoded(dictionary).lines().skip(1).filter_map(pattern).collect();
    let mut out = Vec::new();
    write_header(&mut out, CURRENT_VERSION)?;
    write_atom_header(&mut out, Kind::Map, patterns.len() as u64)?;
    for pattern in &patterns {
        write_bytes(&mut out, pattern.text.as_bytes())?;
        let items = 2 * pattern.breaks.len() + usize::from(pattern.change.is_some());
        write_atom_header(&mut out, Kind::Sequence, items as u64)?;
        for &(position, weight) in &pattern.breaks {
            write_u64(&mut out, position)?;
            write_u64(&mut out, weight)?;
        }
        if let Some(change) = &pattern.change {
            write_bytes(&mut out, change.as_bytes())?;
        }
    }
    Ok(out)
}

/// The first line names the encoding: UTF-8, or ISO 8859-1.
fn decoded(dictionary: &[u8]) -> String {
    if dictionary.starts_with(b"UTF-8") {
        return String::from_utf8_lossy(dictionary).into_owned();
    }
    dictionary.iter().map(|&byte| char::from(byte)).collect()
}

/// A line's pattern; none of a comment or of a setting, which is in capitals.
fn pattern(line: &str) -> Option<Pattern> {
    let line = line.trim();
    if line.is_empty() || line.starts_with(['%', '#']) || line.starts_with(|first: char| first.is_ascii_uppercase()) {
        return None;
    }
    let (body, change) = match line.split_once('/') {
        Some((body, change)) => (body, Some(change.to_owned())),
        None => (line, None),
    };
    let (mut text, mut breaks) = (String::new(), Vec::new());
    for letter in body.chars() {
        match letter.to_digit(10) {
            Some(weight) => breaks.push((text.len() as u64, u64::from(weight))),
            None => text.push(letter),
        }
    }
    Some(Pattern { text, breaks, change })
}
