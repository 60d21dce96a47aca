//! The examples of docs/FORMAT.md, each run and compared to the word. A block's name says what is done with the bytes at the
//! left of a line; `-` stands for no bytes.
use std::collections::BTreeMap;

use dimewagon::*;

const PAGE: &str = include_str!("../../docs/FORMAT.md");

/// The examples of the page: the name of the block, the left and the right of the line.
fn examples() -> Vec<(&'static str, &'static str, &'static str)> {
    let mut found = Vec::new();
    let mut block = None;
    for line in PAGE.lines() {
        match (line.strip_prefix("```"), block) {
            (Some(name), None) => block = Some(name),
            (Some(_), Some(_)) => block = None,
            (None, Some(name)) => {
                let (left, right) =
                    line.split_once("  ").unwrap_or_else(|| panic!("an example without an answer: {line}"));
                found.push((name, left, right.trim()));
            }
            (None, None) => {}
        }
    }
    found
}

fn bytes(text: &str) -> Vec<u8> {
    text.split(' ').filter(|&pair| pair != "-").map(|pair| u8::from_str_radix(pair, 16).unwrap()).collect()
}

/// A refusal by its number and data.
fn refused(refusal: Refusal) -> String {
    match refusal {
        Refusal::InvalidKind(value) | Refusal::UnknownSpecial(value) => {
            format!("refusal {} of {value}", refusal.number())
        }
        Refusal::UnsupportedByteCount(kind, count) => format!("refusal {} of {kind:?}, {count}", refusal.number()),
        Refusal::UnexpectedKind(kind, wanted) => format!("refusal {} of {kind:?}, {wanted:?}", refusal.number()),
        _ => format!("refusal {}", refusal.number()),
    }
}

/// What an atom holds; of one that is its header alone, the argument.
fn held(atom: Atom<'_>) -> String {
    match atom.nucleus {
        Nucleus::Integer(value) => format!("{value:?}"),
        Nucleus::Float(value, _) => format!("{value:?}"),
        Nucleus::Bytes(string) => format!("{:?}", std::str::from_utf8(string).unwrap()),
        Nucleus::Boolean(value) => (if value { "True" } else { "False" }).into(),
        Nucleus::None if atom.kind != Kind::Special => atom.arg.to_string(),
        nucleus => format!("{nucleus:?}"),
    }
}

/// The answer to one atom, which has to have no bytes after it.
fn one(answer: Result<Read<'_>, Stopped>, budget: u64) -> String {
    match answer {
        Ok(read) => {
            let holds = held(read.atom);
            format!("{:?} {holds}; place {}, charge {}", read.atom.kind, read.place, budget - read.budget)
        }
        Err(stopped) => {
            format!("{}; place {}, charge {}", refused(stopped.refusal), stopped.place, budget - stopped.budget)
        }
    }
}

/// One atom, exactly: by the entry that names no way, and by the one that does.
fn exact(source: &[u8], budget: u64) -> String {
    let answer = one(read_atom(source, 0, budget), budget);
    assert_eq!(answer, one(read_atom_exact(source, 0, budget), budget));
    answer
}

/// The atoms of a source under filled reading, each read from the place after the one before: until the end, or as many.
fn filled(source: &[u8], reads: Option<usize>) -> String {
    let (mut found, mut place) = (Vec::new(), 0);
    while reads.map_or(place < source.len(), |reads| found.len() < reads) {
        let read = read_atom_filled(source, place, 99).unwrap();
        found.push(format!("{:?} {}", read.atom.kind, held(read.atom)));
        place = read.place;
    }
    if found.is_empty() {
        "no atom".into()
    } else {
        found.join(", ")
    }
}

/// What reads many atoms, or builds no value, and refuses what filled reading of one atom takes.
fn exact_only(source: &[u8]) -> String {
    let stopped = Atoms::new(source).last().unwrap().unwrap_err();
    assert!(read_atom_filled(source, stopped.start, 99).is_ok());
    assert_eq!(run(source, u64::MAX), Err(stopped));
    assert_eq!(tally(source), Err(stopped.into()));
    let unfit = check(source).unwrap_err();
    assert_eq!((unfit.refusal, unfit.start), (stopped.refusal, stopped.start));
    let skipped = skip_atom(source, stopped.start, u64::MAX).unwrap_err();
    assert_eq!((skipped.refusal, skipped.place), (stopped.refusal, stopped.place));
    format!("{}; start {}", refused(stopped.refusal), stopped.start)
}

fn version(answer: Result<(u8, &[u8]), Stopped>) -> String {
    match answer {
        Ok((version, _)) => format!("version {version}"),
        Err(stopped) => refused(stopped.refusal),
    }
}

/// A signature, exactly: by the entry that names no way, and by the one that does.
fn signature(source: &[u8]) -> String {
    let answer = version(read_header(source));
    assert_eq!(answer, version(read_header_exact(source)));
    answer
}

fn file(source: &[u8]) -> String {
    match tally(source) {
        Ok(t) => format!("atoms {}, body {}, charge {}, letters {}", t.atoms, t.body, t.charge, t.letters),
        Err(stopped) => format!("{}; start {}", refused(stopped.refusal), stopped.start),
    }
}

fn checked(source: &[u8]) -> String {
    match check(source) {
        Ok(()) => "accepted".into(),
        Err(stopped) => format!("{}; start {}", refused(stopped.refusal), stopped.start),
    }
}

fn three(places: Places) -> String {
    format!("{}..{}..{}", places.first, places.body, places.after)
}

/// The places of atoms that are not refused.
fn places(atoms: Atoms<'_>) -> String {
    atoms.map(|atom| three(atom.unwrap().places)).collect::<Vec<_>>().join(" ")
}

/// The last atom's places, which the run and the tally have to answer alike.
fn last(source: &[u8]) -> String {
    let (ran, tallied) = (run(source, 99), tally(source));
    assert_eq!(ran.map(|ran| ran.last).map_err(Refused::from), tallied.map(|tally| tally.last));
    match tallied {
        Ok(tally) => three(tally.last),
        Err(stopped) => format!("{}; {}", refused(stopped.refusal), three(stopped.last)),
    }
}

/// The lengths to which a file can be cut and is still read to its end without a refusal.
fn cuts(file: &[u8]) -> String {
    let whole = |cut: &[u8]| match Atoms::of_file(cut) {
        Ok((_, mut atoms)) => atoms.all(|atom| atom.is_ok()),
        Err(_) => false,
    };
    let taken = (0..file.len()).filter(|&length| whole(&file[..length]));
    taken.map(|length| length.to_string()).collect::<Vec<_>>().join(" ")
}

/// What a writer writes, by the type and the value that are given to it.
fn written(value: &str) -> String {
    let (writer, value) = value.split_once(' ').unwrap();
    let mut out = [0; 17];
    let count = match writer {
        "i16" => write_i16(&mut out, value.parse().unwrap()),
        "i32" => write_i32(&mut out, value.parse().unwrap()),
        "u64" => write_u64(&mut out, value.parse().unwrap()),
        "u128" => write_u128(&mut out, value.parse().unwrap()),
        "f32" => write_f32(&mut out, value.parse().unwrap()),
        "f64" => write_f64(&mut out, value.parse().unwrap()),
        _ => panic!("no writer is called {writer}"),
    };
    out[..count.unwrap()].iter().map(|byte| format!("{byte:02X}")).collect::<Vec<_>>().join(" ")
}

#[test]
fn every_example_of_the_page_is_so() {
    let mut ran = BTreeMap::new();
    for (block, left, right) in examples() {
        let answer = match block {
            "exact" => exact(&bytes(left), 99),
            "exact, budget 3" => exact(&bytes(left), 3),
            "exact only" => exact_only(&bytes(left)),
            "filled" => one(read_atom_filled(&bytes(left), 0, 99), 99),
            "filled, to the end" => filled(&bytes(left), None),
            "filled, four reads" => filled(&bytes(left), Some(4)),
            "filled signature" => version(read_header_filled(&bytes(left))),
            "signature" => signature(&bytes(left)),
            "file" => file(&bytes(left)),
            "check" => checked(&bytes(left)),
            "cuts" => cuts(&bytes(left)),
            "places" => places(Atoms::new(&bytes(left))),
            "file places" => places(Atoms::of_file(&bytes(left)).unwrap().1),
            "filled places" => three(read_atom_filled(&bytes(left), 0, 99).unwrap().atom.places),
            "last places" => last(&bytes(left)),
            "written" => written(left),
            _ => panic!("no block is called {block}"),
        };
        assert_eq!(answer, right, "{block}: {left}");
        *ran.entry(block).or_insert(0) += 1;
    }
    let expected = [
        ("check", 21),
        ("cuts", 1),
        ("exact", 32),
        ("exact only", 2),
        ("exact, budget 3", 5),
        ("file", 15),
        ("file places", 1),
        ("filled", 6),
        ("filled places", 4),
        ("filled signature", 3),
        ("filled, four reads", 2),
        ("filled, to the end", 3),
        ("last places", 5),
        ("places", 4),
        ("signature", 6),
        ("written", 11),
    ];
    assert_eq!(ran.into_iter().collect::<Vec<_>>(), expected);
}
