//! Makes requests: every one where that is possible, random ones around every boundary, and damaged copies of good
//! files. The same seed makes the same requests.

mod atoms;
mod damaged;
mod draw;
mod edges;
mod exhaustive;
mod forms;
mod random;
mod sink;

use std::io::{self, Write};

use crate::wire::code;
use draw::Drawer;
use random::Random;
pub use sink::Sink;

/// Everything that can be listed: no seed, no count.
pub fn exhaustive(sink: &mut Sink<impl Write>) -> io::Result<()> {
    exhaustive::all(sink)
}

/// `count` random requests, of the sink's one code or of all in turn by weight.
pub fn random(sink: &mut Sink<impl Write>, seed: u64, count: u64) -> io::Result<()> {
    let mut drawer = Drawer::new(Random::new(seed));
    let codes: Vec<u8> = code::all().flat_map(|code| std::iter::repeat_n(code, weight(code))).collect();
    for _ in 0..count {
        let code = sink.only().unwrap_or_else(|| *drawer.random.pick(&codes));
        drawer.draw(code, sink)?;
    }
    Ok(())
}

/// At least `count` requests about damaged files, a file at a time.
pub fn damaged(sink: &mut Sink<impl Write>, seed: u64, count: u64) -> io::Result<()> {
    let mut random = Random::new(!seed);
    let before = sink.made();
    while sink.made() - before < count {
        damaged::file(&mut random, sink)?;
    }
    Ok(())
}

/// `count` requests of each of the codes, in order.
pub fn of_codes(sink: &mut Sink<impl Write>, seed: u64, count: u64, codes: &[u8]) -> io::Result<()> {
    for code in codes {
        let mut drawer = Drawer::new(Random::new(seed ^ u64::from(*code)));
        for _ in 0..count {
            drawer.draw(*code, sink)?;
        }
    }
    Ok(())
}

/// How often a code is drawn: the readers and the float entries have the most boundaries.
const fn weight(code: u8) -> usize {
    match code {
        code::READ_ATOM => 40,
        code::READ_ATOM_HEADER | code::INTEGER_READ_FROM | code::FLOAT_READ_FROM => 12,
        code::WRITE_F32 | code::WRITE_F64 | code::BUFFERED_READ_BYTES => 8,
        0x50..=0x55 | code::RUN..=code::CHECK | code::WRITE_ATOM_HEADER => 4,
        code::KIND_FROM_U8 | code::WRITE_HEADER | code::WRITE_SPECIAL..=code::WRITE_BOOL => 1,
        _ => 2,
    }
}
