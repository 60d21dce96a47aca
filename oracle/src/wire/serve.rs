//! A line in, a line out: the loop that every program which answers requests has.

use std::fmt;
use std::io::{self, BufRead, BufReader, BufWriter, Read, Write};

use super::answer::{Answer, Skip};
use super::request::Request;

/// Whatever answers requests.
pub trait Answers {
    fn answer<'a>(&'a mut self, request: &Request<'a>) -> Answer<'a>;
}

/// How many requests there were.
#[derive(Debug, Default, Clone, Copy, PartialEq, Eq)]
pub struct Counts {
    pub answered: u64,
    /// Skipped, being outside the width of a 24 or 48 bit writer.
    pub width: u64,
    /// Skipped, being too long to reserve.
    pub length: u64,
}

impl Counts {
    fn add(&mut self, answer: &Answer<'_>) {
        *match answer {
            Answer::Given(..) | Answer::Several(..) => &mut self.answered,
            Answer::Skipped(Skip::Width) => &mut self.width,
            Answer::Skipped(Skip::Length) => &mut self.length,
        } += 1;
    }

    const fn all(&self) -> u64 {
        self.answered + self.width + self.length
    }
}

impl fmt::Display for Counts {
    fn fmt(&self, f: &mut fmt::Formatter<'_>) -> fmt::Result {
        let Self { answered, width, length } = self;
        write!(f, "answered {answered}, skipped {width} outside a writer's width and {length} too long to reserve")
    }
}

/// Answers every line of the input. With `echo`, the request as it was understood and ` = ` stand before its answer.
/// What was answered is flushed before the input is waited for.
pub fn serve(input: impl Read, output: impl Write, echo: bool, entries: &mut impl Answers) -> io::Result<Counts> {
    let mut input = BufReader::with_capacity(1 << 16, input);
    let mut output = BufWriter::with_capacity(1 << 16, output);
    let mut counts = Counts::default();
    let (mut line, mut bytes, mut told) = (Vec::new(), Vec::new(), Vec::new());
    loop {
        if input.buffer().is_empty() {
            output.flush()?;
        }
        line.clear();
        if input.read_until(b'\n', &mut line)? == 0 {
            return Ok(counts);
        }
        let request = parse(&line, &mut bytes, counts)?;
        if echo {
            told.clear();
            request.put(&mut told);
            output.write_all(&told)?;
            output.write_all(b" = ")?;
        }
        let answer = entries.answer(&request);
        counts.add(&answer);
        told.clear();
        answer.put(&mut told);
        told.push(b'\n');
        output.write_all(&told)?;
    }
}

fn parse<'b>(line: &[u8], bytes: &'b mut Vec<u8>, counts: Counts) -> io::Result<Request<'b>> {
    let line = line.strip_suffix(b"\n").unwrap_or(line);
    Request::parse(line, bytes).map_err(|malformed| {
        let number = counts.all() + 1;
        io::Error::other(format!("line {number}: {}: {}", malformed.0, String::from_utf8_lossy(line)))
    })
}
