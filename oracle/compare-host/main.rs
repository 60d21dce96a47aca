//! Answers each request of the oracle's echo from the proved library and compares.
//!
//! Standard input has the lines of `oracle/ask --echo`: a request, ` = `, and the oracle's answer, `-` where it was skipped.

use std::io::{self, BufRead, Write};
use std::process::ExitCode;

extern "C" {
    fn dimewagon_answer(
        request: *const u8,
        request_len: usize,
        bytes: *mut u8,
        bytes_len: usize,
        scratch: *mut u8,
        scratch_len: usize,
        out: *mut u8,
        out_len: usize,
    ) -> usize;
}

/// Room to work in, as much as any request of the generator takes.
struct Room {
    bytes: Vec<u8>,
    scratch: Vec<u8>,
    out: Vec<u8>,
}

impl Room {
    fn new() -> Self {
        Self { bytes: vec![0; 1 << 16], scratch: vec![0; 1 << 16], out: vec![0; 1 << 18] }
    }

    /// The proved library's answer, if it answers such a request.
    fn answer(&mut self, request: &[u8]) -> Option<&[u8]> {
        // SAFETY: each pointer comes with the length of its own live slice, and the three mutable ones are distinct.
        let count = unsafe {
            dimewagon_answer(
                request.as_ptr(),
                request.len(),
                self.bytes.as_mut_ptr(),
                self.bytes.len(),
                self.scratch.as_mut_ptr(),
                self.scratch.len(),
                self.out.as_mut_ptr(),
                self.out.len(),
            )
        };
        self.out.get(..count)
    }
}

#[derive(Default)]
struct Counts {
    equal: u64,
    differ: u64,
    skipped: u64,
    left_out: u64,
}

fn judge(line: &[u8], room: &mut Room, counts: &mut Counts) -> io::Result<()> {
    let split = line.windows(3).position(|part| part == b" = ").unwrap_or(line.len());
    let (request, expected) = (&line[..split], line.get(split + 3..).unwrap_or(b"-"));
    if expected == b"-" {
        counts.skipped += 1;
    } else if let Some(answer) = room.answer(request) {
        if answer == expected {
            counts.equal += 1;
        } else {
            counts.differ += 1;
            if counts.differ == 1 {
                let mut report = io::stdout().lock();
                writeln!(report, "first difference: {}", String::from_utf8_lossy(line))?;
                writeln!(report, "the proved library answers: {}", String::from_utf8_lossy(answer))?;
            }
        }
    } else {
        counts.left_out += 1;
    }
    Ok(())
}

fn main() -> io::Result<ExitCode> {
    let mut room = Room::new();
    let mut counts = Counts::default();
    let mut input = io::stdin().lock();
    let mut line = Vec::new();
    while input.read_until(b'\n', &mut line)? != 0 {
        judge(line.trim_ascii_end(), &mut room, &mut counts)?;
        line.clear();
    }
    println!(
        "{} compared, {} differ; {} skipped by the oracle, {} not answered by the library",
        counts.equal + counts.differ,
        counts.differ,
        counts.skipped,
        counts.left_out
    );
    Ok(if counts.differ == 0 && counts.equal > 0 { ExitCode::SUCCESS } else { ExitCode::FAILURE })
}
