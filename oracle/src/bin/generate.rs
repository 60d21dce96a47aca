//! Prints requests, one line each.

use std::io::{self, BufWriter, ErrorKind, Write};
use std::process::ExitCode;

use oracle::generate::{damaged, exhaustive, of_codes, random, Sink};

const USAGE: &str = "generate [--seed N] [--count N] [--only CODE] [--part exhaustive|random|damaged|all]
generate [--seed N] --count N --each CODES
  --seed N    which random requests (0)
  --count N   how many random requests, and how many about damaged files (1000000)
  --only CODE requests of this code only, in hex
  --part P    one of the three parts, or all (all)
  --each C,D  instead: --count requests of each of these codes, in hex";

struct Options {
    seed: u64,
    count: u64,
    only: Option<u8>,
    part: String,
    each: Option<Vec<u8>>,
}

fn options() -> Option<Options> {
    let mut options = Options { seed: 0, count: 1_000_000, only: None, part: "all".into(), each: None };
    let mut arguments = std::env::args().skip(1);
    while let Some(name) = arguments.next() {
        let value = arguments.next()?;
        match name.as_str() {
            "--seed" => options.seed = value.parse().ok()?,
            "--count" => options.count = value.parse().ok()?,
            "--only" => options.only = Some(code(&value)?),
            "--part" => options.part = value,
            "--each" => options.each = Some(value.split(',').map(code).collect::<Option<_>>()?),
            _ => return None,
        }
    }
    let known = ["exhaustive", "random", "damaged", "all"].contains(&options.part.as_str());
    known.then_some(options)
}

/// A request code in hex, if there is such a code.
fn code(digits: &str) -> Option<u8> {
    let number = u8::from_str_radix(digits, 16).ok()?;
    oracle::wire::code::all().find(|code| *code == number)
}

fn generate(options: &Options) -> io::Result<()> {
    let mut sink = Sink::new(BufWriter::with_capacity(1 << 16, io::stdout().lock()), options.only);
    if let Some(codes) = &options.each {
        of_codes(&mut sink, options.seed, options.count, codes)?;
        return sink.flush();
    }
    let wanted = |part: &str| options.part == "all" || options.part == part;
    if wanted("exhaustive") {
        exhaustive(&mut sink)?;
    }
    if wanted("random") {
        random(&mut sink, options.seed, options.count)?;
    }
    if wanted("damaged") {
        damaged(&mut sink, options.seed, options.count)?;
    }
    sink.flush()
}

fn main() -> ExitCode {
    let Some(options) = options() else {
        eprintln!("{USAGE}");
        return ExitCode::FAILURE;
    };
    match generate(&options) {
        Ok(()) => ExitCode::SUCCESS,
        // Whoever reads has enough.
        Err(error) if error.kind() == ErrorKind::BrokenPipe => ExitCode::SUCCESS,
        Err(error) => {
            let _ = writeln!(io::stderr(), "generate: {error}");
            ExitCode::FAILURE
        }
    }
}
