//! Answers requests on standard input, one line each, with one line each on standard output. At the end it says on
//! standard error how many were answered and how many skipped.

use std::io;
use std::process::ExitCode;

use oracle::answer::{Oracle, RESERVE};
use oracle::wire::serve;

const USAGE: &str = "ask [--echo] [--reserve N]
  --echo      put the request and ' = ' before each answer
  --reserve N skip a string under exact reading that runs more than N bytes past its source (4194304)";

struct Options {
    echo: bool,
    reserve: u64,
}

fn options() -> Option<Options> {
    let mut options = Options { echo: false, reserve: RESERVE };
    let mut arguments = std::env::args().skip(1);
    while let Some(argument) = arguments.next() {
        match argument.as_str() {
            "--echo" => options.echo = true,
            "--reserve" => options.reserve = arguments.next()?.parse().ok()?,
            _ => return None,
        }
    }
    Some(options)
}

fn main() -> ExitCode {
    let Some(options) = options() else {
        eprintln!("{USAGE}");
        return ExitCode::FAILURE;
    };
    let mut oracle = Oracle::new(options.reserve);
    match serve(io::stdin().lock(), io::stdout().lock(), options.echo, &mut oracle) {
        Ok(counts) => {
            eprintln!("{counts}");
            ExitCode::SUCCESS
        }
        Err(error) => {
            eprintln!("ask: {error}");
            ExitCode::FAILURE
        }
    }
}
