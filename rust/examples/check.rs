//! Checks a delivery: `check FILE`. It prints `accepted` of a file whose atoms are whole, known and in shortest form. Of
//! another it prints the refusal with its number and where the refused atom starts in the file, signature counted, and
//! the status is 1; it is 2 if there is no file to read.
use std::process::ExitCode;

use dimewagon::{check, read_header, Refused};

/// The signature is not part of what is checked, and what is behind it has places of its own.
fn accept(file: &[u8]) -> Result<(), Refused> {
    let (_version, atoms) = read_header(file)?;
    check(atoms).map_err(|mut refused| {
        refused.start += file.len() - atoms.len();
        refused
    })
}

fn main() -> ExitCode {
    let name = match std::env::args_os().nth(1) {
        Some(name) => name,
        None => {
            eprintln!("usage: check FILE");
            return ExitCode::from(2);
        }
    };
    let file = match std::fs::read(&name) {
        Ok(file) => file,
        Err(error) => {
            eprintln!("{}: {error}", name.to_string_lossy());
            return ExitCode::from(2);
        }
    };
    match accept(&file) {
        Ok(()) => {
            println!("accepted");
            ExitCode::SUCCESS
        }
        Err(refused) => {
            eprintln!("check: {refused}");
            ExitCode::from(1)
        }
    }
}
