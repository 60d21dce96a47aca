//! Prints the atoms of a dictionary file, one to a line: `print FILE`. A line begins with the atom's places in the
//! file, as `first..body..after`. Read exactly: a refusal is printed with its number and where the refused atom starts,
//! and the status is 1; it is 2 if there is no file to read. examples/print.c is the same program, but for the digits of
//! a float and for strings that are not UTF-8.
use std::process::ExitCode;

use dimewagon::{Atom, Atoms, Integer, Nucleus, Places, Stopped};

/// An atom's line; a 128-bit integer in hexadecimal, another in decimal.
fn shown(atom: Atom<'_>) -> String {
    let held = match atom.nucleus {
        Nucleus::Boolean(value) => format!(" {value}"),
        Nucleus::Integer(Integer::I128(value)) => format!(" {value:#034x}"),
        Nucleus::Integer(Integer::U128(value)) => format!(" {value:#034x}"),
        Nucleus::Integer(value) => format!(" {value}"),
        Nucleus::Float(value, _) => format!(" {value}"),
        Nucleus::Bytes(string) => format!(" {}", String::from_utf8_lossy(string)),
        _ => String::new(),
    };
    let Places { first, body, after, .. } = atom.places;
    format!("{first}..{body}..{after} {:?} {}{held}", atom.kind, atom.arg)
}

fn print(file: &[u8]) -> Result<(), Stopped> {
    let (version, atoms) = Atoms::of_file(file)?;
    println!("version {version}");
    for atom in atoms {
        println!("{}", shown(atom?));
    }
    Ok(())
}

fn main() -> ExitCode {
    let name = match std::env::args_os().nth(1) {
        Some(name) => name,
        None => {
            eprintln!("usage: print FILE");
            return ExitCode::from(2);
        }
    };
    let file = match std::fs::read(&name) {
        Ok(file) => file,
        Err(error) => {
            eprintln!("{}: {error}", name.to_string_lossy());
            return ExitCode::from(2);
        }
    };
    match print(&file) {
        Ok(()) => ExitCode::SUCCESS,
        Err(stopped) => {
            eprintln!("print: {stopped}");
            ExitCode::from(1)
        }
    }
}
