//! The atoms of dictionary files, read, written and cast by a proved library.
//!
//! Reading is exact: anything past the end of the source is refused, with the refusal's number and the place. Only
//! [`read_header_filled`] and [`read_atom_filled`] take the bytes that are missing as zeros: they are for old files whose
//! trailing zeros were trimmed. Strings are lent: they are parts of the source. Only [`read_atom_copied`] copies one.
//! Places count from the start of the slice that was given, and each atom carries its own. No function panics, whatever
//! it is given.
//!
//! ```
//! use dimewagon::{Atoms, Integer, Nucleus};
//!
//! let file = [0x50, 0x6F, 0x74, 0x01, 0xE3, 0x6E, 0xC3, 0xA9, 0x41, 0x2C, 0x01];
//! let (version, atoms) = Atoms::of_file(&file)?;
//! assert_eq!(version, 1);
//! let atoms: Vec<_> = atoms.collect::<Result<_, _>>()?;
//! assert_eq!(atoms[0].nucleus, Nucleus::Bytes("né".as_bytes()));
//! assert_eq!(atoms[1].nucleus, Nucleus::Integer(Integer::U16(300)));
//! assert_eq!(file[atoms[1].places.range()], [0x41, 0x2C, 0x01]);
//!
//! // The same file without its last byte.
//! let (_, cut) = Atoms::of_file(&file[..10])?;
//! let stopped = cut.last().unwrap().unwrap_err();
//! assert_eq!(stopped.to_string(), "refusal 4 at 8: the input ends");
//! # Ok::<(), dimewagon::Stopped>(())
//! ```
#![warn(missing_docs)]
#![deny(unsafe_code)]

#[cfg(not(target_pointer_width = "64"))]
compile_error!("the library is for machines with 64-bit sizes");

mod calls;
pub mod ffi;
mod read;
mod refusal;
mod values;
mod write;

/// The example of README.md, which is tested.
#[cfg(doctest)]
#[doc = include_str!("../README.md")]
struct Readme;

pub use read::*;
pub use refusal::*;
pub use values::*;
pub use write::*;
