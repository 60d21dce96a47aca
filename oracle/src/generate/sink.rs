//! Where requests go.

use std::io::{self, Write};

use crate::wire::Request;

pub struct Sink<W> {
    out: W,
    only: Option<u8>,
    line: Vec<u8>,
    made: u64,
}

impl<W: Write> Sink<W> {
    /// With `only`, requests of other codes are dropped.
    pub const fn new(out: W, only: Option<u8>) -> Self {
        Self { out, only, line: Vec::new(), made: 0 }
    }

    pub const fn only(&self) -> Option<u8> {
        self.only
    }

    /// Whether requests of this code are wanted.
    pub fn wants(&self, code: u8) -> bool {
        self.only.is_none_or(|only| only == code)
    }

    /// How many requests were handed in, dropped or not.
    pub const fn made(&self) -> u64 {
        self.made
    }

    pub fn put(&mut self, request: &Request<'_>) -> io::Result<()> {
        self.made += 1;
        if !self.wants(request.code()) {
            return Ok(());
        }
        self.line.clear();
        request.put(&mut self.line);
        self.line.push(b'\n');
        self.out.write_all(&self.line)
    }

    pub fn flush(&mut self) -> io::Result<()> {
        self.out.flush()
    }
}
