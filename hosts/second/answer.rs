//! The line program's answers and their output lines.

use crate::member::{Reading, HIGH, LOW};
use crate::refusal::Refusal;
use crate::suite::{Neighbours, Written};

/// Bytes that hold any output line.
const LONGEST: usize = 32;
const BUFFER: usize = 1 << 16;

#[derive(Clone, Copy, PartialEq, Eq, Debug)]
pub enum Answer {
    Suite,
    Put(Written),
    Removed(Written),
    Found(Reading),
    Near(Neighbours),
    No(Refusal),
}

/// Output lines, one after another in a buffer.
pub struct Lines {
    bytes: Box<[u8]>,
    at: usize,
}

impl Lines {
    pub fn new() -> Lines {
        Lines {
            bytes: vec![0; BUFFER].into_boxed_slice(),
            at: 0,
        }
    }

    pub fn bytes(&self) -> &[u8] {
        &self.bytes[..self.at]
    }

    pub fn clear(&mut self) {
        self.at = 0;
    }

    pub fn has_room(&self) -> bool {
        self.bytes.len() - self.at >= LONGEST
    }

    /// Adds the output line of an answer, for which there must be room.
    #[inline]
    pub fn add(&mut self, answer: Answer) {
        match answer {
            Answer::Suite => self.text(b"suite ok"),
            Answer::Put(written) => {
                self.text(b"ok ");
                self.number(written.version);
            }
            Answer::Removed(written) => {
                self.text(b"ok ");
                self.number(written.version);
                self.text(b" ");
                self.number(written.requests);
            }
            Answer::Found(Reading::Entry { version, value }) => {
                self.text(b"at ");
                self.number(version);
                self.text(b" ");
                self.number(u32::from(value));
            }
            Answer::Found(Reading::Gap { version }) => {
                self.text(b"none ");
                self.number(version);
            }
            Answer::Near(neighbours) => {
                self.end_of_gap(neighbours.below.name);
                self.text(b" ");
                self.end_of_gap(neighbours.above.name);
                self.text(b" ");
                self.number(neighbours.requests);
            }
            Answer::No(refusal) => {
                self.text(b"no ");
                self.number(refusal.number());
            }
        }
        self.text(b"\n");
    }

    #[inline]
    fn text<const N: usize>(&mut self, text: &[u8; N]) {
        self.bytes[self.at..self.at + N].copy_from_slice(text);
        self.at += N;
    }

    #[inline]
    fn number(&mut self, mut number: u32) {
        let length = number.checked_ilog10().unwrap_or(0) as usize + 1;
        for place in self.bytes[self.at..self.at + length].iter_mut().rev() {
            *place = b'0' + (number % 10) as u8;
            number /= 10;
        }
        self.at += length;
    }

    #[inline]
    fn end_of_gap(&mut self, name: i32) {
        match name {
            LOW => self.text(b"LOW"),
            HIGH => self.text(b"HIGH"),
            name => self.number(name as u32),
        }
    }
}

impl Default for Lines {
    fn default() -> Lines {
        Lines::new()
    }
}
