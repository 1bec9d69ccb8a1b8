//! The line program: one command a line, one output line each.

use std::io::{self, ErrorKind, Read, Write};

use crate::answer::{Answer, Lines};
use crate::refusal::Refusal;
use crate::suite::Suite;

/// What follows the first so many bytes of input counts as absent.
pub const MOST_INPUT: u64 = 16_777_216;
pub const LONGEST_LINE: usize = 80;

/// Votes that a line can hold: each takes two bytes at least.
const MOST_VOTES: usize = LONGEST_LINE / 2;
const BUFFER: usize = 1 << 16;

/// The program's state: the suite, once one is accepted.
#[derive(Default)]
pub struct Program {
    suite: Option<Suite>,
}

impl Program {
    pub fn suite(&self) -> Option<&Suite> {
        self.suite.as_ref()
    }

    /// Takes one line off the front of the text and carries it out. Its newline goes
    /// with it; the text's end ends a line too.
    #[inline]
    pub fn step(&mut self, text: &mut &[u8]) -> Answer {
        let mut fields = Fields(text);
        match self.command(&mut fields) {
            // The fields of an accepted command have been read up to the line's end.
            Ok(answer) => {
                *text = fields.0.get(1..).unwrap_or(&[]);
                answer
            }
            Err(refusal) => {
                let end = line_length(text);
                *text = text.get(end + 1..).unwrap_or(&[]);
                Answer::No(refusal)
            }
        }
    }

    /// Only `suite` has room for over 80 bytes, so the other forms need no such check.
    #[inline]
    fn command(&mut self, fields: &mut Fields) -> Result<Answer, Refusal> {
        let Some(suite) = &mut self.suite else {
            self.suite = Some(create(fields)?);
            return Ok(Answer::Suite);
        };
        let all = suite.all();
        match fields.0 {
            [b'l', b'o', b'o', b'k', rest @ ..] => {
                fields.0 = rest;
                let (read_set, name) = (fields.set(all)?, fields.number()?);
                fields.end()?;
                Ok(Answer::Found(suite.lookup(read_set, name)?.reading))
            }
            [b'n', b'e', b'a', b'r', rest @ ..] => {
                fields.0 = rest;
                let (read_set, name) = (fields.set(all)?, fields.number()?);
                fields.end()?;
                Ok(Answer::Near(suite.neighbours(read_set, name)?))
            }
            [b'd', b'e', b'l', rest @ ..] => {
                fields.0 = rest;
                let (read_set, write_set) = (fields.set(all)?, fields.set(all)?);
                let name = fields.number()?;
                fields.end()?;
                Ok(Answer::Removed(suite.remove(read_set, write_set, name)?))
            }
            [b'i', b'n', b's', rest @ ..] => {
                fields.0 = rest;
                let (read_set, write_set, name, value) = fields.put(all)?;
                Ok(Answer::Put(suite.insert(read_set, write_set, name, value)?))
            }
            [b'u', b'p', b'd', rest @ ..] => {
                fields.0 = rest;
                let (read_set, write_set, name, value) = fields.put(all)?;
                Ok(Answer::Put(suite.update(read_set, write_set, name, value)?))
            }
            _ => Err(Refusal::NotUnderstood),
        }
    }
}

/// The bytes before the next newline, or before the text's end.
fn line_length(text: &[u8]) -> usize {
    text.iter()
        .position(|&byte| byte == b'\n')
        .unwrap_or(text.len())
}

/// `suite R W votes..`, which comes first.
fn create(fields: &mut Fields) -> Result<Suite, Refusal> {
    if line_length(fields.0) > LONGEST_LINE {
        return Err(Refusal::NotUnderstood);
    }
    fields.0 = fields
        .0
        .strip_prefix(b"suite")
        .ok_or(Refusal::NotUnderstood)?;
    let (read, write) = (fields.number()?, fields.number()?);
    let mut votes = [0; MOST_VOTES];
    let mut count = 0;
    while fields.end().is_err() {
        votes[count] = fields.number()?;
        count += 1;
    }
    Suite::create(read, write, &votes[..count])
}

/// The text still to be read, from the line's next field on. Each field has its space
/// before it.
struct Fields<'a>(&'a [u8]);

impl Fields<'_> {
    /// Decimal, without a leading zero, at most 4,294,967,295.
    #[inline]
    fn number(&mut self) -> Result<u32, Refusal> {
        let [b' ', digits @ ..] = self.0 else {
            return Err(Refusal::NotUnderstood);
        };
        let mut number: u64 = 0;
        let mut length = 0;
        while let Some(byte) = digits.get(length) {
            let digit = byte.wrapping_sub(b'0');
            if digit > 9 {
                break;
            }
            number = number.wrapping_mul(10).wrapping_add(u64::from(digit));
            length += 1;
        }
        // Ten digits at most, so nothing has wrapped where the length is right.
        let leading_zero = length > 1 && digits[0] == b'0';
        if length == 0 || length > 10 || leading_zero || number > u64::from(u32::MAX) {
            return Err(Refusal::NotUnderstood);
        }
        self.0 = &digits[length..];
        Ok(number as u32)
    }

    /// A number, or `-` for all members.
    #[inline]
    fn set(&mut self, all: u32) -> Result<u32, Refusal> {
        if let [b' ', b'-', rest @ ..] = self.0 {
            self.0 = rest;
            return Ok(all);
        }
        self.number()
    }

    #[inline]
    fn end(&self) -> Result<(), Refusal> {
        match self.0 {
            [] | [b'\n', ..] => Ok(()),
            _ => Err(Refusal::NotUnderstood),
        }
    }

    /// What insert and update take.
    #[inline]
    fn put(&mut self, all: u32) -> Result<(u32, u32, u32, u32), Refusal> {
        let sets = (self.set(all)?, self.set(all)?);
        let (name, value) = (self.number()?, self.number()?);
        self.end()?;
        Ok((sets.0, sets.1, name, value))
    }
}

/// Runs the program over the whole input.
pub fn run(input: impl Read, mut output: impl Write) -> io::Result<()> {
    let mut input = input.take(MOST_INPUT);
    let mut program = Program::default();
    let mut lines = Lines::new();
    let mut buffer = vec![0; BUFFER];
    // Bytes at the buffer's front whose newline has not been seen yet.
    let mut held = 0;
    loop {
        let got = match input.read(&mut buffer[held..]) {
            Err(error) if error.kind() == ErrorKind::Interrupted => continue,
            got => got?,
        };
        let text = &buffer[..held + got];
        let whole = text
            .iter()
            .rposition(|&byte| byte == b'\n')
            .map_or(0, |last| last + 1);
        let (mut complete, mut open) = text.split_at(whole);
        emit(&mut program, &mut complete, &mut lines, &mut output)?;
        if got == 0 {
            emit(&mut program, &mut open, &mut lines, &mut output)?;
            return output.flush();
        }
        // One byte over the longest line is enough to know that a line is too long.
        held = open.len().min(LONGEST_LINE + 1);
        buffer.copy_within(whole..whole + held, 0);
    }
}

/// Answers every line of the text.
fn emit(
    program: &mut Program,
    text: &mut &[u8],
    lines: &mut Lines,
    output: &mut impl Write,
) -> io::Result<()> {
    while !text.is_empty() {
        if !lines.has_room() {
            output.write_all(lines.bytes())?;
            lines.clear();
        }
        lines.add(program.step(text));
    }
    output.write_all(lines.bytes())?;
    lines.clear();
    Ok(())
}
