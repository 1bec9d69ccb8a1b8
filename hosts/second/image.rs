//! The suite image: bit-packed, most significant bit first.

use crate::member::{Member, PLACES};
use crate::refusal::Refusal;
use crate::suite::{quorums, Suite};

pub const EDITION: u64 = 1;
pub const LONGEST: usize = 2_725;

const HEAD_BITS: usize = 4 + 3 + 7 + 7;
const VOTE_BITS: usize = 4;
const MEMBER_BITS: usize = 6 + 24;
const ENTRY_BITS: usize = 20 + 24 + 16 + 24;

/// The length in bytes of a suite's image.
pub fn length(suite: &Suite) -> usize {
    let members = &suite.members[..suite.count];
    let entries: usize = members.iter().map(|member| member.count).sum();
    let bits = HEAD_BITS + suite.count * (VOTE_BITS + MEMBER_BITS) + entries * ENTRY_BITS;
    bits.div_ceil(8)
}

/// The length of the image that some bytes start with, found from its number of members and
/// their counts. It may still be refused.
pub fn length_in_front(bytes: &[u8]) -> Result<usize, Refusal> {
    let mut bits = Reader { bytes, at: 0 };
    bits.skip(4)?;
    let members = bits.take(3)? as usize + 1;
    bits.skip(HEAD_BITS - 7 + members * VOTE_BITS)?;
    for _ in 0..members {
        let entries = bits.take(6)? as usize;
        bits.skip(MEMBER_BITS - 6 + entries * ENTRY_BITS)?;
    }
    Ok(bits.at.div_ceil(8))
}

/// Fills the image's length in `out`; later bytes are left alone.
pub fn write(suite: &Suite, out: &mut [u8]) -> Result<usize, Refusal> {
    let length = length(suite);
    let Some(out) = out.get_mut(..length) else {
        return Err(Refusal::BufferShort);
    };
    let mut bits = Writer {
        out,
        at: 0,
        word: 0,
        free: 64,
    };
    bits.put(4, EDITION);
    bits.put(3, suite.count as u64 - 1);
    bits.put(7, u64::from(suite.read));
    bits.put(7, u64::from(suite.write));
    for &vote in &suite.votes[..suite.count] {
        bits.put(4, u64::from(vote));
    }
    for member in &suite.members[..suite.count] {
        bits.put(6, member.count as u64);
        bits.put(24, u64::from(member.gaps[0]));
        for slot in 1..=member.count {
            bits.put(20, member.names[slot] as u64);
            // Version, value and the gap above make one word together.
            let rest = u64::from(member.versions[slot]) << 40
                | u64::from(member.values[slot]) << 24
                | u64::from(member.gaps[slot]);
            bits.put(64, rest);
        }
    }
    bits.finish();
    Ok(length)
}

/// Reads an image.
pub fn read(bytes: &[u8]) -> Result<Suite, Refusal> {
    let mut suite = Suite::BLANK;
    fill(bytes, &mut suite)?;
    Ok(suite)
}

/// Reads an image into a blank suite, which is of no use after a refusal. The reader
/// goes in field order and its first fault decides.
pub fn fill(bytes: &[u8], blank: &mut Suite) -> Result<(), Refusal> {
    let mut bits = Reader { bytes, at: 0 };
    if bits.take(4)? != EDITION {
        return Err(Refusal::ImageEdition);
    }
    blank.count = bits.take(3)? as usize + 1;
    blank.read = bits.take(7)? as u32;
    blank.write = bits.take(7)? as u32;
    for vote in &mut blank.votes[..blank.count] {
        *vote = bits.take(4)? as u32;
    }
    if !quorums(blank.read, blank.write, &blank.votes) {
        return Err(Refusal::ImageUnsound);
    }
    for member in &mut blank.members[..blank.count] {
        fill_member(&mut bits, member)?;
    }
    bits.finish()
}

/// Reads one member's fields into a fresh member.
fn fill_member(bits: &mut Reader, member: &mut Member) -> Result<(), Refusal> {
    let count = bits.take(6)? as usize;
    if count > PLACES {
        return Err(Refusal::ImageUnsound);
    }
    member.count = count;
    member.gaps[0] = bits.take(24)? as u32;
    let mut last = member.names[0];
    for slot in 1..=count {
        let left = bits.left();
        let entry = bits.peek();
        let name = (entry >> 108) as i32;
        // What follows the name makes one word: version, value and the gap above.
        let rest = (entry >> 44) as u64;
        let version = (rest >> 40) as u32;
        if left < 20 {
            return Err(Refusal::ImageShort);
        }
        if name <= last {
            return Err(Refusal::ImageUnsound);
        }
        if left < 44 {
            return Err(Refusal::ImageShort);
        }
        if version == 0 {
            return Err(Refusal::ImageUnsound);
        }
        if left < ENTRY_BITS {
            return Err(Refusal::ImageShort);
        }
        member.names[slot] = name;
        member.versions[slot] = version;
        member.values[slot] = (rest >> 24) as u16;
        member.gaps[slot] = rest as u32 & 0xff_ffff;
        bits.at += ENTRY_BITS;
        last = name;
    }
    Ok(())
}

/// Reads fields from the front of the bytes.
struct Reader<'a> {
    bytes: &'a [u8],
    /// Bits taken so far.
    at: usize,
}

impl Reader<'_> {
    #[inline]
    fn left(&self) -> usize {
        8 * self.bytes.len() - self.at
    }

    /// The bits not taken yet, at the top of the word: 121 of them at least, which is
    /// more than an entry has, with zeros past the end.
    #[inline]
    fn peek(&self) -> u128 {
        let rest = &self.bytes[self.at / 8..];
        let word = match rest.first_chunk() {
            Some(chunk) => u128::from_be_bytes(*chunk),
            None => last_word(rest),
        };
        word << (self.at % 8)
    }

    #[inline]
    fn take(&mut self, width: usize) -> Result<u64, Refusal> {
        if self.left() < width {
            return Err(Refusal::ImageShort);
        }
        let field = (self.peek() >> (128 - width)) as u64;
        self.at += width;
        Ok(field)
    }

    fn skip(&mut self, width: usize) -> Result<(), Refusal> {
        if self.left() < width {
            return Err(Refusal::ImageShort);
        }
        self.at += width;
        Ok(())
    }

    /// Less than a byte may be left, and that must be zero.
    fn finish(&self) -> Result<(), Refusal> {
        if self.left() >= 8 || self.peek() != 0 {
            return Err(Refusal::ImageLong);
        }
        Ok(())
    }
}

/// Fewer bytes than a word has, with zeros behind them.
#[cold]
fn last_word(rest: &[u8]) -> u128 {
    let mut word = [0; 16];
    word[..rest.len()].copy_from_slice(rest);
    u128::from_be_bytes(word)
}

/// Gathers fields into words of 64 bits.
struct Writer<'a> {
    out: &'a mut [u8],
    /// Bytes written so far.
    at: usize,
    word: u64,
    /// Bits of the word not yet taken, 1 to 64.
    free: u32,
}

impl Writer<'_> {
    #[inline]
    fn put(&mut self, width: u32, field: u64) {
        if width < self.free {
            self.free -= width;
            self.word |= field << self.free;
            return;
        }
        let rest = width - self.free;
        let full = self.word | field >> rest;
        self.out[self.at..self.at + 8].copy_from_slice(&full.to_be_bytes());
        self.at += 8;
        self.free = 64 - rest;
        self.word = if rest == 0 { 0 } else { field << self.free };
    }

    /// Zero bits fill the last byte.
    fn finish(self) {
        let rest = self.out.len() - self.at;
        self.out[self.at..].copy_from_slice(&self.word.to_be_bytes()[..rest]);
    }
}
