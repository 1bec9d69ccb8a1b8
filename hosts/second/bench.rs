//! The bench call: one operation on a suite that is handed over as bytes.

use crate::image;
use crate::member::Reading;
use crate::refusal::Refusal;
use crate::suite::{Suite, Written};

pub const LOOKUP: u32 = 0;
pub const INSERT: u32 = 1;
pub const UPDATE: u32 = 2;
pub const REMOVE: u32 = 3;
pub const NEIGHBOURS: u32 = 4;

pub const ANSWER: usize = 16;

/// What a call asks for. Numbers that an operation lacks are ignored.
#[derive(Clone, Copy, PartialEq, Eq, Debug)]
pub struct Asked {
    pub op: u32,
    pub read_set: u32,
    pub write_set: u32,
    pub name: u32,
    pub value: u32,
}

/// Gives 0, or the number of the refusal; then both lent buffers are as they were.
pub fn step(asked: Asked, image_in: &[u8], image_out: &mut [u8], answer: &mut [u8]) -> u32 {
    match asked.carry_out(image_in, image_out, answer) {
        Ok(()) => 0,
        Err(refusal) => refusal.number(),
    }
}

impl Asked {
    pub const fn new(op: u32, read_set: u32, write_set: u32, name: u32, value: u32) -> Asked {
        Asked {
            op,
            read_set,
            write_set,
            name,
            value,
        }
    }

    fn carry_out(
        &self,
        image_in: &[u8],
        image_out: &mut [u8],
        answer: &mut [u8],
    ) -> Result<(), Refusal> {
        if self.op > NEIGHBOURS {
            return Err(Refusal::NotUnderstood);
        }
        let Some(answer) = answer.get_mut(..ANSWER) else {
            return Err(Refusal::BufferShort);
        };
        let mut suite = Suite::BLANK;
        image::fill(image_in, &mut suite)?;
        let numbers = self.ask(&mut suite)?;
        if self.op == LOOKUP || self.op == NEIGHBOURS {
            // A suite has one image only, so an unchanged suite's is the one handed in.
            let out = image_out
                .get_mut(..image_in.len())
                .ok_or(Refusal::BufferShort)?;
            out.copy_from_slice(image_in);
        } else {
            image::write(&suite, image_out)?;
        }
        for (place, number) in answer.chunks_exact_mut(4).zip(numbers) {
            place.copy_from_slice(&number.to_be_bytes());
        }
        Ok(())
    }

    /// The operation itself, one of the five, and the four numbers of its answer.
    pub fn ask(&self, suite: &mut Suite) -> Result<[u32; 4], Refusal> {
        let &Asked {
            op,
            read_set,
            write_set,
            name,
            value,
        } = self;
        match op {
            LOOKUP => suite
                .lookup(read_set, name)
                .map(|found| match found.reading {
                    Reading::Entry { version, value } => {
                        [1, version, u32::from(value), found.requests]
                    }
                    Reading::Gap { version } => [0, version, 0, found.requests],
                }),
            INSERT => suite
                .insert(read_set, write_set, name, value)
                .map(written_numbers),
            UPDATE => suite
                .update(read_set, write_set, name, value)
                .map(written_numbers),
            REMOVE => suite.remove(read_set, write_set, name).map(written_numbers),
            _ => suite.neighbours(read_set, name).map(|near| {
                // LOW is -1 and HIGH 1,048,576, so one more is the number asked for.
                [
                    (near.below.name + 1) as u32,
                    (near.above.name + 1) as u32,
                    near.requests,
                    0,
                ]
            }),
        }
    }
}

fn written_numbers(written: Written) -> [u32; 4] {
    [written.version, written.requests, 0, 0]
}
