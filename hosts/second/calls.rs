//! A file of bench calls, one record after another until the file ends.
//!
//! A record is a row of 32-bit numbers, most significant byte first, with the image
//! in their midst: operation, read set, write set, name, value, length of image in,
//! the bytes of image in, length of image out, length of the answer. A file of
//! images has the length and the bytes alone.

use crate::bench::Asked;

/// The bench call of some program.
pub type Step = fn(Asked, &[u8], &mut [u8], &mut [u8]) -> u32;

#[derive(Clone, PartialEq, Eq, Debug)]
pub struct Call {
    pub asked: Asked,
    pub image_in: Vec<u8>,
    /// The lengths of the buffers that are lent.
    pub image_out: usize,
    pub answer: usize,
}

/// What a call gave, and both lent buffers after it.
#[derive(Clone, PartialEq, Eq, Debug)]
pub struct Outcome {
    pub result: u32,
    pub image_out: Vec<u8>,
    pub answer: Vec<u8>,
}

impl Call {
    /// Hands the call over, every lent byte being `fill` before.
    pub fn outcome(&self, step: Step, fill: u8) -> Outcome {
        let mut image_out = vec![fill; self.image_out];
        let mut answer = vec![fill; self.answer];
        let result = step(self.asked, &self.image_in, &mut image_out, &mut answer);
        Outcome {
            result,
            image_out,
            answer,
        }
    }

    pub fn write(&self, file: &mut Vec<u8>) {
        let asked = self.asked;
        for number in [
            asked.op,
            asked.read_set,
            asked.write_set,
            asked.name,
            asked.value,
        ] {
            write_number(number, file);
        }
        write_image(&self.image_in, file);
        write_number(self.image_out as u32, file);
        write_number(self.answer as u32, file);
    }

    /// Takes the next record off the front; none at the end of the file.
    pub fn read(file: &mut &[u8]) -> Option<Call> {
        if file.is_empty() {
            return None;
        }
        Some(Call {
            asked: Asked {
                op: read_number(file)?,
                read_set: read_number(file)?,
                write_set: read_number(file)?,
                name: read_number(file)?,
                value: read_number(file)?,
            },
            image_in: read_image(file)?,
            image_out: read_number(file)? as usize,
            answer: read_number(file)? as usize,
        })
    }
}

pub fn write_image(image: &[u8], file: &mut Vec<u8>) {
    write_number(image.len() as u32, file);
    file.extend_from_slice(image);
}

pub fn read_image(file: &mut &[u8]) -> Option<Vec<u8>> {
    let length = read_number(file)? as usize;
    let (image, rest) = file.split_at_checked(length)?;
    *file = rest;
    Some(image.to_vec())
}

fn write_number(number: u32, file: &mut Vec<u8>) {
    file.extend_from_slice(&number.to_be_bytes());
}

fn read_number(file: &mut &[u8]) -> Option<u32> {
    let (number, rest) = file.split_first_chunk()?;
    *file = rest;
    Some(u32::from_be_bytes(*number))
}
