//! The refusals and their numbers.

#[derive(Clone, Copy, PartialEq, Eq, Debug)]
#[repr(u32)]
pub enum Refusal {
    Unsound = 1,
    Members = 2,
    Vote = 3,
    Quorum = 4,
    Name = 5,
    Value = 6,
    NoSuchMember = 7,
    ReadVotes = 8,
    WriteVotes = 9,
    Present = 10,
    Absent = 11,
    Version = 12,
    Full = 13,
    NotUnderstood = 14,
    ImageShort = 15,
    ImageEdition = 16,
    ImageUnsound = 17,
    ImageLong = 18,
    BufferShort = 19,
}

impl Refusal {
    pub fn number(self) -> u32 {
        self as u32
    }
}
