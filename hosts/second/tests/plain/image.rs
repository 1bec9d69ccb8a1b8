//! The image as a text of the digits 0 and 1.

use super::member::{Entry, Member, HIGH, LOW};
use super::{quorums_bad, Suite};

pub fn write(suite: &Suite) -> Vec<u8> {
    let mut bits = String::new();
    let mut put = |width: usize, field: u64| bits.push_str(&format!("{field:0width$b}"));
    put(4, 1);
    put(3, suite.members.len() as u64 - 1);
    put(7, suite.read);
    put(7, suite.write);
    suite.votes.iter().for_each(|vote| put(4, *vote));
    for member in &suite.members {
        put(6, member.held() as u64);
        put(24, member.gaps[&LOW]);
        for (name, entry) in member
            .entries
            .iter()
            .filter(|(name, _)| **name != LOW && **name != HIGH)
        {
            put(20, *name as u64);
            put(24, entry.version);
            put(16, entry.value);
            put(24, member.gaps[name]);
        }
    }
    while bits.len() % 8 != 0 {
        bits.push('0');
    }
    (0..bits.len() / 8)
        .map(|byte| u8::from_str_radix(&bits[8 * byte..8 * byte + 8], 2).unwrap())
        .collect()
}

struct Bits {
    text: String,
    at: usize,
}

impl Bits {
    fn take(&mut self, width: usize) -> Result<u64, u32> {
        let field = self.text.get(self.at..self.at + width).ok_or(15u32)?;
        self.at += width;
        Ok(u64::from_str_radix(field, 2).unwrap())
    }
}

pub fn read(bytes: &[u8]) -> Result<Suite, u32> {
    let text = bytes.iter().map(|byte| format!("{byte:08b}")).collect();
    let mut bits = Bits { text, at: 0 };
    if bits.take(4)? != 1 {
        return Err(16);
    }
    let members = bits.take(3)? + 1;
    let (read, write) = (bits.take(7)?, bits.take(7)?);
    let votes = (0..members)
        .map(|_| bits.take(4))
        .collect::<Result<Vec<u64>, u32>>()?;
    if quorums_bad(read, write, &votes) {
        return Err(17);
    }
    let members = (0..members)
        .map(|_| read_member(&mut bits))
        .collect::<Result<Vec<Member>, u32>>()?;
    let rest = &bits.text[bits.at..];
    if rest.len() >= 8 || rest.contains('1') {
        return Err(18);
    }
    Ok(Suite {
        read,
        write,
        votes,
        members,
    })
}

fn read_member(bits: &mut Bits) -> Result<Member, u32> {
    let mut member = Member::fresh();
    let count = bits.take(6)?;
    if count > 32 {
        return Err(17);
    }
    member.gaps.insert(LOW, bits.take(24)?);
    let mut last = LOW;
    for _ in 0..count {
        let name = bits.take(20)? as i64;
        if name <= last {
            return Err(17);
        }
        let version = bits.take(24)?;
        if version == 0 {
            return Err(17);
        }
        member.entries.insert(
            name,
            Entry {
                version,
                value: bits.take(16)?,
            },
        );
        member.gaps.insert(name, bits.take(24)?);
        last = name;
    }
    Ok(member)
}
