//! The line program by way of words.

use super::{create, Asked, Suite};

pub fn run(input: &[u8]) -> String {
    let mut lines: Vec<&[u8]> = input.split(|byte| *byte == b'\n').collect();
    // What follows the last newline is a line only where there is something.
    if lines.last().is_some_and(|last| last.is_empty()) {
        lines.pop();
    }
    let mut suite = None;
    let answers = lines
        .iter()
        .map(|line| step(&mut suite, line).unwrap_or_else(|refusal| format!("no {refusal}")));
    answers.map(|answer| answer + "\n").collect()
}

fn near([p, s, requests, _]: [u64; 4]) -> String {
    let below = match p {
        0 => "LOW".into(),
        p => (p - 1).to_string(),
    };
    let above = match s {
        1_048_577 => "HIGH".into(),
        s => (s - 1).to_string(),
    };
    format!("{below} {above} {requests}")
}

fn step(suite: &mut Option<Suite>, line: &[u8]) -> Result<String, u32> {
    let text = std::str::from_utf8(line).map_err(|_| 14u32)?;
    let words: Vec<&str> = text.split(' ').collect();
    if line.len() > 80 {
        return Err(14);
    }
    match (suite, &words[..]) {
        (none @ None, ["suite", read, write, votes @ ..]) => {
            let (read, write) = (number(read)?, number(write)?);
            let votes = votes
                .iter()
                .map(|vote| number(vote))
                .collect::<Result<Vec<u64>, u32>>()?;
            *none = Some(create(read, write, &votes)?);
            Ok("suite ok".into())
        }
        (Some(suite), ["look", sets @ .., name]) if sets.len() == 1 => {
            match suite.lookup(asked(suite, sets, name, None)?)? {
                [1, version, value, _] => Ok(format!("at {version} {value}")),
                [_, version, _, _] => Ok(format!("none {version}")),
            }
        }
        (Some(suite), ["near", sets @ .., name]) if sets.len() == 1 => {
            Ok(near(suite.neighbours(asked(suite, sets, name, None)?)?))
        }
        (Some(suite), ["del", sets @ .., name]) if sets.len() == 2 => {
            let [version, requests, ..] = suite.remove(asked(suite, sets, name, None)?)?;
            Ok(format!("ok {version} {requests}"))
        }
        (Some(suite), [word @ ("ins" | "upd"), sets @ .., name, value]) if sets.len() == 2 => {
            let asked = asked(suite, sets, name, Some(value))?;
            Ok(format!("ok {}", suite.put(asked, *word == "upd")?[0]))
        }
        _ => Err(14),
    }
}

fn asked(suite: &Suite, sets: &[&str], name: &str, value: Option<&str>) -> Result<Asked, u32> {
    let set = |word: &&str| {
        if *word == "-" {
            Ok((1 << suite.members.len()) - 1)
        } else {
            number(word)
        }
    };
    Ok(Asked {
        read_set: set(&sets[0])?,
        write_set: sets.get(1).map(set).transpose()?,
        name: number(name)?,
        value: value.map(number).transpose()?,
    })
}

/// A number is written in one way only, so printing it again shows the others.
fn number(word: &str) -> Result<u64, u32> {
    let number: u32 = word.parse().map_err(|_| 14u32)?;
    if number.to_string() == word {
        Ok(u64::from(number))
    } else {
        Err(14)
    }
}
