//! The speed script: as many bytes as the line program reads, half of the commands
//! lookups, the rest neighbours, inserts, updates and removals that are accepted.

use second::line::{Program, MOST_INPUT};
use second::member::{Reading, LARGEST_NAME, LARGEST_VALUE};

use second::random::Random;

const POOL: usize = 28;
const PRESENT: usize = 20;

pub fn text(random: &mut Random) -> Vec<u8> {
    let names: Vec<u32> = (0..POOL).map(|_| random.between(0, LARGEST_NAME)).collect();
    let mut program = Program::default();
    let mut text = b"suite 2 2 1 1 1\n".to_vec();
    program.step(&mut &text[..]);
    let mut present: Vec<u32> = Vec::new();
    loop {
        let read_set = random.pick(&[3, 5, 6, 6, 5, 3, 7]);
        let write_set = random.pick(&[3, 5, 6, 6, 5, 3, 7]);
        let name = random.pick(&names);
        let value = random.between(0, LARGEST_VALUE);
        let held = holds(&program, name);
        let line = match random.below(10) {
            0..=4 => format!("look {read_set} {name}"),
            5 => format!("near {read_set} {name}"),
            6 | 7 if held => format!("upd {read_set} {write_set} {name} {value}"),
            _ if held && present.len() >= PRESENT => format!("del {read_set} {write_set} {name}"),
            _ if !held => format!("ins {read_set} {write_set} {name} {value}"),
            _ => continue,
        };
        if text.len() + line.len() + 1 > MOST_INPUT as usize {
            return text;
        }
        program.step(&mut line.as_bytes());
        if line.starts_with("ins") {
            present.push(name);
        } else if line.starts_with("del") {
            present.retain(|&held| held != name);
        }
        text.extend_from_slice(line.as_bytes());
        text.push(b'\n');
    }
}

fn holds(program: &Program, name: u32) -> bool {
    let suite = program.suite().expect("accepted before");
    let found = suite.lookup(7, name).expect("a good set");
    matches!(found.reading, Reading::Entry { .. })
}
