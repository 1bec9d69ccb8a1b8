//! The calls on a suite, each printed with what came of it.

use second::member::{Member, Reading, HIGH, LOW};
use second::refusal::Refusal;
use second::sound::judge;
use second::suite::{Suite, Written};

/// A call as the line program has it, an arrow, and what came of it.
fn say(word: &str, numbers: &[u32], outcome: Result<String, Refusal>) {
    let numbers: String = numbers.iter().map(|n| format!(" {n}")).collect();
    let outcome = outcome.unwrap_or_else(|refusal| format!("no {}", refusal.number()));
    println!("{word}{numbers} -> {outcome}");
}

pub fn title(text: &str) {
    println!("# {text}");
}

fn reading(reading: Reading) -> String {
    match reading {
        Reading::Entry { version, value } => format!("at {version} {value}"),
        Reading::Gap { version } => format!("none {version}"),
    }
}

fn end(name: i32) -> String {
    match name {
        LOW => "LOW".to_string(),
        HIGH => "HIGH".to_string(),
        name => name.to_string(),
    }
}

/// A suite under the calls. One that was made by hand is judged first.
#[derive(Clone)]
pub struct Run(Suite);

impl Run {
    /// Where creation is refused, what is left is no suite.
    pub fn create(read: u32, write: u32, votes: &[u32]) -> Run {
        let created = Suite::create(read, write, votes);
        let numbers = [&[read, write], votes].concat();
        say(
            "suite",
            &numbers,
            created.clone().map(|_| "suite ok".to_string()),
        );
        Run(created.unwrap_or(Suite::BLANK))
    }

    pub fn three() -> Run {
        Run::create(2, 2, &[1, 1, 1])
    }

    pub fn alone(member: Member) -> Run {
        Run::create(1, 1, &[1]).with(|suite| suite.members[0] = member)
    }

    /// Changed by hand.
    pub fn with(mut self, change: impl FnOnce(&mut Suite)) -> Run {
        change(&mut self.0);
        self
    }

    pub fn look(&self, set: u32, name: u32) {
        let answer = judge(&self.0).and_then(|()| self.0.lookup(set, name));
        let outcome = answer.map(|found| format!("{} {}", reading(found.reading), found.requests));
        say("look", &[set, name], outcome);
    }

    pub fn near(&self, set: u32, name: u32) {
        let answer = judge(&self.0).and_then(|()| self.0.neighbours(set, name));
        let outcome = answer.map(|found| {
            let (below, above) = (end(found.below.name), end(found.above.name));
            format!("{below} {above} {}", found.requests)
        });
        say("near", &[set, name], outcome);
    }

    fn change(
        &mut self,
        word: &str,
        numbers: &[u32],
        call: impl Fn(&mut Suite) -> Result<Written, Refusal>,
    ) {
        let answer = judge(&self.0).and_then(|()| call(&mut self.0));
        let outcome = answer.map(|written| format!("ok {} {}", written.version, written.requests));
        say(word, numbers, outcome);
    }

    pub fn ins(&mut self, read: u32, write: u32, name: u32, value: u32) {
        self.change("ins", &[read, write, name, value], |suite| {
            suite.insert(read, write, name, value)
        });
    }

    pub fn upd(&mut self, read: u32, write: u32, name: u32, value: u32) {
        self.change("upd", &[read, write, name, value], |suite| {
            suite.update(read, write, name, value)
        });
    }

    pub fn del(&mut self, read: u32, write: u32, name: u32) {
        self.change("del", &[read, write, name], |suite| {
            suite.remove(read, write, name)
        });
    }

    /// All five calls on the same suite.
    pub fn each(&self, read: u32, write: u32, name: u32, value: u32) {
        self.look(read, name);
        self.near(read, name);
        self.clone().ins(read, write, name, value);
        self.clone().upd(read, write, name, value);
        self.clone().del(read, write, name);
    }

    pub fn first_member(&self, name: i32) {
        let member = &self.0.members[0];
        let held = member.reading(member.slot(name), name);
        println!("member 0 {name} -> {}", reading(held));
    }

    /// The names from `many` down to 1, even ones to one write set and odd ones to the other.
    pub fn fill(&mut self, read: u32, even: u32, odd: u32, many: u32) {
        println!("fill {read} {even} {odd} {many}");
        for name in (1..=many).rev() {
            let set = if name % 2 == 0 { even } else { odd };
            self.0
                .insert(read, set, name, 7)
                .expect("a filled suite has room");
        }
    }

    /// The listing up to its removal.
    pub fn listing() -> Run {
        let mut s = Run::three();
        s.ins(3, 3, 20, 7);
        s.ins(6, 6, 10, 3);
        s.ins(5, 5, 30, 9);
        s.del(5, 6, 20);
        s
    }
}
