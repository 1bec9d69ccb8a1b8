//! Counts of the refusals and kinds of answer that were seen.

use std::collections::BTreeMap;

/// What must be seen: a command or operation, its kinds of answers, its refusals.
pub type Wanted = (&'static str, &'static [&'static str], &'static [u32]);

pub type Counts = BTreeMap<(&'static str, String), usize>;

/// Adds a table of what was seen; gives whether it is all that is wanted and no more.
pub fn show(table: &mut String, surface: &str, wanted: &[Wanted], counts: &Counts) -> bool {
    let mut complete = true;
    for (command, answers, refusals) in wanted {
        table.push_str(&format!("{surface} {command}:"));
        let refusals = refusals.iter().map(|number| format!("no {number}"));
        let kinds: Vec<String> = answers
            .iter()
            .map(|answer| answer.to_string())
            .chain(refusals)
            .collect();
        for kind in &kinds {
            let seen = counts.get(&(*command, kind.clone())).copied().unwrap_or(0);
            let mark = if seen == 0 { " NEVER SEEN" } else { "" };
            complete &= seen > 0;
            table.push_str(&format!(" {kind} {seen}{mark},"));
        }
        table.pop();
        table.push('\n');
        for ((_, kind), seen) in counts
            .iter()
            .filter(|((of, kind), _)| of == command && !kinds.contains(kind))
        {
            complete = false;
            table.push_str(&format!(
                "{surface} {command}: {kind} {seen} NEVER ALLOWED\n"
            ));
        }
    }
    complete
}

/// The kind of a neighbour query's answer.
pub fn ends(low: bool, high: bool) -> String {
    format!(
        "{} {}",
        if low { "LOW" } else { "name" },
        if high { "HIGH" } else { "name" }
    )
}
