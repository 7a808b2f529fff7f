//! What the cases of an operation came to, and the table of all.

use crate::answer::difference;
use crate::cases::Case;
use oracle::rng::Rng;
use std::collections::{BTreeMap, BTreeSet};

#[derive(Clone, Copy, PartialEq, Eq, PartialOrd, Ord)]
pub enum Reply {
    Accepted,
    Hit,
    Miss,
    Refused(u32),
}

pub struct Tally {
    name: &'static str,
    cases: u64,
    differ: u64,
    /// How often the Rust gave each.
    replies: BTreeMap<Reply, u64>,
    /// The first difference, with its inputs.
    pub first: Option<String>,
}

impl Tally {
    pub fn of<C: Case>(seed: u64, n: u64) -> Tally {
        let mut rng = Rng::new(seed, C::KIND);
        let mut call = Rng::new(seed, &format!("{} call", C::KIND));
        let mut tally = Tally {
            name: C::NAME,
            cases: n,
            differ: 0,
            replies: BTreeMap::new(),
            first: None,
        };
        for i in 0..n {
            let case = C::new(&mut rng, &mut call);
            let rust = case.rust();
            *tally.replies.entry(C::reply(rust.number)).or_default() += 1;
            if let Some(told) = difference(&rust, &case.library(), C::IN_BOXES) {
                tally.differ += 1;
                tally.first.get_or_insert_with(|| first(&case, i, &told));
            }
        }

        tally
    }

    /// Empty where that reply did not come.
    fn share(&self, reply: Reply) -> String {
        match self.replies.get(&reply) {
            Some(count) => format!("{:.4} %", 100.0 * *count as f64 / self.cases as f64),
            None => String::new(),
        }
    }
}

fn first<C: Case>(case: &C, i: u64, told: &str) -> String {
    let mut text = format!("first difference of {}: case {i}, from 0\n", C::NAME);
    for (name, value) in case.inputs() {
        text += &format!("  {name} {value}\n");
    }

    text + told
}

/// A column for each operation.
pub fn table(tallies: &[Tally]) -> String {
    let mut text = String::new();
    let mut row = |name: &str, cell: &dyn Fn(&Tally) -> String| {
        let cells = tallies.iter().map(|tally| format!("{:>14}", cell(tally)));
        let line = format!("{name:10}{}", cells.collect::<String>());
        text += line.trim_end();
        text.push('\n');
    };
    row("", &|tally| tally.name.to_string());
    row("cases", &|tally| tally.cases.to_string());
    row("differ", &|tally| tally.differ.to_string());
    let replies: BTreeSet<Reply> = tallies
        .iter()
        .flat_map(|tally| tally.replies.keys().copied())
        .collect();
    for reply in replies {
        let name = match reply {
            Reply::Accepted => "accepted".to_string(),
            Reply::Hit => "hit".to_string(),
            Reply::Miss => "miss".to_string(),
            Reply::Refused(number) => format!("refused {number:2}"),
        };
        row(&name, &|tally| tally.share(reply));
    }

    text
}
