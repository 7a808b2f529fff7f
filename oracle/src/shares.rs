//! What the inputs of `intersect` and `nearest` reach, and the belt sheets.

use crate::beam::{self, Reply};
use crate::flat;
use crate::layout::RECORD_T;
use crate::limits;
use crate::nearest::{self, ListBeam};
use crate::rng::Rng;
use crate::words::{Reader, Words};
use crate::{beam_inputs, nearest_inputs, sheet, sheet_inputs};
use std::collections::{BTreeMap, BTreeSet};

pub fn print(seed: u64, n: u64) {
    let mut rng = Rng::new(seed, "intersect");
    print_shares(n, || {
        let mut line = Words::new();
        beam_inputs::intersect(&mut rng, &mut line);

        reached(&line)
    });
}

pub fn print_nearest(seed: u64, n: u64) {
    let mut rng = Rng::new(seed, "nearest");
    print_shares(n, || {
        let mut line = Words::new();
        nearest_inputs::nearest(&mut rng, &mut line);

        reached_by_list(&ListBeam::read(&mut Reader(&line)))
    });
}

/// An answer to a beam counts once in a sheet.
pub fn print_sheets(seed: u64, n: u64) {
    let mut rng = Rng::new(seed, "sheets");
    print_shares(n, || {
        let made = sheet_inputs::sheet(&mut rng);
        let mut names = reached_by_sheet(&sheet::output(&made.bytes));
        names.insert(format!("sort: {}", made.sort));

        names
    });
}

/// What each of n inputs reaches.
fn print_shares(n: u64, mut reached: impl FnMut() -> BTreeSet<String>) {
    let mut counts: BTreeMap<String, u64> = BTreeMap::new();
    for _ in 0..n {
        for name in reached() {
            *counts.entry(name).or_default() += 1;
        }
    }
    for (name, count) in counts {
        println!("{name:40} {:8.4} %", 100.0 * count as f64 / n as f64);
    }
}

/// Told by the lines printed.
fn reached_by_sheet(output: &str) -> BTreeSet<String> {
    let mut names = BTreeSet::new();
    let first = output.lines().next().unwrap_or_default();
    match first.strip_prefix("pieces=").map(str::parse::<u32>) {
        Some(Ok(pieces)) => {
            let most = [0, 1, 8, 64, 1023, 1024].iter().find(|m| pieces <= **m);
            names.insert(format!("accepted, pieces up to {:4}", most.unwrap_or(&0)));
        }
        _ => {
            let line = match first.rsplit_once("line=") {
                Some((_, "0")) => "",
                Some((_, "1" | "2" | "3" | "4" | "5" | "6" | "7")) => ", line 1 to 7",
                Some((_, "8")) => ", line 8",
                _ => ", a later line",
            };
            let number = first.split([' ', '=']).nth(1).unwrap_or_default();
            names.insert(format!("refused {number:>2}{line}"));
        }
    }
    let mut hits = BTreeMap::new();
    for line in output.lines().skip(1) {
        let mut words = line.splitn(4, ' ');
        let (beam, answer) = (words.next(), words.nth(1).unwrap_or_default());
        let rest = words.next().unwrap_or_default();
        if let Some(number) = answer.strip_prefix("refused=") {
            names.insert(format!("beam refused {number}"));
        } else if rest == "hit=0" {
            names.insert("beam misses".to_string());
        } else {
            names.insert("beam hits".to_string());
            *hits.entry(beam).or_insert(0) += 1;
            if rest.starts_with("hit=1 t=00000000") || rest.starts_with("hit=1 t=80000000") {
                names.insert("beam hits at distance zero".to_string());
            }
            if rest.contains("7fc00000") {
                names.insert("beam hits with a NaN".to_string());
            }
        }
    }
    if hits.values().any(|count| *count > 1) {
        names.insert("beam hits several pieces".to_string());
    }

    names
}

fn reached(line: &[u32]) -> BTreeSet<String> {
    let (reply, reading) = beam::checked(line);
    let mut names = BTreeSet::from([match reply {
        Reply::Hit(..) => "status  0".to_string(),
        Reply::Miss(_) => "status  1".to_string(),
        Reply::Refused(number) => format!("status {number:2}"),
    }]);
    match reply {
        Reply::Hit(_, record) if record[RECORD_T] == 0.0 => {
            names.insert("hit at distance zero".to_string());
        }
        Reply::Hit(_, record) if record[RECORD_T].is_nan() => {
            names.insert("hit at distance NaN".to_string());
        }
        Reply::Miss(0) => {
            names.insert("miss, the whole thrown out".to_string());
        }
        Reply::Miss(_) => {
            names.insert("miss, counting".to_string());
        }
        _ => {}
    }
    if let Some(reading) = reading {
        if reading.passing > 1 {
            names.insert("two slivers or more pass".to_string());
        }
        if let Some(depth) = reading.depth {
            names.insert(format!("depth {depth:2}"));
        }
    }

    names
}

/// What a beam meets in a list: a refusal of a piece before its slivers, or a sliver that passes.
struct Met {
    piece: usize,
    distance: Option<f32>,
    refusal: Option<u32>,
}

impl Met {
    fn is_nan(&self) -> bool {
        self.distance.is_some_and(f32::is_nan)
    }

    fn refused(&self) -> Option<u32> {
        self.refusal.filter(|_| !self.is_nan())
    }

    /// The distance of what may be the nearest.
    fn crossing(&self) -> Option<f32> {
        self.distance
            .filter(|t| !t.is_nan() && self.refusal.is_none())
    }
}

/// All in order, what lies behind a refusal too.
fn all_met(beam: &ListBeam) -> Vec<Met> {
    let mut all = Vec::new();
    for (number, piece) in beam.pieces().iter().enumerate() {
        let met = |distance, refusal| Met {
            piece: number,
            distance,
            refusal,
        };
        match limits::piece(piece).and_then(|()| flat::passing(&beam.at(piece))) {
            Ok(slivers) => all.extend(
                slivers
                    .iter()
                    .map(|s| met(Some(s.distance), s.record.err())),
            ),
            Err(refusal) => all.push(met(None, Some(refusal))),
        }
    }

    all
}

fn reached_by_list(beam: &ListBeam) -> BTreeSet<String> {
    let reply = nearest::checked(beam);
    let mut names = BTreeSet::from([format!("status {:2}", reply.words()[0])]);
    let mut reach = |told: &[(&str, bool)]| {
        let reached = told.iter().filter(|(_, holds)| *holds);
        names.extend(reached.map(|(name, _)| name.to_string()));
    };
    if let Err(refusal) = beam.limits() {
        let wrong_too = beam.cast.limits().is_err();
        reach(&[
            ("an empty list refused", beam.list.is_empty()),
            ("19, and 10 or 11 behind it", refusal == 19 && wrong_too),
        ]);
        return names;
    }
    let all = all_met(beam);
    let infinite = |m: &&Met| m.distance == Some(f32::INFINITY);
    let has = |holds: fn(&Met) -> bool| all.iter().any(holds);
    reach(&[
        (&format!("pieces {}", beam.pieces().len()), true),
        (
            "a NaN without a frame",
            has(|m| m.is_nan() && m.refusal.is_some()),
        ),
        ("infinite", all.iter().any(|m| infinite(&m))),
        (
            "infinite, with a frame",
            all.iter().filter(infinite).any(|m| m.refusal.is_none()),
        ),
    ]);
    match reply {
        nearest::Reply::Hit(piece, record) => {
            reach(&told_of_hit(&all, piece as usize, record[RECORD_T]))
        }
        nearest::Reply::Miss => reach(&[("miss, a NaN", has(Met::is_nan))]),
        nearest::Reply::Refused(number) => {
            for (name, holds) in told_of_refusal(&all, number) {
                reach(&[(&format!("{number:2} {name}"), holds)]);
            }
        }
    }

    names
}

fn told_of_hit(all: &[Met], piece: usize, t: f32) -> Vec<(&'static str, bool)> {
    let same = |m: &Met| m.crossing().is_some_and(|x| x.to_bits() == t.to_bits());
    let at = all.iter().position(|m| m.piece == piece && same(m));
    let (before, behind) = all.split_at(at.expect("the hit is met"));
    let farther = |m: &Met| m.crossing().is_some_and(|x| x > t);
    let ties = |m: &Met| m.crossing() == Some(t);
    let other_zero = |m: &Met| ties(m) && !same(m);
    let here = |list: &[Met], holds: &dyn Fn(&Met) -> bool| {
        list.iter().any(|m| m.piece == piece && holds(m))
    };
    let there = |list: &[Met], holds: &dyn Fn(&Met) -> bool| {
        list.iter().any(|m| m.piece != piece && holds(m))
    };

    vec![
        (
            "hit, a farther one before in its piece",
            here(before, &farther),
        ),
        (
            "hit, a farther one in a piece before",
            there(before, &farther),
        ),
        (
            "hit, a farther one behind in its piece",
            here(behind, &farther),
        ),
        (
            "hit, a farther one in a piece behind",
            there(behind, &farther),
        ),
        ("hit, a tie in its piece", here(&behind[1..], &ties)),
        ("hit, a tie with a later piece", there(behind, &ties)),
        ("hit, 0 and -0 tie in its piece", here(behind, &other_zero)),
        (
            "hit, 0 and -0 tie, a later piece",
            there(behind, &other_zero),
        ),
        ("hit at 0", t.to_bits() == 0.0f32.to_bits()),
        ("hit at -0", t.to_bits() == (-0.0f32).to_bits()),
        ("hit, a NaN before", before.iter().any(Met::is_nan)),
        ("hit, a NaN behind", behind.iter().any(Met::is_nan)),
    ]
}

fn told_of_refusal(all: &[Met], number: u32) -> Vec<(&'static str, bool)> {
    let at = all.iter().position(|m| m.refused().is_some());
    let (before, behind) = all.split_at(at.expect("the refusal is met"));
    let met = &behind[0];
    let crosses = |m: &Met| m.crossing().is_some();
    let nearer = |m: &Met| match (m.crossing(), met.distance) {
        (Some(t), Some(distance)) => t < distance,
        _ => false,
    };
    let zero = |m: &Met| m.crossing() == Some(0.0);
    let here =
        |holds: &dyn Fn(&Met) -> bool| before.iter().any(|m| m.piece == met.piece && holds(m));
    let there =
        |holds: &dyn Fn(&Met) -> bool| before.iter().any(|m| m.piece != met.piece && holds(m));
    let another = |m: &Met| m.refused().is_some_and(|other| other != number);

    vec![
        ("behind a crossing", before.iter().any(crosses)),
        ("before a crossing", behind.iter().any(crosses)),
        ("behind a nearer one of the piece", here(&nearer)),
        ("behind a nearer one before", there(&nearer)),
        ("behind a zero of the piece", here(&zero)),
        ("behind a zero before", there(&zero)),
        ("behind a NaN", before.iter().any(Met::is_nan)),
        ("before another refusal", behind.iter().any(another)),
    ]
}
