//! What is printed.

use crate::rows::{self, Row, Unit};
use crate::time::Side;
use std::path::Path;

struct Race {
    title: &'static str,
    unit: Unit,
    units: usize,
    ours: Side,
    rust: Side,
}

/// Each round goes through all rows, so that a while in which the machine has other work spoils a few rounds of
/// all rows and not all rounds of one.
pub fn print(target: &Path, rounds: u32) {
    let rows = rows::NAMES
        .iter()
        .filter_map(|name| rows::row(target, name));
    let mut races: Vec<Race> = rows.map(Race::of).collect();
    for round in 0..rounds {
        races.iter_mut().for_each(|race| race.time(round));
    }
    println!(
        "| row | unit | ours best | ours median | Rust best | Rust median | Rust / ours |\n\
         |---|---|---|---|---|---|---|"
    );
    races.iter().for_each(Race::print);
    let logs: f64 = races.iter().map(|race| race.ratio().ln()).sum();
    let mean = (logs / races.len() as f64).exp();
    println!("| geometric mean | | | | | | {mean:.2} |");
}

impl Race {
    fn of(row: Row) -> Race {
        Race {
            title: row.title,
            unit: row.unit,
            units: row.units,
            ours: Side::new(row.ours),
            rust: Side::new(row.rust),
        }
    }

    /// The sides take turns in which comes first.
    fn time(&mut self, round: u32) {
        if round % 2 == 0 {
            self.ours.time();
            self.rust.time();
        } else {
            self.rust.time();
            self.ours.time();
        }
    }

    /// Above 1 where ours is the quicker.
    fn ratio(&self) -> f64 {
        self.rust.best() / self.ours.best()
    }

    fn print(&self) {
        println!(
            "| {} | {} | {} | {} | {:.2} |",
            self.title,
            self.unit.name,
            self.columns(&self.ours),
            self.columns(&self.rust),
            self.ratio(),
        );
    }

    fn columns(&self, side: &Side) -> String {
        let per_unit = |seconds: f64| seconds * self.unit.scale / self.units as f64;

        format!(
            "{:.1} | {:.1}",
            per_unit(side.best()),
            per_unit(side.median())
        )
    }
}

/// The line of a row whose instructions were counted, once through the inputs.
pub fn print_counts(row: &Row, ours: u64, rust: u64) {
    let [ours, rust] = [ours, rust].map(|count| count as f64 / row.units as f64);
    println!(
        "| {} | {} | {ours:.0} | {rust:.0} | {:.2} |",
        row.title,
        row.unit.thing,
        rust / ours
    );
}
