//! Compares every operation of the static library with the supplied Rust, on seeded cases: prints how many
//! differ and what came, and the first difference of each operation. See README.md.

mod answer;
mod calls;
mod cases;
mod tally;

use oracle::{layout, panics};
use std::panic::set_hook;
use std::process::exit;
use tally::Tally;

fn main() {
    set_hook(Box::new(panics::on_panic));
    let arguments: Vec<u64> = std::env::args().skip(1).map(|text| number(&text)).collect();
    let [seed, n] = arguments[..] else {
        wrong_usage();
    };
    let tallies = [
        Tally::of::<cases::Create>(seed, n),
        Tally::of::<cases::ObjectBound>(seed, n),
        Tally::of::<cases::WorldBound>(seed, n),
        Tally::of::<cases::Area>(seed, n),
        Tally::of::<cases::Price>(seed, n),
        Tally::of::<cases::Intersect>(seed, n),
        Tally::of::<cases::Nearest>(seed, n),
        Tally::of::<cases::Sheet>(seed, n),
    ];
    print!("{}", tally::table(&tallies));
    let firsts: Vec<&String> = tallies.iter().filter_map(|t| t.first.as_ref()).collect();
    for first in &firsts {
        print!("\n{first}");
    }
    exit(!firsts.is_empty() as i32);
}

fn number(text: &str) -> u64 {
    text.parse().unwrap_or_else(|_| wrong_usage())
}

fn wrong_usage() -> ! {
    eprintln!("usage: compare SEED N");
    exit(2)
}
