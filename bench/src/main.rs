//! Times, or lets callgrind count, the library and the unchanged Rust on the same inputs. See `bench/run`.

mod draw;
mod mix;
mod ours;
mod rows;
mod rust;
mod sheet;
mod table;
mod time;

// What is shared with the wrapper and the oracle. Not all that the first names is needed here.
#[allow(dead_code)]
#[path = "../../bindings/rust/src/layout.rs"]
mod layout;

#[path = "../../oracle/src/cubic.rs"]
mod cubic;
#[path = "../../oracle/src/params.rs"]
mod params;
#[path = "../../oracle/src/piece.rs"]
mod piece;
#[path = "../../oracle/src/record.rs"]
mod record;
#[path = "../../oracle/src/vector.rs"]
mod vector;

use std::path::Path;
use std::process::exit;

fn main() {
    let arguments: Vec<String> = std::env::args().skip(1).collect();
    match arguments.iter().map(String::as_str).collect::<Vec<_>>()[..] {
        ["table", target, rounds] => table::print(Path::new(target), number(rounds)),
        ["rows"] => rows::NAMES.iter().for_each(|name| println!("{name}")),
        ["count", target, side, row, times] => count(Path::new(target), side, row, number(times)),
        ["per_unit", target, row, ours, rust] => {
            table::print_counts(&row_of(Path::new(target), row), number(ours), number(rust))
        }
        _ => wrong_usage(),
    }
}

/// Goes through a row's inputs and prints nothing: callgrind counts.
fn count(target: &Path, side: &str, name: &str, times: u32) {
    let mut row = row_of(target, name);
    match side {
        "ours" => (row.ours)(times),
        "rust" => (row.rust)(times),
        _ => wrong_usage(),
    };
}

fn row_of(target: &Path, name: &str) -> rows::Row {
    rows::row(target, name).unwrap_or_else(|| wrong_usage())
}

fn number<T: std::str::FromStr>(text: &str) -> T {
    text.parse().unwrap_or_else(|_| wrong_usage())
}

fn wrong_usage() -> ! {
    eprintln!(
        "bench table TARGET ROUNDS\n\
         bench rows\n\
         bench count TARGET ours|rust ROW TIMES\n\
         bench per_unit TARGET ROW OURS RUST"
    );
    exit(2)
}
