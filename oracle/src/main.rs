//! Answers of the supplied Rust on seeded inputs, one line each. See README.md.

use oracle::kinds::{self, Kind, KINDS};
use oracle::layout::CURVE_FLOATS;
use oracle::rng::Rng;
use oracle::words::{append, Reader, Words};
use oracle::{corner_inputs, panics, shares, sheet, sheet_inputs};
use std::io::{Read, Write};
use std::panic::{catch_unwind, set_hook};
use std::path::Path;
use std::process::exit;

fn main() {
    set_hook(Box::new(panics::on_panic));
    let arguments: Vec<String> = std::env::args().skip(1).collect();
    match arguments.iter().map(String::as_str).collect::<Vec<_>>()[..] {
        ["--help"] => print!("{}", usage()),
        ["kinds"] => KINDS.iter().for_each(|kind| println!("{}", kind.name)),
        ["every_corner"] => answers(kinds::corners, corner_inputs::every()),
        ["shares", seed, n] => shares::print(number(seed), number(n)),
        ["nearest_shares", seed, n] => shares::print_nearest(number(seed), number(n)),
        ["sheets", seed, n, dir] => sheets(number(seed), number(n), Path::new(dir)),
        ["sheet"] => answer_sheet(),
        ["sheet_shares", seed, n] => shares::print_sheets(number(seed), number(n)),
        [name, seed, n] => match kinds::find(name) {
            Some(kind) => lines(kind, number(seed), number(n)),
            None => wrong_usage(),
        },
        _ => wrong_usage(),
    }
}

fn number(text: &str) -> u64 {
    text.parse().unwrap_or_else(|_| wrong_usage())
}

fn usage() -> String {
    let mut text = format!(
        "oracle KIND SEED N            N lines of that kind: the inputs, then the answer of the Rust\n\
         oracle kinds                  the names of the kinds\n\
         oracle every_corner           lines of `corners`: every four of seven values, once in each coordinate\n\
         oracle shares SEED N          what the inputs of `intersect` reach, as shares of N lines\n\
         oracle nearest_shares SEED N  what the inputs of `nearest` reach\n\
         oracle sheets SEED N DIR      N belt sheets DIR/0.sheet, .. and what `beltbeam` prints for each, DIR/0.out, ..\n\
         oracle sheet                  what `beltbeam` prints for the belt sheet on standard input\n\
         oracle sheet_shares SEED N    what the belt sheets reach, as shares of N sheets\n\
         \n\
         Words of eight hexadecimal digits; a NaN is 7fc00000. A line without an answer is one on which\n\
         the Rust panics because a length or a weight is zero. A status is 0, or 1 for a miss or a product that\n\
         a u32 does not hold, or the number of 01's or 02's refusal, behind which nothing follows. A piece is\n\
         {CURVE_FLOATS} words, in the order of bindings/rust/src/layout.rs.\n\n"
    );
    for kind in KINDS {
        text += &format!("{:20} {}\n", kind.name, kind.layout);
    }

    text
}

fn wrong_usage() -> ! {
    eprint!("{}", usage());
    exit(2)
}

fn lines(kind: &Kind, seed: u64, n: u64) {
    let mut rng = Rng::new(seed, kind.name);
    let drawn = (0..n).map(|_| {
        let mut inputs = Words::new();
        (kind.inputs)(&mut rng, &mut inputs);
        inputs
    });
    answers(kind.answer, drawn);
}

/// A line for each of the inputs.
fn answers(answer: fn(&mut Reader, &mut Words), all: impl Iterator<Item = Words>) {
    let mut text = String::new();
    for inputs in all {
        let answer = catch_unwind(|| {
            let mut words = Words::new();
            answer(&mut Reader(&inputs), &mut words);
            words
        });
        append(&mut text, &inputs);
        append(&mut text, &answer.unwrap_or_default());
        text.pop();
        text.push('\n');
        if text.len() > 1 << 20 {
            flush(&mut text);
        }
    }
    flush(&mut text);
}

fn sheets(seed: u64, n: u64, dir: &Path) {
    let mut rng = Rng::new(seed, "sheets");
    for i in 0..n {
        let bytes = sheet_inputs::sheet(&mut rng).bytes;
        write(&dir.join(format!("{i}.sheet")), &bytes);
        write(
            &dir.join(format!("{i}.out")),
            sheet::output(&bytes).as_bytes(),
        );
    }
}

fn write(path: &Path, bytes: &[u8]) {
    if let Err(error) = std::fs::write(path, bytes) {
        eprintln!("{}: {error}", path.display());
        exit(1);
    }
}

fn answer_sheet() {
    let mut bytes = Vec::new();
    if let Err(error) = std::io::stdin().read_to_end(&mut bytes) {
        eprintln!("standard input: {error}");
        exit(1);
    }
    flush(&mut sheet::output(&bytes));
}

/// A reader that stops reading ends the program.
fn flush(text: &mut String) {
    if std::io::stdout().write_all(text.as_bytes()).is_err() {
        exit(1);
    }
    text.clear();
}
