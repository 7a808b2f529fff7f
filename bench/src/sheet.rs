//! The sheet, and a program that runs on it.

use crate::draw::{ray_through, spiral, Rng};
use std::fmt::Write;
use std::fs::File;
use std::path::Path;
use std::process::Command;
use std::time::{Duration, Instant};

/// 64 beams through a spiral of 1,024 pieces.
pub fn write(path: &Path) {
    let mut rng = Rng(8);
    let belt = spiral(&mut rng);
    let [width0, width1] = belt.widths.map(f32::to_bits);
    let mut text = format!(
        "degree=3\nbasis=bspline\ntype=flat\nwidth0={width0:08x}\nwidth1={width1:08x}\n\
         splitdepth={}\nreverse=0\n",
        belt.split
    );
    for point in belt.points.chunks(3) {
        writeln!(text, "point={}", words(point)).expect("a string has room");
    }
    for _ in 0..64 {
        let ray = ray_through(&mut rng, &belt);
        writeln!(text, "beam={}", words(&ray)).expect("a string has room");
    }
    std::fs::write(path, text).unwrap_or_else(|error| panic!("{}: {error}", path.display()));
}

fn words(floats: &[f32]) -> String {
    let word = |x: &f32| format!("{:08x}", x.to_bits());

    floats.iter().map(word).collect::<Vec<_>>().join(",")
}

/// From the start of the process to its end.
pub fn run(program: &Path, sheet: &Path, out: &Path) -> Duration {
    let sheet = File::open(sheet).expect("the sheet was written");
    let out = File::create(out).expect("target/bench can be written to");
    let start = Instant::now();
    let status = Command::new(program).stdin(sheet).stdout(out).status();
    let time = start.elapsed();
    assert!(status.is_ok_and(|status| status.success()));

    time
}
