//! The rows of the table: inputs, both sides, and that both give the same.

use crate::draw::{self, Beam, Belt, Place};
use crate::layout::{BOX_FLOATS, MOST_CURVES};
use crate::piece::{self, Piece};
use crate::record::Record;
use crate::time::Timed;
use crate::{mix, ours, rust, sheet};
use pbrt::core::shape::{Shape, Shapes};
use std::path::{Path, PathBuf};
use std::sync::Arc;

pub struct Row {
    pub title: &'static str,
    pub unit: Unit,
    /// How many units one time through the inputs has.
    pub units: usize,
    pub ours: Timed,
    pub rust: Timed,
}

pub struct Unit {
    pub name: &'static str,
    /// How many of its time are in a second.
    pub scale: f64,
    /// What the unit is without its time.
    pub thing: &'static str,
}

const CALL: Unit = Unit {
    name: "ns per call",
    scale: 1.0e9,
    thing: "call",
};
const LOOK: Unit = Unit {
    name: "ns per looked piece",
    scale: 1.0e9,
    thing: "looked piece",
};
const PIECE: Unit = Unit {
    name: "ns per piece",
    scale: 1.0e9,
    thing: "piece",
};
const LAYING: Unit = Unit {
    name: "µs per 1,024 pieces",
    scale: 1.0e6,
    thing: "1,024 pieces",
};
const SHEET: Unit = Unit {
    name: "ms per sheet",
    scale: 1.0e3,
    thing: "sheet",
};

pub const NAMES: [&str; 13] = [
    "thrown", "miss", "hit", "deep", "mix", "nearest", "segment", "spline", "box", "hall", "area",
    "price", "sheet",
];

pub fn row(target: &Path, name: &str) -> Option<Row> {
    Some(match name {
        "thrown" => beams("a beam thrown out whole", draw::thrown_out()),
        "miss" => beams("a miss that walks", draw::walking_miss()),
        "hit" => beams("a hit at depth 0", draw::plain_hit()),
        "deep" => deep(),
        "mix" => mixed(target),
        "nearest" => nearest(),
        "segment" => laying("laying one segment, split 10", draw::segments()),
        "spline" => laying("laying a B-spline, split 3", draw::splines()),
        "box" => boxes(),
        "hall" => hall_boxes(),
        "area" => areas(),
        "price" => prices(),
        "sheet" => sheets(target),
        _ => return None,
    })
}

// Beams.

fn beams(title: &'static str, beams: Vec<Beam>) -> Row {
    let units = beams.len();
    let aimed = rust::aimed(&beams);
    for (beam, aimed) in beams.iter().zip(&aimed) {
        assert_same_answer(beam, aimed);
    }

    Row {
        title,
        unit: CALL,
        units,
        ours: Box::new(move |times| ours::time_beams(&beams, times)),
        rust: Box::new(move |times| rust::time_beams(&aimed, times)),
    }
}

fn assert_same_answer(beam: &Beam, aimed: &rust::Aimed) {
    let answer = ours::answer(beam);
    match aimed.answer() {
        Some(record) => assert!(answer.status == 0 && same(&answer.record, &record)),
        None => assert_eq!(answer.status, 1),
    }
}

/// By bits; a NaN is any NaN.
fn same(a: &[f32], b: &[f32]) -> bool {
    let equal = |(x, y): (&f32, &f32)| x.to_bits() == y.to_bits() || x.is_nan() && y.is_nan();

    a.len() == b.len() && a.iter().zip(b).all(equal)
}

/// In boxes a zero may have either sign.
fn same_box(a: &[f32; BOX_FLOATS], b: &[f32; BOX_FLOATS]) -> bool {
    same(&a.map(|x| x + 0.0), &b.map(|x| x + 0.0))
}

fn deep() -> Row {
    let drawn = draw::deep_hit();
    let looked = |beam| ours::answer(beam).looked as usize;
    let units = drawn.iter().map(looked).sum();

    Row {
        unit: LOOK,
        units,
        ..beams("hits at depth 10", drawn)
    }
}

fn mixed(target: &Path) -> Row {
    let counted = mix::read(&target.join("bench/mix.txt"));
    for mix::Counted { beam, looked } in &counted {
        assert_eq!(ours::answer(beam).looked, *looked);
    }

    beams(
        "the oracle's mix, without refusals",
        counted.into_iter().map(|counted| counted.beam).collect(),
    )
}

fn nearest() -> Row {
    let halls = draw::halls();
    let scenes: Vec<_> = halls.iter().map(rust::scene).collect();
    for (hall, scene) in halls.iter().zip(&scenes) {
        for ray in &hall.rays {
            assert_same_nearest(&ours::nearest_answer(hall, ray), scene.answer(ray));
        }
    }
    let rays: usize = halls.iter().map(|hall| hall.rays.len()).sum();

    Row {
        title: "the nearest of 1,024 pieces",
        unit: PIECE,
        units: rays * MOST_CURVES,
        ours: Box::new(move |times| ours::time_nearest(&halls, times)),
        rust: Box::new(move |times| rust::time_nearest(&scenes, times)),
    }
}

fn assert_same_nearest(ours: &ours::Nearest, rust: Option<(Record, usize)>) {
    match rust {
        Some((record, piece)) => {
            assert_eq!((ours.status, ours.piece), (0, piece));
            assert!(same(&ours.record, &record));
        }
        None => assert_eq!(ours.status, 1),
    }
}

// Curves.

fn laying(title: &'static str, belts: Vec<Belt>) -> Row {
    let params: Vec<_> = belts.iter().map(rust::params).collect();
    let identity = rust::identity();
    for (belt, params) in belts.iter().zip(&params) {
        let mut list = Box::new([0.0; ours::LIST]);
        assert_eq!(ours::laid(belt, &mut list), 1024);
        let shapes = rust::laid(params, &identity, false);
        let pieces = piece::from_shapes(&shapes);
        assert!(same(list.as_slice(), pieces.as_flattened()));
    }

    Row {
        title,
        unit: LAYING,
        units: belts.len(),
        ours: Box::new(move |times| ours::time_laying(&belts, times)),
        rust: Box::new(move |times| rust::time_laying(&params, times)),
    }
}

type Placed = (Piece, Arc<Place>);

/// What the rows below measure, for ours and for the Rust.
fn pieces() -> (Vec<Placed>, Vec<Arc<Shapes>>) {
    let pieces = draw::pieces();
    let shapes = rust::shapes(&pieces);

    (pieces, shapes)
}

/// A call that takes a piece, and the Rust's method.
fn measured<P: 'static, S: 'static, T: Default + 'static, U: 'static>(
    title: &'static str,
    (pieces, shapes): (Vec<P>, Vec<S>),
    ours: fn(&P, &mut T) -> u32,
    rust: fn(&S) -> U,
    same: fn(T, U) -> bool,
) -> Row {
    for (piece, shape) in pieces.iter().zip(&shapes) {
        let mut out = T::default();
        assert_eq!(ours(piece, &mut out), 0);
        assert!(same(out, rust(shape)));
    }

    Row {
        title,
        unit: CALL,
        units: pieces.len(),
        ours: Box::new(move |times| ours::time_pieces(&pieces, times, ours)),
        rust: Box::new(move |times| rust::time_shapes(&shapes, times, rust)),
    }
}

fn boxes() -> Row {
    measured(
        "box",
        pieces(),
        |(piece, _), out| ours::bound(piece, out),
        |shape| shape.object_bound(),
        |ours, rust| same_box(&ours, &rust::corners(rust)),
    )
}

fn hall_boxes() -> Row {
    measured(
        "hall box",
        pieces(),
        |(piece, place), out| ours::world_bound(piece, &place.object_to_world, out),
        |shape| shape.world_bound(),
        |ours, rust| same_box(&ours, &rust::corners(rust)),
    )
}

fn areas() -> Row {
    measured(
        "area",
        pieces(),
        |(piece, _), out| ours::area(piece, out),
        |shape| shape.area(),
        |ours: f32, rust| same(&[ours], &[rust]),
    )
}

fn prices() -> Row {
    let (pieces, shapes) = pieces();

    measured(
        "price",
        (rated(pieces), rated(shapes)),
        |((piece, _), rate), cents| ours::price(piece, *rate, cents),
        |(shape, rate)| rust::price(shape, *rate),
        |ours: u32, rust| u128::from(ours) == rust,
    )
}

/// Each with its rate.
fn rated<T>(pieces: Vec<T>) -> Vec<(T, u32)> {
    pieces.into_iter().zip(draw::rates()).collect()
}

// The program.

fn sheets(target: &Path) -> Row {
    let file = target.join("bench/belt.sheet");
    sheet::write(&file);
    let ours = target.join("bin/beltbeam");
    let rust = target.join("bench/rust_sheet");
    let out = target.join("bench/report.txt");
    let report = |program: &Path| {
        sheet::run(program, &file, &out);
        std::fs::read(&out).expect("the report was written")
    };
    let printed = report(&ours);
    assert!(printed.starts_with(b"pieces=1024\n"));
    assert!(printed == report(&rust));
    let time = |program: PathBuf| {
        let (file, out) = (file.clone(), out.clone());
        move |times| (0..times).map(|_| sheet::run(&program, &file, &out)).sum()
    };

    Row {
        title: "a sheet of 64 beams over 1,024 pieces",
        unit: SHEET,
        units: 1,
        ours: Box::new(time(ours)),
        rust: Box::new(time(rust)),
    }
}
