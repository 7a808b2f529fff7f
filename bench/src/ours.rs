//! The library's C functions, and how they are timed.

use crate::draw::{Beam, Belt, Hall, Matrix};
use crate::layout::{BOX_FLOATS, CURVE_FLOATS, MOST_CURVES, RAY_FLOATS};
use crate::piece::Piece;
use crate::record::Record;
use declared::*;
use std::hint::black_box;
use std::time::{Duration, Instant};

// The sheet is timed through the program, so its function is not called here.
#[allow(dead_code)]
#[path = "../../bindings/rust/src/declared.rs"]
mod declared;

pub const LIST: usize = CURVE_FLOATS * MOST_CURVES;

pub type List = [f32; LIST];

#[derive(Default)]
pub struct Answer {
    /// 0 a hit, 1 a miss, else a refusal.
    pub status: u32,
    pub looked: u32,
    pub record: Record,
}

pub fn answer(beam: &Beam) -> Answer {
    let mut answer = Answer::default();
    intersect(beam, &mut answer);

    answer
}

fn intersect(beam: &Beam, answer: &mut Answer) {
    let Beam {
        piece, place, ray, ..
    } = beam;
    // Every pointer has room for what the header says, and no output overlaps anything.
    answer.status = unsafe {
        curve_intersect(
            piece.as_ptr(),
            piece.len(),
            &place.object_to_world,
            &place.world_to_object,
            beam.reverse as u32,
            ray,
            &mut answer.record,
            &mut answer.looked,
        )
    };
}

/// Of a list.
#[derive(Default)]
pub struct Nearest {
    /// 0 a hit, 1 a miss, else a refusal.
    pub status: u32,
    pub piece: usize,
    pub record: Record,
}

pub fn nearest_answer(hall: &Hall, ray: &[f32; RAY_FLOATS]) -> Nearest {
    let mut answer = Nearest::default();
    nearest(hall, ray, &mut answer);

    answer
}

fn nearest(hall: &Hall, ray: &[f32; RAY_FLOATS], answer: &mut Nearest) {
    let Hall { list, place, .. } = hall;
    answer.status = unsafe {
        curve_nearest(
            list.as_ptr(),
            list.len(),
            &place.object_to_world,
            &place.world_to_object,
            hall.reverse as u32,
            ray,
            &mut answer.record,
            &mut answer.piece,
        )
    };
}

pub fn laid(belt: &Belt, list: &mut List) -> u32 {
    let mut pieces = 0;
    let status = unsafe {
        curve_create(
            belt.points.as_ptr(),
            belt.points.len(),
            3,
            belt.spline as u32,
            0,
            belt.widths[0],
            belt.widths[1],
            belt.split,
            list.as_mut_ptr(),
            list.len(),
            &mut pieces,
        )
    };
    assert_eq!(status, 0);

    pieces
}

pub fn bound(piece: &Piece, out: &mut [f32; BOX_FLOATS]) -> u32 {
    unsafe { curve_object_bound(piece.as_ptr(), piece.len(), out) }
}

pub fn world_bound(piece: &Piece, object_to_world: &Matrix, out: &mut [f32; BOX_FLOATS]) -> u32 {
    unsafe { curve_world_bound(piece.as_ptr(), piece.len(), object_to_world, out) }
}

pub fn area(piece: &Piece, out: &mut f32) -> u32 {
    unsafe { curve_area(piece.as_ptr(), piece.len(), out) }
}

pub fn price(piece: &Piece, rate: u32, cents: &mut u32) -> u32 {
    unsafe { curve_price(piece.as_ptr(), piece.len(), rate, cents) }
}

pub fn time_beams(beams: &[Beam], times: u32) -> Duration {
    let mut answer = Answer::default();
    let start = Instant::now();
    for _ in 0..times {
        for beam in beams {
            intersect(black_box(beam), &mut answer);
            black_box(&mut answer);
        }
    }

    start.elapsed()
}

pub fn time_nearest(halls: &[Hall], times: u32) -> Duration {
    let mut answer = Nearest::default();
    let start = Instant::now();
    for _ in 0..times {
        for hall in halls {
            for ray in &hall.rays {
                nearest(black_box(hall), ray, &mut answer);
                black_box(&mut answer);
            }
        }
    }

    start.elapsed()
}

pub fn time_laying(belts: &[Belt], times: u32) -> Duration {
    let mut list = Box::new([0.0; LIST]);
    let start = Instant::now();
    for _ in 0..times {
        for belt in belts {
            black_box(laid(black_box(belt), &mut list));
            black_box(&mut list);
        }
    }

    start.elapsed()
}

/// One of the calls that take a piece, on all pieces.
pub fn time_pieces<P, T: Default>(
    pieces: &[P],
    times: u32,
    call: impl Fn(&P, &mut T) -> u32,
) -> Duration {
    let mut out = T::default();
    let start = Instant::now();
    for _ in 0..times {
        for piece in pieces {
            black_box(call(black_box(piece), &mut out));
            black_box(&mut out);
        }
    }

    start.elapsed()
}
