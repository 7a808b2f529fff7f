//! The calls of the static library. All that is unsafe is here.
//!
//! Each function answers the library's number first, 0 or a refusal (1 is a miss in `intersect` and `nearest`), and
//! then what the library wrote, which means something only with the numbers that the header names.

use crate::declared::*;
use crate::layout::{BEAMS_FLOATS, BOX_FLOATS, RAY_FLOATS, RECORD_FLOATS, SHEET_NUMBERS};
use crate::{Matrix4x4, Params};

/// The number of pieces goes with 0.
pub fn create(points: &[f32], params: &Params, list: &mut [f32]) -> (u32, u32) {
    let mut pieces = 0;
    // SAFETY: `points` and `list` go with their own lengths. `list` and `pieces` are borrowed apart, so
    // neither overlaps the other or `points`. The library keeps no pointer.
    let number = unsafe {
        curve_create(
            points.as_ptr(),
            points.len(),
            params.degree,
            params.basis as u32,
            params.curve_type as u32,
            params.width0,
            params.width1,
            params.splitdepth,
            list.as_mut_ptr(),
            list.len(),
            &mut pieces,
        )
    };

    (number, pieces)
}

/// The box goes with 0.
pub fn object_bound(curve: &[f32]) -> (u32, [f32; BOX_FLOATS]) {
    let mut out = [0.0; BOX_FLOATS];
    // SAFETY: `curve` goes with its own length, and `out` is new.
    let number = unsafe { curve_object_bound(curve.as_ptr(), curve.len(), &mut out) };

    (number, out)
}

/// The box goes with 0.
pub fn world_bound(curve: &[f32], object_to_world: &Matrix4x4) -> (u32, [f32; BOX_FLOATS]) {
    let mut out = [0.0; BOX_FLOATS];
    // SAFETY: `curve` goes with its own length, and `out` is new.
    let number =
        unsafe { curve_world_bound(curve.as_ptr(), curve.len(), object_to_world, &mut out) };

    (number, out)
}

/// The area goes with 0.
pub fn area(curve: &[f32]) -> (u32, f32) {
    let mut out = 0.0;
    // SAFETY: `curve` goes with its own length, and `out` is new.
    let number = unsafe { curve_area(curve.as_ptr(), curve.len(), &mut out) };

    (number, out)
}

/// The cents go with 0.
pub fn price(curve: &[f32], rate: u32) -> (u32, u32) {
    let mut cents = 0;
    // SAFETY: `curve` goes with its own length, and `cents` is new.
    let number = unsafe { curve_price(curve.as_ptr(), curve.len(), rate, &mut cents) };

    (number, cents)
}

/// The record goes with 0, the count with 0 and 1.
pub fn intersect(
    curve: &[f32],
    object_to_world: &Matrix4x4,
    world_to_object: &Matrix4x4,
    reverse: bool,
    ray: &[f32; RAY_FLOATS],
) -> (u32, [f32; RECORD_FLOATS], u32) {
    let mut record = [0.0; RECORD_FLOATS];
    let mut looked = 0;
    // SAFETY: `curve` goes with its own length, and `record` and `looked` are new.
    let number = unsafe {
        curve_intersect(
            curve.as_ptr(),
            curve.len(),
            object_to_world,
            world_to_object,
            reverse as u32,
            ray,
            &mut record,
            &mut looked,
        )
    };

    (number, record, looked)
}

/// The record and the piece's number in the list go with 0.
pub fn nearest(
    list: &[f32],
    object_to_world: &Matrix4x4,
    world_to_object: &Matrix4x4,
    reverse: bool,
    ray: &[f32; RAY_FLOATS],
) -> (u32, [f32; RECORD_FLOATS], usize) {
    let mut record = [0.0; RECORD_FLOATS];
    let mut piece = 0;
    // SAFETY: `list` goes with its own length, and `record` and `piece` are new.
    let number = unsafe {
        curve_nearest(
            list.as_ptr(),
            list.len(),
            object_to_world,
            world_to_object,
            reverse as u32,
            ray,
            &mut record,
            &mut piece,
        )
    };

    (number, record, piece)
}

/// The beams' floats go with 0, and so does what is said of the sheet, but for the line, which goes with other
/// numbers too.
pub fn sheet(bytes: &[u8], list: &mut [f32]) -> (u32, [f32; BEAMS_FLOATS], [u32; SHEET_NUMBERS]) {
    let mut beams = [0.0; BEAMS_FLOATS];
    let mut out = [0; SHEET_NUMBERS];
    // SAFETY: `bytes` and `list` go with their own lengths. `list` is borrowed apart from `bytes`, and
    // `beams` and `out` are new.
    let number = unsafe {
        curve_sheet(
            bytes.as_ptr(),
            bytes.len(),
            list.as_mut_ptr(),
            list.len(),
            &mut beams,
            &mut out,
        )
    };

    (number, beams, out)
}

#[cfg(test)]
mod tests {
    use super::curve_price;
    use crate::MOST_RATE;

    /// Asked of the library itself, since the wrapper hands on no cents with a refusal.
    #[test]
    fn a_refused_price_leaves_the_cents() {
        let curve = [
            0.0, 0.0, 0.0, 2e3, 0.0, 0.0, 2e3, 0.0, 0.0, 2e3, 0.0, 0.0, // four points
            1.0, 1.0, 0.0, 1.0, // two widths, umin and umax
        ];
        for (len, rate, refusal) in [(15, 1, 9), (16, MOST_RATE + 1, 20), (16, MOST_RATE, 21)] {
            let mut cents = 77;
            // SAFETY: `curve` has at least that length, and `cents` is new.
            let number = unsafe { curve_price(curve.as_ptr(), len, rate, &mut cents) };
            assert_eq!((number, cents), (refusal, 77));
        }
    }
}
