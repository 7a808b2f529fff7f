//! How long the library's arrays are, where each number stands in them, and what a price is at most, as
//! include/curve.h has it. For Rust this is said here alone: `oracle/` and `bench/` use this file too.

use std::ops::Range;

/// A list of this many curves is long enough for every call.
pub const MOST_CURVES: usize = 1024;

/// The beams that a sheet has at most.
pub const MOST_BEAMS: usize = 64;

/// The rate that a price takes at most, in cents a square metre.
pub const MOST_RATE: u32 = 1_000_000;

/// The cents that a price has at most.
pub const MOST_CENTS: u32 = 1_000_000_000;

// A curve.

/// The floats of a curve in a list.
pub const CURVE_FLOATS: usize = 16;

/// Where a curve has its four control points, x, y and z each.
pub const POINTS: Range<usize> = 0..WIDTH0;

/// Where a curve has its width at u = 0.
pub const WIDTH0: usize = 12;

/// Where a curve has its width at u = 1.
pub const WIDTH1: usize = 13;

/// Where a curve has the u at which it begins.
pub const UMIN: usize = 14;

/// Where a curve has the u at which it ends.
pub const UMAX: usize = 15;

// A matrix, by rows.

pub const MATRIX_FLOATS: usize = 16;

// A box: the lower corner, then the upper.

pub const BOX_FLOATS: usize = 6;

// A ray.

pub const RAY_FLOATS: usize = 8;
pub const RAY_O: Range<usize> = 0..3;
pub const RAY_D: Range<usize> = 3..6;
pub const RAY_T_MAX: usize = 6;
pub const RAY_TIME: usize = 7;

// The beams of a sheet, a ray each.

pub const BEAMS_FLOATS: usize = MOST_BEAMS * RAY_FLOATS;

// The record of a hit.

pub const RECORD_FLOATS: usize = 22;
pub const RECORD_T: usize = 0;
pub const RECORD_U: usize = 1;
pub const RECORD_V: usize = 2;
pub const RECORD_P: Range<usize> = 3..6;
pub const RECORD_ERROR: Range<usize> = 6..9;
pub const RECORD_TIME: usize = 9;
pub const RECORD_WO: Range<usize> = 10..13;
pub const RECORD_N: Range<usize> = 13..16;
pub const RECORD_DPDU: Range<usize> = 16..19;
pub const RECORD_DPDV: Range<usize> = 19..22;

// What is said of a sheet.

pub const SHEET_NUMBERS: usize = 4;
pub const SHEET_PIECES: usize = 0;
pub const SHEET_REVERSE: usize = 1;
pub const SHEET_BEAMS: usize = 2;
pub const SHEET_LINE: usize = 3;
