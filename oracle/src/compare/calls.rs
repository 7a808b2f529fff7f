//! The operations of the static library.
//!
//! SAFETY, of each call: a slice goes with its own length, an array has the length that the header names,
//! and no output is an input or another output, since each is borrowed apart.

use crate::answer::Output;
use declared::*;
use oracle::beam::Cast;
use oracle::inputs::Matrix;
use oracle::layout::{BEAMS_FLOATS, BOX_FLOATS, RECORD_FLOATS, SHEET_NUMBERS};
use oracle::limits::ShapeParams;

#[path = "../../../bindings/rust/src/declared.rs"]
mod declared;

/// How many words of an output a usize takes, the low one first.
pub const USIZE_WORDS: usize = 2;

pub fn create(params: &ShapeParams, list: &mut Output, pieces: &mut Output) -> u32 {
    let [width0, width1] = params.widths;
    let list = list.slice();
    let [pieces] = pieces.array();
    unsafe {
        curve_create(
            params.floats.as_ptr(),
            params.floats.len(),
            params.degree,
            params.basis,
            params.ty,
            width0,
            width1,
            params.split,
            list.as_mut_ptr().cast(),
            list.len(),
            pieces,
        )
    }
}

pub fn object_bound(piece: &[f32], out: &mut Output) -> u32 {
    let out = out.array::<BOX_FLOATS>();
    unsafe { curve_object_bound(piece.as_ptr(), piece.len(), out.as_mut_ptr().cast()) }
}

pub fn world_bound(piece: &[f32], object_to_world: &Matrix, out: &mut Output) -> u32 {
    let out = out.array::<BOX_FLOATS>();
    unsafe {
        curve_world_bound(
            piece.as_ptr(),
            piece.len(),
            object_to_world,
            out.as_mut_ptr().cast(),
        )
    }
}

pub fn area(piece: &[f32], out: &mut Output) -> u32 {
    let out = out.array::<1>();
    unsafe { curve_area(piece.as_ptr(), piece.len(), out.as_mut_ptr().cast()) }
}

pub fn price(piece: &[f32], rate: u32, cents: &mut Output) -> u32 {
    let [cents] = cents.array();
    unsafe { curve_price(piece.as_ptr(), piece.len(), rate, cents) }
}

pub fn intersect(
    piece: &[f32],
    cast: &Cast,
    reverse: u32,
    record: &mut Output,
    looked: &mut Output,
) -> u32 {
    let record = record.array::<RECORD_FLOATS>();
    let [looked] = looked.array();
    unsafe {
        curve_intersect(
            piece.as_ptr(),
            piece.len(),
            &cast.object_to_world,
            &cast.world_to_object,
            reverse,
            &cast.ray,
            record.as_mut_ptr().cast(),
            looked,
        )
    }
}

pub fn nearest(
    list: &[f32],
    cast: &Cast,
    reverse: u32,
    record: &mut Output,
    piece: &mut Output,
) -> u32 {
    let record = record.array::<RECORD_FLOATS>();
    let piece: *mut usize = piece.array::<USIZE_WORDS>().as_mut_ptr().cast();
    assert!(piece.is_aligned());
    unsafe {
        curve_nearest(
            list.as_ptr(),
            list.len(),
            &cast.object_to_world,
            &cast.world_to_object,
            reverse,
            &cast.ray,
            record.as_mut_ptr().cast(),
            piece,
        )
    }
}

pub fn sheet(bytes: &[u8], list: &mut Output, beams: &mut Output, out: &mut Output) -> u32 {
    let list = list.slice();
    let beams = beams.array::<BEAMS_FLOATS>();
    let out = out.array::<SHEET_NUMBERS>();
    unsafe {
        curve_sheet(
            bytes.as_ptr(),
            bytes.len(),
            list.as_mut_ptr().cast(),
            list.len(),
            beams.as_mut_ptr().cast(),
            out,
        )
    }
}
