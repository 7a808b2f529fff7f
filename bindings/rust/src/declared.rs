//! The functions of the static library, as include/curve.h has them. They are declared for Rust here alone:
//! `oracle/` and `bench/` use this file too.

use crate::layout::{
    BEAMS_FLOATS, BOX_FLOATS, MATRIX_FLOATS, RAY_FLOATS, RECORD_FLOATS, SHEET_NUMBERS,
};

extern "C" {
    pub fn curve_create(
        points: *const f32,
        len: usize,
        degree: u32,
        basis: u32,
        ty: u32,
        width0: f32,
        width1: f32,
        splitdepth: u32,
        list: *mut f32,
        list_len: usize,
        pieces: *mut u32,
    ) -> u32;
    pub fn curve_object_bound(piece: *const f32, len: usize, out: *mut [f32; BOX_FLOATS]) -> u32;
    pub fn curve_world_bound(
        piece: *const f32,
        len: usize,
        object_to_world: *const [f32; MATRIX_FLOATS],
        out: *mut [f32; BOX_FLOATS],
    ) -> u32;
    pub fn curve_area(piece: *const f32, len: usize, out: *mut f32) -> u32;
    pub fn curve_price(piece: *const f32, len: usize, rate: u32, cents: *mut u32) -> u32;
    pub fn curve_intersect(
        piece: *const f32,
        len: usize,
        object_to_world: *const [f32; MATRIX_FLOATS],
        world_to_object: *const [f32; MATRIX_FLOATS],
        reverse: u32,
        ray: *const [f32; RAY_FLOATS],
        record: *mut [f32; RECORD_FLOATS],
        looked: *mut u32,
    ) -> u32;
    pub fn curve_nearest(
        list: *const f32,
        len: usize,
        object_to_world: *const [f32; MATRIX_FLOATS],
        world_to_object: *const [f32; MATRIX_FLOATS],
        reverse: u32,
        ray: *const [f32; RAY_FLOATS],
        record: *mut [f32; RECORD_FLOATS],
        piece: *mut usize,
    ) -> u32;
    pub fn curve_sheet(
        bytes: *const u8,
        len: usize,
        list: *mut f32,
        list_len: usize,
        beams: *mut [f32; BEAMS_FLOATS],
        out: *mut [u32; SHEET_NUMBERS],
    ) -> u32;
}
