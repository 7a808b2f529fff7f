//! 01's refusals 1 to 11 and 02's 19 to 22, which the supplied Rust has not, or not in this order: a second reading
//! of the papers, independent of the library's. Each function tells the first refusal that holds.

use crate::layout::{CURVE_FLOATS, POINTS, RAY_FLOATS, RAY_T_MAX, UMAX, UMIN, WIDTH0, WIDTH1};
use crate::piece::Piece;
use pbrt::core::transform::Matrix4x4;

/// What laying takes, of the list only its length.
pub struct ShapeParams {
    pub degree: u32,
    pub basis: u32,
    pub ty: u32,
    pub widths: [f32; 2],
    pub split: u32,
    pub list_len: u32,
    pub floats: Vec<f32>,
}

/// Laying: how many pieces, or refusal 1 to 3, 22, or 4 to 8.
pub fn create_curve_shape(params: &ShapeParams) -> Result<i64, u32> {
    let degree = params.degree as i64;
    if degree != 2 && degree != 3 {
        return Err(1);
    }
    if params.basis != 0 && params.basis != 1 {
        return Err(2);
    }
    let floats = params.floats.len() as i64;
    let n = floats / 3;
    let (right, segments) = if params.basis == 0 {
        ((n - 1 - degree) % degree == 0, (n - 1) / degree)
    } else {
        (n > degree, n - degree)
    };
    if floats % 3 != 0 || !right {
        return Err(3);
    }
    if has_equal_neighbours(&params.floats) {
        return Err(22);
    }
    if params.ty != 0 {
        return Err(4);
    }
    if params.split > 10 {
        return Err(5);
    }
    let pieces = segments << params.split;
    if n > 256 || pieces > 1024 {
        return Err(6);
    }
    let coordinates = params.floats.iter().all(|x| x.abs() <= 1_048_576.0);
    let width = |w: f32| 1.0 / 1024.0 <= w && w <= 1024.0;
    if !coordinates || !width(params.widths[0]) || !width(params.widths[1]) {
        return Err(7);
    }
    if (params.list_len as i64) < CURVE_FLOATS as i64 * pieces {
        return Err(8);
    }

    Ok(pieces)
}

/// Whether two points in a row are equal, by f32's own ==.
pub fn has_equal_neighbours(floats: &[f32]) -> bool {
    let (points, _) = floats.as_chunks::<3>();

    points.windows(2).any(|pair| pair[0] == pair[1])
}

/// Refusal 9.
pub fn piece(piece: &Piece) -> Result<(), u32> {
    let finite = piece.iter().all(|x| x.is_finite());
    let coordinates = piece[POINTS].iter().all(|x| x.abs() <= 2_097_152.0);
    let width = |w: f32| 1.0 / 2048.0 <= w && w <= 2048.0;
    let widths = width(piece[WIDTH0]) && width(piece[WIDTH1]);
    let (umin, umax) = (piece[UMIN], piece[UMAX]);
    if finite && coordinates && widths && 0.0 <= umin && umin < umax && umax <= 1.0 {
        Ok(())
    } else {
        Err(9)
    }
}

/// Refusal 19.
pub fn list(floats: &[f32]) -> Result<(), u32> {
    if floats.len() % CURVE_FLOATS == 0 {
        Ok(())
    } else {
        Err(19)
    }
}

/// Refusal 10.
pub fn matrix(matrix: &Matrix4x4) -> Result<(), u32> {
    let mut entries = matrix.m.iter().flatten();
    if entries.all(|x| x.is_finite() && x.abs() <= 1_048_576.0) {
        Ok(())
    } else {
        Err(10)
    }
}

/// Refusal 11.
pub fn ray(ray: &[f32; RAY_FLOATS]) -> Result<(), u32> {
    let t_max = ray[RAY_T_MAX];
    let mut others = ray[..RAY_T_MAX].iter().chain(&ray[RAY_T_MAX + 1..]);
    if others.all(|x| x.is_finite() && x.abs() <= 1_048_576.0) && t_max >= 0.0 {
        Ok(())
    } else {
        Err(11)
    }
}

/// Refusal 20.
pub fn rate(rate: u32) -> Result<(), u32> {
    if rate <= 1_000_000 {
        Ok(())
    } else {
        Err(20)
    }
}

/// Refusal 21, of the rounded price.
pub fn cents(cents: i128) -> Result<(), u32> {
    if cents <= 1_000_000_000 {
        Ok(())
    } else {
        Err(21)
    }
}
