//! Points of a cubic, to aim at. `bench/` uses this file too.

use crate::layout::{WIDTH0, WIDTH1};
use crate::piece::{self, Piece};

/// A curve's point and tangent at u. The tangent is a third of the derivative.
pub fn at(piece: &Piece, u: f64) -> ([f64; 3], [f64; 3]) {
    let s = 1.0 - u;
    let p = piece::points(piece).map(|p| p.map(f64::from));
    let point = |k: usize| {
        let ends = s * s * s * p[0][k] + u * u * u * p[3][k];
        ends + 3.0 * s * u * (s * p[1][k] + u * p[2][k])
    };
    let tangent = |k: usize| {
        let [a, b, c] = [0, 1, 2].map(|i| p[i + 1][k] - p[i][k]);
        s * s * a + 2.0 * s * u * b + u * u * c
    };

    (std::array::from_fn(point), std::array::from_fn(tangent))
}

/// Half a curve's width at u.
pub fn half_width(piece: &Piece, u: f64) -> f64 {
    0.5 * (piece[WIDTH0] as f64 * (1.0 - u) + piece[WIDTH1] as f64 * u)
}
