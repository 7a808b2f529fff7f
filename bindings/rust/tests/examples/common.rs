//! 01's straight belt, its beam, and lists.

use curve::{
    Basis, CurveType, Params, Ray, CURVE_FLOATS, MOST_CURVES, POINTS, UMAX, UMIN, WIDTH0, WIDTH1,
};

pub const CUBIC_BEZIER: Params = Params {
    degree: 3,
    basis: Basis::Bezier,
    curve_type: CurveType::Flat,
    width0: 1.0,
    width1: 1.0,
    splitdepth: 0,
};

/// From x = -3 to 3 at z = 4.
pub const STRAIGHT: [[f32; 3]; 4] = [
    [-3.0, 0.0, 4.0],
    [-1.0, 0.0, 4.0],
    [1.0, 0.0, 4.0],
    [3.0, 0.0, 4.0],
];

/// Up from the origin.
pub const UP: Ray = Ray {
    o: [0.0; 3],
    d: [0.0, 0.0, 1.0],
    t_max: f32::INFINITY,
    time: 0.0,
};

/// What stands in a list before a call.
pub const MARK: f32 = -77.5;

/// Counts of floats that are no curve, up to those of two curves.
pub const WRONG_LENGTHS: [usize; 5] = [0, 1, CURVE_FLOATS - 1, CURVE_FLOATS + 1, 2 * CURVE_FLOATS];

pub fn marked_list() -> Vec<f32> {
    vec![MARK; CURVE_FLOATS * MOST_CURVES]
}

/// The one curve of four points, as laying writes it; also where neighbours are equal, which laying refuses.
pub fn curve_of(points: &[[f32; 3]; 4], width: f32) -> [f32; CURVE_FLOATS] {
    let mut curve = [0.0; CURVE_FLOATS];
    curve[POINTS].copy_from_slice(points.as_flattened());
    curve[WIDTH0..=WIDTH1].fill(width);
    curve[UMAX] = 1.0;

    curve
}

/// Laid.
pub fn straight() -> [f32; CURVE_FLOATS] {
    let mut list = [MARK; CURVE_FLOATS];
    let answer = curve::create_curve_shape(&STRAIGHT, &CUBIC_BEZIER, &mut list);
    assert_eq!(answer, Ok(1));

    list
}

/// 01's belt of width 100, from z = 4 to 7, which a beam up goes along: refused by 15.
pub fn along() -> [f32; CURVE_FLOATS] {
    let points = [
        [-1.0, 0.0, 4.0],
        [1.0, 0.0, 5.0],
        [-1.0, 0.0, 6.0],
        [1.0, 0.0, 7.0],
    ];

    curve_of(&points, 100.0)
}

/// Over itself at z = 4, from x = 0 to 3 and back.
pub fn out_and_back() -> [f32; CURVE_FLOATS] {
    let [a, b] = [[0.0, 0.0, 4.0], [4.0, 0.0, 4.0]];

    curve_of(&[a, b, b, a], 1.0)
}

/// From u = 0 to 0.
pub fn off_limits() -> [f32; CURVE_FLOATS] {
    let mut curve = straight();
    curve[UMAX] = curve[UMIN];

    curve
}
