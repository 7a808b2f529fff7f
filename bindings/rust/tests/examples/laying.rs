//! Laying: 01's marked examples M1 to M8, the split depths, and what is refused.

use crate::common::{marked_list, straight, CUBIC_BEZIER, MARK, STRAIGHT};
use curve::{
    create_curve_shape, Basis, CurveType, Params, Refusal, CURVE_FLOATS, POINTS, UMAX, UMIN,
    WIDTH0, WIDTH1,
};

const QUADRATIC_BEZIER: Params = Params {
    degree: 2,
    ..CUBIC_BEZIER
};

const CUBIC_BSPLINE: Params = Params {
    basis: Basis::BSpline,
    ..CUBIC_BEZIER
};

/// That many points along x.
fn points(n: usize) -> Vec<[f32; 3]> {
    (0..n).map(|i| [i as f32, 0.0, 0.0]).collect()
}

/// The answer, and how many floats the call wrote: those from the first on, and no other.
fn laid(points: &[[f32; 3]], params: &Params) -> (Result<u32, Refusal>, usize) {
    let mut list = marked_list();
    let answer = create_curve_shape(points, params, &mut list);
    let written = list.iter().take_while(|x| **x != MARK).count();
    assert!(list[written..].iter().all(|x| *x == MARK));

    (answer, written)
}

fn assert_laid(points: &[[f32; 3]], params: &Params, curves: u32) {
    let written = CURVE_FLOATS * curves as usize;
    assert_eq!(laid(points, params), (Ok(curves), written));
}

/// Refused, and the list is as it was.
fn assert_refused(points: &[[f32; 3]], params: &Params, refusal: Refusal) {
    assert_eq!(laid(points, params), (Err(refusal), 0));
}

#[test]
fn m1_one_point_gives_no_curve() {
    assert_laid(&points(1), &CUBIC_BEZIER, 0);
}

#[test]
fn m2_five_points_are_refused() {
    assert_refused(&points(5), &CUBIC_BEZIER, Refusal::PointCount);
}

#[test]
fn m3_seven_points_give_two_segments() {
    assert_laid(&points(7), &CUBIC_BEZIER, 2);
}

#[test]
fn m4_no_points_are_refused() {
    assert_refused(&[], &QUADRATIC_BEZIER, Refusal::PointCount);
}

#[test]
fn m5_three_points_of_a_cubic_b_spline_are_refused() {
    assert_refused(&points(3), &CUBIC_BSPLINE, Refusal::PointCount);
}

#[test]
fn m6_four_points_of_a_cubic_b_spline_give_one_segment() {
    assert_laid(&points(4), &CUBIC_BSPLINE, 1);
}

#[test]
fn m7_two_segments_at_split_10_are_too_many() {
    let params = Params {
        splitdepth: 10,
        ..CUBIC_BEZIER
    };
    assert_refused(&points(7), &params, Refusal::TooMany);
}

#[test]
fn m8_a_quadratic_is_raised() {
    let mut list = marked_list();
    let points = [[0.0; 3], [3.0, 0.0, 0.0], [6.0, 0.0, 0.0]];
    let answer = create_curve_shape(&points, &QUADRATIC_BEZIER, &mut list);
    assert_eq!(answer, Ok(1));
    let xs: Vec<f32> = list[POINTS].iter().step_by(3).copied().collect();
    assert_eq!(xs, [0.0, 2.0, 4.0, 6.0]);
}

#[test]
fn a_curve_is_points_widths_and_parameters() {
    let curve = straight();
    assert_eq!(curve[POINTS], *STRAIGHT.as_flattened());
    assert_eq!(curve[WIDTH0..=WIDTH1], [1.0, 1.0]);
    assert_eq!(curve[UMIN..=UMAX], [0.0, 1.0]);
}

#[test]
fn split_10_gives_1024_curves_and_11_is_refused() {
    let split = |splitdepth| Params {
        splitdepth,
        ..CUBIC_BEZIER
    };
    assert_laid(&STRAIGHT, &split(10), 1024);
    assert_refused(&STRAIGHT, &split(11), Refusal::SplitDepth);
    assert_refused(&STRAIGHT, &split(u32::MAX), Refusal::SplitDepth);
}

#[test]
fn split_curves_follow_each_other() {
    let params = Params {
        splitdepth: 10,
        ..CUBIC_BEZIER
    };
    let mut list = marked_list();
    assert_eq!(create_curve_shape(&STRAIGHT, &params, &mut list), Ok(1024));
    for (i, curve) in list.chunks(CURVE_FLOATS).enumerate() {
        let ends = [i as f32 / 1024.0, (i + 1) as f32 / 1024.0];
        assert_eq!(curve[UMIN..=UMAX], ends);
    }
}

#[test]
fn each_parameter_off_its_range_is_refused() {
    let base = CUBIC_BEZIER;
    for degree in [0, 1, 4, u32::MAX] {
        assert_refused(&STRAIGHT, &Params { degree, ..base }, Refusal::Degree);
    }
    for curve_type in [CurveType::Ribbon, CurveType::Cylinder] {
        assert_refused(&STRAIGHT, &Params { curve_type, ..base }, Refusal::Type);
    }
    let refusal = Refusal::PointsOrWidths;
    for width0 in [f32::NAN, 0.0, -1.0, 1.0 / 1025.0, 1024.5, f32::INFINITY] {
        assert_refused(&STRAIGHT, &Params { width0, ..base }, refusal);
        let width1 = width0;
        assert_refused(&STRAIGHT, &Params { width1, ..base }, refusal);
    }
    for x in [f32::NAN, f32::INFINITY, -1_048_577.0] {
        let mut points = STRAIGHT;
        points[3][2] = x;
        assert_refused(&points, &base, refusal);
    }
    let mut points = STRAIGHT;
    points[0][0] = -1_048_576.0;
    assert_laid(&points, &base, 1);
}

/// With point i set to the one before it.
fn doubled(mut points: Vec<[f32; 3]>, i: usize) -> Vec<[f32; 3]> {
    points[i] = points[i - 1];

    points
}

#[test]
fn equal_neighbours_are_refused() {
    for (n, params) in [
        (4, CUBIC_BEZIER),
        (7, CUBIC_BEZIER),
        (5, QUADRATIC_BEZIER),
        (6, CUBIC_BSPLINE),
    ] {
        for i in 1..n {
            assert_refused(&doubled(points(n), i), &params, Refusal::EqualNeighbours);
        }
    }
}

/// Two of three coordinates, or the points next but one, or the first and the last.
#[test]
fn points_that_are_not_quite_equal_neighbours_are_laid() {
    for k in 0..3 {
        let mut points = STRAIGHT;
        points[1] = points[0];
        points[1][k] += 0.5;
        assert_laid(&points, &CUBIC_BEZIER, 1);
    }
    let [a, b, ..] = STRAIGHT;
    assert_laid(&[a, b, a, b], &CUBIC_BEZIER, 1);
    assert_laid(&[a, b, STRAIGHT[2], a], &CUBIC_BEZIER, 1);
}

#[test]
fn zeros_of_either_sign_are_equal_and_a_nan_equals_nothing() {
    let beside = |x: f32, y: f32| {
        let mut points = STRAIGHT;
        (points[1], points[2]) = ([x, 0.0, 4.0], [y, -0.0, 4.0]);

        points
    };
    for (x, y) in [
        (0.0, -0.0),
        (1e-45, 1e-45),
        (f32::INFINITY, f32::INFINITY),
        (2e6, 2e6),
    ] {
        assert_refused(&beside(x, y), &CUBIC_BEZIER, Refusal::EqualNeighbours);
    }
    assert_laid(&beside(0.0, 1e-45), &CUBIC_BEZIER, 1);
    for (x, y) in [(f32::NAN, f32::NAN), (f32::INFINITY, f32::NEG_INFINITY)] {
        assert_refused(&beside(x, y), &CUBIC_BEZIER, Refusal::PointsOrWidths);
    }
}

/// Behind a wrong count and before all else.
#[test]
fn equal_neighbours_come_behind_3_and_before_4() {
    let wrong = Params {
        curve_type: CurveType::Ribbon,
        splitdepth: 11,
        width0: f32::NAN,
        ..CUBIC_BEZIER
    };
    let refusal = Refusal::EqualNeighbours;
    assert_refused(&doubled(points(5), 1), &wrong, Refusal::PointCount);
    assert_refused(&doubled(points(4), 3), &wrong, refusal);
    assert_refused(&doubled(points(301), 300), &wrong, refusal);
    let answer = create_curve_shape(&doubled(points(4), 1), &CUBIC_BEZIER, &mut []);
    assert_eq!(answer, Err(refusal));
}

#[test]
fn over_256_points_are_too_many() {
    assert_laid(&points(256), &CUBIC_BEZIER, 85);
    assert_refused(&points(259), &CUBIC_BEZIER, Refusal::TooMany);
}

#[test]
fn a_short_list_is_refused_and_left_alone() {
    for len in [0, 1, CURVE_FLOATS - 1] {
        let mut list = vec![MARK; len];
        let answer = create_curve_shape(&STRAIGHT, &CUBIC_BEZIER, &mut list);
        assert_eq!(answer, Err(Refusal::ListTooShort));
        assert!(list.iter().all(|x| *x == MARK));
    }
}

#[test]
fn the_first_reason_is_told() {
    let params = Params {
        degree: 7,
        splitdepth: 99,
        ..CUBIC_BEZIER
    };
    assert_refused(&points(5), &params, Refusal::Degree);
}
