//! Boxes and areas of curves.

use crate::common::{curve_of, marked_list, straight, CUBIC_BEZIER, STRAIGHT, WRONG_LENGTHS};
use curve::{
    area, create_curve_shape, object_bound, world_bound, Bounds3, Params, Refusal, CURVE_FLOATS,
    IDENTITY, POINTS, UMAX, UMIN, WIDTH0, WIDTH1,
};

#[test]
fn the_box_of_the_straight_belt() {
    let expected = Bounds3 {
        p_min: [-3.5, -0.5, 3.5],
        p_max: [3.5, 0.5, 4.5],
    };
    assert_eq!(object_bound(&straight()), Ok(expected));
    assert_eq!(world_bound(&straight(), &IDENTITY), Ok(expected));
}

/// Three chords of length 2 and width 1.
#[test]
fn the_area_of_the_straight_belt() {
    assert_eq!(area(&straight()), Ok(6.0));
}

/// Its second half: from x = 0 to 3, width 2 in the middle of the belt and 3 at its end.
#[test]
fn half_a_belt_that_gets_wider() {
    let params = Params {
        width1: 3.0,
        splitdepth: 1,
        ..CUBIC_BEZIER
    };
    let mut list = marked_list();
    assert_eq!(create_curve_shape(&STRAIGHT, &params, &mut list), Ok(2));
    let half = &list[CURVE_FLOATS..2 * CURVE_FLOATS];
    let expected = Bounds3 {
        p_min: [-1.5, -1.5, 2.5],
        p_max: [4.5, 1.5, 5.5],
    };
    assert_eq!(object_bound(half), Ok(expected));
    assert_eq!(area(half), Ok(7.5));
}

/// Twice as large, and moved by (10, 20, 30).
#[test]
fn the_hall_box_of_the_straight_belt() {
    let object_to_world = [
        2.0, 0.0, 0.0, 10.0, //
        0.0, 2.0, 0.0, 20.0, //
        0.0, 0.0, 2.0, 30.0, //
        0.0, 0.0, 0.0, 1.0,
    ];
    let expected = Bounds3 {
        p_min: [3.0, 19.0, 37.0],
        p_max: [17.0, 21.0, 39.0],
    };
    assert_eq!(world_bound(&straight(), &object_to_world), Ok(expected));
}

#[test]
fn a_curve_off_limits_is_refused() {
    let refused = |curve: &[f32]| {
        assert_eq!(object_bound(curve), Err(Refusal::Curve));
        assert_eq!(world_bound(curve, &IDENTITY), Err(Refusal::Curve));
        assert_eq!(area(curve), Err(Refusal::Curve));
    };
    let twice = [straight(), straight()].concat();
    for len in WRONG_LENGTHS {
        refused(&twice[..len]);
    }
    let off = [
        (POINTS.start, f32::NAN),
        (POINTS.start + 5, f32::INFINITY),
        (POINTS.end - 1, 2_097_152.5),
        (WIDTH0, 0.0),
        (WIDTH1, 2048.5),
        (UMIN, -0.25),
        (UMIN, 1.0),
        (UMAX, 1.5),
    ];
    for (at, x) in off {
        let mut curve = straight();
        curve[at] = x;
        refused(&curve);
    }
}

#[test]
fn a_matrix_off_limits_is_refused() {
    for x in [f32::NAN, f32::NEG_INFINITY, 1_048_577.0] {
        for at in [0, 7, 15] {
            let mut matrix = IDENTITY;
            matrix[at] = x;
            assert_eq!(world_bound(&straight(), &matrix), Err(Refusal::Matrix));
        }
    }
}

/// The weight is x, and a corner has x = 0.
#[test]
fn a_corner_of_weight_zero_is_refused() {
    let mut matrix = IDENTITY;
    matrix[12..].copy_from_slice(&[1.0, 0.0, 0.0, 0.0]);
    let from_half = curve_of(&STRAIGHT.map(|[x, y, z]| [x + 3.5, y, z]), 1.0);
    assert_eq!(world_bound(&from_half, &matrix), Err(Refusal::ZeroWeight));
}
