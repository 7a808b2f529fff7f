//! Beams: hits, misses, and what is refused.

use crate::common::{
    along, curve_of, off_limits, out_and_back, straight, STRAIGHT, UP, WRONG_LENGTHS,
};
use curve::{intersect, Intersection, Ray, Refusal, SurfaceInteraction, IDENTITY, UMAX};

fn shot(curve: &[f32], ray: &Ray) -> Result<Intersection, Refusal> {
    intersect(curve, &IDENTITY, &IDENTITY, false, ray)
}

fn hit_of(answer: Result<Intersection, Refusal>) -> (SurfaceInteraction, u32) {
    match answer {
        Ok(Intersection::Hit(hit, looked)) => (hit, looked),
        other => panic!("no hit: {other:?}"),
    }
}

#[test]
fn the_straight_belt_is_met_in_its_middle() {
    let ray = Ray { time: 2.5, ..UP };
    let (hit, looked) = hit_of(shot(&straight(), &ray));
    assert_eq!([hit.t_hit, hit.u, hit.v], [4.0, 0.5, 0.5]);
    assert_eq!(looked, 1);
    assert_eq!(hit.p, [0.0, 0.0, 4.0]);
    assert_eq!(hit.p_error, [2.0; 3]);
    assert_eq!(hit.time, 2.5);
    assert_eq!(hit.wo, [0.0, 0.0, -1.0]);
    assert_eq!(hit.n.map(f32::abs), [0.0, 0.0, 1.0]);
    assert_eq!(hit.dpdu, [6.0, 0.0, 0.0]);
    assert_eq!(hit.dpdv.map(f32::abs), [0.0, 1.0, 0.0]);
}

/// Half as fast it goes twice as far, in lengths of its direction.
#[test]
fn the_distance_counts_lengths_of_the_direction() {
    let ray = Ray {
        o: [1.5, 0.0, 0.0],
        d: [0.0, 0.0, 0.5],
        ..UP
    };
    let (hit, _) = hit_of(shot(&straight(), &ray));
    assert_eq!([hit.t_hit, hit.u, hit.v], [8.0, 0.75, 0.5]);
}

/// The belt runs along x. Seen from below, along the beam, y points to the right of it, and seen from above to the left.
#[test]
fn v_is_over_a_half_to_the_right() {
    for [y, z, d, v] in [
        [0.25, 0.0, 1.0, 0.75],
        [-0.25, 0.0, 1.0, 0.25],
        [0.25, 8.0, -1.0, 0.25],
        [-0.25, 8.0, -1.0, 0.75],
    ] {
        let ray = Ray {
            o: [0.0, y, z],
            d: [0.0, 0.0, d],
            ..UP
        };
        assert_eq!(hit_of(shot(&straight(), &ray)).0.v, v);
    }
}

/// The belt is at z = 4 and one wide: a level beam meets it that passes less than half a width above or below.
#[test]
fn the_belt_turns_its_width_to_a_beam_from_the_side() {
    for (z, met) in [(4.375, true), (3.625, true), (4.625, false)] {
        let ray = Ray {
            o: [0.0, -5.0, z],
            d: [0.0, 1.0, 0.0],
            ..UP
        };
        let answer = shot(&straight(), &ray);
        assert_eq!(matches!(answer, Ok(Intersection::Hit(..))), met);
    }
}

#[test]
fn normals_turn_with_the_flag_and_with_a_mirror() {
    let mut mirror = IDENTITY;
    mirror[0] = -1.0;
    let normal = |object_to_world, reverse| {
        let answer = intersect(&straight(), object_to_world, &IDENTITY, reverse, &UP);

        hit_of(answer).0.n
    };
    let n = normal(&IDENTITY, false);
    let turned = n.map(|x| -x);
    assert_eq!(normal(&IDENTITY, true), turned);
    assert_eq!(normal(&mirror, false), turned);
    assert_eq!(normal(&mirror, true), n);
}

#[test]
fn a_beam_beside_the_belt_misses() {
    let aside = Ray {
        o: [0.0, 2.0, 0.0],
        ..UP
    };
    assert_eq!(shot(&straight(), &aside), Ok(Intersection::Miss(0)));
}

#[test]
fn a_beam_that_ends_before_the_belt_misses() {
    for t_max in [0.0, -0.0, 3.0] {
        let short = Ray { t_max, ..UP };
        assert_eq!(shot(&straight(), &short), Ok(Intersection::Miss(0)));
    }
}

/// Under an arc: the box of the arc holds the beam, the arc does not.
#[test]
fn a_miss_counts_where_it_looked() {
    let arc = [
        [-3.0, 0.0, 4.0],
        [-1.0, 4.0, 4.0],
        [1.0, 4.0, 4.0],
        [3.0, 0.0, 4.0],
    ];
    let ray = Ray {
        o: [0.0, 1.0, 0.0],
        ..UP
    };
    match shot(&curve_of(&arc, 0.125), &ray) {
        Ok(Intersection::Miss(looked)) => assert!((1..=2047).contains(&looked)),
        other => panic!("no miss: {other:?}"),
    }
}

#[test]
fn a_belt_along_the_beam_is_refused_by_15() {
    assert_eq!(shot(&along(), &UP), Err(Refusal::ZeroAcross));
}

#[test]
fn a_curve_off_limits_is_refused() {
    let twice = [straight(), straight()].concat();
    for len in WRONG_LENGTHS {
        assert_eq!(shot(&twice[..len], &UP), Err(Refusal::Curve));
    }
    assert_eq!(shot(&off_limits(), &UP), Err(Refusal::Curve));
}

#[test]
fn either_matrix_off_limits_is_refused() {
    let mut wrong = IDENTITY;
    wrong[5] = f32::NAN;
    for [object_to_world, world_to_object] in [[&wrong, &IDENTITY], [&IDENTITY, &wrong]] {
        let answer = intersect(&straight(), object_to_world, world_to_object, false, &UP);
        assert_eq!(answer, Err(Refusal::Matrix));
    }
}

#[test]
fn a_ray_off_limits_is_refused() {
    let refused = |ray: Ray| assert_eq!(shot(&straight(), &ray), Err(Refusal::Ray));
    for x in [f32::NAN, f32::INFINITY, -1_048_577.0] {
        refused(Ray {
            o: [x, 0.0, 0.0],
            ..UP
        });
        refused(Ray {
            d: [0.0, x, 1.0],
            ..UP
        });
        refused(Ray { time: x, ..UP });
    }
    for t_max in [-1.0, f32::NEG_INFINITY, f32::NAN] {
        refused(Ray { t_max, ..UP });
    }
}

#[test]
fn an_origin_of_weight_zero_is_refused() {
    let mut weightless = IDENTITY;
    weightless[15] = 0.0;
    let answer = intersect(&straight(), &IDENTITY, &weightless, false, &UP);
    assert_eq!(answer, Err(Refusal::ZeroWeight));
}

#[test]
fn no_direction_is_refused() {
    let still = Ray { d: [0.0; 3], ..UP };
    assert_eq!(shot(&straight(), &still), Err(Refusal::NoFrame));
}

/// Where it turns, the derivative and the chord are zero.
#[test]
fn a_turning_point_is_refused_by_14() {
    let ray = Ray {
        o: [3.0, 0.0, 0.0],
        ..UP
    };
    let mut first_half = out_and_back();
    first_half[UMAX] = 0.5;
    assert_eq!(shot(&first_half, &ray), Err(Refusal::ZeroDerivative));
}

/// The beam begins at z = 4 in the belt's frame.
#[test]
fn the_belt_is_met_through_a_matrix() {
    let mut moved = IDENTITY;
    moved[11] = 4.0;
    let belt = curve_of(&STRAIGHT.map(|[x, y, _]| [x, y, 8.0]), 1.0);
    let answer = intersect(&belt, &IDENTITY, &moved, false, &UP);
    assert_eq!(hit_of(answer).0.p, [0.0, 0.0, 8.0]);
}
