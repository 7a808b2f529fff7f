//! The nearest of a list: hits, ties, misses, and what is refused.

use crate::common::{along, curve_of, off_limits, out_and_back, straight, STRAIGHT, UP};
use curve::{
    intersect, nearest, Intersection, Nearest, Ray, Refusal, SurfaceInteraction, CURVE_FLOATS,
    IDENTITY,
};

type Curve = [f32; CURVE_FLOATS];

/// Down from the origin.
const DOWN: Ray = Ray {
    d: [0.0, 0.0, -1.0],
    ..UP
};

/// Out under the origin, and back below.
const DECKS: [[f32; 3]; 4] = [
    [-9.0, 0.0, -4.0],
    [7.0, 0.0, -4.0],
    [7.0, 0.0, -8.0],
    [-9.0, 0.0, -8.0],
];

fn shot(curves: &[Curve], ray: &Ray) -> Result<Nearest, Refusal> {
    nearest(curves.as_flattened(), &IDENTITY, &IDENTITY, false, ray)
}

fn hit_of(answer: Result<Nearest, Refusal>) -> (SurfaceInteraction, usize) {
    match answer {
        Ok(Nearest::Hit(hit, curve)) => (hit, curve),
        other => panic!("no hit: {other:?}"),
    }
}

/// The straight belt at another height.
fn deck(z: f32) -> Curve {
    curve_of(&STRAIGHT.map(|[x, y, _]| [x, y, z]), 1.0)
}

#[test]
fn the_upper_deck_is_answered_wherever_it_stands_in_the_list() {
    let [upper, lower] = [deck(-4.0), deck(-8.0)];
    for (decks, number) in [([upper, lower], 0), ([lower, upper], 1)] {
        let (hit, curve) = hit_of(shot(&decks, &DOWN));
        assert_eq!((hit.t_hit, hit.p[2], curve), (4.0, -4.0, number));
    }
}

#[test]
fn the_record_is_that_of_its_curve() {
    let ray = Ray { time: 2.5, ..DOWN };
    let alone = intersect(&deck(-4.0), &IDENTITY, &IDENTITY, false, &ray);
    let (hit, _) = hit_of(shot(&[deck(-8.0), deck(-4.0), deck(-6.0)], &ray));
    assert_eq!(alone, Ok(Intersection::Hit(hit, 1)));
}

/// The first curve has one crossing, between the two of the other. Of that `intersect` tells the last.
#[test]
fn the_nearer_crossing_of_one_curve_is_answered() {
    let mut back = DECKS;
    back.reverse();
    for (points, u) in [(DECKS, 0.25), (back, 0.75)] {
        let (hit, curve) = hit_of(shot(&[deck(-6.0), curve_of(&points, 1.0)], &DOWN));
        assert_eq!((hit.t_hit, hit.u, curve), (4.625, u, 1));
    }
}

#[test]
fn of_those_as_near_the_earlier_curve_is_answered() {
    let [upper, lower] = [deck(-4.0), deck(-8.0)];
    for (decks, number) in [([upper, upper, lower], 0), ([lower, upper, upper], 1)] {
        let (hit, curve) = hit_of(shot(&decks, &DOWN));
        assert_eq!((hit.t_hit, curve), (4.0, number));
    }
}

/// And in one curve the earlier crossing, where `intersect` tells the later.
#[test]
fn of_those_as_near_the_earlier_crossing_is_answered() {
    let ray = Ray {
        o: [1.5, 0.0, 0.0],
        ..UP
    };
    let (hit, _) = hit_of(shot(&[out_and_back()], &ray));
    assert_eq!((hit.t_hit, hit.u < 0.5), (4.0, true));
    match intersect(&out_and_back(), &IDENTITY, &IDENTITY, false, &ray) {
        Ok(Intersection::Hit(last, _)) => assert_eq!((last.t_hit, last.u > 0.5), (4.0, true)),
        other => panic!("no hit: {other:?}"),
    }
}

/// The beam begins on a belt: what comes after it is looked at all the same.
#[test]
fn a_distance_of_zero_is_the_least_and_ends_nothing() {
    let on = deck(0.0);
    let (hit, curve) = hit_of(shot(&[straight(), on, straight()], &UP));
    assert_eq!((hit.t_hit, curve), (0.0, 1));
    assert_eq!(shot(&[on, along()], &UP), Err(Refusal::ZeroAcross));
}

#[test]
fn normals_turn_with_the_flag_and_with_a_mirror() {
    let mut mirror = IDENTITY;
    mirror[0] = -1.0;
    let list = [deck(6.0), straight()];
    let normal = |object_to_world, reverse| {
        let list = list.as_flattened();

        hit_of(nearest(list, object_to_world, &IDENTITY, reverse, &UP))
            .0
            .n
    };
    let n = normal(&IDENTITY, false);
    let turned = n.map(|x| -x);
    assert_eq!(normal(&IDENTITY, true), turned);
    assert_eq!(normal(&mirror, false), turned);
    assert_eq!(normal(&mirror, true), n);
}

#[test]
fn an_empty_list_is_missed() {
    assert_eq!(shot(&[], &UP), Ok(Nearest::Miss));
}

#[test]
fn a_beam_beside_every_belt_misses() {
    let aside = Ray {
        o: [0.0, 2.0, 0.0],
        ..UP
    };
    assert_eq!(shot(&[straight(), deck(6.0)], &aside), Ok(Nearest::Miss));
    let short = Ray { t_max: 3.0, ..UP };
    assert_eq!(shot(&[straight(), deck(6.0)], &short), Ok(Nearest::Miss));
}

/// Before all else: the matrix, the ray and the curves are wrong too.
#[test]
fn a_list_of_no_whole_curves_is_refused_by_19() {
    let twice = [[f32::NAN; CURVE_FLOATS]; 2];
    let wrong = [f32::NAN; 16];
    let ray = Ray { t_max: -1.0, ..UP };
    for len in [1, CURVE_FLOATS - 1, CURVE_FLOATS + 1] {
        let answer = nearest(&twice.as_flattened()[..len], &wrong, &wrong, false, &ray);
        assert_eq!(answer, Err(Refusal::ListLength));
    }
}

/// Before any curve, and of an empty list too.
#[test]
fn a_matrix_or_a_ray_off_limits_is_refused() {
    let mut wrong = IDENTITY;
    wrong[5] = f32::NAN;
    let bad_ray = Ray { t_max: -1.0, ..UP };
    for list in [vec![], vec![off_limits()], vec![along(), straight()]] {
        let list = list.as_flattened();
        for [object_to_world, world_to_object] in [[&wrong, &IDENTITY], [&IDENTITY, &wrong]] {
            let answer = nearest(list, object_to_world, world_to_object, false, &bad_ray);
            assert_eq!(answer, Err(Refusal::Matrix));
        }
        let answer = nearest(list, &IDENTITY, &IDENTITY, false, &bad_ray);
        assert_eq!(answer, Err(Refusal::Ray));
    }
}

/// Whichever is nearer: the refused one lies from z = 4 to 7.
#[test]
fn a_refusal_behind_a_nearer_hit_is_told() {
    for z in [2.0, 9.0] {
        for curves in [[deck(z), along()], [along(), deck(z)]] {
            assert_eq!(shot(&curves, &UP), Err(Refusal::ZeroAcross));
        }
    }
}

#[test]
fn the_first_refusal_met_is_told() {
    let [wrong, across] = [off_limits(), along()];
    assert_eq!(shot(&[straight(), wrong, across], &UP), Err(Refusal::Curve));
    let answer = shot(&[straight(), across, wrong], &UP);
    assert_eq!(answer, Err(Refusal::ZeroAcross));
}

/// An origin without a place is told with the first curve, if there is one and it is within the limits.
#[test]
fn an_origin_of_weight_zero_is_refused_with_a_curve() {
    let mut weightless = IDENTITY;
    weightless[15] = 0.0;
    let shot =
        |curves: &[Curve]| nearest(curves.as_flattened(), &IDENTITY, &weightless, false, &UP);
    assert_eq!(shot(&[]), Ok(Nearest::Miss));
    assert_eq!(shot(&[straight(), off_limits()]), Err(Refusal::ZeroWeight));
    assert_eq!(shot(&[off_limits(), straight()]), Err(Refusal::Curve));
}

#[test]
fn no_direction_is_refused_with_a_curve() {
    let still = Ray { d: [0.0; 3], ..UP };
    assert_eq!(shot(&[], &still), Ok(Nearest::Miss));
    assert_eq!(shot(&[straight()], &still), Err(Refusal::NoFrame));
}
