//! Prices: to the nearest cent, up to the most, and what is refused.

use crate::common::{curve_of, off_limits, straight, WRONG_LENGTHS};
use curve::{area, price, Refusal, CURVE_FLOATS, MOST_CENTS, MOST_RATE};

type Curve = [f32; CURVE_FLOATS];

/// One chord as long as that and two of length zero, of width 1.
fn of_area(x: f32) -> Curve {
    let end = [x, 0.0, 0.0];
    let curve = curve_of(&[[0.0; 3], end, end, end], 1.0);
    assert_eq!(area(&curve), Ok(x));

    curve
}

/// There, back and there again over the longest line that can be laid, as wide as can be: over 2^32.
fn greatest() -> Curve {
    let [a, b] = [[-1_048_576.0, 0.0, 0.0], [1_048_576.0, 0.0, 0.0]];

    curve_of(&[a, b, a, b], 1024.0)
}

#[test]
fn the_price_of_the_straight_belt() {
    assert_eq!(price(&straight(), 1_250), Ok(7_500));
}

/// As a float 0.7 lies a little below. Five times that is below 3.5, but 3.5 as a float.
#[test]
fn no_float_is_rounded_before_the_cents() {
    let area = f32::from_bits(0x3f33_3333);
    assert_eq!(area * 5.0, 3.5);
    assert_eq!(price(&of_area(area), 5), Ok(3));
}

#[test]
fn a_half_goes_upward_and_what_is_just_below_it_down() {
    for (area, cents) in [(0.5_f32, 1), (1.5, 2), (2.5, 3)] {
        assert_eq!(price(&of_area(area), 1), Ok(cents));
        let below = f32::from_bits(area.to_bits() - 1);
        assert_eq!(price(&of_area(below), 1), Ok(cents - 1));
    }
}

#[test]
fn without_a_rate_or_an_area_the_price_is_zero() {
    assert_eq!(price(&of_area(0.0), MOST_RATE), Ok(0));
    assert_eq!(price(&greatest(), 0), Ok(0));
}

/// The second is over it by a quarter of a cent.
#[test]
fn the_most_passes_and_so_does_what_is_rounded_to_it() {
    for (area, rate) in [(1_000.0, MOST_RATE), (1_492.25, 670_129)] {
        assert_eq!(price(&of_area(area), rate), Ok(MOST_CENTS));
    }
}

/// Over it by three quarters of a cent, by one, and by far.
#[test]
fn a_price_over_the_most_is_refused_by_21() {
    for (curve, rate) in [
        (of_area(5_921.75), 168_869),
        (of_area(999_001.0), 1_001),
        (greatest(), 1),
        (greatest(), MOST_RATE),
    ] {
        assert_eq!(price(&curve, rate), Err(Refusal::Price));
    }
}

/// Also without an area, and before 21.
#[test]
fn a_rate_over_the_most_is_refused_by_20() {
    for curve in [of_area(0.0), straight(), greatest()] {
        for rate in [MOST_RATE + 1, u32::MAX] {
            assert_eq!(price(&curve, rate), Err(Refusal::Rate));
        }
    }
}

/// Before its rate.
#[test]
fn a_curve_off_limits_is_refused() {
    let twice = [straight(), straight()].concat();
    for rate in [0, MOST_RATE + 1] {
        for len in WRONG_LENGTHS {
            assert_eq!(price(&twice[..len], rate), Err(Refusal::Curve));
        }
        assert_eq!(price(&off_limits(), rate), Err(Refusal::Curve));
    }
}
