//! The inputs of the kinds `round_product` and `price`: products of every size, and many that are aimed at an exact
//! half, a hair beside one, or a limit.

use crate::curve_inputs::{self, PIECE};
use crate::layout::{MOST_CENTS, MOST_RATE};
use crate::piece::{self, Piece};
use crate::rng::{neighbour, pow2, Rng};
use crate::words::{put, Words};

/// An area, or any float, and what it is multiplied by.
type Factors = (f32, u32);

/// The first number that a u32 does not hold.
const BEYOND: f64 = 4_294_967_296.0;

/// Twice the half below that number, and last twice the half above the highest price, as two factors each: the first
/// for a float.
const HALVES_AT_LIMITS: [[u32; 2]; 6] = [
    [7, 1_227_133_513],
    [2047, 4_196_353],
    [599_479, 14_329],
    [4_196_353, 2047],
    [13_788_017, 623],
    [3, 666_666_667],
];

pub fn round_product(rng: &mut Rng, words: &mut Words) {
    let (x, k) = match rng.below(18) {
        0 => (rng.any(), whole(rng)),
        1 => (rng.mixed(), whole(rng)),
        2 => (rng.special(), rng.pick(&[0, 0, 1, u32::MAX])),
        3 => (rng.subnormal(), whole(rng)),
        // Every exponent, those with which there may be a fraction, and those up to the first beyond.
        4 => (with_exponent(rng, 0, 255), whole(rng)),
        5 => (with_exponent(rng, 93, 149), whole(rng)),
        6 => (with_exponent(rng, 157, 159), rng.below(3)),
        // The least floats that a u32 takes to a half.
        7 => {
            let x = neighbour(pow2(-33), rng.between(-1, 3));
            (x, u32::MAX - rng.below(4))
        }
        8 => float_for(rng, 0.5, u32::MAX),
        9 | 10 => half(rng, u32::MAX),
        11 => beside_half(rng, u32::MAX),
        12 => hair(rng, u32::MAX),
        13 => {
            let [m, n] = rng.pick(&HALVES_AT_LIMITS);
            halved(rng, m, n, u32::MAX)
        }
        // 2^32, or the next float's.
        14 => {
            let e = rng.between(1, 32);
            (neighbour(pow2(e), rng.between(-1, 1)), 1 << (32 - e))
        }
        15 => whole_for(rng, BEYOND),
        16 => whole_for(rng, BEYOND - 0.5),
        _ => whole_for(rng, MOST_CENTS as f64 + 0.5),
    };
    let x = rng.signed(x);
    put(words, &[x]);
    words.extend([k, rng.below(2)]);
}

pub fn price(rng: &mut Rng, words: &mut Words) {
    let (area, rate) = match rng.below(16) {
        0..=3 => {
            curve_inputs::piece(rng, words);
            words.push(any_rate(rng));
            return;
        }
        // The rate is asked before the price, be that none or too high.
        4 => (rng.pick(&[0.0, pow2(20)]), MOST_RATE + rng.below(2)),
        5 => (rng.unit().abs() * pow2(rng.between(-24, 32)), any_rate(rng)),
        6 | 7 => half(rng, MOST_RATE),
        8 => beside_half(rng, MOST_RATE),
        9 => hair(rng, MOST_RATE),
        10 => decimals(rng),
        11 => float_for(rng, 0.5, MOST_RATE),
        12 => most_cents(rng),
        13 | 14 => near_most_cents(rng),
        // Cents within the limit, were only the last 32 digits kept.
        _ => {
            let kept = rng.below(MOST_CENTS) as f64;
            float_for(rng, BEYOND + kept, MOST_RATE)
        }
    };
    put(words, &cover(rng, area));
    words.push(rate);
}

/// A piece of exactly that area, if it is 0 or from 2^-49 to 2^32: one step along an axis, everywhere as wide as a
/// power of two. For a larger area the step is off limits.
fn cover(rng: &mut Rng, area: f32) -> Piece {
    let drawn = pow2(rng.between(-11, 11));
    let width = if area / drawn <= PIECE.coordinate {
        drawn
    } else {
        PIECE.width
    };
    let step = rng.signed(area / width);
    let axis = rng.below(3) as usize;
    let mut points = [[0.0; 3]; 4];
    for point in &mut points[1 + rng.below(3) as usize..] {
        point[axis] = step;
    }

    piece::from_parts(&points, [width; 2], [0.0, 1.0])
}

fn whole(rng: &mut Rng) -> u32 {
    match rng.below(4) {
        0 => rng.next() as u32,
        1 => rng.next() as u32 >> rng.below(32),
        2 => 1 << rng.below(32),
        _ => rng.pick(&[0, 1, 2, 3, 5, 1000, MOST_RATE, u32::MAX]),
    }
}

/// Mostly within the limit, often at it.
fn any_rate(rng: &mut Rng) -> u32 {
    match rng.below(4) {
        0 => rng.pick(&[0, 0, 1, 2, 5]),
        1 => rng.pick(&[MOST_RATE - 1, MOST_RATE, MOST_RATE + 1]),
        2 => whole(rng),
        _ => rng.below(MOST_RATE + 1) >> rng.below(20),
    }
}

/// With the first, the last or any mantissa.
fn with_exponent(rng: &mut Rng, low: i32, high: i32) -> f32 {
    let mantissa = if rng.one_in(2) {
        rng.pick(&[0, 0x7f_ffff, 1])
    } else {
        rng.below(1 << 23)
    };

    f32::from_bits((rng.between(low, high) as u32) << 23 | mantissa)
}

/// An odd number of at most so many binary digits.
fn odd(rng: &mut Rng, digits: u32) -> u32 {
    rng.next() as u32 >> (32 - digits + rng.below(digits)) | 1
}

/// An exact half, the whole number at most the one given.
fn half(rng: &mut Rng, most: u32) -> Factors {
    let m = odd(rng, 24);
    let n = odd(rng, most.ilog2());

    halved(rng, m, n, most)
}

/// Half of m times n; the whole number takes n and any power of two that goes with it.
fn halved(rng: &mut Rng, m: u32, n: u32, most: u32) -> Factors {
    let s = rng.below((most / n).ilog2() + 1);

    (m as f32 * pow2(-1 - s as i32), n << s)
}

/// A half but for the last digit of the float.
fn beside_half(rng: &mut Rng, most: u32) -> Factors {
    let (x, k) = half(rng, most);

    (neighbour(x, rng.pick(&[-1, 1])), k)
}

/// A half but for the last digit of the product, m k / 2^s with m odd: from the remainder that m k has follows the one
/// that k has.
fn hair(rng: &mut Rng, most: u32) -> Factors {
    let m = rng.below(1 << 24) | 1;
    let s = most.ilog2() - rng.below(most.ilog2() / 2);
    let half = 1 << (s - 1);
    let remainder = rng.pick(&[half - 1, half + 1]);
    let least = inverse(m).wrapping_mul(remainder) % (1 << s);
    let turns = rng.below((most - least >> s) + 1);

    (m as f32 * pow2(-(s as i32)), least + (turns << s))
}

/// What an odd number gives 1 with, modulo 2^32. Its own last three digits are right, and each step doubles them.
fn inverse(m: u32) -> u32 {
    (0..4).fold(m, |known, _| {
        known.wrapping_mul(2u32.wrapping_sub(m.wrapping_mul(known)))
    })
}

/// What would be a half if floats held decimal fractions, above all 0.7 times 5.
fn decimals(rng: &mut Rng) -> Factors {
    if rng.one_in(4) {
        return (0.7, 5);
    }
    let five = 5 * 10u32.pow(rng.below(4));

    (odd(rng, 20) as f32 / (2 * five) as f32, odd(rng, 7) * five)
}

/// A whole number, and the float that takes it nearest to the target, or the next.
fn float_for(rng: &mut Rng, target: f64, most: u32) -> Factors {
    let k = 1 + (rng.below(most) >> rng.below(most.ilog2()));
    let x = (target / k as f64) as f32;

    (neighbour(x, rng.between(-1, 1)), k)
}

/// A float from 1 to 4, and the whole number that takes it nearest to the target: to a large one whole numbers come
/// nearer than floats.
fn whole_for(rng: &mut Rng, target: f64) -> Factors {
    let x = neighbour(1.0, rng.below(1 << 24) as i32);

    (x, (target / x as f64).round() as u32)
}

/// The highest price, or the next float's.
fn most_cents(rng: &mut Rng) -> Factors {
    let n = 5u32.pow(rng.below(9));
    let rate = n << rng.below((MOST_RATE / n).ilog2() + 1);
    let area = MOST_CENTS as f32 / rate as f32;

    (neighbour(area, rng.pick(&[0, 0, -1, 1])), rate)
}

/// Within a cent of the highest price: one rate in fifty or so has such an area. None has one for the half above it:
/// twice that is three times a prime, of which neither factor is a multiple.
fn near_most_cents(rng: &mut Rng) -> Factors {
    const MOST: f64 = MOST_CENTS as f64;
    loop {
        let rate = 1 + rng.below(MOST_RATE);
        let area = (MOST / rate as f64) as f32;
        // Exact: 24 digits and 20.
        if (area as f64 * rate as f64 - MOST).abs() < 1.0 {
            return (area, rate);
        }
    }
}
