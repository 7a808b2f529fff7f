//! The inputs of the kind `corners`: four points that need be no curve's, with NaNs and zeros of either sign at every
//! place.

use crate::rng::{neighbour, Rng};
use crate::words::{put, Words};

/// A coordinate of the four points.
type Quadruple = [f32; 4];

/// Few enough to try every quadruple of them, and enough for every order, tie and NaN that four values can have.
const FEW: [f32; 7] = [
    f32::NAN,
    f32::NEG_INFINITY,
    -1.0,
    -0.0,
    0.0,
    1.0,
    f32::INFINITY,
];

const QUADRUPLES: usize = FEW.len().pow(4);

/// From one coordinate's quadruple to the next one's. A third of them all: the three differ at every place.
const APART: usize = QUADRUPLES / 3;

pub fn corners(rng: &mut Rng, words: &mut Words) {
    let one: fn(&mut Rng) -> Quadruple = match rng.below(3) {
        0 => nans_and_zeros,
        1 => few,
        _ => quadruple,
    };
    put_points(words, std::array::from_fn(|_| one(rng)));
}

/// The inputs of one line for each quadruple of the few; it stands once in x, once in y and once in z.
pub fn every() -> impl Iterator<Item = Words> {
    (0..QUADRUPLES).map(|i| {
        let mut words = Words::new();
        put_points(&mut words, [i, i + APART, i + 2 * APART].map(nth));
        words
    })
}

/// Behind the last the first comes again.
fn nth(i: usize) -> Quadruple {
    std::array::from_fn(|place| FEW[i / FEW.len().pow(place as u32) % FEW.len()])
}

fn put_points(words: &mut Words, [x, y, z]: [Quadruple; 3]) {
    for i in 0..4 {
        put(words, &[x[i], y[i], z[i]]);
    }
}

fn few(rng: &mut Rng) -> Quadruple {
    std::array::from_fn(|_| rng.pick(&FEW))
}

fn nans_and_zeros(rng: &mut Rng) -> Quadruple {
    std::array::from_fn(|_| rng.pick(&[f32::NAN, -0.0, 0.0]))
}

fn quadruple(rng: &mut Rng) -> Quadruple {
    let mut values = match rng.below(8) {
        0 => std::array::from_fn(|_| rng.any()),
        1 => rng.zeros(),
        // Equal values.
        2 => {
            let both = [rng.mixed(), rng.mixed()];
            std::array::from_fn(|_| rng.pick(&both))
        }
        // Nearly equal.
        3 => {
            let x = rng.mixed();
            std::array::from_fn(|_| neighbour(x, rng.between(-1, 1)))
        }
        _ => rng.floats(),
    };
    // NaNs at any of the places, none and all included.
    if rng.one_in(3) {
        let places = rng.below(1 << 4);
        for (i, value) in values.iter_mut().enumerate() {
            if places >> i & 1 == 1 {
                *value = f32::NAN;
            }
        }
    }

    values
}
