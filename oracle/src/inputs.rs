//! The inputs of each kind: random numbers of every sort, and cases aimed at its branches.

use crate::layout::MATRIX_FLOATS;
use crate::rng::{neighbour, neighbour64, pow2, Rng};
use crate::words::{put, put_f64, Words};

pub type Triple = [f32; 3];
pub type Matrix = [f32; MATRIX_FLOATS];

/// Where the last row of a matrix begins.
pub const LAST_ROW: usize = 12;

pub fn sqrt(rng: &mut Rng, words: &mut Words) {
    let x = match rng.below(12) {
        0 => rng.any(),
        1 => rng.any().abs(),
        2 => rng.mixed(),
        // Every exponent, with the first, the last or any mantissa.
        3 => f32::from_bits(rng.below(256) << 23 | rng.pick(&[0, 0x7f_ffff, 1])),
        4 => f32::from_bits(rng.below(256) << 23 | rng.below(1 << 23)),
        5 => rng.subnormal().abs(),
        6 => -rng.moderate().abs(),
        // Perfect squares and their neighbours.
        7 => {
            let root = rng.below(4097) as f32 * pow2(rng.between(-60, 50));
            root * root
        }
        8 => {
            let root = rng.below(4097) as f32 * pow2(rng.between(-60, 50));
            neighbour(root * root, rng.between(-2, 2))
        }
        9 => {
            let root = rng.any().abs();
            neighbour(root * root, rng.between(-2, 2))
        }
        // Nearest to the square of a number halfway between two floats, where rounding turns.
        10 => {
            let halfway = (rng.below(1 << 23) + (1 << 23)) as f64 + 0.5;
            let scale = pow2(rng.between(-43, 40) * 2);
            neighbour((halfway * halfway) as f32 * scale, rng.between(-1, 1))
        }
        _ => rng.edge().abs(),
    };
    put(words, &[x]);
}

pub fn narrow(rng: &mut Rng, words: &mut Words) {
    // The spacing of f32 is 2^29 patterns of f64 wide where the result is normal.
    const HALF: u64 = 1 << 28;
    let x = match rng.below(12) {
        0 => f64::from_bits(rng.next()),
        1 => rng.mixed() as f64,
        // Exponents in f32's range and a little beyond it.
        2 | 3 => {
            let exponent = rng.between(1023 - 153, 1023 + 129) as u64;
            f64::from_bits(rng.next() >> 63 << 63 | exponent << 52 | rng.next() >> 12)
        }
        // Floats and their neighbours.
        4 => neighbour64(rng.any() as f64, rng.between(-2, 2)),
        // Ties and their neighbours, at a normal result.
        5 | 6 => {
            let tie = f64::from_bits((rng.any() as f64).to_bits() + HALF);
            neighbour64(tie, rng.pick(&[0, 0, -1, 1]))
        }
        // The same at a subnormal result, in steps of half the least float.
        7 | 8 => {
            let halves = rng.below(1 << 24) >> rng.between(0, 23);
            let x = halves as f64 * (pow2(-75) as f64 * pow2(-75) as f64);
            neighbour64(x, rng.pick(&[0, 0, -1, 1])) * rng.signed(1.0) as f64
        }
        // Around the first value that becomes infinite.
        9 => {
            let most = f32::MAX as f64 + pow2(103) as f64;
            neighbour64(most, rng.between(-3, 3)) * rng.signed(1.0) as f64
        }
        // Around the first value that does not become zero.
        10 => {
            let least = pow2(-75) as f64 * pow2(-75) as f64;
            neighbour64(least, rng.between(-3, 3)) * rng.signed(1.0) as f64
        }
        // What a cross product rounds.
        _ => {
            let [a, b, c, d] = rng.floats();
            a as f64 * b as f64 - c as f64 * d as f64
        }
    };
    put_f64(words, x);
}

pub fn cross(rng: &mut Rng, words: &mut Words) {
    let a: Triple = rng.floats();
    let b = match rng.below(8) {
        0 => parallel(rng, a),
        // Nearly parallel.
        1 => a.map(|x| neighbour(x, rng.between(-1, 1))),
        2 => rng.zeros(),
        3 => rng.scaled(),
        _ => rng.floats(),
    };
    let (a, b) = if rng.one_in(2) { (a, b) } else { (b, a) };
    put(words, &a);
    put(words, &b);
}

pub fn normalize(rng: &mut Rng, words: &mut Words) {
    let v: Triple = match rng.below(8) {
        0 => one_axis(rng),
        1 => rng.scaled(),
        2 if rng.one_in(2) => rng.zeros(),
        3 if rng.one_in(2) => small(rng),
        _ => rng.floats(),
    };
    put(words, &v);
}

pub fn inverse(rng: &mut Rng, words: &mut Words) {
    let mut m = matrix(rng);
    let (i, j) = (rng.below(4) as usize, rng.below(4) as usize);
    match rng.below(20) {
        0 => m = permutation(rng),
        // Equal pivots.
        1 => m = std::array::from_fn(|_| rng.signed(1.0)),
        2 => m = rng.integers(1),
        // Singular: equal rows or columns, a zero row or column, nothing but zeros.
        3 => m.copy_within(4 * i..4 * i + 4, 4 * j),
        4 => (0..4).for_each(|k| m[4 * k + i] = m[4 * k + j]),
        5 => m[4 * i..4 * i + 4].copy_from_slice(&rng.zeros::<4>()),
        6 => (0..4).for_each(|k| m[4 * k + i] = rng.zero()),
        7 if rng.one_in(4) => m = rng.zeros(),
        // One row a multiple of another, or nearly.
        8 => {
            let factor = rng.moderate();
            for k in 0..4 {
                m[4 * j + k] = m[4 * i + k] * factor;
            }
            if rng.one_in(2) {
                m[4 * j] = neighbour(m[4 * j], 1);
            }
        }
        // Diagonals of extreme size.
        9 => {
            m = identity();
            for k in 0..4 {
                m[5 * k] = if rng.one_in(2) {
                    rng.edge()
                } else {
                    rng.power()
                };
            }
        }
        10 => m[4 * i + j] = rng.special(),
        11 => m = rng.moderates(),
        12 => m = rng.integers(4),
        _ => {}
    }
    put(words, &m);
}

pub fn look_at(rng: &mut Rng, words: &mut Words) {
    let pos: Triple = if rng.one_in(2) {
        rng.floats()
    } else {
        rng.moderates()
    };
    let look = match rng.below(16) {
        0 => pos,
        1 => pos.map(|x| neighbour(x, rng.between(-1, 1))),
        2 => rng.scaled(),
        3 => add(pos, one_axis(rng)),
        4 => add(pos, small(rng)),
        5 | 6 | 7 => rng.floats(),
        8 | 9 => add(pos, rng.floats()),
        _ => add(pos, rng.moderates()),
    };
    let dir = [look[0] - pos[0], look[1] - pos[1], look[2] - pos[2]];
    let up = match rng.below(16) {
        0 => parallel(rng, dir),
        // Nearly parallel.
        1 => dir.map(|x| neighbour(x, rng.between(-1, 1))),
        2 => one_axis(rng),
        3 if rng.one_in(2) => rng.zeros(),
        4 if rng.one_in(2) => small(rng),
        5 => rng.scaled(),
        6 | 7 | 8 => rng.floats(),
        _ => rng.moderates(),
    };
    put(words, &pos);
    put(words, &look);
    put(words, &up);
}

pub fn transform_point(rng: &mut Rng, words: &mut Words) {
    let p: Triple = rng.floats();
    let m = matrix_at(rng, p);
    put(words, &m);
    put(words, &p);
}

pub fn transform_ray_error(rng: &mut Rng, words: &mut Words) {
    let o: Triple = rng.floats();
    let m = matrix_at(rng, o);
    let d: Triple = match rng.below(8) {
        0 => one_axis(rng),
        1 => rng.scaled(),
        2 if rng.one_in(2) => rng.zeros(),
        _ => rng.floats(),
    };
    let t_max = match rng.below(8) {
        0 => rng.mixed(),
        1 => rng.zero(),
        2 | 3 | 4 => rng.moderate().abs(),
        _ => f32::INFINITY,
    };
    let time = if rng.one_in(4) {
        rng.mixed()
    } else {
        rng.moderate()
    };
    put(words, &m);
    put(words, &o);
    put(words, &d);
    put(words, &[t_max, time]);
}

pub fn transform_bounds(rng: &mut Rng, words: &mut Words) {
    let a: Triple = rng.floats();
    let b: Triple = match rng.below(8) {
        0 => a,
        1 => a.map(|x| neighbour(x, 1)),
        _ => rng.floats(),
    };
    // Mostly ordered corners; else as they came, or turned round.
    let (low, high) = match rng.below(8) {
        0 => (a, b),
        1 => (max(a, b), min(a, b)),
        _ => (min(a, b), max(a, b)),
    };
    let corner = std::array::from_fn(|i| if rng.one_in(2) { low[i] } else { high[i] });
    let m = matrix_at(rng, corner);
    put(words, &m);
    put(words, &low);
    put(words, &high);
}

pub fn coordinate_system(rng: &mut Rng, words: &mut Words) {
    let mut v: Triple = match rng.below(8) {
        0 => one_axis(rng),
        1 => rng.scaled(),
        2 if rng.one_in(2) => small(rng),
        _ => rng.floats(),
    };
    match rng.below(12) {
        // The branch on |x| > |y|: equal, or next to it.
        0 => v[1] = rng.signed(v[0]),
        1 => v[1] = neighbour(v[0], rng.between(-1, 1)),
        // Nothing left under the root in either branch.
        2 => v = [rng.zero(), v[1], rng.zero()],
        3 => v = [v[0], rng.zero(), rng.zero()],
        4 if rng.one_in(2) => v = rng.zeros(),
        _ => {}
    }
    put(words, &v);
}

pub fn swaps_handedness(rng: &mut Rng, words: &mut Words) {
    let mut m = matrix(rng);
    match rng.below(8) {
        // The determinant is zero, or nearly.
        0 => m.copy_within(0..4, 4),
        1 => (0..3).for_each(|k| m[8 + k] = m[k] + m[4 + k]),
        2 => m = rng.scaled(),
        3 => *rng.one_of(&mut m) = rng.special(),
        _ => {}
    }
    put(words, &m);
}

fn add(a: Triple, b: Triple) -> Triple {
    std::array::from_fn(|i| a[i] + b[i])
}

fn min(a: Triple, b: Triple) -> Triple {
    std::array::from_fn(|i| if b[i] < a[i] { b[i] } else { a[i] })
}

fn max(a: Triple, b: Triple) -> Triple {
    std::array::from_fn(|i| if b[i] < a[i] { a[i] } else { b[i] })
}

fn parallel(rng: &mut Rng, v: Triple) -> Triple {
    let factor = match rng.below(4) {
        0 => rng.signed(1.0),
        1 => pow2(rng.between(-20, 20)),
        _ => rng.moderate(),
    };

    v.map(|x| x * factor)
}

fn one_axis(rng: &mut Rng) -> Triple {
    let mut v: Triple = rng.zeros();
    *rng.one_of(&mut v) = if rng.one_in(2) {
        rng.signed(1.0)
    } else {
        rng.mixed()
    };

    v
}

/// Squares underflow, to zero or to a few bits.
fn small(rng: &mut Rng) -> Triple {
    let scale = pow2(rng.between(-80, -66));

    std::array::from_fn(|_| rng.unit() * scale)
}

pub fn identity() -> Matrix {
    std::array::from_fn(|i| if i % 5 == 0 { 1.0 } else { 0.0 })
}

/// The rows of the identity, or of its negative, in some order.
pub fn permutation(rng: &mut Rng) -> Matrix {
    let mut order = [0, 1, 2, 3];
    for i in 1..4 {
        order.swap(i, rng.below(i as u32 + 1) as usize);
    }
    let mut m = [0.0; MATRIX_FLOATS];
    for i in 0..4 {
        m[4 * i + order[i]] = rng.signed(1.0);
    }

    m
}

/// Turned, scaled (mirrored where a factor is negative) and moved.
pub fn placement(rng: &mut Rng) -> Matrix {
    let q: [f64; 4] = std::array::from_fn(|_| rng.unit() as f64);
    let length = q.iter().map(|x| x * x).sum::<f64>().sqrt();
    let [x, y, z, w] = q.map(|x| x / length);
    let turn = [
        [
            1.0 - 2.0 * (y * y + z * z),
            2.0 * (x * y - z * w),
            2.0 * (x * z + y * w),
        ],
        [
            2.0 * (x * y + z * w),
            1.0 - 2.0 * (x * x + z * z),
            2.0 * (y * z - x * w),
        ],
        [
            2.0 * (x * z - y * w),
            2.0 * (y * z + x * w),
            1.0 - 2.0 * (x * x + y * y),
        ],
    ];
    let scale: Triple = match rng.below(3) {
        0 => [1.0; 3],
        1 => [rng.moderate(); 3],
        _ => rng.moderates(),
    };
    let moved: Triple = if rng.one_in(4) {
        std::array::from_fn(|_| rng.limit())
    } else {
        rng.moderates()
    };
    let mut m = identity();
    for i in 0..3 {
        for j in 0..3 {
            m[4 * i + j] = turn[i][j] as f32 * scale[j];
        }
        m[4 * i + 3] = moved[i];
    }

    m
}

pub fn matrix(rng: &mut Rng) -> Matrix {
    let mut m = identity();
    match rng.below(16) {
        0 => {}
        // A move, a scale, a few entries of the identity changed.
        1 => (0..3).for_each(|i| m[4 * i + 3] = rng.limit()),
        2 => (0..3).for_each(|i| m[5 * i] = rng.moderate()),
        3 => (0..3).for_each(|_| *rng.one_of(&mut m) = rng.mixed()),
        4 => m = permutation(rng),
        5 => m = rng.integers(1),
        // Affine.
        6 | 7 => m[..LAST_ROW].copy_from_slice(&rng.floats::<LAST_ROW>()),
        8 => m[..LAST_ROW].copy_from_slice(&rng.moderates::<LAST_ROW>()),
        9 => {
            m = placement(rng);
            *rng.one_of(&mut m) = rng.mixed();
        }
        10 | 11 => m = rng.floats(),
        12 => m = rng.moderates(),
        _ => m = placement(rng),
    }

    m
}

/// A matrix whose last row now and then aims at the weight of p.
fn matrix_at(rng: &mut Rng, p: Triple) -> Matrix {
    let m = matrix(rng);

    aimed(rng, m, p)
}

/// The matrix, its last row now and then changed for the weight of p.
pub fn aimed(rng: &mut Rng, mut m: Matrix, p: Triple) -> Matrix {
    let row: Triple = match rng.below(24) {
        // Zero whatever the point.
        0 => rng.zeros(),
        // One axis only.
        1 => [1.0, 0.0, 0.0],
        2 => [0.0, 0.0, rng.signed(1.0)],
        3 => rng.integers(3),
        4 => rng.moderates(),
        // A weight that is a plain number.
        5 => {
            m[LAST_ROW..].copy_from_slice(&[0.0, 0.0, 0.0, rng.mixed()]);
            return m;
        }
        // A small weight, by underflow or not.
        6 => {
            m[LAST_ROW..].copy_from_slice(&rng.scaled::<4>());
            return m;
        }
        _ => return m,
    };
    let sum = p[0] * row[0] + p[1] * row[1] + p[2] * row[2];
    let last = match rng.below(8) {
        0 => neighbour(-sum, rng.between(-1, 1)),
        1 => 1.0 - sum,
        2 => rng.zero(),
        _ => -sum,
    };
    m[LAST_ROW..].copy_from_slice(&[row[0], row[1], row[2], last]);

    m
}
