//! The inputs of the kinds that take or lay pieces: most within 01's limits, many at one, some beyond.

use crate::inputs::{aimed, matrix, Triple, LAST_ROW};
use crate::kinds::curve_of;
use crate::layout::{CURVE_FLOATS, POINTS, UMAX, UMIN, WIDTH0, WIDTH1};
use crate::limits::{has_equal_neighbours, ShapeParams};
use crate::piece::{self, Piece};
use crate::rng::{neighbour, pow2, Rng};
use crate::words::{put, Words};
use pbrt::core::shape::Shape;
use pbrt::core::transform::Transform;

/// How far coordinates and widths go.
pub struct Reach {
    pub coordinate: f32,
    pub width: f32,
}

pub const PIECE: Reach = Reach {
    coordinate: 2_097_152.0,
    width: 2048.0,
};

pub const LAID: Reach = Reach {
    coordinate: 1_048_576.0,
    width: 1024.0,
};

/// 01's limit on matrix entries.
pub const ENTRY: f32 = 1_048_576.0;

pub fn piece(rng: &mut Rng, words: &mut Words) {
    let piece = if rng.one_in(2) {
        valid_piece(rng)
    } else {
        spoilt_piece(rng)
    };
    put(words, &piece);
}

pub fn world_bound(rng: &mut Rng, words: &mut Words) {
    let piece = if rng.one_in(5) {
        spoilt_piece(rng)
    } else {
        valid_piece(rng)
    };
    let bounds = curve_of(&piece, Transform::default()).object_bound();
    // The sum gives a zero its sign, which the Rust leaves open.
    let corner: Triple = std::array::from_fn(|i| bounds[rng.below(2) as usize][i] + 0.0);
    let mut m = matrix(rng);
    if !rng.one_in(16) {
        for entry in &mut m {
            if !(entry.abs() <= ENTRY) {
                *entry = rng.moderate();
            }
        }
    }
    if rng.one_in(2) {
        m = aimed(rng, m, corner);
    }
    match rng.below(16) {
        0 => *rng.one_of(&mut m) = rng.signed(ENTRY),
        1 => *rng.one_of(&mut m) = neighbour(rng.signed(ENTRY), 1),
        2 => *rng.one_of(&mut m) = rng.special(),
        3 => *rng.one_of(&mut m) = rng.any(),
        4 => m = std::array::from_fn(|_| rng.signed(ENTRY)),
        // A weight whose reciprocal overflows, now and then with nothing to multiply it with.
        5 => {
            m[LAST_ROW..].copy_from_slice(&[0.0, 0.0, 0.0, rng.subnormal()]);
            let row = 4 * rng.below(4) as usize;
            if row < LAST_ROW {
                m[row..row + 4].copy_from_slice(&rng.zeros::<4>());
            }
        }
        _ => {}
    }
    put(words, &piece);
    put(words, &m);
}

pub fn valid_piece(rng: &mut Rng) -> Piece {
    let floats = points(rng, 4, &PIECE);
    let (points, _) = floats.as_chunks();

    piece::from_parts(points, widths(rng, &PIECE), parameters(rng))
}

fn spoilt_piece(rng: &mut Rng) -> Piece {
    let mut piece = valid_piece(rng);
    spoil_piece(rng, &mut piece);

    piece
}

/// One float, or umin and umax, at a limit, beyond it, or anything.
pub fn spoil_piece(rng: &mut Rng, piece: &mut Piece) {
    match rng.below(4) {
        0 => *rng.one_of(&mut piece[POINTS]) = edge_coordinate(rng, &PIECE),
        1 => *rng.one_of(&mut piece[WIDTH0..=WIDTH1]) = edge_width(rng, &PIECE),
        2 => piece[UMIN..=UMAX].copy_from_slice(&edge_parameters(rng)),
        _ => *rng.one_of(piece) = rng.mixed(),
    }
}

/// The coordinates of n points, of one sort and within reach; now and then degenerate.
pub fn points(rng: &mut Rng, n: u32, reach: &Reach) -> Vec<f32> {
    let n = n as usize;
    let most = reach.coordinate;
    let sort = rng.below(16);
    let scale = pow2(rng.between(-149, 18));
    let mut floats: Vec<f32> = (0..3 * n)
        .map(|_| match sort {
            0 => rng.signed(most),
            1 => neighbour(rng.signed(most), -(rng.below(2) as i32)),
            2 => rng.unit() * most,
            // Squares of differences underflow, or not.
            3 => rng.unit() * scale,
            4 => rng.integer(3) * scale,
            5 => rng.integer(3),
            6 if rng.one_in(2) => rng.zero(),
            7 => rng.subnormal(),
            8 => rng.unit(),
            9 => rng.power().clamp(-most, most),
            _ => rng.moderate(),
        })
        .collect();
    match rng.below(16) {
        // All equal, or nearly.
        0 => (3..3 * n).for_each(|i| floats[i] = floats[i - 3]),
        1 => (3..3 * n).for_each(|i| {
            let x = floats[i % 3];
            floats[i] = if x.abs() < most && rng.one_in(2) {
                neighbour(x, 1)
            } else {
                x
            };
        }),
        // Some equal to the one before.
        2 => (1..n).for_each(|i| {
            if rng.one_in(2) {
                floats.copy_within(3 * i - 3..3 * i, 3 * i);
            }
        }),
        // Last equal to first.
        3 if n > 0 => floats.copy_within(0..3, 3 * n - 3),
        // On a line.
        4 => {
            let from: Triple = rng.integers(100);
            let step: Triple = rng.integers(8);
            (0..3 * n).for_each(|i| floats[i] = from[i % 3] + (i / 3) as f32 * step[i % 3] * 0.5);
        }
        _ => {}
    }

    floats
}

pub fn widths(rng: &mut Rng, reach: &Reach) -> [f32; 2] {
    let (least, most) = (1.0 / reach.width, reach.width);
    let both = std::array::from_fn(|_| match rng.below(8) {
        0 => rng.pick(&[least, most]),
        1 => rng.pick(&[neighbour(least, 1), neighbour(most, -1)]),
        2 => pow2(rng.between(-10, 10)),
        3 => 1.0,
        4 => rng.unit().abs().max(least) * most,
        _ => rng.moderate().abs().clamp(least, most),
    });
    if rng.one_in(4) {
        [both[0]; 2]
    } else {
        both
    }
}

/// umin and umax.
pub fn parameters(rng: &mut Rng) -> [f32; 2] {
    let u = (rng.unit().abs(), rng.unit().abs());
    match rng.below(8) {
        // As laid.
        0 | 1 | 2 => {
            let pieces = 1 << rng.below(11);
            let i = rng.below(pieces);

            [i as f32 / pieces as f32, (i + 1) as f32 / pieces as f32]
        }
        3 => [rng.zero(), 1.0],
        4 if u.0 > 0.0 => [neighbour(u.0, -1), u.0],
        5 => [rng.zero(), pow2(rng.between(-149, -1))],
        _ if u.0 < u.1 => [u.0, u.1],
        _ if u.1 < u.0 => [u.1, u.0],
        _ => [0.0, 1.0],
    }
}

fn edge_coordinate(rng: &mut Rng, reach: &Reach) -> f32 {
    let most = rng.signed(reach.coordinate);
    match rng.below(8) {
        0 | 1 => most,
        2 | 3 | 4 => neighbour(most, 1),
        5 => rng.any(),
        6 => rng.edge(),
        _ => rng.special(),
    }
}

fn edge_width(rng: &mut Rng, reach: &Reach) -> f32 {
    let (least, most) = (1.0 / reach.width, reach.width);
    match rng.below(12) {
        0 => least,
        1 => most,
        2 | 3 => neighbour(least, -1),
        4 | 5 => neighbour(most, 1),
        6 => rng.zero(),
        7 => -1.0,
        8 => rng.subnormal(),
        9 => rng.any(),
        _ => rng.special(),
    }
}

fn edge_parameters(rng: &mut Rng) -> [f32; 2] {
    let [umin, umax] = parameters(rng);
    match rng.below(12) {
        0 => [rng.zero(), umax],
        1 => [umin, 1.0],
        2 => [umin, neighbour(1.0, 1)],
        3 => [-pow2(-149), umax],
        4 => [umin, umin],
        5 => [umax, umin],
        6 => [umin, neighbour(umin, 1)],
        7 => rng.zeros(),
        8 => [1.0, 1.0],
        9 => [rng.special(), umax],
        10 => [umin, rng.special()],
        _ => [rng.any(), rng.any()],
    }
}

/// The coordinates of n points to lay.
pub fn laid_points(rng: &mut Rng, n: u32) -> Vec<f32> {
    let floats = points(rng, n, &LAID);

    mostly_parted(rng, floats)
}

/// Mostly each point that equals the one before it is moved, by one coordinate and as little as can be.
pub fn mostly_parted(rng: &mut Rng, mut floats: Vec<f32>) -> Vec<f32> {
    if rng.one_in(8) {
        return floats;
    }
    for at in (3..floats.len()).step_by(3) {
        if has_equal_neighbours(&floats[at - 3..at + 3]) {
            let x = rng.one_of(&mut floats[at..at + 3]);
            *x = neighbour(*x, if *x == 0.0 { 1 } else { -1 });
        }
    }

    floats
}

/// Sets a point, often the second or the last, to the one before it, and then now and then keeps the two apart.
pub fn double(rng: &mut Rng, floats: &mut [f32]) {
    let n = floats.len() / 3;
    if n < 2 {
        return;
    }
    let i = match rng.below(4) {
        0 => 1,
        1 => n - 1,
        _ => 1 + rng.below(n as u32 - 1) as usize,
    };
    floats.copy_within(3 * i - 3..3 * i, 3 * i);
    let at = 3 * i + rng.below(3) as usize;
    let both = match rng.below(16) {
        // In two coordinates alone, by much or by little.
        0 | 1 => [floats[at], rng.moderate()],
        2 | 3 => [floats[at], neighbour(floats[at], 1)],
        4 | 5 => rng.zeros(),
        6 => [f32::NAN; 2],
        7 => [rng.special(), rng.special()],
        8 => [rng.signed(f32::INFINITY); 2],
        9 => [neighbour(rng.signed(LAID.coordinate), 1); 2],
        _ => return,
    };
    [floats[at - 3], floats[at]] = both;
}

pub fn create_curve_shape(rng: &mut Rng, words: &mut Words) {
    let degree = 2 + rng.below(2);
    let basis = rng.below(2);
    let (n, split) = size(rng, degree, basis);
    let mut params = ShapeParams {
        degree,
        basis,
        ty: 0,
        widths: widths(rng, &LAID),
        split,
        list_len: 0,
        floats: laid_points(rng, n),
    };
    if rng.one_in(8) {
        double(rng, &mut params.floats);
    }
    let mut short = false;
    let faults = match rng.below(32) {
        0..=22 => 0,
        23..=29 => 1,
        _ => 3,
    };
    for _ in 0..faults {
        match rng.below(8) {
            0 => params.degree = wild(rng, &[0, 1, 4, 5, 0x102, 0x4040_0000]),
            1 => params.basis = wild(rng, &[2, 3, 0x100]),
            2 => miscount(rng, &mut params.floats),
            3 => params.ty = wild(rng, &[1, 2, 3, 0x100]),
            4 => params.split = wild(rng, &[11, 12, 13, 31, 32, 33, 63, 64, 65]),
            // Too many pieces from few points.
            5 => {
                params.split = rng.between(8, 10) as u32;
                let segments = (1024 >> params.split) + 1 + rng.below(3);
                params.floats = laid_points(rng, points_of(degree, basis, segments));
            }
            6 => spoil(rng, &mut params),
            _ => short = true,
        }
    }
    const FLOATS: u32 = CURVE_FLOATS as u32;
    let needed = FLOATS * pieces_of(degree, basis, &params);
    params.list_len = if short {
        rng.pick(&[
            0,
            needed / 2,
            needed.saturating_sub(FLOATS),
            needed.saturating_sub(1),
        ])
    } else {
        needed + rng.pick(&[0, 0, 0, 0, 1, FLOATS - 1, FLOATS, 100])
    };
    words.extend([params.degree, params.basis, params.ty]);
    put(words, &params.widths);
    words.extend([params.split, params.list_len, params.floats.len() as u32]);
    put(words, &params.floats);
}

/// How many points, and the split depth: mostly few pieces.
fn size(rng: &mut Rng, degree: u32, basis: u32) -> (u32, u32) {
    let (segments, split) = match rng.below(1000) {
        // At 256 points.
        0..=9 => return (rng.between(253, 260) as u32, rng.below(3)),
        // At 1,024 pieces.
        10..=21 => {
            let split = rng.between(3, 10) as u32;
            ((1024 >> split) - 1 + rng.below(3), split)
        }
        // The same, where that takes too many points.
        22 if basis == 1 => {
            let split = rng.below(3);
            ((1024 >> split) - 1 + rng.below(3), split)
        }
        // Any count of points, right or wrong.
        23..=150 => return (rng.below(13), rng.below(4)),
        // No segment at all.
        151..=180 => (0, rng.below(11)),
        181..=220 => (1, rng.below(8)),
        221..=500 => (1 + rng.below(8), rng.below(4)),
        _ => (1 + rng.below(3), rng.below(3)),
    };

    (points_of(degree, basis, segments), split)
}

pub fn points_of(degree: u32, basis: u32, segments: u32) -> u32 {
    if basis == 0 {
        segments * degree + 1
    } else {
        segments + degree
    }
}

/// How many pieces the points make, whatever else is wrong; never more than 01 allows.
fn pieces_of(degree: u32, basis: u32, params: &ShapeParams) -> u32 {
    let n = params.floats.len() as u32 / 3;
    let segments = if basis == 0 {
        n.saturating_sub(1) / degree
    } else {
        n.saturating_sub(degree)
    };

    (segments << params.split.min(10)).min(1024)
}

/// Mostly one of the list; else one with its top bit set, or any word.
fn wild(rng: &mut Rng, list: &[u32]) -> u32 {
    match rng.below(8) {
        0 => rng.next() as u32,
        1 => u32::MAX,
        2 => rng.pick(list) | 1 << 31,
        _ => rng.pick(list),
    }
}

/// A few floats more or fewer, or none.
fn miscount(rng: &mut Rng, floats: &mut Vec<f32>) {
    let few = 1 + rng.below(4) as usize;
    match rng.below(8) {
        0 => floats.clear(),
        1 | 2 | 3 => floats.truncate(floats.len().saturating_sub(few)),
        _ => floats.extend((0..few).map(|_| rng.moderate())),
    }
}

/// A width, or a coordinate, often the first or the last, at 01's limit, beyond it, or anything.
pub fn spoil(rng: &mut Rng, params: &mut ShapeParams) {
    let len = params.floats.len();
    if len == 0 || rng.one_in(2) {
        *rng.one_of(&mut params.widths) = edge_width(rng, &LAID);
    } else {
        let at = match rng.below(4) {
            0 => 0,
            1 => len - 1,
            _ => rng.below(len as u32) as usize,
        };
        params.floats[at] = edge_coordinate(rng, &LAID);
    }
}
