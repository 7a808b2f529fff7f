//! The inputs of `intersect`: most beams are aimed at a point of the belt, some are built for one branch
//! or one refusal, a few are left to chance.

use crate::beam::{transform, Beam, Cast, Reply};
use crate::cubic;
use crate::curve_inputs::{parameters, spoil_piece, valid_piece, ENTRY, PIECE};
use crate::flat::{self, in_object};
use crate::inputs::{identity, matrix, permutation, placement, Matrix, Triple, LAST_ROW};
use crate::layout::{
    CURVE_FLOATS, POINTS, RAY_D, RAY_FLOATS, RAY_O, RAY_T_MAX, RECORD_T, UMAX, UMIN, WIDTH0, WIDTH1,
};
use crate::piece::{self, Piece};
use crate::rng::{neighbour, pow2, Rng};
use crate::vector::{cross, normal, scaled, Vector};
use crate::words::Words;
use pbrt::core::transform::Matrix4x4;

pub fn intersect(rng: &mut Rng, words: &mut Words) {
    let mut beam = beam(rng);
    if rng.one_in(12) {
        end_at_hit(rng, &mut beam);
    }
    if rng.one_in(16) {
        spoil(rng, &mut beam.piece, &mut beam.cast);
    }
    beam.put(words);
}

/// Within 01's limits.
pub fn beam(rng: &mut Rng) -> Beam {
    match rng.below(100) {
        0..=73 => aimed(rng),
        74..=78 => at_origin(rng),
        79..=81 => at_turning_point(rng),
        82..=84 => along_tangent(rng),
        85..=87 => tiny_belt(rng),
        88 | 89 => tiny_direction(rng),
        90 | 91 => no_direction(rng),
        92 | 93 => weightless(rng),
        94 => far_origin(rng),
        95 | 96 => no_frame(rng),
        _ => any(rng),
    }
}

/// One for a branch or a refusal that needs no matrix but the identity, and whose piece may be laid.
pub fn without_matrices(rng: &mut Rng) -> Beam {
    let make = rng.pick(&[
        at_origin,
        at_origin,
        at_quarter_turn,
        along_tangent,
        tiny_belt,
        tiny_direction,
        no_direction,
    ]);

    let mut beam = make(rng);
    beam.cast.object_to_world = identity();
    beam.cast.world_to_object = identity();

    beam
}

// The belt.

pub fn belt(rng: &mut Rng) -> Piece {
    if rng.one_in(12) {
        return valid_piece(rng);
    }
    let points = shape(rng);

    belt_of(rng, points)
}

fn belt_of(rng: &mut Rng, points: [Triple; 4]) -> Piece {
    let size = pow2(rng.between(-6, 12));
    let thinner = if rng.one_in(2) { 14 } else { 4 };
    let width = size * pow2(-rng.between(-1, thinner)) * (1.0 + rng.unit().abs());
    let middle: Triple = match rng.below(8) {
        0 | 1 => rng.zeros(),
        2 | 3 => rng.integers(16),
        4 => rng.moderates(),
        _ => std::array::from_fn(|_| rng.unit() * 8.0 * size),
    };
    let points = points.map(|p| triple(|k| middle[k] + p[k] * size));
    let other = if rng.one_in(2) {
        width
    } else {
        width * rng.pick(&[0.25, 0.5, 0.75, 1.5, 4.0])
    };
    let whole = rng.one_in(2);
    let u = if whole { [0.0, 1.0] } else { parameters(rng) };

    held(piece::from_parts(&points, [width, other], u))
}

/// Four points about zero, of size about one.
pub fn shape(rng: &mut Rng) -> [Triple; 4] {
    let along: Triple = unit(rng);
    let across: Triple = unit(rng);
    let drift: Triple = unit(rng).map(|x| x * rng.pick(&[0.0, 0.01, 0.2, 2.0]));
    let bend = pow2(-rng.between(-1, 12));
    let sum = |a: f32, b: f32, c: f32| -> Triple {
        std::array::from_fn(|k| a * along[k] + b * across[k] + c * drift[k])
    };
    match rng.below(16) {
        // An arc, and one that bends to both sides.
        0 | 1 | 2 => [
            sum(-1.0, 0.0, 0.0),
            sum(-0.4, bend, 0.0),
            sum(0.4, bend, 0.0),
            sum(1.0, 0.0, 0.0),
        ],
        3 | 4 => [
            sum(-1.0, 0.0, 0.0),
            sum(-0.4, bend, 0.0),
            sum(0.3, -bend, 0.0),
            sum(1.0, 0.0, bend),
        ],
        5 | 6 | 7 => to_and_fro(along, drift),
        // A loop, with drift a turn of a helix.
        8 | 9 => [
            sum(-1.0, 0.0, -1.5),
            sum(3.0, 2.0, -0.5),
            sum(-3.0, 2.0, 0.5),
            sum(1.0, 0.0, 1.5),
        ],
        // On a line, in any order.
        10 => [rng.unit(), rng.unit(), rng.unit(), rng.unit()].map(|x| sum(x, 0.0, 0.0)),
        11 => repeated(rng),
        12 => [
            rng.integers(2),
            rng.integers(2),
            rng.integers(2),
            rng.integers(2),
        ],
        _ => [unit(rng), unit(rng), unit(rng), unit(rng)],
    }
}

/// Crosses its middle three times.
pub fn to_and_fro(along: Triple, drift: Triple) -> [Triple; 4] {
    [(-1.0, -1.5), (3.0, -0.5), (-3.0, 0.5), (1.0, 1.5)]
        .map(|(a, b)| std::array::from_fn(|k| a * along[k] + b * drift[k]))
}

/// Points that coincide.
fn repeated(rng: &mut Rng) -> [Triple; 4] {
    let (a, b, c) = (unit(rng), unit(rng), unit(rng));
    match rng.below(8) {
        0 => [a, a, a, a],
        1 => [a, a, a, b],
        2 => [a, b, b, b],
        3 => [a, a, b, b],
        4 => [a, b, a, b],
        5 => [a, b, b, a],
        6 => [a, b, b, c],
        _ => [a, b, c, a],
    }
}

pub fn unit(rng: &mut Rng) -> Triple {
    std::array::from_fn(|_| rng.unit())
}

pub fn triple(coordinate: impl Fn(usize) -> f32) -> Triple {
    std::array::from_fn(coordinate)
}

pub fn points_mut(piece: &mut Piece) -> &mut [Triple] {
    piece[POINTS].as_chunks_mut().0
}

/// Within 01's limits of a piece.
pub fn held(mut piece: Piece) -> Piece {
    for x in &mut piece[POINTS] {
        *x = x.clamp(-PIECE.coordinate, PIECE.coordinate);
    }
    for w in &mut piece[WIDTH0..=WIDTH1] {
        *w = w.clamp(1.0 / PIECE.width, PIECE.width);
    }

    piece
}

pub fn moved(mut piece: Piece, by: Triple) -> Piece {
    for p in points_mut(&mut piece) {
        *p = triple(|k| p[k] + by[k]);
    }

    held(piece)
}

/// A point of the belt, with the tangent and half the width there.
pub struct Place {
    pub point: Vector,
    pub tangent: Vector,
    pub half: f64,
}

pub fn place(rng: &mut Rng, piece: &Piece) -> Place {
    let [umin, umax] = [piece[UMIN], piece[UMAX]].map(f64::from);
    let u = umin
        + (umax - umin)
            * match rng.below(16) {
                0 => 0.0,
                1 => 1.0,
                2 => 0.5,
                _ => rng.unit().abs() as f64,
            };
    let (point, tangent) = cubic::at(piece, u);

    Place {
        point,
        tangent,
        half: cubic::half_width(piece, u),
    }
}

/// How far beside the middle of the belt, in halves of its width: at its edge, past it, mostly on it.
pub fn beside(rng: &mut Rng) -> f64 {
    let x = rng.unit() as f64;
    match rng.below(32) {
        0 | 1 => 0.0,
        2 => x.signum(),
        3 => x.signum() * (1.0 + rng.unit() as f64 * pow2(-rng.between(4, 22)) as f64),
        4..=7 => x * 2.0,
        8 => x * 16.0,
        _ => x,
    }
}

// The beam.

fn aimed(rng: &mut Rng) -> Beam {
    let piece = belt(rng);
    let aim = aim(rng, &piece);
    let mut beam = placed(rng, piece, aim.origin, aim.direction);
    beam.cast.ray[RAY_T_MAX] = t_max(rng, &aim);

    beam
}

/// A ray at a piece, where both matrices are the identity.
pub fn ray_at(rng: &mut Rng, piece: &Piece) -> [f32; RAY_FLOATS] {
    let aim = aim(rng, piece);
    let [ox, oy, oz] = aim.origin.map(|x| x as f32);
    let [dx, dy, dz] = aim.direction.map(|x| x as f32);

    [ox, oy, oz, dx, dy, dz, t_max(rng, &aim), rng.moderate()]
}

/// A ray at a point of the belt, in the belt's frame.
struct Aim {
    origin: Vector,
    direction: Vector,
    /// Of the direction.
    length: f64,
    distance: f64,
    half_width: f64,
}

fn aim(rng: &mut Rng, piece: &Piece) -> Aim {
    let place = place(rng, piece);
    let direction = direction(rng, piece, &place);
    let aside = scaled(
        normal(cross(direction, place.tangent)),
        place.half * beside(rng),
    );
    let size = place.half * pow2(rng.between(-2, 12)) as f64;
    let distance = match rng.below(16) {
        0 => 0.0,
        1 => -size,
        _ => size * (rng.unit().abs() as f64 + 0.01),
    };
    let speed = match rng.below(4) {
        0 => pow2(rng.between(-20, 16)) as f64,
        1 => rng.moderate().abs() as f64 + 0.01,
        _ => 1.0,
    };

    Aim {
        origin: std::array::from_fn(|k| place.point[k] + aside[k] - direction[k] * distance),
        direction: scaled(direction, speed),
        length: speed,
        distance,
        half_width: place.half,
    }
}

fn t_max(rng: &mut Rng, aim: &Aim) -> f32 {
    let reaching = |distance: f64| distance.max(0.0) as f32 / aim.length as f32;
    match rng.below(48) {
        0 if rng.one_in(2) => rng.zero(),
        0 => rng.subnormal().abs(),
        1 => rng.moderate().abs(),
        2 => rng.any().abs().max(0.0),
        // About where the width decides: the whole is tested other than the halves.
        3 | 4 | 5 => reaching(aim.distance + aim.half_width * 1.5 * rng.unit() as f64),
        6 => reaching(aim.distance * 0.5),
        7 | 8 => reaching(aim.distance * 2.0),
        _ => f32::INFINITY,
    }
}

fn direction(rng: &mut Rng, piece: &Piece, place: &Place) -> Vector {
    let p = piece::points(piece).map(|p| p.map(f64::from));
    let to = |i: usize| -> Vector { std::array::from_fn(|k| p[i][k] - p[0][k]) };
    let any = unit(rng).map(f64::from);
    let wanted = match rng.below(16) {
        // Along the chord, and the tangent.
        0 => to(3),
        1 => place.tangent,
        // In the belt's plane.
        2 | 3 => std::array::from_fn(|k| to(1)[k] * any[0] + to(3)[k] * any[1]),
        4 | 5 => cross(any, place.tangent),
        6 | 7 => axis(rng).map(f64::from),
        // Through the belt twice.
        8..=11 => {
            let other = self::place(rng, piece).point;
            std::array::from_fn(|k| other[k] - place.point[k])
        }
        _ => any,
    };
    let wanted = normal(wanted);
    if wanted == [0.0; 3] {
        axis(rng).map(f64::from)
    } else {
        wanted
    }
}

pub fn axis(rng: &mut Rng) -> Triple {
    let mut v = [0.0; 3];
    *rng.one_of(&mut v) = rng.signed(1.0);

    v
}

/// The beam that becomes this one in the belt's frame, as near as that can be had.
fn placed(rng: &mut Rng, piece: Piece, origin: Vector, direction: Vector) -> Beam {
    let mut world_to_object = world_to_object(rng);
    let mut ray = in_world(&world_to_object, origin, direction);
    if ray.is_none() && !rng.one_in(4) {
        world_to_object = identity();
        ray = in_world(&world_to_object, origin, direction);
    }
    let [ox, oy, oz, dx, dy, dz] = ray.unwrap_or_else(|| rng.moderates());
    let time = match rng.below(4) {
        0 => 0.0,
        1 => rng.unit() * ENTRY,
        _ => rng.moderate(),
    };

    Beam {
        piece,
        cast: Cast {
            object_to_world: object_to_world(rng, &world_to_object),
            world_to_object,
            reverse: rng.one_in(2),
            ray: [ox, oy, oz, dx, dy, dz, f32::INFINITY, time],
        },
    }
}

/// None where the matrix is singular, or the origin beyond 01's limit.
fn in_world(m: &Matrix, origin: Vector, direction: Vector) -> Option<[f32; 6]> {
    let row = |i: usize| [0, 1, 2, 3].map(|k| m[4 * i + k] as f64);
    let [x, y, z] = origin;
    let [x, y, z, w] = solved([row(0), row(1), row(2), row(3)], [x, y, z, 1.0])?;
    let origin = [x / w, y / w, z / w].map(|x| x as f32);
    let upper = |i: usize| [0, 1, 2].map(|k| m[4 * i + k] as f64);
    let direction = solved([upper(0), upper(1), upper(2)], direction)?;
    let largest = direction.iter().fold(0.0, |a: f64, x| a.max(x.abs()));
    let fitting = (ENTRY as f64 / largest).min(1.0);
    let direction = direction.map(|x| (x * fitting) as f32);
    if origin.iter().any(|x| !(x.abs() <= ENTRY)) || direction.iter().any(|x| x.is_nan()) {
        return None;
    }
    let ([ox, oy, oz], [dx, dy, dz]) = (origin, direction);

    Some([ox, oy, oz, dx, dy, dz])
}

fn world_to_object(rng: &mut Rng) -> Matrix {
    let mut m = identity();
    match rng.below(24) {
        0..=9 => {}
        10..=12 => (0..3).for_each(|i| m[4 * i + 3] = rng.integer(64)),
        13 => (0..3).for_each(|i| m[5 * i] = pow2(rng.between(-8, 8)) * rng.signed(1.0)),
        14 => m = permutation(rng),
        15..=18 => m = placement(rng),
        // Weights other than one: the same for all points, or not.
        19 => {
            m = placement(rng);
            m[LAST_ROW + 3] = rng.pick(&[0.5, 2.0, -1.0, 3.0, 0.1, 1.0e-6, 1.0e6]);
        }
        20 => {
            (0..3).for_each(|i| m[LAST_ROW + i] = rng.unit() * pow2(-rng.between(0, 12)));
            m[LAST_ROW + 3] = rng.pick(&[1.0, 1.0, 2.0, -0.5]);
        }
        21 => {
            let (i, j) = (rng.below(3) as usize, rng.below(3) as usize);
            m = placement(rng);
            match rng.below(3) {
                0 => m[4 * i..4 * i + 4].copy_from_slice(&rng.zeros::<4>()),
                1 => m.copy_within(4 * i..4 * i + 4, 4 * j),
                _ => (0..3).for_each(|k| m[4 * k + i] = rng.zero()),
            }
        }
        22 => {
            let kept = 1 + rng.below(16);
            for entry in &mut m {
                if rng.below(16) < kept {
                    *entry = rng.signed(ENTRY);
                }
            }
        }
        _ => m = matrix(rng),
    }

    within(rng, m)
}

/// Often has nothing to do with the other.
fn object_to_world(rng: &mut Rng, world_to_object: &Matrix) -> Matrix {
    let m = match rng.below(6) {
        0 => identity(),
        1 => permutation(rng),
        2 => *world_to_object,
        3 => matrix(rng),
        4 => placement(rng),
        _ => {
            let inverse = Matrix4x4::inverse(&transform(world_to_object).m);
            let entry = |i: usize| inverse.m[i / 4][i % 4];
            std::array::from_fn(entry)
        }
    };

    within(rng, m)
}

fn within(rng: &mut Rng, m: Matrix) -> Matrix {
    m.map(|x| limited(rng, x))
}

/// The number, or one within 01's limit.
fn limited(rng: &mut Rng, x: f32) -> f32 {
    if x.abs() <= ENTRY {
        x
    } else {
        rng.moderate()
    }
}

// Beams for one branch or one refusal.

/// A beam through matrices that keep numbers as they are.
pub fn plain(rng: &mut Rng, piece: Piece, origin: Triple, direction: Triple) -> Beam {
    let mut object_to_world = identity();
    if rng.one_in(2) {
        object_to_world = permutation(rng);
    }
    let [ox, oy, oz] = origin;
    let [dx, dy, dz] = direction;

    Beam {
        piece,
        cast: Cast {
            object_to_world,
            world_to_object: identity(),
            reverse: rng.one_in(2),
            ray: [ox, oy, oz, dx, dy, dz, f32::INFINITY, rng.moderate()],
        },
    }
}

/// A number that leaves room for exact sums.
pub fn round(rng: &mut Rng) -> f32 {
    rng.integer(16) * pow2(rng.between(-2, 2))
}

/// The belt lies across the beam where it begins, so that the distance is zero, or next to it.
pub fn at_origin(rng: &mut Rng) -> Beam {
    let mut along = axis(rng);
    let speed = pow2(rng.between(-20, 20));
    let mut piece = if rng.one_in(2) {
        let points = to_and_fro(unit(rng), [0.0; 3]);
        belt_of(rng, points)
    } else {
        belt(rng)
    };
    let origin: Triple = match rng.below(8) {
        0..=3 => rng.zeros(),
        4 => [round(rng), round(rng), round(rng)],
        5 => unit(rng),
        // All of it on the negative side and near zero: there a zero may be negative too.
        _ => {
            let reach = piece[POINTS].iter().fold(0.125, |a: f32, x| a.max(x.abs()));
            piece[..=WIDTH1]
                .iter_mut()
                .for_each(|x| *x *= 0.125 / reach);
            piece = held(piece);
            along = along.map(|x| -x.abs());
            along.map(|x| (1.0 + x) * -0.75)
        }
    };
    let mut beam = plain(rng, piece, origin, along.map(|x| x * speed));
    let shift = rng.pick(&[0.0, -0.0, -0.0, 1.0]) * rng.below(8) as f32;
    (0..3).for_each(|i| beam.cast.world_to_object[4 * i + 3] = shift);
    let begin = in_object(&beam.cast).expect("a weight of one").o;
    let begin = [begin.x, begin.y, begin.z];
    let place = place(rng, &piece);
    let aside = scaled(
        normal(cross(along.map(f64::from), place.tangent)),
        place.half * 0.9 * rng.unit() as f64,
    );
    let by = std::array::from_fn(|k| (begin[k] as f64 - place.point[k] + aside[k]) as f32);
    let mut piece = moved(piece, by);
    let depths: [f32; 4] = match rng.below(8) {
        // The distance may underflow, or change its sign on the way.
        0 => [pow2(-rng.between(100, 149)); 4],
        1 => [-1.0, -1.0, 1.0, 1.0],
        2 => [0.0, 0.0, rng.unit(), rng.unit()],
        3 => rng.zeros(),
        _ => [0.0; 4],
    };
    for (p, depth) in points_mut(&mut piece).iter_mut().zip(depths) {
        for k in (0..3).filter(|k| along[*k] != 0.0) {
            p[k] = begin[k] + depth * along[k];
        }
    }
    beam.piece = held(piece);
    if rng.one_in(8) {
        beam.cast.ray[RAY_T_MAX] = rng.zero();
    }

    beam
}

/// The belt runs out and back over itself: where it turns, the derivative and the chord are zero.
fn at_turning_point(rng: &mut Rng) -> Beam {
    out_and_back(rng, [0.0, 1.0, 1.0, 0.0], 0.75)
}

/// The same without equal neighbours: the belt turns at u = 1/4, and once more behind.
fn at_quarter_turn(rng: &mut Rng) -> Beam {
    out_and_back(rng, [0.0, 5.0, -3.0, 0.0], 1.6875)
}

/// A belt on a line, its points so many steps out, and a beam at where it turns.
fn out_and_back(rng: &mut Rng, steps: [f32; 4], turn: f32) -> Beam {
    let along = axis(rng);
    let a: Triple = [round(rng), round(rng), round(rng)];
    let out: Triple = [round(rng), round(rng), round(rng)];
    let stepped = |by: f32| triple(|k| a[k] + by * out[k]);
    let width = pow2(rng.between(-8, 5));
    let ends = [
        [0.0, 1.0],
        [0.0, 0.5],
        [0.5, 1.0],
        [0.25, 0.5],
        [0.25, 0.75],
    ];
    let piece = piece::from_parts(&steps.map(stepped), [width; 2], rng.pick(&ends));
    let turn = stepped(turn);
    let outward = normal(out.map(f64::from)).map(|x| x as f32);
    let past = rng.pick(&[0.0, 0.125, 0.25, 0.375]) * width;
    let distance = 1.0 + rng.below(64) as f32;
    let origin = std::array::from_fn(|k| turn[k] + outward[k] * past - along[k] * distance);

    plain(rng, held(piece), origin, along)
}

/// The belt swings about the beam, and in its middle goes along it.
fn along_tangent(rng: &mut Rng) -> Beam {
    let along = axis(rng);
    let swing = [round(rng), round(rng), round(rng)];
    let step = rng.pick(&[0.0, 0.5, 1.0, 4.0]);
    let distance = 1.0 + rng.below(64) as f32;
    let origin: Triple = [round(rng), round(rng), round(rng)];
    let points = [0, 1, 2, 3].map(|i| {
        let side = [-1.0, 1.0][i % 2];
        triple(|k| {
            let ahead = along[k] * (distance + i as f32 * step);
            let aside = swing[k] * side * (1.0 - along[k].abs());
            origin[k] + ahead + aside
        })
    });
    let width = pow2(rng.between(-6, 7));
    let ends = [[0.0, 1.0], [0.0, 0.5], [0.5, 1.0], [0.25, 0.75]];
    let piece = piece::from_parts(&points, [width; 2], rng.pick(&ends));

    plain(rng, held(piece), origin, along)
}

/// A belt so short that squares of its derivative, or of its normal, underflow.
pub fn tiny_belt(rng: &mut Rng) -> Beam {
    let along = axis(rng);
    let size = pow2(rng.between(-76, -56));
    let distance = if rng.one_in(4) {
        size
    } else {
        1.0 + rng.below(64) as f32
    };
    let points = shape(rng).map(|p| {
        triple(|k| {
            if along[k] == 0.0 {
                p[k] * size
            } else {
                along[k] * distance
            }
        })
    });
    let width = pow2(rng.between(-11, 4));
    let piece = piece::from_parts(&points, [width; 2], [0.0, 1.0]);
    let origin = rng.zeros();

    plain(rng, piece, origin, along)
}

/// The square of the direction underflows; the direction from the origin on, rounded up, need not.
pub fn tiny_direction(rng: &mut Rng) -> Beam {
    let along = axis(rng);
    let size = pow2(-75 - rng.pick(&[0, 0, 0, 0, 0, 1, 4, -2]));
    let origin = along.map(|x| {
        let odd = (1 << 23) + 2 * rng.below(1 << 22) + 1;
        x * odd as f32 * pow2(-74)
    });
    let piece = facing(rng, along);
    let direction = along.map(|x| x * size);

    plain(rng, piece, origin, direction)
}

/// A large belt that the axis meets from zero on.
fn facing(rng: &mut Rng, along: Triple) -> Piece {
    let size = pow2(rng.between(-2, 18));
    let points = shape(rng).map(|p| triple(|k| (p[k] + 4.0 * along[k]) * size));
    let width = size * pow2(rng.between(-8, 0));
    let piece = held(piece::from_parts(&points, [width; 2], [0.0, 1.0]));
    let place = place(rng, &piece);
    let by = std::array::from_fn(|k| {
        if along[k] == 0.0 {
            -place.point[k] as f32
        } else {
            0.0
        }
    });

    moved(piece, by)
}

/// A direction of length zero, or lost in the origin.
fn no_direction(rng: &mut Rng) -> Beam {
    let mut beam = aimed(rng);
    let direction: Triple = match rng.below(6) {
        0 => rng.zeros(),
        1 => std::array::from_fn(|_| rng.subnormal()),
        2 => unit(rng).map(|x| x * pow2(-rng.between(70, 80))),
        // Without a chord, and its square zero in the plane that is divided by.
        3 => {
            let first = piece::points(&beam.piece)[0];
            points_mut(&mut beam.piece).fill(first);
            axis(rng).map(|x| x * pow2(-rng.between(70, 80)))
        }
        _ => {
            let origin = beam.cast.ray[RAY_O].iter_mut();
            origin.for_each(|x| *x = rng.signed(ENTRY) * rng.unit());
            unit(rng).map(|x| x * pow2(-rng.between(2, 20)))
        }
    };
    beam.cast.ray[RAY_D].copy_from_slice(&direction);

    beam
}

/// The origin's weight is zero, or next to it.
fn weightless(rng: &mut Rng) -> Beam {
    let mut beam = aimed(rng);
    let row: Triple = match rng.below(4) {
        0 => rng.zeros(),
        1 => axis(rng),
        _ => rng.integers(3),
    };
    let o = &beam.cast.ray[RAY_O];
    let sum = o[0] * row[0] + o[1] * row[1] + o[2] * row[2];
    let last = match rng.below(6) {
        0 => neighbour(-sum, rng.between(-1, 1)),
        _ => -sum,
    };
    let row = if last.abs() <= ENTRY {
        [row[0], row[1], row[2], last]
    } else {
        rng.zeros()
    };
    beam.cast.world_to_object[LAST_ROW..].copy_from_slice(&row);

    beam
}

/// So small a weight that the origin goes out of reach, or to infinity: then the frame is of NaNs.
pub fn far_origin(rng: &mut Rng) -> Beam {
    let mut piece = belt(rng);
    let size = pow2(rng.between(15, 21));
    for x in &mut piece[POINTS] {
        *x = rng.integer(4) * 0.25 * size;
    }
    let mut origin: Triple = rng.zeros();
    *rng.one_of(&mut origin) = rng.signed(ENTRY) * rng.pick(&[1.0, 0.75, 0.5, 1.0e-3]);
    let direction = unit(rng);
    let mut beam = plain(rng, held(piece), origin, direction);
    beam.cast.world_to_object[LAST_ROW + 3] = if rng.one_in(4) {
        rng.subnormal()
    } else {
        pow2(-rng.between(100, 109)) * rng.signed(1.0)
    };

    beam
}

/// `look_at` gives the identity.
fn no_frame(rng: &mut Rng) -> Beam {
    let mut beam = plain(rng, [0.0; CURVE_FLOATS], [0.0; 3], [0.0; 3]);
    let points = if rng.one_in(2) {
        overflowing_up(rng, &mut beam.cast)
    } else {
        parallel_up(rng, &mut beam.cast)
    };
    beam.piece = as_wide_as_can_be(&points);

    beam
}

/// The square of the up vector overflows: the longest direction there is, and nearly the longest chord across
/// it.
fn overflowing_up(rng: &mut Rng, cast: &mut Cast) -> [Triple; 4] {
    let signs: Triple = std::array::from_fn(|_| rng.signed(1.0));
    let chord = [-signs[1], signs[0], 0.0];
    for i in 0..3 {
        let sign = rng.signed(1.0);
        (0..3).for_each(|k| cast.world_to_object[4 * i + k] = sign * signs[k] * ENTRY);
        cast.ray[RAY_D][i] = signs[i] * ENTRY;
    }
    let ahead = rng.pick(&[0.0, 1.0, 1000.0, PIECE.coordinate]);
    let bend = unit(rng).map(|x| x * pow2(rng.between(0, 18)));

    [(-1.0, 0.0), (-0.3, 1.0), (0.3, -1.0), (1.0, 0.0)].map(|(along, bent)| {
        let [x, y, z] = triple(|k| chord[k] * (along * PIECE.coordinate) + bend[k] * bent);
        [x, y, z + ahead]
    })
}

/// The up vector lies along all that the origin leaves of the direction.
pub fn parallel_up(rng: &mut Rng, cast: &mut Cast) -> [Triple; 4] {
    let mut points = piece::points(&belt(rng));
    let (lost, kept) = rng.pick(&[(0, 1), (0, 2), (1, 2), (1, 0), (2, 0), (2, 1)]);
    let level = points[0][kept];
    points.iter_mut().for_each(|p| p[kept] = level);
    cast.ray[RAY_O][lost] = ENTRY;
    cast.ray[RAY_D][lost] = pow2(-5);
    cast.ray[RAY_D][kept] = pow2(-rng.between(80, 85));
    (0..3).for_each(|i| cast.world_to_object[5 * i] = pow2(10));

    points
}

pub fn as_wide_as_can_be(points: &[Triple; 4]) -> Piece {
    held(piece::from_parts(points, [PIECE.width; 2], [0.0, 1.0]))
}

fn any(rng: &mut Rng) -> Beam {
    let piece = valid_piece(rng);
    let world_to_object = matrix(rng);
    let world_to_object = within(rng, world_to_object);
    let ray: [f32; RAY_FLOATS] = rng.floats();
    let mut ray = ray.map(|x| limited(rng, x));
    ray[RAY_T_MAX] = rng.pick(&[f32::INFINITY, ray[RAY_T_MAX].abs()]);

    Beam {
        piece,
        cast: Cast {
            object_to_world: object_to_world(rng, &world_to_object),
            world_to_object,
            reverse: rng.one_in(2),
            ray,
        },
    }
}

/// t_max where the hit is, or next to it.
pub fn end_at_hit(rng: &mut Rng, beam: &mut Beam) {
    if let Reply::Hit(_, record) = flat::read(beam).reply {
        let t = record[RECORD_T];
        if t > 0.0 && t.is_finite() {
            beam.cast.ray[RAY_T_MAX] = neighbour(t, rng.between(-1, 1));
        }
    }
}

/// One number or a few, at 01's limit, beyond it, or anything.
pub fn spoil(rng: &mut Rng, piece: &mut Piece, cast: &mut Cast) {
    let faults = rng.pick(&[1, 1, 1, 1, 1, 1, 3]);
    (0..faults).for_each(|_| spoil_one(rng, piece, cast));
}

fn spoil_one(rng: &mut Rng, piece: &mut Piece, cast: &mut Cast) {
    let limit = rng.signed(ENTRY);
    let number = match rng.below(8) {
        0 | 1 => limit,
        2 | 3 | 4 => neighbour(limit, 1),
        5 => rng.any(),
        _ => rng.special(),
    };
    match rng.below(8) {
        0 | 1 => spoil_piece(rng, piece),
        2 => *rng.one_of(&mut cast.object_to_world) = number,
        3 => *rng.one_of(&mut cast.world_to_object) = number,
        4 => {
            let wrong = [-pow2(-149), -1.0, f32::NEG_INFINITY, f32::NAN, -0.0];
            cast.ray[RAY_T_MAX] = rng.pick(&wrong);
        }
        _ => *rng.one_of(&mut cast.ray) = number,
    }
}

// Aiming.

/// The x with a x = b, unless a is singular.
fn solved<const N: usize>(mut a: [[f64; N]; N], mut b: [f64; N]) -> Option<[f64; N]> {
    for i in 0..N {
        let best = (i..N).max_by(|j, k| a[*j][i].abs().total_cmp(&a[*k][i].abs()))?;
        a.swap(i, best);
        b.swap(i, best);
        if a[i][i] == 0.0 {
            return None;
        }
        for j in (0..N).filter(|j| *j != i) {
            let factor = a[j][i] / a[i][i];
            let row = a[i];
            (0..N).for_each(|k| a[j][k] -= row[k] * factor);
            b[j] -= b[i] * factor;
        }
    }

    Some(std::array::from_fn(|i| b[i] / a[i][i]))
}
