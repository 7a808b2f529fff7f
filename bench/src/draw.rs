//! Inputs, drawn from fixed seeds. A belt is a piece of a curve; a place is where the belt stands in the hall,
//! turned and moved, and shared by all beams of a row, as a scene's curves share theirs. A beam is aimed at a
//! point of the belt or beside it, and a row keeps the first beams that ours answers as the row wants it.

use crate::cubic;
use crate::layout::{MATRIX_FLOATS, MOST_RATE, RAY_FLOATS, UMAX, UMIN};
use crate::ours::{self, Answer, List};
use crate::piece::{self, Piece};
use crate::vector::{cross, difference, length, normal, scaled, sum, Vector};
use std::sync::Arc;

/// By rows.
pub type Matrix = [f32; MATRIX_FLOATS];

pub struct Place {
    pub object_to_world: Matrix,
    pub world_to_object: Matrix,
}

pub struct Beam {
    pub piece: Piece,
    pub place: Arc<Place>,
    pub reverse: bool,
    pub ray: [f32; RAY_FLOATS],
}

/// The pieces of a belt, which stand at one place, and rays at them.
pub struct Hall {
    pub belt: Belt,
    pub list: Box<List>,
    pub place: Place,
    pub reverse: bool,
    pub rays: Vec<[f32; RAY_FLOATS]>,
}

/// What laying takes.
pub struct Belt {
    /// Three floats a point.
    pub points: Vec<f32>,
    pub spline: bool,
    pub widths: [f32; 2],
    pub split: u32,
}

/// So many that branches cannot be learnt by heart, and that all of them stay in the cache.
pub const BEAMS: usize = 1024;

/// splitmix64.
pub struct Rng(pub u64);

impl Rng {
    fn next(&mut self) -> u64 {
        self.0 = self.0.wrapping_add(0x9e37_79b9_7f4a_7c15);
        let z = (self.0 ^ (self.0 >> 30)).wrapping_mul(0xbf58_476d_1ce4_e5b9);
        let z = (z ^ (z >> 27)).wrapping_mul(0x94d0_49bb_1331_11eb);

        z ^ (z >> 31)
    }

    fn below(&mut self, n: u64) -> u64 {
        self.next() % n
    }

    fn between(&mut self, low: f64, high: f64) -> f64 {
        low + (high - low) * (self.next() >> 11) as f64 / (1u64 << 53) as f64
    }

    fn vector(&mut self, size: f64) -> Vector {
        std::array::from_fn(|_| self.between(-size, size))
    }

    fn direction(&mut self) -> Vector {
        loop {
            let v = self.vector(1.0);
            if (0.1..1.0).contains(&length(v)) {
                return normal(v);
            }
        }
    }
}

// The rows of beams.

/// Beside a bent belt, by up to 40 halves of its width: thrown out before the walk.
pub fn thrown_out() -> Vec<Beam> {
    chosen(1, bent, 40.0, |answer| {
        answer.status == 1 && answer.looked == 0
    })
}

/// Beside a bent belt, by up to six halves of its width: a miss after a walk.
pub fn walking_miss() -> Vec<Beam> {
    chosen(2, bent, 6.0, |answer| {
        answer.status == 1 && answer.looked > 1
    })
}

/// On a nearly straight belt. A hit with one look is one at depth 0.
pub fn plain_hit() -> Vec<Beam> {
    chosen(3, nearly_straight, 0.9, |answer| {
        answer.status == 0 && answer.looked == 1
    })
}

/// On a long thin belt that bends so much that the depth is 10.
pub fn deep_hit() -> Vec<Beam> {
    chosen(4, long_and_thin, 0.9, |answer| answer.status == 0)
}

/// Each at a belt of its own, up to so many halves of its width beside the middle.
fn chosen(
    seed: u64,
    belt: fn(&mut Rng) -> Piece,
    halves: f64,
    wanted: fn(&Answer) -> bool,
) -> Vec<Beam> {
    let mut rng = Rng(seed);
    let place = Arc::new(place(&mut rng));
    let drawn = std::iter::repeat_with(|| {
        let beside = rng.between(-halves, halves);
        let piece = belt(&mut rng);
        aimed(&mut rng, piece, &place, beside)
    });

    drawn
        .filter(|beam| wanted(&ours::answer(beam)))
        .take(BEAMS)
        .collect()
}

/// Spirals of 1,024 pieces in four decks, of which most beams cross one or more and all pass by nearly every piece. The
/// Rust tells a piece's last crossing and ours its nearest: these pieces are so short that they are not cut in two, and
/// have at most one.
pub fn halls() -> Vec<Hall> {
    let mut rng = Rng(9);

    (0..4).map(|_| hall(&mut rng)).collect()
}

fn hall(rng: &mut Rng) -> Hall {
    let belt = spiral(rng);
    let mut list = Box::new([0.0; ours::LIST]);
    ours::laid(&belt, &mut list);
    let place = place(rng);
    let m = &place.object_to_world;
    let rays = (0..16)
        .map(|_| in_hall(m, line_through(rng, &belt), 1.0))
        .collect();

    Hall {
        belt,
        list,
        place,
        reverse: rng.below(2) == 0,
        rays,
    }
}

// Pieces, belts and places.

/// Bent belts, each with a place of its own for its box in the hall.
pub fn pieces() -> Vec<(Piece, Arc<Place>)> {
    let mut rng = Rng(5);
    let mut one = || (bent(&mut rng), Arc::new(place(&mut rng)));

    (0..BEAMS).map(|_| one()).collect()
}

/// A rate for each of the pieces.
pub fn rates() -> Vec<u32> {
    let mut rng = Rng(10);
    let mut one = || rng.below(u64::from(MOST_RATE) + 1) as u32;

    (0..BEAMS).map(|_| one()).collect()
}

/// One Bezier segment, cut into 1,024 pieces.
pub fn segments() -> Vec<Belt> {
    let mut rng = Rng(6);
    let mut one = || Belt {
        points: (0..4 * 3)
            .map(|_| rng.between(-100.0, 100.0) as f32)
            .collect(),
        spline: false,
        widths: [0.5, 0.75],
        split: 10,
    };

    (0..16).map(|_| one()).collect()
}

/// A B-spline of 131 points: 128 segments, each cut into 8 pieces.
pub fn splines() -> Vec<Belt> {
    let mut rng = Rng(7);

    (0..16).map(|_| spiral(&mut rng)).collect()
}

/// Rises over four turns, not quite evenly.
pub fn spiral(rng: &mut Rng) -> Belt {
    let point = |i: usize| {
        let turn = i as f64 / 32.0;
        let (sin, cos) = (turn * std::f64::consts::TAU).sin_cos();
        let noise = rng.vector(0.25);
        sum([8.0 * cos, 8.0 * sin, 3.0 * turn], noise).map(|x| x as f32)
    };

    Belt {
        points: (0..131).flat_map(point).collect(),
        spline: true,
        widths: [0.5, 0.75],
        split: 3,
    }
}

/// From above or below through the spiral, where its points are.
pub fn ray_through(rng: &mut Rng, belt: &Belt) -> [f32; RAY_FLOATS] {
    let [origin, direction] = line_through(rng, belt);

    floats(origin, direction, f32::INFINITY)
}

/// Its origin and its direction.
fn line_through(rng: &mut Rng, belt: &Belt) -> [Vector; 2] {
    let i = 3 * rng.below(belt.points.len() as u64 / 3) as usize;
    let aim: Vector = std::array::from_fn(|k| belt.points[i + k] as f64);
    let aim = sum(aim, rng.vector(0.4));
    let direction = normal(sum([0.0, 0.0, 1.0], rng.vector(0.5)));
    let direction = scaled(direction, if rng.below(2) == 0 { 1.0 } else { -1.0 });
    let origin = difference(aim, scaled(direction, rng.between(10.0, 20.0)));

    [origin, direction]
}

/// One of up to eight parts of a curve with points within 4 of its middle, the width 1/50 to 1/2.
fn bent(rng: &mut Rng) -> Piece {
    let middle = rng.vector(10.0);
    let points = std::array::from_fn(|_| sum(middle, rng.vector(4.0)));
    let width = rng.between(0.02, 0.5);
    let parts = 1 << rng.below(4);
    let part = rng.below(parts);

    piece(
        rng,
        points,
        width,
        [part, part + 1].map(|i| i as f64 / parts as f64),
    )
}

fn nearly_straight(rng: &mut Rng) -> Piece {
    let width = rng.between(0.1, 1.0);
    let start = rng.vector(10.0);
    let step = scaled(rng.direction(), rng.between(0.2, 2.0));
    let point = |i: usize| {
        let off = rng.vector(0.02 * width);
        sum(sum(start, scaled(step, i as f64)), off)
    };
    let points = std::array::from_fn(point);

    piece(rng, points, width, [0.0, 1.0])
}

/// The depth is 10 from a second difference of 49,430 widths on; seen along any axes, one of three is at least
/// its length by the root of 3.
fn long_and_thin(rng: &mut Rng) -> Piece {
    let width = rng.between(1.0 / 1024.0, 1.0 / 256.0);
    loop {
        let points: [Vector; 4] = std::array::from_fn(|_| rng.vector(500.0));
        let bend = |i: usize| {
            let chord = sum(points[i], points[i + 2]);
            length(difference(chord, scaled(points[i + 1], 2.0)))
        };
        // The other end is up to a quarter wider.
        if bend(0).max(bend(1)) > 49_430.0 * 1.25 * width * 1.75 {
            return piece(rng, points, width, [0.0, 1.0]);
        }
    }
}

fn piece(rng: &mut Rng, points: [Vector; 4], width: f64, u: [f64; 2]) -> Piece {
    let other = width * rng.between(1.0, 1.25);
    let points = points.map(|p| p.map(|x| x as f32));
    let [widths, u] = [[width, other], u].map(|pair| pair.map(|x| x as f32));

    piece::from_parts(&points, widths, u)
}

/// A turn and a move.
fn place(rng: &mut Rng) -> Place {
    let x = rng.direction();
    let y = normal(cross(rng.direction(), x));
    let z = cross(x, y);
    let moved = rng.vector(20.0);
    let back: Vector = [x, y, z].map(|axis| -dot(axis, moved));
    let columns = [x, y, z, moved];
    let rows = [x, y, z];

    Place {
        object_to_world: matrix(|i, j| columns[j][i]),
        world_to_object: matrix(|i, j| if j < 3 { rows[i][j] } else { back[i] }),
    }
}

fn dot(a: Vector, b: Vector) -> f64 {
    (0..3).map(|k| a[k] * b[k]).sum()
}

/// Three rows, and below them that of the weight.
fn matrix(entry: impl Fn(usize, usize) -> f64) -> Matrix {
    std::array::from_fn(|k| match (k / 4, k % 4) {
        (3, 3) => 1.0,
        (3, _) => 0.0,
        (i, j) => entry(i, j) as f32,
    })
}

// Beams.

/// At a point of the belt, so many halves of its width beside its middle, from anywhere but along the belt.
fn aimed(rng: &mut Rng, piece: Piece, place: &Arc<Place>, beside: f64) -> Beam {
    let u = rng.between(piece[UMIN] as f64, piece[UMAX] as f64);
    let (point, tangent) = cubic::at(&piece, u);
    let half = cubic::half_width(&piece, u);
    let (direction, across) = loop {
        let direction = rng.direction();
        let across = cross(direction, normal(tangent));
        if length(across) > 0.2 {
            break (direction, normal(across));
        }
    };
    let aim = sum(point, scaled(across, half * beside));
    let origin = difference(aim, scaled(direction, rng.between(1.0, 50.0)));
    let speed = if rng.below(2) == 0 {
        1.0
    } else {
        rng.between(0.1, 10.0)
    };

    Beam {
        piece,
        place: place.clone(),
        reverse: rng.below(2) == 0,
        ray: in_hall(&place.object_to_world, [origin, direction], speed),
    }
}

/// From the belt's own frame.
fn in_hall(m: &Matrix, [origin, direction]: [Vector; 2], speed: f64) -> [f32; RAY_FLOATS] {
    floats(
        transformed(m, origin, 1.0),
        scaled(transformed(m, direction, 0.0), speed),
        f32::INFINITY,
    )
}

/// A point with the weight 1, or a vector with 0.
fn transformed(m: &Matrix, v: Vector, weight: f64) -> Vector {
    let row = |i: usize| [0, 1, 2, 3].map(|k| m[4 * i + k] as f64);

    std::array::from_fn(|i| {
        let [a, b, c, moved] = row(i);
        a * v[0] + b * v[1] + c * v[2] + moved * weight
    })
}

fn floats(origin: Vector, direction: Vector, t_max: f32) -> [f32; RAY_FLOATS] {
    let [ox, oy, oz] = origin.map(|x| x as f32);
    let [dx, dy, dz] = direction.map(|x| x as f32);

    [ox, oy, oz, dx, dy, dz, t_max, 0.0]
}
