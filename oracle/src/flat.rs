//! A second reading of 01's beam: "Depth", "Cutting and walking" and "Hit" as they stand there, over all
//! pieces by level and number, and not as the Rust recurses; and of 02's nearest of a list (P1). Only the
//! frame's tools are the Rust's.

use crate::beam::{transform, Beam, Cast, Reply};
use crate::layout::{
    RECORD_DPDU, RECORD_DPDV, RECORD_ERROR, RECORD_FLOATS, RECORD_N, RECORD_P, RECORD_T,
    RECORD_TIME, RECORD_U, RECORD_V, RECORD_WO, UMAX, UMIN, WIDTH0, WIDTH1,
};
use crate::limits;
use crate::nearest::{self, ListBeam};
use crate::piece;
use crate::record::Record;
use pbrt::core::geometry::point::Point3f;
use pbrt::core::geometry::ray::Ray;
use pbrt::core::geometry::vector::{vec3_coordinate_system, Vector3f};
use pbrt::core::transform::{Matrix4x4, Transform};

type Triple = [f32; 3];
type Points = [Triple; 4];

pub struct Reading {
    pub reply: Reply,
    /// None where the walk is not entered.
    pub depth: Option<u64>,
    /// How many open slivers pass, those behind the stop too.
    pub passing: usize,
}

/// What the frame gives.
struct Framed {
    ray: Ray,
    length: f32,
    z_max: f32,
    to_ray: Transform,
    points: Points,
}

/// An open piece of the walk, by its number among those of its size.
struct Open {
    number: u32,
    points: Points,
    u: [f32; 2],
}

/// An open sliver that passes.
pub struct Passing {
    number: u32,
    pub distance: f32,
    /// Or the refusal, where it has no frame.
    pub record: Result<Record, u32>,
}

/// The walk from a whole that is not thrown out, with no stop.
struct Walk {
    depth: u32,
    /// The open pieces, by level from the whole to the slivers, in order.
    levels: Vec<Vec<Open>>,
    passing: Vec<Passing>,
}

pub fn read(beam: &Beam) -> Reading {
    let not_entered = |reply| Reading {
        reply,
        depth: None,
        passing: 0,
    };
    match walk(beam) {
        Ok(Some(walk)) => Reading {
            reply: last(&walk),
            depth: Some(walk.depth as u64),
            passing: walk.passing.len(),
        },
        Ok(None) => not_entered(Reply::Miss(0)),
        Err(refusal) => not_entered(Reply::Refused(refusal)),
    }
}

/// The stop, or else the last.
fn last(walk: &Walk) -> Reply {
    let Walk {
        depth,
        levels,
        passing,
    } = walk;
    let stop = passing
        .iter()
        .find(|sliver| sliver.record.is_err() || sliver.distance == 0.0);
    let starts_in_time = |level: usize, open: &Open| match stop {
        Some(stop) => open.number << (depth - level as u32) <= stop.number,
        None => true,
    };
    let looked = levels
        .iter()
        .enumerate()
        .map(|(level, list)| list.iter().filter(|o| starts_in_time(level, o)).count())
        .sum::<usize>() as u32;
    match stop.or(passing.last()) {
        Some(sliver) => match sliver.record {
            Ok(record) => Reply::Hit(looked, record),
            Err(refusal) => Reply::Refused(refusal),
        },
        None => Reply::Miss(looked),
    }
}

/// P1's answer within the limits of the list, the matrices and the ray: the first than which none is nearer.
pub fn nearest(beam: &ListBeam) -> nearest::Reply {
    let mut hits = Vec::new();
    for (number, piece) in beam.pieces().iter().enumerate() {
        match counted(&beam.at(piece)) {
            Ok(records) => hits.extend(records.iter().map(|record| (number, *record))),
            Err(refusal) => return nearest::Reply::Refused(refusal),
        }
    }
    let nearer = |a: &Record, b: &Record| a[RECORD_T] < b[RECORD_T];
    let none_nearer = |record: &Record| !hits.iter().any(|(_, other)| nearer(other, record));
    match hits.iter().find(|(_, record)| none_nearer(record)) {
        Some((number, record)) => nearest::Reply::Hit(*number as u32, *record),
        None => nearest::Reply::Miss,
    }
}

/// The records of a piece's slivers that pass by P1, or its first refusal.
fn counted(beam: &Beam) -> Result<Vec<Record>, u32> {
    limits::piece(&beam.piece)?;
    let slivers = passing(beam)?.into_iter();

    slivers
        .filter(|sliver| !sliver.distance.is_nan())
        .map(|sliver| sliver.record)
        .collect()
}

/// The open slivers of a piece that pass, or 12 or 13.
pub fn passing(beam: &Beam) -> Result<Vec<Passing>, u32> {
    Ok(walk(beam)?.map_or(Vec::new(), |walk| walk.passing))
}

/// None where the whole is thrown out.
fn walk(beam: &Beam) -> Result<Option<Walk>, u32> {
    let framed = frame(beam)?;
    let u = [beam.piece[UMIN], beam.piece[UMAX]];
    let half = half_width(beam, u);
    if thrown_out(&framed, &framed.points, half, half) {
        return Ok(None);
    }
    let depth = depth(beam, &framed.points);
    let levels = open_pieces(beam, &framed, u, depth);
    let passing = levels[depth as usize]
        .iter()
        .filter_map(|sliver| leaf(beam, &framed, sliver))
        .collect();

    Ok(Some(Walk {
        depth,
        levels,
        passing,
    }))
}

/// 12 and 13 in the order of the Rust.
fn frame(beam: &Beam) -> Result<Framed, u32> {
    let ray = in_object(&beam.cast)?;
    let points = blossoms(beam);
    let mut up = ray.d.cross(&(points[3] - points[0]));
    if up.length_squared() == 0.0 {
        let d = ray.d;
        let larger = if d.x.abs() > d.y.abs() { d.x } else { d.y };
        not_zero((larger * larger + d.z * d.z).sqrt(), 13)?;
        vec3_coordinate_system(&d, &mut up, &mut Vector3f::default());
    }
    let look = ray.o + ray.d;
    not_zero((look - ray.o).length(), 13)?;
    not_zero(up.length(), 13)?;
    let to_ray = Transform::look_at(&ray.o, &look, &up);
    for p in &points {
        weight(&to_ray.m, p)?;
    }
    let length = ray.d.length();

    Ok(Framed {
        length,
        z_max: length * ray.t_max,
        points: points.map(|p| to_ray.transform_point(&p)).map(triple),
        ray,
        to_ray,
    })
}

/// The ray in the object's frame, or 12. Where it begins is moved by the error of its origin.
pub fn in_object(cast: &Cast) -> Result<Ray, u32> {
    let world_to_object = transform(&cast.world_to_object);
    let ray = cast.ray();
    weight(&world_to_object.m, &ray.o)?;
    let mut errors = [Vector3f::default(); 2];
    let [o_error, d_error] = &mut errors;

    Ok(world_to_object.transform_ray_error(&ray, o_error, d_error))
}

fn weight(m: &Matrix4x4, p: &Point3f) -> Result<(), u32> {
    let row = m.m[3];

    not_zero(p.x * row[0] + p.y * row[1] + p.z * row[2] + row[3], 12)
}

fn not_zero(x: f32, refusal: u32) -> Result<(), u32> {
    if x == 0.0 {
        Err(refusal)
    } else {
        Ok(())
    }
}

fn blossoms(beam: &Beam) -> [Point3f; 4] {
    let points = piece::points(&beam.piece);
    let [umin, umax] = [beam.piece[UMIN], beam.piece[UMAX]];
    let ends = [
        [umin, umin, umin],
        [umin, umin, umax],
        [umin, umax, umax],
        [umax, umax, umax],
    ];

    ends.map(|[u0, u1, u2]| {
        let [a, b] = halfway(&points, u0, u1);
        let [x, y, z] = mixed(u2, a, b);
        Point3f::new(x, y, z)
    })
}

/// The last two points before the one of a blossom, or of the curve where both are u.
fn halfway(points: &Points, u0: f32, u1: f32) -> [Triple; 2] {
    let [a, b, c] = [0, 1, 2].map(|i| mixed(u0, points[i], points[i + 1]));

    [mixed(u1, a, b), mixed(u1, b, c)]
}

fn triple(p: Point3f) -> Triple {
    [p.x, p.y, p.z]
}

fn lerp(t: f32, a: f32, b: f32) -> f32 {
    a * (1.0 - t) + b * t
}

fn mixed(t: f32, a: Triple, b: Triple) -> Triple {
    std::array::from_fn(|k| lerp(t, a[k], b[k]))
}

fn width(beam: &Beam, u: f32) -> f32 {
    lerp(u, beam.piece[WIDTH0], beam.piece[WIDTH1])
}

/// Half the larger width at the ends of a piece.
fn half_width(beam: &Beam, u: [f32; 2]) -> f32 {
    0.5 * width(beam, u[0]).max(width(beam, u[1]))
}

/// The tests of y, x and z; what goes with the z minimum is minus the half width for the halves only.
fn thrown_out(framed: &Framed, points: &Points, half: f32, with_z: f32) -> bool {
    let largest = |k: usize| points.iter().map(|p| p[k]).fold(f32::NAN, f32::max);
    let smallest = |k: usize| points.iter().map(|p| p[k]).fold(f32::NAN, f32::min);
    let beside = |k: usize| largest(k) + half < 0.0 || smallest(k) - half > 0.0;
    let past = largest(2) + half < 0.0 || smallest(2) + with_z > framed.z_max;

    beside(1) || beside(0) || past
}

fn depth(beam: &Beam, points: &Points) -> u32 {
    let mut l0 = 0.0f32;
    for i in 0..2 {
        for k in 0..3 {
            let difference = points[i][k] - 2.0 * points[i + 1][k] + points[i + 2][k];
            l0 = l0.max(difference.abs());
        }
    }
    let eps = beam.piece[WIDTH0].max(beam.piece[WIDTH1]) * 0.05;
    let v = 1.41421356237 * 6.0 * l0 / (8.0 * eps);
    if v.is_nan() || v.is_infinite() {
        return 10;
    }
    if v < 1.0 {
        return 0;
    }
    let log = (v.to_bits() >> 23) - 127 + (v.to_bits() & 1);

    (log / 2).min(10)
}

fn open_pieces(beam: &Beam, framed: &Framed, u: [f32; 2], depth: u32) -> Vec<Vec<Open>> {
    let whole = Open {
        number: 0,
        points: framed.points,
        u,
    };
    let mut levels = vec![vec![whole]];
    for level in 0..depth as usize {
        let mut open = Vec::new();
        for piece in &levels[level] {
            for half in halves(piece) {
                let width = half_width(beam, half.u);
                if !thrown_out(framed, &half.points, width, -width) {
                    open.push(half);
                }
            }
        }
        levels.push(open);
    }

    levels
}

fn halves(piece: &Open) -> [Open; 2] {
    let [a, b, c, d] = piece.points;
    let each = |sum: &dyn Fn(usize) -> f32, part: f32| std::array::from_fn(|k| sum(k) * part);
    let ab = each(&|k| a[k] + b[k], 0.5);
    let abc = each(&|k| a[k] + b[k] * 2.0 + c[k], 0.25);
    let abcd = each(&|k| a[k] + b[k] * 3.0 + c[k] * 3.0 + d[k], 0.125);
    let bcd = each(&|k| b[k] + c[k] * 2.0 + d[k], 0.25);
    let cd = each(&|k| c[k] + d[k], 0.5);
    let [u0, u1] = piece.u;
    let middle = (u0 + u1) / 2.0;

    [
        Open {
            number: 2 * piece.number,
            points: [a, ab, abc, abcd],
            u: [u0, middle],
        },
        Open {
            number: 2 * piece.number + 1,
            points: [abcd, bcd, cd, d],
            u: [middle, u1],
        },
    ]
}

/// None where one of the leaf's tests returns false.
fn leaf(beam: &Beam, framed: &Framed, sliver: &Open) -> Option<Passing> {
    let [a, b, c, d] = sliver.points;
    let [u0, u1] = sliver.u;
    let before = (b[1] - a[1]) * -a[1] + a[0] * (a[0] - b[0]) < 0.0;
    let behind = (c[1] - d[1]) * -d[1] + d[0] * (d[0] - c[0]) < 0.0;
    let chord = [d[0] - a[0], d[1] - a[1]];
    let square = chord[0] * chord[0] + chord[1] * chord[1];
    if before || behind || square == 0.0 {
        return None;
    }
    let w = (-a[0] * chord[0] + -a[1] * chord[1]) / square;
    let u = held(lerp(w, u0, u1), u0, u1);
    let width = width(beam, u);
    let (p, tangent) = evaluated(&sliver.points, held(w, 0.0, 1.0));
    let off = p[0] * p[0] + p[1] * p[1];
    if off > width * width * 0.25 || p[2] < 0.0 || p[2] > framed.z_max {
        return None;
    }
    let share = off.sqrt() / width;
    let left = tangent[0] * -p[1] + p[0] * tangent[1] > 0.0;
    let v = if left { 0.5 + share } else { 0.5 - share };
    let distance = p[2] / framed.length;

    Some(Passing {
        number: sliver.number,
        distance,
        record: record(beam, framed, distance, u, v, width),
    })
}

/// The record, or 14, 15 or 16, tried in that order.
fn record(beam: &Beam, framed: &Framed, t: f32, u: f32, v: f32, width: f32) -> Result<Record, u32> {
    let (_, dpdu) = evaluated(&piece::points(&beam.piece), u);
    if dpdu == [0.0; 3] {
        return Err(14);
    }
    let [x, y, _] = turned(&framed.to_ray.m, dpdu);
    let across = unit([-y, x, 0.0], 15)?.map(|x| x * width);
    let dpdv = turned(&framed.to_ray.m_inv, across);
    let mut n = unit(cross(dpdu, dpdv), 16)?;
    if beam.cast.reverse != transform(&beam.cast.object_to_world).swaps_handedness() {
        n = n.map(|x| -x);
    }
    let Ray { o, d, time, .. } = &framed.ray;
    let wo = unit([-d.x, -d.y, -d.z], 16)?;
    let p = [o.x + d.x * t, o.y + d.y * t, o.z + d.z * t];
    let error = [2.0 * width; 3];
    let mut record = [0.0; RECORD_FLOATS];
    record[RECORD_T] = t;
    record[RECORD_U] = u;
    record[RECORD_V] = v;
    record[RECORD_TIME] = *time;
    for (place, field) in [
        (RECORD_P, p),
        (RECORD_ERROR, error),
        (RECORD_WO, wo),
        (RECORD_N, n),
        (RECORD_DPDU, dpdu),
        (RECORD_DPDV, dpdv),
    ] {
        record[place].copy_from_slice(&field);
    }

    Ok(record)
}

fn held(x: f32, low: f32, high: f32) -> f32 {
    if x < low {
        low
    } else if x > high {
        high
    } else {
        x
    }
}

/// The point at u and the derivative, or the chord where the derivative's square is zero.
fn evaluated(points: &Points, u: f32) -> (Triple, Triple) {
    let [a, b] = halfway(points, u, u);
    let difference = minus(b, a);
    let derivative = if dot(difference, difference) > 0.0 {
        difference.map(|x| x * 3.0)
    } else {
        minus(points[3], points[0])
    };

    (mixed(u, a, b), derivative)
}

fn minus(a: Triple, b: Triple) -> Triple {
    std::array::from_fn(|k| a[k] - b[k])
}

fn dot(a: Triple, b: Triple) -> f32 {
    a[0] * b[0] + a[1] * b[1] + a[2] * b[2]
}

fn cross(a: Triple, b: Triple) -> Triple {
    let [a, b] = [a, b].map(|v| v.map(f64::from));

    [(1, 2), (2, 0), (0, 1)].map(|(i, j)| (a[i] * b[j] - a[j] * b[i]) as f32)
}

fn turned(m: &Matrix4x4, v: Triple) -> Triple {
    std::array::from_fn(|i| dot(v, [m.m[i][0], m.m[i][1], m.m[i][2]]))
}

fn unit(v: Triple, refusal: u32) -> Result<Triple, u32> {
    let length = dot(v, v).sqrt();
    not_zero(length, refusal)?;
    let part = 1.0 / length;

    Ok(v.map(|x| x * part))
}
