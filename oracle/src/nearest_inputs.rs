//! The inputs of `nearest`: a beam like those of `intersect`, and other pieces about it, nearer or farther, as
//! far, or without a frame.

use crate::beam::{Beam, Cast};
use crate::beam_inputs::{
    as_wide_as_can_be, at_origin, axis, beam, belt, beside, end_at_hit, far_origin, held, moved,
    parallel_up, place, plain, points_mut, round, spoil, tiny_belt, tiny_direction, to_and_fro,
    triple, unit,
};
use crate::curve_inputs::{spoil_piece, valid_piece, ENTRY};
use crate::flat::in_object;
use crate::inputs::{Triple, LAST_ROW};
use crate::layout::{CURVE_FLOATS, RAY_D, RAY_O, UMAX, UMIN, WIDTH0, WIDTH1};
use crate::nearest::ListBeam;
use crate::piece::{self, Piece};
use crate::rng::{pow2, Rng};
use crate::vector::{cross, difference, normal, scaled, sum, Vector};
use crate::words::Words;

pub fn nearest(rng: &mut Rng, words: &mut Words) {
    let (mut beam, line) = first(rng);
    if rng.one_in(12) {
        end_at_hit(rng, &mut beam);
    }
    let Beam { piece, mut cast } = beam;
    let mut pieces = pieces(rng, &piece, &line);
    spoil_some(rng, &mut pieces, &mut cast);
    let mut list = pieces.concat();
    if rng.one_in(16) {
        miscount(rng, &mut list);
        if rng.one_in(2) {
            *rng.one_of(&mut cast.world_to_object) = 2.0 * ENTRY;
        }
    }
    ListBeam { list, cast }.put(words);
}

/// Mostly none. An origin without a weight is told at a piece only, and behind what is wrong with it.
fn spoil_some(rng: &mut Rng, pieces: &mut [Piece], cast: &mut Cast) {
    let at = rng.below(pieces.len().max(1) as u32) as usize;
    let mut none = [0.0; CURVE_FLOATS];
    let piece = pieces.get_mut(at).unwrap_or(&mut none);
    match rng.below(32) {
        0 | 1 => spoil_piece(rng, piece),
        2 => {
            spoil_piece(rng, piece);
            take_weight(rng, cast);
        }
        3 | 4 | 5 => spoil(rng, piece, cast),
        _ => {}
    }
    if pieces.is_empty() {
        match rng.below(4) {
            0 => take_weight(rng, cast),
            1 => spoil(rng, &mut none, cast),
            _ => {}
        }
    }
}

fn take_weight(rng: &mut Rng, cast: &mut Cast) {
    cast.world_to_object[LAST_ROW..].copy_from_slice(&rng.zeros::<4>());
}

/// No whole number of pieces.
fn miscount(rng: &mut Rng, list: &mut Vec<f32>) {
    let few = 1 + rng.below(CURVE_FLOATS as u32 - 1) as usize;
    if list.is_empty() || rng.one_in(2) {
        list.extend((0..few).map(|_| rng.moderate()));
    } else {
        list.truncate(list.len() - few);
    }
}

/// The line that the other pieces are put on, and how far along it the first one is.
struct Line {
    origin: Vector,
    /// Of length one.
    direction: Vector,
    distance: f64,
    /// Half the first one's width.
    half: f64,
    /// The coordinate, if any, that other belts on it have the same in all points.
    level: Option<usize>,
}

impl Line {
    fn at(&self, distance: f64) -> Vector {
        sum(self.origin, scaled(self.direction, distance))
    }
}

/// The first piece with its beam.
fn first(rng: &mut Rng) -> (Beam, Line) {
    let beam = match rng.below(32) {
        0 | 1 => closed(rng),
        2 | 3 => touching(rng),
        4 | 5 => return far_beside(rng),
        6 => nan_without_frame(rng),
        7 => tiny_direction(rng),
        8 | 9 | 10 => below_zero(rng),
        11 => at_origin(rng),
        12 | 13 => tiny_belt(rng),
        _ => beam(rng),
    };
    let (origin, direction) = match in_object(&beam.cast) {
        Ok(ray) => {
            let (o, d) = (ray.o, ray.d);
            ([o.x, o.y, o.z], [d.x, d.y, d.z])
        }
        Err(_) => ([f32::NAN; 3], [0.0; 3]),
    };
    let line = line(rng, &beam.piece, origin, direction);

    (beam, line)
}

/// Another one through the piece where there is no such line.
fn line(rng: &mut Rng, piece: &Piece, origin: Triple, direction: Triple) -> Line {
    let place = place(rng, piece);
    let mut origin = origin.map(f64::from);
    let mut direction = normal(direction.map(f64::from));
    if origin.iter().any(|x| !x.is_finite()) || direction == [0.0; 3] {
        direction = axis(rng).map(f64::from);
        origin = difference(place.point, direction);
    }
    let way = difference(place.point, origin);
    let along_axis = (0..3).find(|k| direction[*k].abs() == 1.0);

    Line {
        distance: (0..3).map(|k| way[k] * direction[k]).sum(),
        origin,
        direction,
        half: place.half,
        level: along_axis.filter(|_| rng.one_in(2)),
    }
}

/// Up to eight, the first one anywhere among them.
fn pieces(rng: &mut Rng, first: &Piece, line: &Line) -> Vec<Piece> {
    let others = match rng.below(16) {
        0 => return Vec::new(),
        1 | 2 => 0,
        3..=6 => 1,
        7..=11 => 2,
        12 | 13 => 3,
        _ => rng.below(8),
    };
    let mut pieces: Vec<Piece> = (0..others).map(|_| other(rng, first, line)).collect();
    pieces.insert(rng.below(others + 1) as usize, *first);

    pieces
}

fn other(rng: &mut Rng, first: &Piece, line: &Line) -> Piece {
    match rng.below(32) {
        0..=2 => *first,
        3..=8 => {
            let by = scaled(line.direction, step(rng, line));
            moved(*first, by.map(|x| x as f32))
        }
        9 | 10 => from_other_end(first),
        11 | 12 => mirrored(first, line),
        13 | 14 => half(rng, first),
        15 | 16 => {
            let mut piece = *first;
            *rng.one_of(&mut piece[WIDTH0..=WIDTH1]) *= rng.pick(&[0.25, 0.5, 0.9, 2.0, 4.0]);
            held(piece)
        }
        17..=28 => crossing(rng, line),
        29 => turning(rng, line),
        30 => belt(rng),
        _ => valid_piece(rng),
    }
}

/// How much farther than the first: often by less than its width, since the whole is tested other than the
/// halves.
fn step(rng: &mut Rng, line: &Line) -> f64 {
    let share = rng.unit() as f64;
    match rng.below(8) {
        0 => 0.0,
        1 | 2 => line.half * share,
        3 | 4 => -line.distance.abs() * share.abs(),
        _ => line.half * pow2(rng.between(0, 8)) as f64 * share,
    }
}

/// Another belt on the line.
fn crossing(rng: &mut Rng, line: &Line) -> Piece {
    let piece = belt(rng);
    let place = place(rng, &piece);
    let across = normal(cross(line.direction, place.tangent));
    let at = sum(
        line.at(line.distance + step(rng, line)),
        scaled(across, place.half * beside(rng)),
    );
    let mut piece = moved(piece, difference(at, place.point).map(|x| x as f32));
    if let Some(k) = line.level {
        points_mut(&mut piece)
            .iter_mut()
            .for_each(|p| p[k] = at[k] as f32);
    }

    held(piece)
}

/// Runs out and back over itself: the line passes just beyond its turn, where it has no direction.
fn turning(rng: &mut Rng, line: &Line) -> Piece {
    let outward = normal(cross(line.direction, unit(rng).map(f64::from)));
    let at = line.at(line.distance + step(rng, line));
    let past = line.half * rng.pick(&[0.25, 0.5, 0.75]);
    let reach = line.half * pow2(rng.between(1, 5)) as f64;
    let point = |by: f64| sum(at, scaled(outward, by)).map(|x| x as f32);
    let (a, b) = (point(-past - 0.75 * reach), point(-past + 0.25 * reach));
    let ends = [[0.5, 1.0], [0.5, 1.0], [0.0, 0.5], [0.0, 1.0]];
    let width = 2.0 * line.half as f32;

    held(piece::from_parts(
        &[a, b, b, a],
        [width; 2],
        rng.pick(&ends),
    ))
}

fn from_other_end(piece: &Piece) -> Piece {
    let mut points = piece::points(piece);
    points.reverse();
    let u = [1.0 - piece[UMAX], 1.0 - piece[UMIN]];
    let u = if u[0] < u[1] { u } else { [0.0, 1.0] };

    piece::from_parts(&points, [piece[WIDTH1], piece[WIDTH0]], u)
}

/// On the line's other side, where it lies along an axis: there a zero may have the other sign.
fn mirrored(piece: &Piece, line: &Line) -> Piece {
    let mut piece = *piece;
    for p in points_mut(&mut piece) {
        for k in (0..3).filter(|k| line.direction[*k] == 0.0) {
            p[k] = 2.0 * line.origin[k] as f32 - p[k];
        }
    }

    held(piece)
}

/// As if laid with one more split.
fn half(rng: &mut Rng, piece: &Piece) -> Piece {
    let [umin, umax] = [piece[UMIN], piece[UMAX]];
    let middle = (umin + umax) / 2.0;
    let mut piece = *piece;
    if umin < middle && middle < umax {
        piece[UMIN..=UMAX].copy_from_slice(&rng.pick(&[[umin, middle], [middle, umax]]));
    }

    piece
}

// Beams for one branch.

/// A beam along an axis, and a belt whose points are told from where it begins: ahead, and to two sides.
fn from_begin(rng: &mut Rng, points: [Triple; 4], width: f32) -> Beam {
    let along = axis(rng);
    let origin = [round(rng), round(rng), round(rng)];
    let mut beam = plain(rng, [0.0; CURVE_FLOATS], origin, along);
    let begin = in_object(&beam.cast).expect("a weight of one").o;
    let points = points.map(|[ahead, one, other]| {
        triple(|k| {
            let aside = along[(k + 1) % 3].abs() * one + along[(k + 2) % 3].abs() * other;
            begin[k] + along[k] * ahead + aside
        })
    });
    beam.piece = held(piece::from_parts(&points, [width; 2], [0.0, 1.0]));

    beam
}

/// The belt ends where it begins, mostly at distance zero, and there it has no direction: its first sliver has
/// a frame, its last one has none, or the other way round.
fn closed(rng: &mut Rng) -> Beam {
    let width = pow2(rng.between(-6, 5));
    let ahead = rng.pick(&[0.0, 0.0, 0.0, 1.0, 8.0]);
    let aside = width * rng.pick(&[0.0, 0.125, -0.25, 0.375]);
    let out = rng.signed(width) * pow2(rng.between(0, 6));
    let (a, b) = ([ahead, aside, 0.0], [ahead, aside, out]);
    let points = rng.pick(&[[a, b, a, a], [a, b, a, a], [a, a, b, a]]);

    from_begin(rng, points, width)
}

/// The belt begins on the beam, and in its middle comes back to it and goes along it: there it has no frame.
fn touching(rng: &mut Rng) -> Beam {
    let width = pow2(rng.between(-6, 5));
    let ahead = rng.pick(&[0.0, 0.0, 1.0, 8.0]);
    let step = rng.pick(&[0.5, 1.0, 4.0]);
    let swing = rng.signed(width) * pow2(rng.between(0, 6));
    let mut points = [(0.0, 0.0), (1.0, 1.0), (2.0, -2.0), (3.0, 3.0)]
        .map(|(steps, swings)| [ahead + steps * step, 0.0, swings * swing]);
    if rng.one_in(4) {
        points.reverse();
    }

    from_begin(rng, points, width)
}

/// The belt runs to and fro where the beam begins, or next to it, all of it on the negative side: there a zero
/// distance may be negative too.
fn below_zero(rng: &mut Rng) -> Beam {
    let along = axis(rng).map(|x| -x.abs());
    let origin = along.map(|x| (1.0 + x) * -0.75);
    let speed = pow2(rng.between(0, 2));
    let mut beam = plain(rng, [0.0; CURVE_FLOATS], origin, along.map(|x| x * speed));
    (0..3).for_each(|i| beam.cast.world_to_object[4 * i + 3] = -0.0);
    let points = to_and_fro(unit(rng).map(|x| x * 0.125), [0.0; 3]);
    let piece = piece::from_parts(&points, [pow2(-rng.between(2, 6)); 2], [0.0, 1.0]);
    let middle = place(rng, &piece).point;
    beam.piece = moved(piece, triple(|k| origin[k] - middle[k] as f32));
    let next = rng.below(2) as f32 * pow2(-149);
    for p in points_mut(&mut beam.piece) {
        for k in (0..3).filter(|k| along[*k] != 0.0) {
            p[k] = rng.integer(1) * next;
        }
    }

    beam
}

/// The origin is so far beside the beam that only pieces which are left in their own frame are met: in some
/// frames numbers overflow, and distances are NaNs.
fn far_beside(rng: &mut Rng) -> (Beam, Line) {
    let mut beam = plain(rng, [0.0; CURVE_FLOATS], [0.0; 3], [0.0; 3]);
    let points = parallel_up(rng, &mut beam.cast);
    beam.piece = as_wide_as_can_be(&points);
    // In its own frame a piece is met along z.
    let mut line = line(rng, &beam.piece, [0.0; 3], [0.0, 0.0, 1.0]);
    let ray = &mut beam.cast.ray;
    for k in 0..3 {
        if ray[RAY_D][k] != 0.0 && ray[RAY_O][k] == 0.0 {
            ray[RAY_D][k] = pow2(-80);
            line.level = Some(k);
        } else {
            ray[RAY_O][k] = rng.signed(ENTRY);
        }
    }
    beam.cast.world_to_object[LAST_ROW + 3] = pow2(-98) * (1.0 + 0.25 * rng.unit().abs());

    (beam, line)
}

/// The distance is a NaN, of an infinite origin or of zero by zero. What then has no frame does not pass.
fn nan_without_frame(rng: &mut Rng) -> Beam {
    if rng.one_in(2) {
        let mut beam = far_origin(rng);
        beam.cast.world_to_object[LAST_ROW + 3] = pow2(-140);
        let first = piece::points(&beam.piece)[0];
        points_mut(&mut beam.piece).fill(first);

        return beam;
    }
    let mut beam = tiny_direction(rng);
    let ray = in_object(&beam.cast).expect("a weight of one");
    let (o, d) = (ray.o, ray.d);
    for p in points_mut(&mut beam.piece) {
        for k in (0..3).filter(|k| d[*k] != 0.0) {
            p[k] = o[k];
        }
    }

    beam
}
