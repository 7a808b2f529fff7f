//! The kind `intersect`: what the Rust answers to a beam, checked by the flat reading of 01.

use crate::flat;
use crate::inputs::{identity, Matrix};
use crate::layout::RAY_FLOATS;
use crate::limits;
use crate::panics::{self, Site};
use crate::piece::{self, Piece};
use crate::record::{record, Record};
use crate::words::{put, text, Reader, Words};
use pbrt::core::geometry::point::Point3f;
use pbrt::core::geometry::ray::Ray;
use pbrt::core::geometry::vector::Vector3f;
use pbrt::core::interaction::SurfaceInteraction;
use pbrt::core::shape::{Shape, Shapes};
use pbrt::core::transform::{Matrix4x4, Transform};
use pbrt::progress::{self, Phase};
use pbrt::shapes::curve::{refinement_level, Curve};
use std::panic::{catch_unwind, AssertUnwindSafe};
use std::sync::Arc;

pub struct Beam {
    pub piece: Piece,
    pub cast: Cast,
}

/// What a beam is but for its piece.
#[derive(Clone, Copy)]
pub struct Cast {
    pub object_to_world: Matrix,
    pub world_to_object: Matrix,
    pub reverse: bool,
    pub ray: [f32; RAY_FLOATS],
}

/// 01's answer: with a hit and a miss goes the count.
pub enum Reply {
    Hit(u32, Record),
    Miss(u32),
    Refused(u32),
}

impl Beam {
    pub fn read(line: &mut Reader) -> Beam {
        Beam {
            piece: line.floats(),
            cast: Cast::read(line),
        }
    }

    pub fn put(&self, words: &mut Words) {
        put(words, &self.piece);
        self.cast.put(words);
    }

    fn limits(&self) -> Result<(), u32> {
        limits::piece(&self.piece)?;
        self.cast.limits()
    }

    /// The Rust's curve.
    pub fn curve(&self) -> Curve {
        let Cast {
            object_to_world,
            world_to_object,
            reverse,
            ..
        } = &self.cast;
        let transforms = [object_to_world, world_to_object].map(|m| Arc::new(transform(m)));

        piece::to_curve(&self.piece, transforms, *reverse)
    }
}

impl Cast {
    /// Both matrices the identity.
    pub fn plain(reverse: bool, ray: [f32; RAY_FLOATS]) -> Cast {
        Cast {
            object_to_world: identity(),
            world_to_object: identity(),
            reverse,
            ray,
        }
    }

    pub fn read(line: &mut Reader) -> Cast {
        Cast {
            object_to_world: line.floats(),
            world_to_object: line.floats(),
            reverse: line.word() == 1,
            ray: line.floats(),
        }
    }

    pub fn put(&self, words: &mut Words) {
        put(words, &self.object_to_world);
        put(words, &self.world_to_object);
        words.push(self.reverse as u32);
        put(words, &self.ray);
    }

    pub fn ray(&self) -> Ray {
        let [ox, oy, oz, dx, dy, dz, t_max, time] = self.ray;
        let o = Point3f::new(ox, oy, oz);
        let d = Vector3f::new(dx, dy, dz);

        Ray::new(&o, &d, t_max, time, None, None)
    }

    pub fn limits(&self) -> Result<(), u32> {
        limits::matrix(&transform(&self.object_to_world).m)?;
        limits::matrix(&transform(&self.world_to_object).m)?;
        limits::ray(&self.ray)
    }
}

impl Reply {
    pub fn words(&self) -> Words {
        let mut words = Words::new();
        match self {
            Reply::Hit(looked, record) => {
                words.extend([0, *looked]);
                put(&mut words, record);
            }
            Reply::Miss(looked) => words.extend([1, *looked]),
            Reply::Refused(number) => words.push(*number),
        }

        words
    }
}

/// What is asked of it here does not read its inverse.
pub fn transform(entries: &Matrix) -> Transform {
    let m = Matrix4x4::from_row_slice(entries);

    Transform::from_matrices(&m, &Matrix4x4::default())
}

/// The Rust's answer, and the flat reading where no limit of 01 forbids the call. Stops the program where
/// they differ.
pub fn checked(line: &[u32]) -> (Reply, Option<flat::Reading>) {
    let beam = Beam::read(&mut Reader(line));
    if let Err(refusal) = beam.limits() {
        return (Reply::Refused(refusal), None);
    }
    let reply = intersect(&beam);
    let depth = match progress::phase() {
        Phase::Frame => None,
        _ => Some(refinement_level::last()),
    };
    let reading = flat::read(&beam);
    if reply.words() != reading.reply.words() || depth != reading.depth {
        panic!(
            "the flat reading differs\nline {}\nrust {} depth {depth:?}\nflat {} depth {:?}",
            text(line),
            text(&reply.words()),
            text(&reading.reply.words()),
            reading.depth,
        );
    }

    (reply, Some(reading))
}

fn intersect(beam: &Beam) -> Reply {
    let shape = Arc::new(Shapes::from(beam.curve()));
    let hit = call(shape.as_ref(), &beam.cast, shape.clone());
    let looked = progress::looked() as u32;
    match hit {
        Ok(Some(record)) => Reply::Hit(looked, record),
        Ok(None) => Reply::Miss(looked),
        Err(refusal) => Reply::Refused(refusal),
    }
}

/// What the Rust's `intersect` leaves of a hit, or 12 to 16.
pub fn call(curve: &impl Shape, cast: &Cast, s: Arc<Shapes>) -> Result<Option<Record>, u32> {
    // The caller's old distance plays no part: of all distances zero might.
    let mut t_hit = 0.0;
    let mut isect = SurfaceInteraction::default();
    let hit = catch_unwind(AssertUnwindSafe(|| {
        curve.intersect(&cast.ray(), &mut t_hit, &mut isect, false, Some(s))
    }));
    match hit {
        Ok(hit) => Ok(hit.then(|| record(t_hit, &isect))),
        Err(_) => Err(refusal()),
    }
}

/// By where the Rust panicked, and how far it had come.
fn refusal() -> u32 {
    match (progress::phase(), panics::last()) {
        (Phase::Frame, Some(Site::Transform)) => 12,
        (Phase::Frame, Some(Site::Vector)) => 13,
        (Phase::Walk, Some(Site::Curve)) => 14,
        (Phase::Walk, Some(Site::Vector)) => 15,
        (Phase::Record, Some(Site::Vector)) => 16,
        place => panic!("not a refusal of 01: {place:?}"),
    }
}
