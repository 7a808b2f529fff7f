//! The unchanged Rust on the same inputs, and how it is timed. Curves, transforms and sets of parameters are
//! made beforehand, as a scene's are; a ray is made for each call, and so is the handle on the shape that
//! `intersect` takes as `s`. The interaction that it fills is the caller's, and is made once. The nearest of a list is
//! found by `intersect` on each of its curves, and a price by whole numbers from `area`.

use crate::draw::{Beam, Belt, Hall, Matrix, Place};
use crate::layout::{BOX_FLOATS, RAY_FLOATS};
use crate::params;
use crate::piece::{self, Piece, Transforms};
use crate::record::{record, Record};
use pbrt::core::geometry::bounds::Bounds3f;
use pbrt::core::geometry::point::Point3f;
use pbrt::core::geometry::ray::Ray;
use pbrt::core::geometry::vector::Vector3f;
use pbrt::core::interaction::SurfaceInteraction;
use pbrt::core::paramset::ParamSet;
use pbrt::core::shape::{Shape, Shapes};
use pbrt::core::transform::{Matrix4x4, Transform};
use pbrt::shapes::curve;
use std::hint::black_box;
use std::sync::Arc;
use std::time::{Duration, Instant};

/// A curve and a ray at it.
pub struct Aimed {
    shape: Arc<Shapes>,
    ray: [f32; RAY_FLOATS],
}

pub fn aimed(beams: &[Beam]) -> Vec<Aimed> {
    let mut made: Option<(&Arc<Place>, Transforms)> = None;
    let mut all = Vec::new();
    for beam in beams {
        let transforms = match &made {
            Some((place, transforms)) if Arc::ptr_eq(place, &beam.place) => transforms.clone(),
            _ => transforms(&beam.place),
        };
        made = Some((&beam.place, transforms.clone()));
        all.push(Aimed {
            shape: shape(&beam.piece, transforms, beam.reverse),
            ray: beam.ray,
        });
    }

    all
}

/// Each piece at its own place.
pub fn shapes(pieces: &[(Piece, Arc<Place>)]) -> Vec<Arc<Shapes>> {
    let one = |(piece, place): &(Piece, Arc<Place>)| shape(piece, transforms(place), false);

    pieces.iter().map(one).collect()
}

fn transforms(place: &Place) -> Transforms {
    let transform = |m: &Matrix, inverse: &Matrix| {
        let [m, inverse] = [m, inverse].map(|entries| Matrix4x4::from_row_slice(entries));
        Arc::new(Transform::from_matrices(&m, &inverse))
    };
    let Place {
        object_to_world,
        world_to_object,
    } = place;

    [
        transform(object_to_world, world_to_object),
        transform(world_to_object, object_to_world),
    ]
}

fn shape(piece: &Piece, transforms: Transforms, reverse: bool) -> Arc<Shapes> {
    Arc::new(Shapes::from(piece::to_curve(piece, transforms, reverse)))
}

impl Aimed {
    /// The record of a hit, as ours has it.
    pub fn answer(&self) -> Option<Record> {
        let mut t = 0.0;
        let mut isect = SurfaceInteraction::default();
        let hit = self.intersect(&mut t, &mut isect);

        hit.then(|| record(t, &isect))
    }

    fn intersect(&self, t: &mut f32, isect: &mut SurfaceInteraction) -> bool {
        intersect(&self.shape, &ray(&self.ray), t, isect)
    }
}

fn intersect(shape: &Arc<Shapes>, ray: &Ray, t: &mut f32, isect: &mut SurfaceInteraction) -> bool {
    shape.intersect(ray, t, isect, false, Some(shape.clone()))
}

fn ray(&[ox, oy, oz, dx, dy, dz, t_max, time]: &[f32; RAY_FLOATS]) -> Ray {
    let o = Point3f::new(ox, oy, oz);
    let d = Vector3f::new(dx, dy, dz);

    Ray::new(&o, &d, t_max, time, None, None)
}

/// The curves of a hall, and the rays at them.
pub struct Scene {
    shapes: Vec<Arc<Shapes>>,
    rays: Vec<[f32; RAY_FLOATS]>,
}

pub fn scene(hall: &Hall) -> Scene {
    Scene {
        shapes: laid(&params(&hall.belt), &transforms(&hall.place), hall.reverse),
        rays: hall.rays.clone(),
    }
}

/// What `intersect` fills, for the curve at hand and for the nearest so far.
#[derive(Default)]
struct Met {
    t: f32,
    isect: SurfaceInteraction<'static>,
}

impl Scene {
    /// The record of the nearest hit, as ours has it, and its curve's number.
    pub fn answer(&self, ray: &[f32; RAY_FLOATS]) -> Option<(Record, usize)> {
        let [mut met, mut best] = [Met::default(), Met::default()];
        let piece = self.nearest(ray, &mut met, &mut best);

        piece.map(|piece| (record(best.t, &best.isect), piece))
    }

    fn nearest(&self, floats: &[f32; RAY_FLOATS], met: &mut Met, best: &mut Met) -> Option<usize> {
        let ray = ray(floats);
        let mut piece = None;
        best.t = f32::INFINITY;
        for (k, shape) in self.shapes.iter().enumerate() {
            if intersect(shape, &ray, &mut met.t, &mut met.isect) && met.t < best.t {
                std::mem::swap(met, best);
                piece = Some(k);
            }
        }

        piece
    }
}

pub fn corners(bounds: Bounds3f) -> [f32; BOX_FLOATS] {
    let Bounds3f { p_min, p_max } = bounds;

    [p_min.x, p_min.y, p_min.z, p_max.x, p_max.y, p_max.z]
}

/// The cents nearest to the area's exact value times the rate, a half upward.
pub fn price(shape: &Shapes, rate: u32) -> u128 {
    let bits = shape.area().to_bits();
    let digits = u128::from(bits & 0x7f_ffff | 0x80_0000) * u128::from(rate);
    // So many of them stand behind the point: an area here is a normal float, below 2^23.
    let behind = 150 - (bits >> 23);
    let half = 1 << (behind - 1);

    (digits + half) >> behind
}

/// What create_curve_shape looks up.
pub fn params(belt: &Belt) -> ParamSet {
    let basis = if belt.spline { "bspline" } else { "bezier" };

    params::set(3, basis, belt.widths, belt.split, &belt.points)
}

/// Where a belt that is only laid stands.
pub fn identity() -> Transforms {
    let identity = Arc::new(Transform::default());

    [identity.clone(), identity]
}

pub fn laid(params: &ParamSet, transforms: &Transforms, reverse: bool) -> Vec<Arc<Shapes>> {
    let [object_to_world, world_to_object] = transforms.clone();

    curve::create_curve_shape(object_to_world, world_to_object, reverse, params)
}

pub fn time_beams(beams: &[Aimed], times: u32) -> Duration {
    let mut t = 0.0;
    let mut isect = SurfaceInteraction::default();
    let start = Instant::now();
    for _ in 0..times {
        for beam in beams {
            black_box(black_box(beam).intersect(&mut t, &mut isect));
            black_box((&mut t, &mut isect));
        }
    }

    start.elapsed()
}

pub fn time_nearest(scenes: &[Scene], times: u32) -> Duration {
    let [mut met, mut best] = [Met::default(), Met::default()];
    let start = Instant::now();
    for _ in 0..times {
        for scene in scenes {
            for ray in &scene.rays {
                black_box(black_box(scene).nearest(ray, &mut met, &mut best));
                black_box(&mut best);
            }
        }
    }

    start.elapsed()
}

/// The shapes are given back to the allocator outside of the time.
pub fn time_laying(params: &[ParamSet], times: u32) -> Duration {
    let identity = identity();
    let mut time = Duration::ZERO;
    for _ in 0..times {
        for set in params {
            let start = Instant::now();
            let shapes = black_box(laid(black_box(set), &identity, false));
            time += start.elapsed();
            drop(shapes);
        }
    }

    time
}

/// One of the methods that take a curve, on all curves.
pub fn time_shapes<S, T>(shapes: &[S], times: u32, method: impl Fn(&S) -> T) -> Duration {
    let start = Instant::now();
    for _ in 0..times {
        for shape in shapes {
            black_box(method(black_box(shape)));
        }
    }

    start.elapsed()
}
