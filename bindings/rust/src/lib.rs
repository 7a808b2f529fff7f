//! Where does a scanner's beam meet a curved belt? A belt is a flat cubic curve with a width, a beam is a
//! ray. A safe wrapper of the proved library `libcurve_c.a`, which answers bit by bit as `curve.rs` of
//! pbrt-rust does.
//!
//! [`create_curve_shape`] lays curves into a list, [`CURVE_FLOATS`] floats each: four control points, two widths,
//! umin and umax. [`nearest`] takes such a list, the other calls one curve out of it. Every call ends with an answer or
//! with a [`Refusal`], for every input, and a refusal leaves the list as it was. Nothing panics, and nothing is
//! allocated but the beams of a [`Sheet`]. Lengths are in metres.
//!
//! # The floating-point environment
//!
//! Answers are the promised bits under round to nearest with subnormals kept, as a Rust program starts. Code in another
//! language can turn subnormals off: a shared library that gcc before 13 linked with `-ffast-math` does, as it is
//! loaded. Then answers have other bits, and other calls are refused.
//!
//! # Example
//!
//! A straight belt from x = -3 to 3 at z = 4, and a beam up from the origin, which meets it at distance 4,
//! half way along and in its middle:
//!
//! ```
//! use curve::{Basis, CurveType, Intersection, Params, Ray, CURVE_FLOATS, IDENTITY};
//!
//! let points = [[-3.0, 0.0, 4.0], [-1.0, 0.0, 4.0], [1.0, 0.0, 4.0], [3.0, 0.0, 4.0]];
//! let params = Params {
//!     degree: 3,
//!     basis: Basis::Bezier,
//!     curve_type: CurveType::Flat,
//!     width0: 1.0,
//!     width1: 1.0,
//!     splitdepth: 0,
//! };
//! let mut list = [0.0; CURVE_FLOATS];
//! assert_eq!(curve::create_curve_shape(&points, &params, &mut list)?, 1);
//!
//! let ray = Ray {
//!     o: [0.0, 0.0, 0.0],
//!     d: [0.0, 0.0, 1.0],
//!     t_max: f32::INFINITY,
//!     time: 0.0,
//! };
//! match curve::intersect(&list, &IDENTITY, &IDENTITY, false, &ray)? {
//!     Intersection::Hit(hit, looked) => {
//!         assert_eq!((hit.t_hit, hit.u, hit.v), (4.0, 0.5, 0.5));
//!         assert_eq!(looked, 1);
//!     }
//!     Intersection::Miss(_) => panic!("the beam misses"),
//! }
//! # Ok::<(), curve::Refusal>(())
//! ```

#![deny(unsafe_code)]
#![warn(missing_docs)]

#[allow(unsafe_code)]
mod declared;
#[allow(unsafe_code)]
mod ffi;
#[cfg(test)]
mod header;
mod layout;
mod refusal;

use layout::*;
use std::ops::Range;

pub use layout::{
    CURVE_FLOATS, MOST_BEAMS, MOST_CENTS, MOST_CURVES, MOST_RATE, POINTS, UMAX, UMIN, WIDTH0,
    WIDTH1,
};
pub use refusal::{Refusal, SheetRefusal};

/// A matrix, by rows.
pub type Matrix4x4 = [f32; MATRIX_FLOATS];

/// The matrix that leaves every point where it is.
pub const IDENTITY: Matrix4x4 = [
    1.0, 0.0, 0.0, 0.0, //
    0.0, 1.0, 0.0, 0.0, //
    0.0, 0.0, 1.0, 0.0, //
    0.0, 0.0, 0.0, 1.0,
];

/// How control points make a curve.
#[derive(Clone, Copy, Debug, PartialEq, Eq, Hash)]
pub enum Basis {
    /// Segments that share their end points.
    Bezier = 0,
    /// Segments that share all points but one.
    BSpline = 1,
}

/// What is swept along a curve. Only flat curves are laid.
#[derive(Clone, Copy, Debug, PartialEq, Eq, Hash)]
pub enum CurveType {
    /// A strip that faces every ray.
    Flat = 0,
    /// A strip with normals of its own.
    Ribbon = 1,
    /// A tube.
    Cylinder = 2,
}

/// What [`create_curve_shape`] takes beside the points.
#[derive(Clone, Copy, Debug, PartialEq)]
pub struct Params {
    /// 2 or 3.
    pub degree: u32,
    /// How the points make a curve.
    pub basis: Basis,
    /// Flat.
    pub curve_type: CurveType,
    /// The width at the beginning of the whole curve.
    pub width0: f32,
    /// The width at its end; in between it goes in a straight line.
    pub width1: f32,
    /// Each segment yields 2 to the power of this many curves; at most 10.
    pub splitdepth: u32,
}

/// A box along the axes.
#[derive(Clone, Copy, Debug, PartialEq)]
pub struct Bounds3 {
    /// The lower corner.
    pub p_min: [f32; 3],
    /// The upper corner.
    pub p_max: [f32; 3],
}

/// A ray, or beam.
#[derive(Clone, Copy, Debug, PartialEq)]
pub struct Ray {
    /// The origin.
    pub o: [f32; 3],
    /// The direction, of any length but zero.
    pub d: [f32; 3],
    /// How far it goes, in lengths of the direction; infinity is allowed.
    pub t_max: f32,
    /// The time that a hit will carry.
    pub time: f32,
}

/// A hit, in the object's frame.
#[derive(Clone, Copy, Debug, PartialEq)]
pub struct SurfaceInteraction {
    /// The distance, in lengths of the ray's direction.
    pub t_hit: f32,
    /// Where along the segment, between the curve's umin and umax.
    pub u: f32,
    /// Where across the curve: 0.5 in its middle, 0 and 1 at its edges. Seen along the ray it is over 0.5 to the right
    /// of the way in which the curve runs, where x, y and z are right-handed.
    pub v: f32,
    /// The ray's point at that distance.
    pub p: [f32; 3],
    /// The point's error, in each coordinate: twice the width there.
    pub p_error: [f32; 3],
    /// The ray's time.
    pub time: f32,
    /// The direction back along the ray, of length one.
    pub wo: [f32; 3],
    /// The normal, of length one.
    pub n: [f32; 3],
    /// The derivative along the curve.
    pub dpdu: [f32; 3],
    /// The vector across the curve, as long as it is wide there.
    pub dpdv: [f32; 3],
}

/// Where a ray meets a curve, if it does, and at how many parts of the curve the call looked.
#[derive(Clone, Copy, Debug, PartialEq)]
pub enum Intersection {
    /// The hit and the count.
    Hit(SurfaceInteraction, u32),
    /// The count.
    Miss(u32),
}

/// The nearest of all places where a ray meets a list of curves, if it meets one.
#[derive(Clone, Copy, Debug, PartialEq)]
pub enum Nearest {
    /// The hit, and the number of its curve in the list, from 0.
    Hit(SurfaceInteraction, usize),
    /// It meets none.
    Miss,
}

/// What a belt sheet says. Its curves are in the list that was lent.
#[derive(Clone, Debug, PartialEq)]
pub struct Sheet {
    /// How many curves were laid.
    pub curves: u32,
    /// Whether normals turn.
    pub reverse: bool,
    /// The beams, in the sheet's order.
    pub beams: Vec<Ray>,
}

/// Lays curves into the list, [`CURVE_FLOATS`] floats each, and answers how many. No point may equal the next one.
///
/// # Errors
///
/// [`Refusal`] 1, 3, 22 and 4 to 8, in this order, and then the list is as it was.
pub fn create_curve_shape(
    points: &[[f32; 3]],
    params: &Params,
    list: &mut [f32],
) -> Result<u32, Refusal> {
    let (number, curves) = ffi::create(points.as_flattened(), params, list);

    accepted(number, curves)
}

/// The box of a curve.
///
/// # Errors
///
/// [`Refusal::Curve`].
pub fn object_bound(curve: &[f32]) -> Result<Bounds3, Refusal> {
    let (number, corners) = ffi::object_bound(curve);

    accepted(number, Bounds3::from_floats(&corners))
}

/// The box of a curve's box under a matrix.
///
/// # Errors
///
/// [`Refusal::Curve`], [`Refusal::Matrix`], or [`Refusal::ZeroWeight`] of a corner.
pub fn world_bound(curve: &[f32], object_to_world: &Matrix4x4) -> Result<Bounds3, Refusal> {
    let (number, corners) = ffi::world_bound(curve, object_to_world);

    accepted(number, Bounds3::from_floats(&corners))
}

/// The area of a curve.
///
/// # Errors
///
/// [`Refusal::Curve`].
pub fn area(curve: &[f32]) -> Result<f32, Refusal> {
    let (number, area) = ffi::area(curve);

    accepted(number, area)
}

/// The price of a curve's area in cents, at `rate` cents a square metre: the exact value of [`area`] times the rate,
/// rounded once, to the nearest cent, a half upward. What is rounded to [`MOST_CENTS`] passes.
///
/// # Errors
///
/// [`Refusal::Curve`], [`Refusal::Rate`], or [`Refusal::Price`].
///
/// # Example
///
/// A straight belt, 6 metres long and 1 wide:
///
/// ```
/// let belt = [
///     -3.0, 0.0, 4.0, -1.0, 0.0, 4.0, 1.0, 0.0, 4.0, 3.0, 0.0, 4.0, // four points
///     1.0, 1.0, 0.0, 1.0, // two widths, umin and umax
/// ];
/// assert_eq!(curve::price(&belt, 1250)?, 7500);
/// # Ok::<(), curve::Refusal>(())
/// ```
pub fn price(curve: &[f32], rate: u32) -> Result<u32, Refusal> {
    let (number, cents) = ffi::price(curve, rate);

    accepted(number, cents)
}

/// Where a ray meets a curve. `reverse` says whether normals turn.
///
/// # Errors
///
/// [`Refusal`] 9 to 16.
pub fn intersect(
    curve: &[f32],
    object_to_world: &Matrix4x4,
    world_to_object: &Matrix4x4,
    reverse: bool,
    ray: &Ray,
) -> Result<Intersection, Refusal> {
    let ray = ray.to_floats();
    match ffi::intersect(curve, object_to_world, world_to_object, reverse, &ray) {
        (0, record, looked) => {
            let hit = SurfaceInteraction::from_floats(&record);

            Ok(Intersection::Hit(hit, looked))
        }
        (1, _, looked) => Ok(Intersection::Miss(looked)),
        (number, ..) => Err(refused(number)),
    }
}

/// Where a ray meets a list of curves, [`CURVE_FLOATS`] floats each, at the least distance of all its crossings with
/// all of them; of those as near, at the first of the earliest curve. `reverse` says whether normals turn. An empty
/// list is missed.
///
/// [`intersect`] tells a curve's last crossing, so the nearest of its answers can lie further.
///
/// # Errors
///
/// [`Refusal::ListLength`], then [`Refusal::Matrix`] or [`Refusal::Ray`], then the first of [`Refusal`] 9 and 12 to 16
/// that is met, curve by curve. A crossing without a frame (14 to 16) is told also where a nearer one was found.
///
/// # Example
///
/// A belt that runs out at z = -4 and comes back below, at z = -8, under a beam down from the origin:
///
/// ```
/// use curve::{intersect, nearest, Intersection, Nearest, Ray, IDENTITY};
///
/// let decks = [
///     -9.0, 0.0, -4.0, 7.0, 0.0, -4.0, 7.0, 0.0, -8.0, -9.0, 0.0, -8.0, // four points
///     1.0, 1.0, 0.0, 1.0, // two widths, umin and umax
/// ];
/// let ray = Ray {
///     o: [0.0, 0.0, 0.0],
///     d: [0.0, 0.0, -1.0],
///     t_max: f32::INFINITY,
///     time: 0.0,
/// };
/// match nearest(&decks, &IDENTITY, &IDENTITY, false, &ray)? {
///     Nearest::Hit(hit, curve) => assert_eq!((hit.t_hit, curve), (4.625, 0)),
///     Nearest::Miss => panic!("the beam misses"),
/// }
/// match intersect(&decks, &IDENTITY, &IDENTITY, false, &ray)? {
///     Intersection::Hit(hit, _) => assert_eq!(hit.t_hit, 7.375),
///     Intersection::Miss(_) => panic!("the beam misses"),
/// }
/// # Ok::<(), curve::Refusal>(())
/// ```
pub fn nearest(
    list: &[f32],
    object_to_world: &Matrix4x4,
    world_to_object: &Matrix4x4,
    reverse: bool,
    ray: &Ray,
) -> Result<Nearest, Refusal> {
    let ray = ray.to_floats();
    match ffi::nearest(list, object_to_world, world_to_object, reverse, &ray) {
        (0, record, curve) => Ok(Nearest::Hit(
            SurfaceInteraction::from_floats(&record),
            curve,
        )),
        (1, ..) => Ok(Nearest::Miss),
        (number, ..) => Err(refused(number)),
    }
}

/// Reads a belt sheet and lays its curves into the list.
///
/// # Errors
///
/// [`Refusal`] 17 and 18, and those of [`create_curve_shape`]; and then the list is as it was.
pub fn read_sheet(bytes: &[u8], list: &mut [f32]) -> Result<Sheet, SheetRefusal> {
    let (number, beams, said) = ffi::sheet(bytes, list);
    let sheet = Sheet {
        curves: said[SHEET_PIECES],
        reverse: said[SHEET_REVERSE] == 1,
        beams: beams
            .chunks_exact(RAY_FLOATS)
            .take(said[SHEET_BEAMS] as usize)
            .map(Ray::from_floats)
            .collect(),
    };
    let line = said[SHEET_LINE];

    accepted(number, sheet).map_err(|refusal| SheetRefusal { refusal, line })
}

fn accepted<T>(number: u32, value: T) -> Result<T, Refusal> {
    match number {
        0 => Ok(value),
        _ => Err(refused(number)),
    }
}

fn refused(number: u32) -> Refusal {
    Refusal::from_number(number).expect("the library answers 0 to 22")
}

/// The three floats at a place.
fn triple(floats: &[f32], place: Range<usize>) -> [f32; 3] {
    std::array::from_fn(|k| floats[place.start + k])
}

impl Bounds3 {
    fn from_floats(&[x0, y0, z0, x1, y1, z1]: &[f32; BOX_FLOATS]) -> Bounds3 {
        Bounds3 {
            p_min: [x0, y0, z0],
            p_max: [x1, y1, z1],
        }
    }
}

impl Ray {
    fn from_floats(ray: &[f32]) -> Ray {
        Ray {
            o: triple(ray, RAY_O),
            d: triple(ray, RAY_D),
            t_max: ray[RAY_T_MAX],
            time: ray[RAY_TIME],
        }
    }

    fn to_floats(self) -> [f32; RAY_FLOATS] {
        let mut ray = [0.0; RAY_FLOATS];
        ray[RAY_O].copy_from_slice(&self.o);
        ray[RAY_D].copy_from_slice(&self.d);
        ray[RAY_T_MAX] = self.t_max;
        ray[RAY_TIME] = self.time;

        ray
    }
}

impl SurfaceInteraction {
    fn from_floats(record: &[f32; RECORD_FLOATS]) -> SurfaceInteraction {
        SurfaceInteraction {
            t_hit: record[RECORD_T],
            u: record[RECORD_U],
            v: record[RECORD_V],
            p: triple(record, RECORD_P),
            p_error: triple(record, RECORD_ERROR),
            time: record[RECORD_TIME],
            wo: triple(record, RECORD_WO),
            n: triple(record, RECORD_N),
            dpdu: triple(record, RECORD_DPDU),
            dpdv: triple(record, RECORD_DPDV),
        }
    }
}
