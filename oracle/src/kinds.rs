//! What can be asked: for each kind its layout, its inputs and the call of the supplied Rust.

use crate::limits::{self, ShapeParams};
use crate::nearest::{self, ListBeam};
use crate::params;
use crate::piece::{self, Piece};
use crate::products::{self, Ties};
use crate::rng::Rng;
use crate::words::{put, put_bounds, put_matrix, put_point, put_vector, Reader, Words};
use crate::{
    beam, beam_inputs, corner_inputs, corners, curve_inputs, inputs, nearest_inputs, product_inputs,
};
use pbrt::core::geometry::ray::Ray;
use pbrt::core::geometry::vector::{vec3_coordinate_system, Vector3f};
use pbrt::core::shape::{Shape, Shapes};
use pbrt::core::transform::{Matrix4x4, Transform};
use pbrt::shapes::curve::{self, Curve};
use std::panic::catch_unwind;
use std::sync::Arc;

pub struct Kind {
    pub name: &'static str,
    pub layout: &'static str,
    /// Puts the inputs of one line.
    pub inputs: fn(&mut Rng, &mut Words),
    /// Reads the inputs and puts the answer; panics where the Rust does, unless a status tells it.
    pub answer: fn(&mut Reader, &mut Words),
}

const fn kind(
    name: &'static str,
    layout: &'static str,
    inputs: fn(&mut Rng, &mut Words),
    answer: fn(&mut Reader, &mut Words),
) -> Kind {
    Kind {
        name,
        layout,
        inputs,
        answer,
    }
}

/// 01's refusal where the Rust panics on the weight of a corner.
const ZERO_WEIGHT: u32 = 12;

/// The status of a product that a u32 does not hold.
const BEYOND: u32 = 1;

pub const KINDS: &[Kind] = &[
    kind("sqrt", "x -> root", inputs::sqrt, sqrt),
    kind("narrow", "x(f64: 2) -> x", inputs::narrow, narrow),
    kind(
        "round_product",
        "x k ties -> status [size]",
        product_inputs::round_product,
        round_product,
    ),
    kind("cross", "a(3) b(3) -> 3", inputs::cross, cross),
    kind("normalize", "v(3) -> 3", inputs::normalize, normalize),
    kind("inverse", "m(16) -> 16", inputs::inverse, inverse),
    kind(
        "look_at",
        "pos(3) look(3) up(3) -> m(16) m_inv(16)",
        inputs::look_at,
        look_at,
    ),
    kind(
        "transform_ray_error",
        "m(16) o(3) d(3) t_max time -> o(3) d(3) t_max time o_error(3) d_error(3)",
        inputs::transform_ray_error,
        transform_ray_error,
    ),
    kind(
        "transform_bounds",
        "m(16) p_min(3) p_max(3) -> p_min(3) p_max(3)",
        inputs::transform_bounds,
        transform_bounds,
    ),
    kind(
        "coordinate_system",
        "v1(3) -> v2(3) v3(3)",
        inputs::coordinate_system,
        coordinate_system,
    ),
    kind(
        "transform_point",
        "m(16) p(3) -> 3",
        inputs::transform_point,
        transform_point,
    ),
    kind(
        "swaps_handedness",
        "m(16) -> 00000001 or 00000000",
        inputs::swaps_handedness,
        swaps_handedness,
    ),
    kind(
        "corners",
        "p0(3) p1(3) p2(3) p3(3) -> lower(3) upper(3)",
        corner_inputs::corners,
        corners,
    ),
    kind("area", "piece -> status [area]", curve_inputs::piece, area),
    kind(
        "price",
        "piece rate -> status [cents]",
        product_inputs::price,
        price,
    ),
    kind(
        "object_bound",
        "piece -> status [p_min(3) p_max(3)]",
        curve_inputs::piece,
        object_bound,
    ),
    kind(
        "world_bound",
        "piece object_to_world(16) -> status [p_min(3) p_max(3)]",
        curve_inputs::world_bound,
        world_bound,
    ),
    kind(
        "create_curve_shape",
        "degree basis type width0 width1 splitdepth list_len floats_len points(floats_len) -> \
         status [pieces hash_high hash_low]",
        curve_inputs::create_curve_shape,
        create_curve_shape,
    ),
    kind(
        "intersect",
        "piece object_to_world(16) world_to_object(16) reverse o(3) d(3) t_max time -> \
         status [looked [t u v p(3) error(3) time wo(3) n(3) dpdu(3) dpdv(3)]]",
        beam_inputs::intersect,
        intersect,
    ),
    kind(
        "nearest",
        "len list(len) object_to_world(16) world_to_object(16) reverse o(3) d(3) t_max time -> \
         status [piece t u v p(3) error(3) time wo(3) n(3) dpdu(3) dpdv(3)]",
        nearest_inputs::nearest,
        nearest,
    ),
];

pub fn find(name: &str) -> Option<&'static Kind> {
    KINDS.iter().find(|kind| kind.name == name)
}

fn sqrt(line: &mut Reader, answer: &mut Words) {
    put(answer, &[line.float().sqrt()]);
}

fn narrow(line: &mut Reader, answer: &mut Words) {
    put(answer, &[line.double() as f32]);
}

fn round_product(line: &mut Reader, answer: &mut Words) {
    let x = line.float();
    let k = line.word();
    let ties = [Ties::Up, Ties::Even][line.word() as usize];
    let size = products::size(x, k, ties).ok_or(BEYOND);
    put_reply(answer, size, |words, size| words.push(size));
}

fn cross(line: &mut Reader, answer: &mut Words) {
    let a = line.vector();
    let b = line.vector();
    put_vector(answer, &a.cross(&b));
}

fn normalize(line: &mut Reader, answer: &mut Words) {
    put_vector(answer, &line.vector().normalize());
}

fn inverse(line: &mut Reader, answer: &mut Words) {
    put_matrix(answer, &Matrix4x4::inverse(&line.matrix()));
}

fn look_at(line: &mut Reader, answer: &mut Words) {
    let pos = line.point();
    let look = line.point();
    let up = line.vector();
    let transform = Transform::look_at(&pos, &look, &up);
    put_matrix(answer, &transform.m);
    put_matrix(answer, &transform.m_inv);
}

fn transform_ray_error(line: &mut Reader, answer: &mut Words) {
    let transform = transform(line);
    let o = line.point();
    let d = line.vector();
    let t_max = line.float();
    let time = line.float();
    let mut o_error = Vector3f::default();
    let mut d_error = Vector3f::default();
    let ray = Ray::new(&o, &d, t_max, time, None, None);
    let ray = transform.transform_ray_error(&ray, &mut o_error, &mut d_error);
    put_point(answer, &ray.o);
    put_vector(answer, &ray.d);
    put(answer, &[ray.t_max, ray.time]);
    put_vector(answer, &o_error);
    put_vector(answer, &d_error);
}

fn transform_bounds(line: &mut Reader, answer: &mut Words) {
    let transform = transform(line);
    let bounds = transform.transform_bounds(&line.bounds());
    put_bounds(answer, &bounds);
}

fn coordinate_system(line: &mut Reader, answer: &mut Words) {
    let v1 = line.vector();
    let mut v2 = Vector3f::default();
    let mut v3 = Vector3f::default();
    vec3_coordinate_system(&v1, &mut v2, &mut v3);
    put_vector(answer, &v2);
    put_vector(answer, &v3);
}

fn transform_point(line: &mut Reader, answer: &mut Words) {
    let transform = transform(line);
    put_point(answer, &transform.transform_point(&line.point()));
}

fn swaps_handedness(line: &mut Reader, answer: &mut Words) {
    answer.push(transform(line).swaps_handedness() as u32);
}

pub fn corners(line: &mut Reader, answer: &mut Words) {
    let points = std::array::from_fn(|_| line.point());
    put_bounds(answer, &corners::checked(&points));
}

/// What is asked of it here does not read its inverse.
fn transform(line: &mut Reader) -> Transform {
    Transform::from_matrices(&line.matrix(), &Matrix4x4::default())
}

fn area(line: &mut Reader, answer: &mut Words) {
    let area = area_of(&line.floats());
    put_reply(answer, area, |words, area| put(words, &[area]));
}

fn price(line: &mut Reader, answer: &mut Words) {
    let area = area_of(&line.floats());
    let rate = line.word();
    let cents = area.and_then(|area| products::price(area, rate));
    put_reply(answer, cents, |words, cents| words.push(cents));
}

/// The Rust's, where 01's limits let it.
fn area_of(piece: &Piece) -> Result<f32, u32> {
    limits::piece(piece)?;

    Ok(curve_of(piece, Transform::default()).area())
}

fn object_bound(line: &mut Reader, answer: &mut Words) {
    let piece = line.floats();
    let bounds =
        limits::piece(&piece).map(|()| curve_of(&piece, Transform::default()).object_bound());
    put_reply(answer, bounds, |words, bounds| put_bounds(words, &bounds));
}

/// Within 01's limits only the assertion on a corner's weight can fail.
fn world_bound(line: &mut Reader, answer: &mut Words) {
    let piece = line.floats();
    let transform = transform(line);
    let bounds = limits::piece(&piece)
        .and_then(|()| limits::matrix(&transform.m))
        .and_then(|()| {
            catch_unwind(|| curve_of(&piece, transform).world_bound()).map_err(|_| ZERO_WEIGHT)
        });
    put_reply(answer, bounds, |words, bounds| put_bounds(words, &bounds));
}

fn create_curve_shape(line: &mut Reader, answer: &mut Words) {
    let params = shape_params(line);
    put_reply(answer, laid(&params), |words, pieces| {
        let mut list = Words::new();
        put(&mut list, pieces.as_flattened());
        for i in list.len() as u32..params.list_len {
            put(&mut list, &[list_before(i)]);
        }
        let hash = hash(&list);
        words.extend([pieces.len() as u32, (hash >> 32) as u32, hash as u32]);
    });
}

pub fn shape_params(line: &mut Reader) -> ShapeParams {
    ShapeParams {
        degree: line.word(),
        basis: line.word(),
        ty: line.word(),
        widths: line.floats(),
        split: line.word(),
        list_len: line.word(),
        floats: line.counted_floats(),
    }
}

fn intersect(line: &mut Reader, answer: &mut Words) {
    let (reply, _) = beam::checked(line.0);
    answer.extend(reply.words());
}

fn nearest(line: &mut Reader, answer: &mut Words) {
    answer.extend(nearest::checked(&ListBeam::read(line)).words());
}

/// 01's reply: the status, then what an acceptance carries.
fn put_reply<T>(answer: &mut Words, reply: Result<T, u32>, put: impl Fn(&mut Words, T)) {
    match reply {
        Ok(value) => {
            answer.push(0);
            put(answer, value);
        }
        Err(refusal) => answer.push(refusal),
    }
}

/// The curve that a piece stands for, world_to_object the identity.
pub fn curve_of(piece: &Piece, object_to_world: Transform) -> Curve {
    let transforms = [object_to_world, Transform::default()].map(Arc::new);

    piece::to_curve(piece, transforms, false)
}

/// The pieces that the Rust lays, where 01's limits let it.
pub fn laid(params: &ShapeParams) -> Result<Vec<Piece>, u32> {
    let pieces = limits::create_curve_shape(params)?;
    let curves = curves_of(params);
    assert_eq!(pieces, curves.len() as i64);

    Ok(piece::from_shapes(&curves))
}

/// The Rust's call.
fn curves_of(params: &ShapeParams) -> Vec<Arc<Shapes>> {
    let basis = ["bezier", "bspline"][params.basis as usize];
    let set = params::set(
        params.degree,
        basis,
        params.widths,
        params.split,
        &params.floats,
    );
    let transform = Arc::new(Transform::default());

    curve::create_curve_shape(transform.clone(), transform, false, &set)
}

/// What stands at i in the list before the call.
fn list_before(i: u32) -> f32 {
    f32::from_bits(i.wrapping_mul(2_654_435_761) ^ 0x3f80_0000)
}

/// FNV-1a, a whole word at each step.
fn hash(words: &[u32]) -> u64 {
    words.iter().fold(0xcbf2_9ce4_8422_2325, |hash: u64, word| {
        (hash ^ *word as u64).wrapping_mul(0x100_0000_01b3)
    })
}
