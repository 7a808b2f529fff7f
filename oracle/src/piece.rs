//! A piece as floats, and as the Rust's curve. `bench/` uses this file too.

use crate::layout::{CURVE_FLOATS, POINTS, UMAX, UMIN, WIDTH0, WIDTH1};
use pbrt::core::geometry::point::Point3f;
use pbrt::core::shape::Shapes;
use pbrt::core::transform::Transform;
use pbrt::shapes::curve::{self, Curve, CurveCommon, CurveType};
use std::sync::Arc;

pub type Piece = [f32; CURVE_FLOATS];

/// object_to_world and world_to_object.
pub type Transforms = [Arc<Transform>; 2];

/// From four points, two widths, umin and umax.
pub fn from_parts(points: &[[f32; 3]], widths: [f32; 2], u: [f32; 2]) -> Piece {
    let mut piece = [0.0; CURVE_FLOATS];
    piece[POINTS].copy_from_slice(points.as_flattened());
    piece[WIDTH0..=WIDTH1].copy_from_slice(&widths);
    piece[UMIN..=UMAX].copy_from_slice(&u);

    piece
}

/// Of the curves that the Rust laid, in order.
pub fn from_shapes(shapes: &[Arc<Shapes>]) -> Vec<Piece> {
    let piece = |shape: &Arc<Shapes>| {
        let Shapes::Curve(curve) = shape.as_ref();
        let (points, widths, u) = curve::parts(curve);
        from_parts(&points.map(|p| [p.x, p.y, p.z]), widths, u)
    };

    shapes.iter().map(piece).collect()
}

/// The curve that a piece stands for.
pub fn to_curve(piece: &Piece, transforms: Transforms, reverse: bool) -> Curve {
    let points = points(piece).map(|[x, y, z]| Point3f::new(x, y, z));
    let common = CurveCommon::new(points, piece[WIDTH0], piece[WIDTH1], CurveType::Flat, None);
    let [object_to_world, world_to_object] = transforms;

    Curve::new(
        object_to_world,
        world_to_object,
        reverse,
        Arc::new(common),
        piece[UMIN],
        piece[UMAX],
    )
}

pub fn points(piece: &Piece) -> [[f32; 3]; 4] {
    std::array::from_fn(|i| std::array::from_fn(|k| piece[POINTS][3 * i + k]))
}
