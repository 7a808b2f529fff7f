//! What the Rust's `create_curve_shape` looks up for flat curves. `bench/` uses this file too.

use pbrt::core::geometry::point::Point3f;
use pbrt::core::paramset::ParamSet;

/// `points` has three floats a point.
pub fn set(degree: u32, basis: &str, widths: [f32; 2], split: u32, points: &[f32]) -> ParamSet {
    let point = |p: &[f32]| Point3f::new(p[0], p[1], p[2]);
    let mut set = ParamSet::default();
    set.add_int("degree", vec![degree as isize]);
    set.add_string("basis", vec![basis.to_string()]);
    set.add_string("type", vec!["flat".to_string()]);
    set.add_float("width0", vec![widths[0]]);
    set.add_float("width1", vec![widths[1]]);
    set.add_int("splitdepth", vec![split as isize]);
    set.add_point3f("P", points.chunks(3).map(point).collect());

    set
}
