//! The kind `corners`, 02's P2: the corners of the box of four points, told twice. Once by the definition, a pass for
//! the lower and another for the upper, and once by the Rust's union of two boxes, which leaves the sign of a zero open.

use crate::words::{put_bounds, put_point, same_word, text, Words};
use pbrt::core::geometry::bounds::Bounds3f;
use pbrt::core::geometry::point::Point3f;

/// Stops the program where the two differ.
pub fn checked(points: &[Point3f; 4]) -> Bounds3f {
    let bounds = Bounds3f {
        p_min: corner(points, f32::lt),
        p_max: corner(points, f32::gt),
    };
    let [passes, union] = [bounds, union(points)].map(|bounds| {
        let mut words = Words::new();
        put_bounds(&mut words, &bounds);
        words
    });
    let mut pairs = passes.iter().zip(&union);
    if !pairs.all(|(a, b)| same_word(*a, *b, true)) {
        let mut line = Words::new();
        points.iter().for_each(|p| put_point(&mut line, p));
        panic!(
            "the Rust's union differs\nline   {}\nrust   {}\npasses {}",
            text(&line),
            text(&union),
            text(&passes),
        );
    }

    bounds
}

/// As `object_bound` makes it.
fn union(p: &[Point3f; 4]) -> Bounds3f {
    Bounds3f::from_points(p[0], p[1]).union_bounds(&Bounds3f::from_points(p[2], p[3]))
}

/// Whether the first lies farther out than the second.
type Beyond = fn(&f32, &f32) -> bool;

fn corner(points: &[Point3f; 4], beyond: Beyond) -> Point3f {
    Point3f::new(
        outermost(points.map(|p| p.x), beyond),
        outermost(points.map(|p| p.y), beyond),
        outermost(points.map(|p| p.z), beyond),
    )
}

/// The first of the numbers than which none lies farther out; a NaN where there is no number.
fn outermost(values: [f32; 4], beyond: Beyond) -> f32 {
    let numbers = values.into_iter().filter(|x| !x.is_nan());
    let first = numbers.reduce(|kept, x| if beyond(&x, &kept) { x } else { kept });

    first.unwrap_or(f32::NAN)
}
