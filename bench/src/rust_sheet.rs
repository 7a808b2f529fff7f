//! The unchanged Rust's answer to the belt sheet on standard input: prints what `beltbeam` prints. It takes the
//! sheet for right and its answers for hits and misses; on others it panics.

use pbrt::core::geometry::point::Point3f;
use pbrt::core::geometry::ray::Ray;
use pbrt::core::geometry::vector::Vector3f;
use pbrt::core::interaction::SurfaceInteraction;
use pbrt::core::paramset::ParamSet;
use pbrt::core::shape::{Shape, Shapes};
use pbrt::core::transform::Transform;
use pbrt::progress;
use pbrt::shapes::curve::create_curve_shape;
use std::io::{Read, Write};
use std::str::Lines;
use std::sync::Arc;

fn main() {
    let mut sheet = String::new();
    std::io::stdin()
        .read_to_string(&mut sheet)
        .expect("a sheet is text");
    let mut lines = sheet.lines();
    let (set, reverse) = head(&mut lines);
    let (points, beams): (Vec<&str>, Vec<&str>) = lines.partition(|line| line.starts_with("point"));
    let set = with_points(set, &points);
    let identity = Arc::new(Transform::default());
    let shapes = create_curve_shape(identity.clone(), identity, reverse, &set);
    let mut report = Report::new();
    let mut isect = SurfaceInteraction::default();
    report.put_number("pieces=", shapes.len());
    report.put("\n");
    for (b, beam) in beams.iter().enumerate() {
        let ray = ray(beam);
        for (p, shape) in shapes.iter().enumerate() {
            report.put_number("beam=", b);
            report.put_number(" piece=", p);
            put_answer(&mut report, shape, &ray, &mut isect);
        }
    }
    report.flush();
}

/// The interaction is filled with a hit, and made only once, as where the Rust is timed without a program.
fn put_answer(report: &mut Report, shape: &Arc<Shapes>, ray: &Ray, isect: &mut SurfaceInteraction) {
    let mut t = 0.0;
    let hit = shape.intersect(ray, &mut t, isect, false, Some(shape.clone()));
    report.put_number(" looked=", progress::looked() as usize);
    if hit {
        report.put_float(" hit=1 t=", t);
        report.put_float(" u=", isect.uv.x);
        report.put_float(" v=", isect.uv.y);
        report.put("\n");
    } else {
        report.put(" hit=0\n");
    }
}

// The sheet.

/// The seven lines of the head: the parameters, and whether normals turn.
fn head(lines: &mut Lines) -> (ParamSet, bool) {
    let mut next = || value(lines.next().expect("a head has seven lines"));
    let mut set = ParamSet::default();
    set.add_int("degree", vec![next().parse().expect("a number")]);
    set.add_string("basis", vec![next().to_string()]);
    set.add_string("type", vec![next().to_string()]);
    set.add_float("width0", vec![float(next())]);
    set.add_float("width1", vec![float(next())]);
    set.add_int("splitdepth", vec![next().parse().expect("a number")]);

    (set, next() == "1")
}

fn with_points(mut set: ParamSet, lines: &[&str]) -> ParamSet {
    let point = |line: &&str| {
        let [x, y, z] = floats(value(line));
        Point3f::new(x, y, z)
    };
    set.add_point3f("P", lines.iter().map(point).collect());

    set
}

fn ray(line: &str) -> Ray {
    let [ox, oy, oz, dx, dy, dz, t_max, time] = floats(value(line));
    let o = Point3f::new(ox, oy, oz);
    let d = Vector3f::new(dx, dy, dz);

    Ray::new(&o, &d, t_max, time, None, None)
}

fn value(line: &str) -> &str {
    line.split_once('=').expect("a key and a value").1
}

fn floats<const N: usize>(value: &str) -> [f32; N] {
    let all: Vec<f32> = value.split(',').map(float).collect();

    all.try_into().expect("a fixed number of floats")
}

fn float(digits: &str) -> f32 {
    f32::from_bits(u32::from_str_radix(digits, 16).expect("eight digits"))
}

// The report.

/// Written in blocks, and without the machinery of `format!`, which would take longer than most answers.
struct Report(Vec<u8>);

const BLOCK: usize = 65_536;

impl Report {
    fn new() -> Report {
        Report(Vec::with_capacity(BLOCK + 256))
    }

    fn put(&mut self, text: &str) {
        self.0.extend_from_slice(text.as_bytes());
        if self.0.len() > BLOCK {
            self.flush();
        }
    }

    fn put_number(&mut self, key: &str, number: usize) {
        let mut digits = [0; 20];
        let mut at = digits.len();
        let mut left = number;
        loop {
            at -= 1;
            digits[at] = b'0' + (left % 10) as u8;
            left /= 10;
            if left == 0 {
                break;
            }
        }
        self.put(key);
        self.0.extend_from_slice(&digits[at..]);
    }

    /// Eight digits; a NaN is 7fc00000.
    fn put_float(&mut self, key: &str, x: f32) {
        let bits = if x.is_nan() { 0x7fc0_0000 } else { x.to_bits() };
        let digit = |i: usize| b"0123456789abcdef"[(bits >> (28 - 4 * i)) as usize % 16];
        self.put(key);
        self.0
            .extend_from_slice(&std::array::from_fn::<u8, 8, _>(digit));
    }

    fn flush(&mut self) {
        std::io::stdout()
            .write_all(&self.0)
            .expect("standard output takes the report");
        self.0.clear();
    }
}
