//! Stand-in for paramset.rs: the lookups of `create_curve_shape`, and how to fill them. As in the
//! supplied file, "one" asks for an item of exactly one value, and adding replaces.

use crate::core::geometry::normal::Normal3f;
use crate::core::geometry::point::Point3f;
use crate::core::pbrt::Float;
use std::collections::HashMap;

#[derive(Default)]
pub struct ParamSet {
    ints: HashMap<String, Vec<isize>>,
    floats: HashMap<String, Vec<Float>>,
    strings: HashMap<String, Vec<String>>,
    point3fs: HashMap<String, Vec<Point3f>>,
    normals: HashMap<String, Vec<Normal3f>>,
}

macro_rules! add {
    ($add:ident, $list:ident, $t:ty) => {
        pub fn $add(&mut self, name: &str, values: Vec<$t>) {
            self.$list.insert(name.to_string(), values);
        }
    };
}

macro_rules! find_one {
    ($find:ident, $list:ident, $t:ty) => {
        pub fn $find(&self, name: &str, default: $t) -> $t {
            match self.$list.get(name) {
                Some(values) if values.len() == 1 => values[0].clone(),
                _ => default,
            }
        }
    };
}

macro_rules! find {
    ($find:ident, $list:ident, $t:ty) => {
        pub fn $find(&self, name: &str, nvalues: &mut usize) -> Option<Vec<$t>> {
            let values = self.$list.get(name)?;
            *nvalues = values.len();

            Some(values.clone())
        }
    };
}

impl ParamSet {
    add!(add_int, ints, isize);
    add!(add_float, floats, Float);
    add!(add_string, strings, String);
    add!(add_point3f, point3fs, Point3f);
    add!(add_normal3f, normals, Normal3f);

    find_one!(find_one_int, ints, isize);
    find_one!(find_one_float, floats, Float);
    find_one!(find_one_string, strings, String);
    find!(find_point3f, point3fs, Point3f);
    find!(find_normal3f, normals, Normal3f);
}
