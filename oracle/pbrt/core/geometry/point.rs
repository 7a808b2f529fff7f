//! Stand-in for geometry/point.rs. Add, subtract, scale, min and max go by component; `/` takes one
//! reciprocal and multiplies, like `Vector3`; `distance` is the length of the difference.

use super::vector::{Vector2, Vector3};
use crate::core::pbrt::Float;
use num::{One, Zero};
use std::fmt;
use std::fmt::{Debug, Display, Formatter};
use std::ops::{Add, AddAssign, Div, Index, Mul, Sub};

pub type Point2f = Point2<Float>;
pub type Point2i = Point2<isize>;
pub type Point3f = Point3<Float>;
pub type Point3i = Point3<isize>;

#[derive(Debug, Default, Copy, Clone, PartialEq)]
pub struct Point2<T> {
    pub x: T,
    pub y: T,
}

impl<T> Point2<T> {
    pub fn new(x: T, y: T) -> Point2<T> {
        Point2 { x, y }
    }

    pub fn min(&self, p: &Point2<T>) -> Point2<T>
    where
        T: Ord + Copy,
    {
        Point2::new(self.x.min(p.x), self.y.min(p.y))
    }

    pub fn max(&self, p: &Point2<T>) -> Point2<T>
    where
        T: Ord + Copy,
    {
        Point2::new(self.x.max(p.x), self.y.max(p.y))
    }
}

impl Point2f {
    pub fn minf(&self, p: &Point2f) -> Point2f {
        Point2::new(self.x.min(p.x), self.y.min(p.y))
    }

    pub fn maxf(&self, p: &Point2f) -> Point2f {
        Point2::new(self.x.max(p.x), self.y.max(p.y))
    }

    pub fn distance(&self, p: &Point2f) -> Float {
        (*self - *p).length()
    }
}

impl<T: Add<Output = T>> Add for Point2<T> {
    type Output = Point2<T>;

    fn add(self, p: Point2<T>) -> Point2<T> {
        Point2::new(self.x + p.x, self.y + p.y)
    }
}

impl<T: Add<U, Output = T>, U> Add<Vector2<U>> for Point2<T> {
    type Output = Point2<T>;

    fn add(self, v: Vector2<U>) -> Point2<T> {
        Point2::new(self.x + v.x, self.y + v.y)
    }
}

impl<T: Sub<Output = T>> Sub for Point2<T> {
    type Output = Vector2<T>;

    fn sub(self, p: Point2<T>) -> Vector2<T> {
        Vector2::new(self.x - p.x, self.y - p.y)
    }
}

impl<T: Sub<U, Output = T>, U> Sub<Vector2<U>> for Point2<T> {
    type Output = Point2<T>;

    fn sub(self, v: Vector2<U>) -> Point2<T> {
        Point2::new(self.x - v.x, self.y - v.y)
    }
}

impl<T: Copy + Div<Output = T> + Zero + One + PartialEq + Debug> Div<T> for Point2<T> {
    type Output = Point2<T>;

    fn div(self, f: T) -> Point2<T> {
        assert_ne!(T::zero(), f);
        let d = T::one() / f;

        Point2::new(self.x * d, self.y * d)
    }
}

impl<T: Display> Display for Point2<T> {
    fn fmt(&self, f: &mut Formatter<'_>) -> fmt::Result {
        write!(f, "[ {}, {} ]", self.x, self.y)
    }
}

impl From<Point2i> for Point2f {
    fn from(p: Point2i) -> Point2f {
        Point2::new(p.x as Float, p.y as Float)
    }
}

#[derive(Debug, Default, Copy, Clone, PartialEq)]
pub struct Point3<T> {
    pub x: T,
    pub y: T,
    pub z: T,
}

impl<T> Point3<T> {
    pub fn new(x: T, y: T, z: T) -> Point3<T> {
        Point3 { x, y, z }
    }

    pub fn min(&self, p: &Point3<T>) -> Point3<T>
    where
        T: num::Float,
    {
        Point3::new(self.x.min(p.x), self.y.min(p.y), self.z.min(p.z))
    }

    pub fn max(&self, p: &Point3<T>) -> Point3<T>
    where
        T: num::Float,
    {
        Point3::new(self.x.max(p.x), self.y.max(p.y), self.z.max(p.z))
    }
}

impl Point3f {
    pub fn distance(&self, p: &Point3f) -> Float {
        (*self - *p).length()
    }
}

impl<T: Add<Output = T>> Add for Point3<T> {
    type Output = Point3<T>;

    fn add(self, p: Point3<T>) -> Point3<T> {
        Point3::new(self.x + p.x, self.y + p.y, self.z + p.z)
    }
}

impl<T: Add<U, Output = T>, U> Add<Vector3<U>> for Point3<T> {
    type Output = Point3<T>;

    fn add(self, v: Vector3<U>) -> Point3<T> {
        crate::progress::sum();

        Point3::new(self.x + v.x, self.y + v.y, self.z + v.z)
    }
}

impl<T: AddAssign> AddAssign<Vector3<T>> for Point3<T> {
    fn add_assign(&mut self, v: Vector3<T>) {
        self.x += v.x;
        self.y += v.y;
        self.z += v.z;
    }
}

impl<T: Sub<Output = T>> Sub for Point3<T> {
    type Output = Vector3<T>;

    fn sub(self, p: Point3<T>) -> Vector3<T> {
        Vector3::new(self.x - p.x, self.y - p.y, self.z - p.z)
    }
}

impl<T: Sub<U, Output = T>, U> Sub<Vector3<U>> for Point3<T> {
    type Output = Point3<T>;

    fn sub(self, v: Vector3<U>) -> Point3<T> {
        Point3::new(self.x - v.x, self.y - v.y, self.z - v.z)
    }
}

impl<T: Copy + Mul<Output = T>> Mul<T> for Point3<T> {
    type Output = Point3<T>;

    fn mul(self, f: T) -> Point3<T> {
        Point3::new(self.x * f, self.y * f, self.z * f)
    }
}

impl<T: Copy + Div<Output = T> + Zero + One + PartialEq + Debug> Div<T> for Point3<T> {
    type Output = Point3<T>;

    fn div(self, f: T) -> Point3<T> {
        assert_ne!(T::zero(), f);
        let d = T::one() / f;

        Point3::new(self.x * d, self.y * d, self.z * d)
    }
}

impl<T> Index<usize> for Point3<T> {
    type Output = T;

    fn index(&self, i: usize) -> &T {
        match i {
            0 => &self.x,
            1 => &self.y,
            2 => &self.z,
            _ => panic!("a point has three coordinates"),
        }
    }
}

impl<T: Display> Display for Point3<T> {
    fn fmt(&self, f: &mut Formatter<'_>) -> fmt::Result {
        write!(f, "[ {}, {}, {} ]", self.x, self.y, self.z)
    }
}
