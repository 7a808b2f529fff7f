//! Stand-in for geometry/normal.rs, operation by operation like `Vector3`.

use super::vector::Vector3;
use crate::core::pbrt::Float;
use std::fmt;
use std::fmt::{Display, Formatter};
use std::ops::{Add, Mul, MulAssign, Neg};

pub type Normal3f = Normal3<Float>;

#[derive(Debug, Default, Copy, Clone, PartialEq)]
pub struct Normal3<T> {
    pub x: T,
    pub y: T,
    pub z: T,
}

impl<T> Normal3<T> {
    pub fn new(x: T, y: T, z: T) -> Normal3<T> {
        Normal3 { x, y, z }
    }
}

impl Normal3f {
    pub fn has_nan(&self) -> bool {
        Vector3::from(*self).has_nan()
    }

    pub fn dot(&self, n: &Normal3f) -> Float {
        Vector3::from(*self).dot_norm(n)
    }

    pub fn dot_vec(&self, v: &Vector3<Float>) -> Float {
        Vector3::from(*self).dot(v)
    }

    pub fn abs_dot_vec(&self, v: &Vector3<Float>) -> Float {
        self.dot_vec(v).abs()
    }

    pub fn cross_vec(&self, v: &Vector3<Float>) -> Vector3<Float> {
        Vector3::from(*self).cross(v)
    }

    pub fn normalize(&self) -> Normal3f {
        Vector3::from(*self).normalize().into()
    }

    pub fn face_foward(&self, n: &Normal3f) -> Normal3f {
        Vector3::from(*self).face_foward_norm(n).into()
    }
}

impl<T: Add<Output = T>> Add for Normal3<T> {
    type Output = Normal3<T>;

    fn add(self, n: Normal3<T>) -> Normal3<T> {
        Normal3::new(self.x + n.x, self.y + n.y, self.z + n.z)
    }
}

impl<T: Neg<Output = T>> Neg for Normal3<T> {
    type Output = Normal3<T>;

    fn neg(self) -> Normal3<T> {
        Normal3::new(-self.x, -self.y, -self.z)
    }
}

impl<T: Copy + Mul<Output = T>> Mul<T> for Normal3<T> {
    type Output = Normal3<T>;

    fn mul(self, f: T) -> Normal3<T> {
        Normal3::new(self.x * f, self.y * f, self.z * f)
    }
}

impl<T: Copy + MulAssign> MulAssign<T> for Normal3<T> {
    fn mul_assign(&mut self, f: T) {
        self.x *= f;
        self.y *= f;
        self.z *= f;
    }
}

impl<T: Display> Display for Normal3<T> {
    fn fmt(&self, f: &mut Formatter<'_>) -> fmt::Result {
        write!(f, "[ {}, {}, {} ]", self.x, self.y, self.z)
    }
}

impl<T> From<Vector3<T>> for Normal3<T> {
    fn from(v: Vector3<T>) -> Normal3<T> {
        Normal3::new(v.x, v.y, v.z)
    }
}
