//! Vectors for drawing and aiming, which need not be exact. `bench/` uses this file too.

pub type Vector = [f64; 3];

pub fn sum(a: Vector, b: Vector) -> Vector {
    std::array::from_fn(|k| a[k] + b[k])
}

pub fn scaled(a: Vector, by: f64) -> Vector {
    a.map(|x| x * by)
}

pub fn difference(a: Vector, b: Vector) -> Vector {
    sum(a, scaled(b, -1.0))
}

pub fn cross(a: Vector, b: Vector) -> Vector {
    [
        a[1] * b[2] - a[2] * b[1],
        a[2] * b[0] - a[0] * b[2],
        a[0] * b[1] - a[1] * b[0],
    ]
}

pub fn length(a: Vector) -> f64 {
    a.iter().map(|x| x * x).sum::<f64>().sqrt()
}

/// Zero stays zero.
pub fn normal(a: Vector) -> Vector {
    if length(a) > 0.0 {
        scaled(a, 1.0 / length(a))
    } else {
        [0.0; 3]
    }
}
