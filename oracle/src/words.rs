//! Floats as words of a line. A NaN is one word, 7fc00000, on the way in as on the way out.

use crate::layout::MATRIX_FLOATS;
use pbrt::core::geometry::bounds::Bounds3f;
use pbrt::core::geometry::point::Point3f;
use pbrt::core::geometry::vector::Vector3f;
use pbrt::core::transform::Matrix4x4;

pub type Words = Vec<u32>;

pub fn put(words: &mut Words, floats: &[f32]) {
    words.extend(
        floats
            .iter()
            .map(|x| if x.is_nan() { 0x7fc0_0000 } else { x.to_bits() }),
    );
}

pub fn put_f64(words: &mut Words, x: f64) {
    let bits = if x.is_nan() {
        0x7ff8_0000_0000_0000
    } else {
        x.to_bits()
    };
    words.extend([(bits >> 32) as u32, bits as u32]);
}

pub fn put_vector(words: &mut Words, v: &Vector3f) {
    put(words, &[v.x, v.y, v.z]);
}

pub fn put_point(words: &mut Words, p: &Point3f) {
    put(words, &[p.x, p.y, p.z]);
}

pub fn put_bounds(words: &mut Words, bounds: &Bounds3f) {
    put_point(words, &bounds.p_min);
    put_point(words, &bounds.p_max);
}

pub fn put_matrix(words: &mut Words, m: &Matrix4x4) {
    put(words, m.m.as_flattened());
}

/// A NaN equals any NaN, and in boxes -0 equals 0. A count is too small to be a NaN.
pub fn same_word(a: u32, b: u32, in_boxes: bool) -> bool {
    let [x, y] = [a, b].map(f32::from_bits);

    a == b || x.is_nan() && y.is_nan() || in_boxes && x == 0.0 && y == 0.0
}

/// Eight lower-case hexadecimal digits each, one space between them.
pub fn text(words: &[u32]) -> String {
    let mut text = String::with_capacity(9 * words.len());
    append(&mut text, words);
    text.pop();

    text
}

/// The same, with a space behind each.
pub fn append(text: &mut String, words: &[u32]) {
    const DIGITS: &[u8; 16] = b"0123456789abcdef";
    for word in words {
        for place in (0..8).rev() {
            text.push(DIGITS[(word >> (4 * place)) as usize % 16] as char);
        }
        text.push(' ');
    }
}

/// Takes what a line's inputs stand for, from left to right.
pub struct Reader<'a>(pub &'a [u32]);

impl Reader<'_> {
    pub fn word(&mut self) -> u32 {
        let word = self.0[0];
        self.0 = &self.0[1..];

        word
    }

    pub fn float(&mut self) -> f32 {
        f32::from_bits(self.word())
    }

    pub fn double(&mut self) -> f64 {
        let high = self.word();
        let low = self.word();

        f64::from_bits((high as u64) << 32 | low as u64)
    }

    pub fn floats<const N: usize>(&mut self) -> [f32; N] {
        std::array::from_fn(|_| self.float())
    }

    /// A count, then as many floats.
    pub fn counted_floats(&mut self) -> Vec<f32> {
        let count = self.word();

        (0..count).map(|_| self.float()).collect()
    }

    pub fn vector(&mut self) -> Vector3f {
        let [x, y, z] = self.floats();

        Vector3f::new(x, y, z)
    }

    pub fn point(&mut self) -> Point3f {
        let [x, y, z] = self.floats();

        Point3f::new(x, y, z)
    }

    pub fn bounds(&mut self) -> Bounds3f {
        Bounds3f {
            p_min: self.point(),
            p_max: self.point(),
        }
    }

    pub fn matrix(&mut self) -> Matrix4x4 {
        Matrix4x4::from_row_slice(&self.floats::<MATRIX_FLOATS>())
    }
}
