//! Why a call is refused.

use std::error::Error;
use std::fmt;

/// Why a call was refused. Of several reasons the one that comes first in the call's order is told: by the
/// numbers, but 22 behind 3 and before 4, and 12 and 13 as the ray's frame meets them. Of
/// [`nearest`](crate::nearest) 19, 10 and 11 come before those of a curve.
#[derive(Clone, Copy, Debug, PartialEq, Eq, Hash)]
pub enum Refusal {
    /// 1: the degree is not 2 or 3.
    Degree = 1,
    /// 2: the basis is not Bezier or B-spline. [`Basis`](crate::Basis) has no third.
    Basis = 2,
    /// 3: the points do not make whole segments.
    PointCount = 3,
    /// 4: the type is not flat.
    Type = 4,
    /// 5: the split depth is over 10.
    SplitDepth = 5,
    /// 6: over 256 points, or over 1,024 curves.
    TooMany = 6,
    /// 7: a coordinate or a width is off limits.
    PointsOrWidths = 7,
    /// 8: the list is shorter than [`CURVE_FLOATS`](crate::CURVE_FLOATS) floats a curve.
    ListTooShort = 8,
    /// 9: the floats are not a curve within the limits.
    Curve = 9,
    /// 10: an entry of a matrix is off limits.
    Matrix = 10,
    /// 11: a number of the ray is off limits.
    Ray = 11,
    /// 12: a point has a weight of zero under a matrix.
    ZeroWeight = 12,
    /// 13: a direction has length zero where the ray's frame is made.
    NoFrame = 13,
    /// 14: at the hit the derivative along the curve is zero.
    ZeroDerivative = 14,
    /// 15: at the hit the vector across the curve has length zero.
    ZeroAcross = 15,
    /// 16: at the hit the normal, or the way back, has length zero.
    ZeroNormal = 16,
    /// 17: a line of the sheet is wrong or missing.
    WrongLine = 17,
    /// 18: the sheet has over 65,536 bytes.
    SheetTooLong = 18,
    /// 19: the length of the list is no whole number of curves.
    ListLength = 19,
    /// 20: the rate is over [`MOST_RATE`](crate::MOST_RATE).
    Rate = 20,
    /// 21: the price is over [`MOST_CENTS`](crate::MOST_CENTS).
    Price = 21,
    /// 22: two neighbouring points are equal in all three coordinates. -0 equals 0, and a NaN equals nothing.
    EqualNeighbours = 22,
}

/// By number, from 1.
const ALL: [Refusal; 22] = [
    Refusal::Degree,
    Refusal::Basis,
    Refusal::PointCount,
    Refusal::Type,
    Refusal::SplitDepth,
    Refusal::TooMany,
    Refusal::PointsOrWidths,
    Refusal::ListTooShort,
    Refusal::Curve,
    Refusal::Matrix,
    Refusal::Ray,
    Refusal::ZeroWeight,
    Refusal::NoFrame,
    Refusal::ZeroDerivative,
    Refusal::ZeroAcross,
    Refusal::ZeroNormal,
    Refusal::WrongLine,
    Refusal::SheetTooLong,
    Refusal::ListLength,
    Refusal::Rate,
    Refusal::Price,
    Refusal::EqualNeighbours,
];

impl Refusal {
    /// The number of the refusal, from 1 to 22.
    pub fn number(self) -> u32 {
        self as u32
    }

    /// The refusal of that number, if there is one.
    pub fn from_number(number: u32) -> Option<Refusal> {
        ALL.into_iter().find(|refusal| refusal.number() == number)
    }
}

impl fmt::Display for Refusal {
    fn fmt(&self, f: &mut fmt::Formatter) -> fmt::Result {
        f.write_str(match self {
            Refusal::Degree => "the degree is not 2 or 3",
            Refusal::Basis => "the basis is not Bezier or B-spline",
            Refusal::PointCount => "the points do not make whole segments",
            Refusal::Type => "the type is not flat",
            Refusal::SplitDepth => "the split depth is over 10",
            Refusal::TooMany => "there are over 256 points, or over 1,024 curves",
            Refusal::PointsOrWidths => {
                "a coordinate is not finite or beyond ±1,048,576, or a width is outside 1/1024 to 1,024"
            }
            Refusal::ListTooShort => "the list is shorter than sixteen floats a curve",
            Refusal::Curve => {
                "the curve is not sixteen finite floats with coordinates within ±2,097,152, \
                 widths from 1/2048 to 2,048 and 0 ≤ umin < umax ≤ 1"
            }
            Refusal::Matrix => "an entry of a matrix is not finite or beyond ±1,048,576",
            Refusal::Ray => {
                "an origin, direction or time is not finite or beyond ±1,048,576, \
                 or t_max is negative or a NaN"
            }
            Refusal::ZeroWeight => "the weight of a point under a matrix is zero",
            Refusal::NoFrame => "a direction has length zero where the ray's frame is made",
            Refusal::ZeroDerivative => "the derivative along the curve is zero at the hit",
            Refusal::ZeroAcross => "the vector across the curve has length zero at the hit",
            Refusal::ZeroNormal => "the normal or the way back has length zero at the hit",
            Refusal::WrongLine => "a line of the sheet is wrong or missing",
            Refusal::SheetTooLong => "the sheet has over 65,536 bytes",
            Refusal::ListLength => "the length of the list is no whole number of curves",
            Refusal::Rate => "the rate is over 1,000,000 cents a square metre",
            Refusal::Price => "the price is over 1,000,000,000 cents",
            Refusal::EqualNeighbours => "two neighbouring points are equal",
        })
    }
}

impl Error for Refusal {}

/// Why a sheet was refused, and where.
#[derive(Clone, Copy, Debug, PartialEq, Eq, Hash)]
pub struct SheetRefusal {
    /// The reason: [`Refusal::WrongLine`], [`Refusal::SheetTooLong`], or one of those of
    /// [`create_curve_shape`](crate::create_curve_shape).
    pub refusal: Refusal,
    /// With [`Refusal::WrongLine`] the first wrong line, from 1, or one past the last where a line is missing;
    /// else 0.
    pub line: u32,
}

impl fmt::Display for SheetRefusal {
    fn fmt(&self, f: &mut fmt::Formatter) -> fmt::Result {
        match self.line {
            0 => self.refusal.fmt(f),
            line => write!(f, "line {line}: {}", self.refusal),
        }
    }
}

impl Error for SheetRefusal {}
