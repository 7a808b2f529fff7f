//! The kinds `round_product` and `price`: a float times a whole number, rounded, and on top of it 02's P3, the price of
//! an area. The product is exact, a whole number of small parts. A floored division rounds it, below zero as above.

use crate::limits;

/// Where an exact half goes: to the greater whole number, or to the even one.
#[derive(Clone, Copy)]
pub enum Ties {
    Up,
    Even,
}

/// Into how many parts one is cut. A float is a whole number of them, unless it is so small that no u32 takes it to a
/// half, and then the fraction of a part may go.
const PARTS: i128 = 1 << 57;

/// More than a u32 holds, and so is any product with it but zero.
const BEYOND: f32 = 4_294_967_296.0;

/// The size of the whole number nearest to x times k, where there is one and a u32 holds it.
pub fn size(x: f32, k: u32, ties: Ties) -> Option<u32> {
    if !x.is_finite() {
        return None;
    }

    u32::try_from(nearest(x, k, ties).unsigned_abs()).ok()
}

/// The cents, or refusal 20 or 21. Within 01's limits an area is finite.
pub fn price(area: f32, rate: u32) -> Result<u32, u32> {
    assert!(area.is_finite());
    limits::rate(rate)?;
    let cents = nearest(area, rate, Ties::Up);
    limits::cents(cents)?;

    Ok(cents as u32)
}

/// The whole number nearest to x times k, x finite and held to ±2^32.
fn nearest(x: f32, k: u32, ties: Ties) -> i128 {
    let parts = (x.clamp(-BEYOND, BEYOND) as f64 * PARTS as f64) as i128;
    let half_more = parts * k as i128 + PARTS / 2;
    let up = half_more.div_euclid(PARTS);
    let tie = half_more.rem_euclid(PARTS) == 0;
    match ties {
        Ties::Even if tie => up - up.rem_euclid(2),
        _ => up,
    }
}
