//! The Rust's record of a hit as floats. `bench/` uses this file too.

use crate::layout::RECORD_FLOATS;
use pbrt::core::interaction::SurfaceInteraction;

pub type Record = [f32; RECORD_FLOATS];

pub fn record(t: f32, isect: &SurfaceInteraction) -> Record {
    let SurfaceInteraction {
        p,
        time,
        p_error,
        wo,
        n,
        uv,
        dpdu,
        dpdv,
        ..
    } = isect;

    [
        t, uv.x, uv.y, p.x, p.y, p.z, p_error.x, p_error.y, p_error.z, *time, wo.x, wo.y, wo.z,
        n.x, n.y, n.z, dpdu.x, dpdu.y, dpdu.z, dpdv.x, dpdv.y, dpdv.z,
    ]
}
