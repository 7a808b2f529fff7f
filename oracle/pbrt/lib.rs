//! The supplied Rust as a library. Each `pub mod name;` is a file, and so is what is included: the build
//! puts the supplied ones, unchanged, beside our stand-ins. What a renderer has and a curve does not use
//! stands here as empty types: no value of them is ever made.

/// Statistics are not kept, but for the last value of a distribution: for curves that is the depth. What
/// they report tells how far a call of `intersect` has come. With `--cfg uncounted` not even that is kept:
/// there the Rust is timed.
#[macro_export]
macro_rules! stat_int_distribution {
    ($title:expr, $name:ident) => {
        pub mod $name {
            use std::sync::atomic::{AtomicU64, Ordering};

            static LAST: AtomicU64 = AtomicU64::new(0);

            pub fn init() {}

            pub fn report_value(value: u64) {
                if $crate::progress::KEPT {
                    LAST.store(value, Ordering::Relaxed);
                }
                $crate::progress::enter_walk();
            }

            pub fn last() -> u64 {
                LAST.load(Ordering::Relaxed)
            }
        }
    };
}

#[macro_export]
macro_rules! stat_counter {
    ($title:expr, $name:ident) => {
        mod $name {
            pub fn init() {}
            pub fn inc() {}
        }
    };
}

#[macro_export]
macro_rules! stat_memory_counter {
    ($title:expr, $name:ident) => {
        mod $name {
            pub fn init() {}
            pub fn add(_bytes: u64) {}
        }
    };
}

#[macro_export]
macro_rules! stat_percent {
    ($title:expr, $name:ident) => {
        mod $name {
            pub fn init() {}

            pub fn inc_num() {
                $crate::progress::end_record();
            }

            pub fn inc_den() {
                $crate::progress::begin();
            }
        }
    };
}

/// How far a call of `intersect` has come, told by the stand-ins that it calls on its way.
pub mod progress {
    use std::cell::Cell;

    #[derive(Clone, Copy, Debug, PartialEq)]
    pub enum Phase {
        /// Before `recursive_intersect`.
        Frame,
        /// In it, and not in a record.
        Walk,
        /// From where a sliver's point is found to where its record is made.
        Record,
    }

    pub const KEPT: bool = cfg!(not(uncounted));

    thread_local! {
        static PHASE: Cell<Phase> = const { Cell::new(Phase::Frame) };
        static ROOTS_BEFORE: Cell<u64> = const { Cell::new(0) };
        static RECORDS: Cell<u64> = const { Cell::new(0) };
    }

    /// `intersect` begins: it counts its calls first of all.
    pub(crate) fn begin() {
        if KEPT {
            PHASE.set(Phase::Frame);
        }
    }

    /// It reports the depth just before the walk.
    pub(crate) fn enter_walk() {
        if KEPT {
            PHASE.set(Phase::Walk);
            ROOTS_BEFORE.set(num::roots());
            RECORDS.set(0);
        }
    }

    /// The one sum of a point and a vector in the walk is the point of a hit: behind the crosswise vector,
    /// before the normal and the outgoing direction.
    pub(crate) fn sum() {
        if KEPT && PHASE.get() == Phase::Walk {
            PHASE.set(Phase::Record);
        }
    }

    /// A sliver counts as hit once its record is made.
    pub(crate) fn end_record() {
        if KEPT {
            PHASE.set(Phase::Walk);
            RECORDS.set(RECORDS.get() + 1);
        }
    }

    pub fn phase() -> Phase {
        PHASE.get()
    }

    /// How many pieces the walk entered, if it came to its end. On entering a piece it takes the length of
    /// the beam, and for a record three more lengths; there is no other root of `num` in it.
    pub fn looked() -> u64 {
        match PHASE.get() {
            Phase::Frame => 0,
            _ => num::roots() - ROOTS_BEFORE.get() - 3 * RECORDS.get(),
        }
    }
}

pub mod core {
    // Supplied.
    pub mod interaction;
    pub mod pbrt;
    pub mod quaternion;
    pub mod transform;

    // Stand-ins.
    pub mod paramset;
    pub mod shape;

    pub mod geometry {
        // Supplied.
        pub mod bounds;
        pub mod ray;
        pub mod vector;

        // Stand-ins.
        pub mod normal;
        pub mod point;

        pub mod geometry {
            use super::normal::Normal3f;
            use super::point::Point3f;
            use super::vector::Vector3f;

            pub fn offset_ray_origin(
                _p: &Point3f,
                _p_error: &Vector3f,
                _n: &Normal3f,
                _w: &Vector3f,
            ) -> Point3f {
                unimplemented!("not supplied, and not used by curves")
            }
        }
    }

    pub mod medium {
        use std::sync::Arc;

        pub enum Mediums {}

        #[derive(Clone)]
        pub enum PhaseFunctions {}

        #[derive(Clone, Default)]
        pub struct MediumInterface {
            pub inside: Option<Arc<Mediums>>,
            pub outside: Option<Arc<Mediums>>,
        }
    }

    pub mod material {
        pub enum TransportMode {}
    }

    pub mod spectrum {
        pub struct Spectrum;

        impl Spectrum {
            pub fn new(_value: f32) -> Spectrum {
                Spectrum
            }
        }
    }

    pub mod light {
        use super::geometry::vector::Vector3f;
        use super::interaction::SurfaceInteraction;
        use super::spectrum::Spectrum;

        pub trait Light {
            fn l(&self, isect: &SurfaceInteraction, w: &Vector3f) -> Spectrum;
        }

        pub enum Lights {}

        impl Light for Lights {
            fn l(&self, _isect: &SurfaceInteraction, _w: &Vector3f) -> Spectrum {
                match *self {}
            }
        }
    }

    pub mod primitive {
        use super::interaction::SurfaceInteraction;
        use super::light::Lights;
        use super::material::TransportMode;
        use bumpalo_herd::Member;
        use std::sync::Arc;

        pub trait Primitive {
            fn get_area_light(&self) -> Option<Arc<Lights>>;
            fn compute_scattering_functions<'b>(
                &self,
                isect: &mut SurfaceInteraction<'b>,
                arena: &Member<'b>,
                mode: TransportMode,
                allow_multiple_lobes: bool,
            );
        }

        pub enum Primitives {}

        impl Primitive for Primitives {
            fn get_area_light(&self) -> Option<Arc<Lights>> {
                match *self {}
            }

            fn compute_scattering_functions<'b>(
                &self,
                _isect: &mut SurfaceInteraction<'b>,
                _arena: &Member<'b>,
                _mode: TransportMode,
                _allow_multiple_lobes: bool,
            ) {
                match *self {}
            }
        }
    }

    pub mod reflection {
        #[derive(Clone)]
        pub struct BSDF<'a>(std::marker::PhantomData<&'a ()>);
    }

    pub mod bssrdf {
        #[derive(Clone)]
        pub enum BSSRDFs {}
    }
}

pub mod integrators {
    pub mod bdpt {
        pub struct EndpointInteraction<'a>(std::marker::PhantomData<&'a ()>);
    }
}

pub mod shapes {
    pub mod curve {
        // Supplied. What follows it is ours, and stands here to read its private fields.
        include!("shapes/curve.rs");

        /// What 01's piece has: the points, the widths, umin and umax.
        pub fn parts(curve: &Curve) -> ([Point3f; 4], [Float; 2], [Float; 2]) {
            let common = &curve.common;

            (common.cpobj, common.width, [curve.umin, curve.umax])
        }
    }

    pub mod nearest {
        // Supplied, and changed by the build in three lines (oracle/changed). What follows it is ours.
        include!("nearest/shapes/curve.rs");

        use std::cell::Cell;

        pub type Tap = fn(Float, &SurfaceInteraction);

        thread_local! {
            static TAP: Cell<Tap> = const { Cell::new(|_, _| ()) };
        }

        /// Each record that the walk writes is shown to it, with its distance.
        pub fn set_tap(tap: Tap) {
            TAP.set(tap);
        }

        fn tap(t: Float, isect: &SurfaceInteraction) {
            TAP.get()(t, isect);
        }

        /// A flat curve, to be walked with the changes.
        pub fn changed(curve: &super::curve::Curve) -> Curve {
            let (points, [width0, width1], [umin, umax]) = super::curve::parts(curve);
            let common = CurveCommon::new(points, width0, width1, CurveType::Flat, None);

            Curve::new(
                curve.object_to_world.clone(),
                curve.world_to_object.clone(),
                curve.reverse_orientation,
                Arc::new(common),
                umin,
                umax,
            )
        }

        /// `create_curve` asks for it.
        impl From<Curve> for Shapes {
            fn from(_: Curve) -> Shapes {
                unimplemented!("no curve is laid with the changes")
            }
        }
    }
}
