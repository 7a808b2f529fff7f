//! Stand-in for shape.rs: the trait without its sampling, and a `Shapes` that is always a curve.
//! `world_bound` and the signatures are those of the supplied file.

use crate::core::geometry::bounds::Bounds3f;
use crate::core::geometry::point::Point2f;
use crate::core::geometry::ray::Ray;
use crate::core::interaction::{InteractionData, SurfaceInteraction};
use crate::core::pbrt::Float;
use crate::core::transform::Transform;
use crate::shapes::curve::Curve;
use std::sync::Arc;

pub trait Shape {
    fn object_bound(&self) -> Bounds3f;

    fn world_bound(&self) -> Bounds3f {
        self.object_to_world()
            .transform_bounds(&self.object_bound())
    }

    fn intersect(
        &self,
        r: &Ray,
        t_hit: &mut Float,
        isect: &mut SurfaceInteraction,
        test_aphatexture: bool,
        s: Option<Arc<Shapes>>,
    ) -> bool;

    fn area(&self) -> Float;
    fn sample(&self, u: &Point2f, pdf: &mut Float) -> InteractionData;
    fn reverse_orientation(&self) -> bool;
    fn transform_swapshandedness(&self) -> bool;
    fn object_to_world(&self) -> Arc<Transform>;
    fn world_to_object(&self) -> Arc<Transform>;
}

pub enum Shapes {
    Curve(Curve),
}

impl From<Curve> for Shapes {
    fn from(curve: Curve) -> Shapes {
        Shapes::Curve(curve)
    }
}

impl Shapes {
    fn curve(&self) -> &Curve {
        let Shapes::Curve(curve) = self;

        curve
    }
}

impl Shape for Shapes {
    fn object_bound(&self) -> Bounds3f {
        self.curve().object_bound()
    }

    fn intersect(
        &self,
        r: &Ray,
        t_hit: &mut Float,
        isect: &mut SurfaceInteraction,
        test_aphatexture: bool,
        s: Option<Arc<Shapes>>,
    ) -> bool {
        self.curve().intersect(r, t_hit, isect, test_aphatexture, s)
    }

    fn area(&self) -> Float {
        self.curve().area()
    }

    fn sample(&self, u: &Point2f, pdf: &mut Float) -> InteractionData {
        self.curve().sample(u, pdf)
    }

    fn reverse_orientation(&self) -> bool {
        self.curve().reverse_orientation()
    }

    fn transform_swapshandedness(&self) -> bool {
        self.curve().transform_swapshandedness()
    }

    fn object_to_world(&self) -> Arc<Transform> {
        self.curve().object_to_world()
    }

    fn world_to_object(&self) -> Arc<Transform> {
        self.curve().world_to_object()
    }
}
