//! Stand-in for the file geometry.rs, which is not among the published ones here: the traits that the others
//! implement, with the methods that they name. No call that is compared reaches a default below.
use crate::geometrycollection::GeometryCollection;
use crate::sphericalpoint::{MultiSphericalPoint, SphericalPoint};
use crate::sphericalpolygon::SphericalPolygon;

pub trait Geometry {
    fn vertices(&self) -> MultiSphericalPoint;
    fn boundary(&self) -> Option<impl Geometry>;
    fn representative(&self) -> SphericalPoint;
    fn centroid(&self) -> SphericalPoint;
    fn area(&self) -> f64;
    fn length(&self) -> f64;
    fn to_wkt(&self, angular: bool) -> String;
    fn convex_hull(&self) -> Option<SphericalPolygon> {
        unimplemented!()
    }
}

macro_rules! relations {
    ($($name:ident),*) => {
        $(fn $name(&self, _other: &Other) -> bool {
            unimplemented!()
        })*
    };
}

pub trait GeometricRelationships<Other: Geometry = Self> {
    fn distance(&self, other: &Other) -> f64;
    relations!(equals, covers, contains, within, crosses, touches, overlaps, intersects, disjoint);
}

pub trait GeometricOperations<Other: Geometry, G: Geometry = Self> {
    fn intersection(&self, other: &Other) -> GeometryCollection;
    fn difference(&self, other: &Other) -> Option<impl MultiGeometry<G>>;
    fn union(&self, other: &Other) -> GeometryCollection;
}

pub trait MultiGeometry<G: Geometry> {
    fn len(&self) -> usize;
    fn extend(&mut self, other: Self);
    fn push(&mut self, other: G);
    fn is_empty(&self) -> bool {
        self.len() == 0
    }
}

pub trait MultiGeometryUnaryOperations<G: Geometry>: Sized {
    fn unary_union(&self) -> Self;
    fn unary_intersection(&self) -> Option<Self>;
    fn unary_symmetric_difference(&self) -> Option<Self>;
}
