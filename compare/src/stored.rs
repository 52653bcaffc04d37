//! Stored strings of the published type.
use crate::lists::triples;
use crate::request::Request;
use sphersgeo::arcstring::ArcString;
use sphersgeo::sphericalpoint::MultiSphericalPoint;

/// a stored string, its fields as given
pub fn stored(v: &[f64], near: &[f64], closed: bool) -> ArcString {
    let kdtree = kiddo::ImmutableKdTree::new_from_slice(&triples(near)).unwrap();
    ArcString { points: MultiSphericalPoint { xyzs: triples(v), kdtree }, closed }
}

/// the first and the second string of a request, each with its near list, which is empty for a call that is lent none
pub fn both(r: &Request) -> (ArcString, ArcString) {
    let [a, a_near, b, b_near] = &r.lists;
    (stored(a, a_near, r.flags[0] != 0), stored(b, b_near, r.flags[1] != 0))
}
