//! The published files, unchanged, as one crate: `compare/run` copies them here. Only `geometry` is a stand-in.
#![allow(warnings)]

pub mod arcstring;
pub mod edgegraph;
pub mod geometry;
pub mod geometrycollection;
pub mod sphericalpoint;
pub mod sphericalpolygon;
