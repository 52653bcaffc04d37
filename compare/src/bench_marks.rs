//! Times of the calls on marks, which the published Rust does not have: beside the same reading in plain Rust, which checks no list, and
//! beside the published test of a point along a string.
use crate::bench_inputs::{SIZES, string};
use crate::calls::c;
use crate::expected_mark::{cut, on_string};
use crate::inputs::between;
use crate::lists::{flat, triples};
use crate::numbered::{self, Vertex};
use crate::random::Xyz;
use crate::stored::stored;
use crate::timing::by_turns;
use sphersgeo::arcstring::point_is_along_arcstring;
use std::hint::black_box;

/// how many marks a string is cut at, and the strings' vertices: after the cuts they are at most 1,024 together
const MARKS: usize = 8;
const CUT_SIZES: [usize; 3] = [16, 256, 1000];

/// a mark that no leg holds, so that every leg is looked at
fn mark_on_string(n: usize) {
    let v = string(n, 5 + n as u64, 0.1);
    let (points, s, p, mut yes) = (triples(&v), stored(&v, &v, false), [-v[0], -v[1], -v[2]], 1);
    let [plain, published, ours] = by_turns((49152 / v.len()).max(4), [
        &mut || _ = black_box(on_string(black_box(&p), black_box(&points), false)),
        &mut || _ = black_box(point_is_along_arcstring(black_box(&p), &s)),
        &mut || _ = unsafe { c::arcstring_mark_on_string(p[0], p[1], p[2], black_box(v.as_ptr()), v.len(), 0, &mut yes) },
    ]);
    assert!(yes == 0 && !on_string(&p, &points, false), "a mark that no leg holds");
    let [plain_us, published_us] = [plain, published].map(|time| time / 1000.0);
    println!("| mark_on_string | {n} | {plain_us:.2} | {:.2} | {published_us:.2} | {:.2} |", ours / plain, ours / published);
}

/// a string, and marks in the middle of legs all along it, each with its buoy
fn with_marks(n: usize) -> (Vec<Vertex>, Vec<Vertex>) {
    let (v, buoys): (_, Vec<u32>) = (string(n, 5 + n as u64, 0.1), (1..=n as u32).collect());
    let points = triples(&v);
    let middle = |k: usize| between(points[k], points[k + 1], 0.5);
    let marks: Vec<Xyz> = (0..MARKS).map(|k| middle(k * (n - 1) / MARKS)).collect();
    (numbered::vertices(&v, &buoys), numbered::vertices(&flat(&marks), &buoys))
}

fn cut_at_marks(n: usize) {
    let (v, marks) = with_marks(n);
    let [(vf, vb), (mf, mb)] = [&v, &marks].map(|list| (flat(&numbered::xyzs(list)), list.iter().map(|v| v.1).collect::<Vec<u32>>()));
    let (mut out, mut buoys, mut counts, mut pieces) = (vec![0.0; 3 * 1024], vec![0; 1024], vec![0; 1024], 0);
    let [plain, ours] = by_turns((8192 / n).max(4), [
        &mut || _ = black_box(cut(black_box(&v).clone(), false, &marks)),
        &mut || unsafe {
            let number = c::arcstring_cut_at_marks(
                black_box(vf.as_ptr()), vf.len(), vb.as_ptr(), vb.len(), 0, mf.as_ptr(), mf.len(), mb.as_ptr(), mb.len(),
                out.as_mut_ptr(), out.len(), buoys.as_mut_ptr(), buoys.len(), counts.as_mut_ptr(), counts.len(), &mut pieces,
            );
            black_box(number);
        },
    ]);
    assert_eq!(pieces, MARKS + 1, "each mark cuts");
    println!("| cut_at_marks, {MARKS} marks | {n} | {:.2} | {:.2} | | |", plain / 1000.0, ours / plain);
}

pub fn table() {
    println!("\n| call | vertices | the same reading in plain Rust, us a call | ratio | published point along a string, us a call | ratio |");
    println!("|---|---|---|---|---|---|");
    SIZES.into_iter().for_each(mark_on_string);
    CUT_SIZES.into_iter().for_each(cut_at_marks);
}
