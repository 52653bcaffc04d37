//! Google's S2 beside the counting call: the same vertices, every pair of legs. S2's `CrossingSign` tells only whether two legs cross inside
//! both, by exact arithmetic where floats do not decide; it gives no point and no class, and takes unit points.
use crate::bench_inputs::{LEGS, Room, SIZES, Two};
use crate::timing::by_turns;
use std::hint::black_box;

unsafe extern "C" {
    /// s2.cc: how many pairs cross, of each leg of one open string with each of another; the lengths are in vertices
    fn s2_crossings(a: *const f64, a_vertices: usize, b: *const f64, b_vertices: usize) -> u64;
}

fn crossings(two: &Two) -> u64 {
    unsafe { s2_crossings(black_box(two.a.as_ptr()), two.a.len() / 3, two.b.as_ptr(), two.b.len() / 3) }
}

fn line(kind: &str, n: usize, step: f64) {
    let two = Two::new(n, step);
    let (pairs, clean, found) = (two.pairs(), two.count(0.0)[0], crossings(&two));
    let mut room = Room::of(pairs);
    let [s2, count, list] = by_turns(two.inner(), [
        &mut || _ = black_box(crossings(&two)),
        &mut || _ = black_box(two.count(0.0)),
        &mut || _ = black_box(two.list(0.0, &mut room)),
    ]);
    println!("| {kind} | {n} | {found} | {clean} | {:.1} | {:.2} | {:.2} |", s2 / pairs as f64, count / s2, list / s2);
}

pub fn table() {
    println!("\n| legs | vertices | S2: crossings | ours: clean | S2, ns a pair | count: ratio | listing, room for all pairs: ratio |\n|---|---|---|---|---|---|---|");
    for (kind, step) in LEGS {
        for n in SIZES {
            line(kind, n, step);
        }
    }
}
