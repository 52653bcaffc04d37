//! Times calls of arcstring_c beside the published Rust: same inputs, one run, by turns, medians.
use crate::bench_inputs::{LEGS, MARGINS, Room, SIZES, Times, Two, spiral, string};
use crate::bench_marks;
use crate::bench_strings as strings;
use crate::calls::c;
use crate::lists::{flat, triples};
use crate::random::Xyz;
use crate::roots;
#[cfg(feature = "s2")]
use crate::s2;
use crate::stored::stored;
use crate::timing::by_turns;
use sphersgeo::arcstring::{ArcString, arc_crossings_with_arcstring, point_is_along_arcstring, points_are_on_same_side};
use std::hint::black_box;

// ---- crossings

fn published_listing(s: &ArcString, t: &ArcString) {
    for ends in s.points.xyzs.windows(2) {
        black_box(arc_crossings_with_arcstring((&ends[0], &ends[1]), black_box(t)));
    }
}

/// one line of the table of pairs: the counting call and the listing, in both kinds of room, at both margins, beside the published listing
fn two_strings(kind: &str, n: usize, step: f64) {
    let (two, [none, margin]) = (Two::new(n, step), MARGINS);
    let (s, t, pairs) = (stored(&two.a, &two.a, false), stored(&two.b, &two.b, false), two.pairs());
    let kept = two.list(none, &mut Room::of(pairs));
    let [mut all, mut also_all, mut exact, mut also_exact] = [pairs, pairs, kept, kept].map(Room::of);
    let [published, ours @ ..] = by_turns(two.inner(), [
        &mut || published_listing(&s, &t),
        &mut || _ = black_box(two.count(none)),
        &mut || _ = black_box(two.count(margin)),
        &mut || _ = black_box(two.list(none, &mut all)),
        &mut || _ = black_box(two.list(margin, &mut also_all)),
        &mut || _ = black_box(two.list(none, &mut exact)),
        &mut || _ = black_box(two.list(margin, &mut also_exact)),
    ]);
    let ratios = ours.map(|ours| format!("{:.2}", ours / published)).join(" | ");
    println!("| {kind} | {n} | {kept} of {pairs} | {:.1} | {ratios} |", published / pairs as f64);
}

/// one line of the table of legs so short that most pairs graze at the margin: the counting call and the listing at both margins
fn grazing(n: usize) {
    let (two, [none, margin]) = (Two::in_one_patch(n, 0.001), MARGINS);
    let (pairs, [mut room, mut also]) = (two.pairs(), [0, 1].map(|_| Room::of(two.pairs())));
    let times = by_turns(two.inner(), [
        &mut || _ = black_box(two.count(none)),
        &mut || _ = black_box(two.count(margin)),
        &mut || _ = black_box(two.list(none, &mut room)),
        &mut || _ = black_box(two.list(margin, &mut also)),
    ]);
    let times = times.map(|time| format!("{:.1}", time / pairs as f64)).join(" | ");
    println!("| {n} | {} of {pairs} | {times} |", two.count(margin)[2]);
}

/// one line of the table of further listings: ours, in both kinds of room, beside the published one
fn listing(names: &str, pairs: usize, published: &mut dyn FnMut(), ours: impl Fn(&mut Room) -> usize) {
    let mut all = Room::of(pairs);
    let kept = ours(&mut all);
    let mut exact = Room::of(kept);
    let inner = (100_000 / pairs).max(1);
    let [published, in_all, in_exact] = by_turns(inner, [published, &mut || _ = black_box(ours(&mut all)), &mut || _ = black_box(ours(&mut exact))]);
    println!("| {names} | {kept} of {pairs} | {:.1} | {:.2} | {:.2} |", published / pairs as f64, in_all / published, in_exact / published);
}

fn with_self(kind: &str, n: usize, step: f64) {
    let v = string(n, 1 + n as u64, step);
    let s = stored(&v, &v, false);
    let mut published = || _ = black_box(black_box(&s).crossings_with_self());
    listing(&format!("a string with itself | {kind} | {n}"), (n - 2) * (n - 3) / 2, &mut published, |room| {
        let v = black_box(&v);
        room.kept_by(|p, p_len, m, m_len, kept, counts| unsafe { c::arcstring_crossings_with_self(v.as_ptr(), v.len(), 0.0, p, p_len, m, m_len, kept, counts) })
    });
}

/// a leg across the sphere
fn leg() -> [Xyz; 2] {
    let ends = triples(&string(2, 3, 1.0));
    [ends[0], ends[1]]
}

fn one_leg(kind: &str, n: usize, step: f64) {
    let (ends, v) = (leg(), string(n, 77 + n as u64, step));
    let (leg, t) = (flat(&ends), stored(&v, &v, false));
    let mut published = || _ = black_box(arc_crossings_with_arcstring((&ends[0], &ends[1]), black_box(&t)));
    listing(&format!("one leg with a string | {kind} | {n}"), n - 1, &mut published, |room| {
        let v = black_box(&v);
        room.kept_by(|p, p_len, m, m_len, kept, counts| unsafe { c::arcstring_leg_crossings(leg.as_ptr(), v.as_ptr(), v.len(), 0, 0.0, p, p_len, m, m_len, kept, counts) })
    });
}

// ---- calls with one answer

/// a point far from the string, so that every entry and every leg is looked at
fn along_string(v: &[f64], closed: bool) -> Times {
    let s = stored(v, v, closed);
    let (p, mut yes) = ([-v[0], -v[1], -v[2]], 0u8);
    by_turns((49152 / v.len()).max(4), [
        &mut || _ = black_box(point_is_along_arcstring(black_box(&p), &s)),
        &mut || _ = unsafe { c::arcstring_along(p[0], p[1], p[2], black_box(v.as_ptr()), v.len(), v.as_ptr(), v.len(), closed as u8, &mut yes) },
    ])
}

fn along(n: usize) -> Times {
    along_string(&string(n, 5 + n as u64, 0.1), false)
}

fn along_closed(n: usize) -> Times {
    along_string(&string(n, 5 + n as u64, 0.1), true)
}

fn along_short(n: usize) -> Times {
    along_string(&strings::shortened(&string(n, 5 + n as u64, 0.1)), false)
}

/// a string that does not cross itself, so that every pair is looked at
fn crosses_self(n: usize) -> Times {
    let v = spiral(n);
    let s = stored(&v, &v, false);
    let mut yes = 0u8;
    assert!(!s.crosses_self());
    by_turns((2048 / n).max(1), [
        &mut || _ = black_box(black_box(&s).crosses_self()),
        &mut || _ = unsafe { c::arcstring_crosses_self(black_box(v.as_ptr()), v.len(), 0, &mut yes) },
    ])
}

fn same_side(n: usize) -> Times {
    let ([a, b], v) = (leg(), string(n, 77 + n as u64, 1.0));
    let (t, mut yes) = (stored(&v, &v, false), 0u8);
    by_turns((100_000 / n).max(1), [
        &mut || _ = black_box(points_are_on_same_side(&a, &b, black_box(&t))),
        &mut || _ = unsafe { c::arcstring_same_side(a[0], a[1], a[2], b[0], b[1], b[2], black_box(v.as_ptr()), v.len(), 0, &mut yes) },
    ])
}

// ---- the tables

fn of_legs(sizes: &[usize], line: fn(&str, usize, f64)) {
    for (kind, step) in LEGS {
        for n in sizes {
            line(kind, *n, step);
        }
    }
}

type Call = (&'static str, &'static [usize], fn(usize) -> Times);

const CALLS: [Call; 12] = [
    ("crosses_self", &SIZES, crosses_self),
    ("same_side", &[1024], same_side),
    ("build", &SIZES, strings::build),
    ("walk_back, beside a copy reversed", &SIZES, strings::walk_back),
    ("restart, beside a copy rotated", &SIZES, strings::restart),
    ("midpoints", &SIZES, strings::midpoints),
    ("midpoints, dense track", &SIZES, strings::midpoints_dense),
    ("simplify, nothing removed", &SIZES, strings::simplify_none),
    ("simplify, every second vertex removed", &SIZES, strings::simplify_half),
    ("insert_vertices", &SIZES, strings::insert_vertices),
    ("split", &SIZES, strings::split),
    ("along", &SIZES, along),
];

/// closed strings, and points that are not unit vectors
const OTHER_STRINGS: [Call; 6] = [
    ("build, closed", &SIZES, strings::build_closed),
    ("build, shorter vectors", &SIZES, strings::build_short),
    ("simplify, closed", &SIZES, strings::simplify_closed),
    ("simplify, shorter vectors", &SIZES, strings::simplify_short),
    ("along, closed", &SIZES, along_closed),
    ("along, shorter vectors", &SIZES, along_short),
];

fn table(calls: &[Call]) {
    println!("\n| call | vertices | published, us a call | ratio |\n|---|---|---|---|");
    for (name, sizes, call) in calls {
        for n in *sizes {
            let [published, ours] = call(*n);
            println!("| {name} | {n} | {:.2} | {:.2} |", published / 1000.0, ours / published);
        }
    }
}

pub fn run() {
    println!(
        "| legs | vertices | points kept of pairs | published listing, ns a pair | count, margin 0: ratio | margin 1e-9 \
         | listing, room for all pairs, margin 0: ratio | margin 1e-9 | listing, room for the kept, margin 0: ratio | margin 1e-9 |"
    );
    println!("|---|---|---|---|---|---|---|---|---|---|");
    of_legs(&SIZES, two_strings);
    println!("\nLegs of about 0.001 rad, both strings in one patch:\n");
    println!("| vertices | pairs that graze at margin 1e-9 | count, margin 0: ns a pair | margin 1e-9 | listing, room for all pairs, margin 0: ns a pair | margin 1e-9 |");
    println!("|---|---|---|---|---|---|");
    [256, 1024].into_iter().for_each(grazing);
    println!("\n| listing | legs | vertices | points kept of pairs | published, ns a pair | room for all pairs: ratio | room for the kept: ratio |");
    println!("|---|---|---|---|---|---|---|");
    of_legs(&SIZES, with_self);
    of_legs(&[1024], one_leg);
    #[cfg(feature = "s2")]
    s2::table();
    table(&CALLS);
    table(&OTHER_STRINGS);
    bench_marks::table();
    let inputs = roots::inputs();
    let [processor, ours] = by_turns(16, [&mut || roots::all(&inputs, f64::sqrt), &mut || roots::all(&inputs, roots::sqrt)]);
    println!("\nsquare root: the processor's {:.1} ns, ratio {:.1}", processor / inputs.len() as f64, ours / processor);
}
