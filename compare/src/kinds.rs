//! Which branch of a call an answer took: the summary counts by these, and each is at most 48 bytes.
use crate::answers::{Answer, Expected};
use crate::calls::{BLANK, Left, bits};
use crate::classes::{Leg, legs};
use crate::expected;
use crate::expected_mark::{Place, place};
use crate::lists::triples;
use crate::midpoints::{UNIT, half_rounded};
use crate::random::Xyz;
use crate::request::{Call, Places, Request};
use crate::table;
use sphersgeo::sphericalpoint::{xyz_add_xyz, xyz_eq};

pub fn kind(r: &Request, expected: &Expected, left: &Left) -> String {
    let name = r.call.name();
    match left.number {
        0 => format!("{name}{}", with_margin(r, expected).map_or_else(|| branch(r, left), str::to_string)),
        9 if no_room_either(r) => format!("{name}: refusal 9 before 7"),
        9 => format!("{name}: refusal 9, {}", refused_margin(r.margin)),
        n if table::margin(r.margin) != 0 => format!("{name}: refusal {n} before 9"),
        3 if r.lists.iter().all(|l| l.len() <= 3072) => format!("{name}: refusal 3 of a result"),
        7 => format!("{name}: refusal 7{}", short(r, expected)),
        10 if r.buoys[0].len() == r.lists[0].len() / 3 => format!("{name}: refusal 10 of the points"),
        n => format!("{name}: refusal {n}"),
    }
}

/// which buffer alone is too short, the others being long enough: that of the buoys, and of a cut at marks either of the others
fn short(r: &Request, expected: &Expected) -> &'static str {
    let needed = expected.as_ref().map_or(Places::default(), |answer| answer.needed(r.call));
    match r.call == Call::CutAtMarks {
        _ if (Places { buoys: 0, ..needed }).fit(r.room) => " of the buoys alone",
        true if (Places { floats: 0, ..needed }).fit(r.room) => " of the vertices alone",
        true if (Places { numbers: 0, ..needed }).fit(r.room) => " of the counts alone",
        _ => "",
    }
}

/// whether the answer at margin 0 is longer than a buffer
fn no_room_either(r: &Request) -> bool {
    expected::result(&r.clone().margin(0.0)).is_ok_and(|answer| !answer.needed(r.call).fit(r.room))
}

fn refused_margin(margin: f64) -> &'static str {
    match margin {
        m if m.is_nan() => "NaN",
        m if m.is_infinite() => "infinite",
        _ => "below 0",
    }
}

/// what a margin other than +0 did
fn with_margin(r: &Request, expected: &Expected) -> Option<&'static str> {
    match expected {
        Ok(answer) if r.margin.to_bits() != 0 => Some(if r.margin == 0.0 { ": margin -0" } else { grazed(r.call, answer) }),
        _ => None,
    }
}

fn grazed(call: Call, answer: &Answer) -> &'static str {
    let (counts, from) = (answer.numbers.last_chunk::<4>().unwrap_or(&[0; 4]), answer.grazed.from);
    match counts {
        [0, 0, 1..=u64::MAX, 0] if call == Call::Count || !answer.bytes.is_empty() => ": margin, all pairs graze",
        _ if answer.grazed.at > 0 => ": margin at a side value",
        _ if from[0] > 0 => ": margin, clean ones graze",
        _ if from[1] + from[3] > 0 => ": margin, others graze",
        _ => ": margin, no more graze",
    }
}

fn branch(r: &Request, left: &Left) -> String {
    let closed = r.flags[0] != 0;
    let vertices = r.lists[0].len() / 3;
    let count = left.numbers.first().map_or(0, |n| *n as usize);
    match r.call {
        Call::Point => (if left.floats[..] == bits(&r.lists[0]) { ": kept" } else { ": normalised" }).to_string(),
        Call::Build => (if left.bytes == [1] { ": closed" } else { ": open" }).to_string(),
        Call::BuildFlagged => format!(": {}", if count < vertices { "last point dropped" } else { "all points" }),
        Call::WalkBack | Call::Count => String::new(),
        Call::Restart => (if closed && r.at[0] < vertices { ": closed" } else { ": the same" }).to_string(),
        Call::Run => (if left.numbers[1] == 0 { ": empty" } else { ": a part" }).to_string(),
        Call::Pair => pair(left).to_string(),
        Call::LegCrossings | Call::Crossings | Call::CrossingsWithSelf => marks(&left.bytes[..count]).to_string(),
        Call::TurnOrientations => open_or_closed(closed).to_string(),
        Call::Midpoints => format!("{}{}", open_or_closed(closed), halved(&legs(&triples(&r.lists[0]), closed))),
        Call::Simplify => format!("{}{}", open_or_closed(closed), size(count, vertices, ", removed", ", nothing removed")),
        Call::InsertVertices => size(count, vertices, ": inserted", ": nothing inserted"),
        Call::SplitLeg => pieces(count).to_string(),
        Call::Split => split(left, count),
        Call::MarkOnLeg => format!(": {}", mark_on_leg(&triples(&r.lists[0]), &triples(&r.lists[2])).name()),
        Call::MarkOnString => mark_on_string(r).to_string(),
        Call::CutAtMarks if count == 0 => uncut(r).to_string(),
        Call::CutAtMarks => format!("{}{}{}", pieces(count), if closed { ", opened" } else { "" }, if total(left, count) == 1024 { ", full" } else { "" }),
        _ => (if left.bytes == [1] { ": yes" } else { ": no" }).to_string(),
    }
}

fn open_or_closed(closed: bool) -> &'static str {
    if closed { ": closed" } else { ": open" }
}

/// what halving the sums of legs' ends met
fn halved(legs: &[Leg]) -> &'static str {
    let sums: Vec<Xyz> = legs.iter().map(|(a, b)| xyz_add_xyz(a, b)).collect();
    let some = |holds: fn(f64) -> bool| sums.iter().flatten().any(|sum| holds(*sum));
    match sums.contains(&[0.0; 3]) {
        _ if some(|sum| sum.abs() == UNIT) => ", a sum of one unit",
        _ if some(half_rounded) => ", a half rounded",
        true => ", opposite ends",
        false => "",
    }
}

fn pair(left: &Left) -> &'static str {
    let point = left.floats[..] != bits(&[BLANK; 3]);
    match (left.bytes[0], left.bytes[1], point) {
        (1, _, _) => ": clean",
        (2, _, _) => ": end",
        (3, 1, _) => ": grazing, kept",
        (3, _, true) if left.floats.iter().all(|x| x << 1 == 0) => ": grazing, zero vector at an end",
        (3, _, true) => ": grazing, point at an end",
        (3, _, false) => ": grazing, no point",
        _ => ": apart",
    }
}

fn marks(marks: &[u8]) -> &'static str {
    match (marks.contains(&1), marks.contains(&0)) {
        (true, true) => ": clean and grazing kept",
        (true, false) => ": clean kept",
        (false, true) => ": grazing kept",
        _ => ": nothing kept",
    }
}

fn size(n: usize, before: usize, changed: &str, same: &str) -> String {
    let edge = match n {
        1024 => ", 1,024 points",
        1020..=1023 => ", 1,020 to 1,023",
        _ => "",
    };
    format!("{}{edge}", if n == before { same } else { changed })
}

fn pieces(count: usize) -> &'static str {
    match count {
        0 => ": uncut",
        2 => ": 2 pieces",
        3..=500 => ": more pieces",
        _ => ": over 500 pieces",
    }
}

fn split(left: &Left, count: usize) -> String {
    let closed = if left.bytes[..count].contains(&1) { ", some closed" } else { "" };
    format!("{}{closed}{}", pieces(count), if total(left, count) == 1024 { ", 1,024 points" } else { "" })
}

/// how many points the pieces have together
fn total(left: &Left, count: usize) -> u64 {
    left.numbers[1..=count].iter().sum()
}

fn mark_on_leg(leg: &[Xyz], mark: &[Xyz]) -> Place {
    place(&leg[0], &leg[1], &mark[0])
}

/// the first leg of a string that holds a mark
fn mark_on_string(r: &Request) -> &'static str {
    let (mark, closed) = (triples(&r.lists[0])[0], r.flags[1] != 0);
    let legs = legs(&triples(&r.lists[2]), closed);
    match legs.iter().position(|leg| place(&leg.0, &leg.1, &mark).holds()) {
        None if legs.is_empty() => ": no, without a leg",
        None => ": no",
        Some(k) if closed && k + 1 == legs.len() => ": yes, the closing leg",
        Some(0) => ": yes, leg 0",
        Some(_) => ": yes, a later leg",
    }
}

/// why no point cuts a string
fn uncut(r: &Request) -> &'static str {
    let (legs, points) = (legs(&triples(&r.lists[0]), r.flags[0] != 0), triples(&r.lists[2]));
    match (legs.first(), legs.last()) {
        _ if points.is_empty() => ": uncut, no points",
        _ if legs.len() == 1024 => ": uncut, 1,025 points when opened",
        (Some(first), Some(last)) if points.iter().any(|p| xyz_eq(p, &first.0) || xyz_eq(p, &last.1)) => ": uncut, points at its ends",
        (Some(_), _) => ": uncut, points on no leg",
        _ => ": uncut, without a leg",
    }
}
