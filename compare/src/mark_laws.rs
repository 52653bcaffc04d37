//! The calls on marks held to themselves and to each other: a leg backwards, a string by its legs, a cut at one mark, and what is to hold
//! of the pieces of every cut.
use crate::calls::{self, Left};
use crate::classes::{Leg, legs};
use crate::expected_mark::opened;
use crate::lists::flat;
use crate::numbered::{Vertex, vertices};
use crate::random::Xyz;
use crate::request::{Call, Places, Request};
use crate::tally::Tally;
use sphersgeo::sphericalpoint::xyz_eq;

pub fn by_leg(leg: Leg, mark: Xyz) -> Request {
    Request::new(Call::MarkOnLeg, &[&flat(&[leg.0, leg.1]), &[], &mark])
}

pub fn by_string(mark: Xyz, v: &[Xyz], flag: u8) -> Request {
    Request::new(Call::MarkOnString, &[&mark, &[], &flat(v)]).flags(0, flag)
}

pub fn to_cut(v: &[Xyz], flag: u8, marks: &[Xyz]) -> Request {
    Request::new(Call::CutAtMarks, &[&flat(v), &[], &flat(marks)]).flags(flag, 0)
}

/// the verdict of a leg is that of the leg backwards
pub fn backwards(tally: &mut Tally, leg: Leg, mark: Xyz) {
    let r = by_leg(leg, mark);
    let same = calls::answer(&r) == calls::answer(&by_leg((leg.1, leg.0), mark));
    tally.compare("mark_on_leg: walked backwards", same, || r.line("mark_on_leg: walked backwards"));
}

/// that of a string is whether some leg of it has a yes
pub fn by_legs(tally: &mut Tally, mark: Xyz, v: &[Xyz], flag: u8) {
    let r = by_string(mark, v, flag);
    let of_legs = legs(v, flag != 0).into_iter().any(|leg| calls::answer(&by_leg(leg, mark)).bytes == [1]);
    tally.compare("mark_on_string: by its legs", calls::answer(&r).bytes == [of_legs as u8], || r.line("mark_on_string: by its legs"));
}

/// a mark cuts a string exactly where it is on it and equals neither of its ends
pub fn at_one(tally: &mut Tally, mark: Xyz, v: &[Xyz], flag: u8) {
    let on = calls::answer(&by_string(mark, v, flag)).bytes == [1];
    let ends = [v[0], v[if flag != 0 { 0 } else { v.len() - 1 }]];
    let cuts = on && !ends.iter().any(|end| xyz_eq(&mark, end));
    let r = roomy(to_cut(v, flag, &[mark]));
    let left = calls::answer(&r);
    let made = left.number == 3 || left.numbers[0] == 2;
    tally.compare("cut_at_marks: one mark, by mark_on_string", made == cuts, || r.line("cut_at_marks: one mark, by mark_on_string"));
}

// ---- the pieces of a cut

/// with room for whatever a cut of it gives
fn roomy(mut r: Request) -> Request {
    let most = (r.lists[0].len() / 3 + 1 + 2 * (r.lists[2].len() / 3)).min(1024);
    r.room = Places { floats: 3 * most, buoys: most, bytes: 0, numbers: most };
    r
}

/// a vertex by its bits, and its buoy
type Bits = ([u64; 3], u32);

fn by_bits(v: &[Vertex]) -> Vec<Bits> {
    v.iter().map(|(xyz, buoy)| (xyz.map(f64::to_bits), *buoy)).collect()
}

/// the pieces that were written; none where they are said to be more than the places that were lent
fn pieces(left: &Left) -> Option<Vec<Vec<Bits>>> {
    let counts = left.numbers[1..].get(..left.numbers[0] as usize)?;
    let mut all = left.floats.chunks_exact(3).map(|c| [c[0], c[1], c[2]]).zip(left.buoys.iter().copied());
    let pieces: Vec<Vec<Bits>> = counts.iter().map(|n| all.by_ref().take(*n as usize).collect()).collect();
    pieces.iter().zip(counts).all(|(piece, n)| piece.len() as u64 == *n).then_some(pieces)
}

/// Each piece has two vertices or more and ends where the next begins, at one of the points with its buoy; without these the pieces, one
/// after another, are the opened string.
fn lawful(r: &Request, left: &Left) -> bool {
    let pieces = pieces(left).unwrap_or_default();
    if pieces.len() < 2 || pieces.iter().any(|piece| piece.len() < 2) {
        return false;
    }
    let (points, last) = (by_bits(&vertices(&r.lists[2], &r.buoys[1])), pieces.len() - 1);
    let joined = pieces.windows(2).all(|two| two[0].last() == two[1].first() && points.contains(&two[1][0]));
    let old: Vec<Bits> = pieces.iter().enumerate().flat_map(|(k, piece)| &piece[(k > 0) as usize..piece.len() - (k < last) as usize]).copied().collect();
    joined && old == by_bits(&opened(vertices(&r.lists[0], &r.buoys[0]), r.flags[0] != 0))
}

pub fn of_pieces(tally: &mut Tally, r: Request) {
    let r = roomy(r);
    let left = calls::answer(&r);
    if left.number == 0 && left.numbers[0] != 0 {
        tally.compare("cut_at_marks: pieces of a cut", lawful(&r, &left), || r.line("cut_at_marks: pieces of a cut"));
    }
}
