//! The four calls that take a margin, at margins of every kind: side values just at the margin and next to it, damaged lists and short
//! buffers beside refused margins, so that the sequence of the refusals shows; a wider margin beside a narrower one; and strings that are
//! changed while one margin is used throughout.
use crate::answers::{Answer, Expected};
use crate::calls::{self, Left};
use crate::expected;
use crate::inputs::{Inputs, within_range};
use crate::lists::flat;
use crate::margins;
use crate::narrow;
use crate::plane;
use crate::request::{Call, Request};
use crate::small;
use crate::strings;
use crate::tally::Tally;

/// margins at which a call is compared on the same lists
const EACH: usize = 4;

/// what becomes of pairs, by their class at margin 0
const GRAZING: [&str; 4] = ["pairs: clean to grazing", "pairs: end to grazing", "pairs: grazing, and still", "pairs: apart to grazing"];
const STILL: [&str; 4] = ["pairs: clean, and still", "pairs: end, and still", "", "pairs: apart, and still"];

/// Two strings with their flags, and a leg: what the calls are lent.
pub struct Lists<'a> {
    pub a: &'a [f64],
    pub b: &'a [f64],
    pub leg: &'a [f64],
    pub flags: [u8; 2],
}

impl Lists<'_> {
    /// the four calls, at margin 0
    fn requests(&self) -> [Request; 4] {
        let (a, b, [fa, fb]) = (self.a, self.b, self.flags);
        [
            Request::new(Call::LegCrossings, &[self.leg, &[], b]).flags(0, fb),
            Request::new(Call::Crossings, &[a, &[], b]).flags(fa, fb),
            Request::new(Call::Count, &[a, &[], b]).flags(fa, fb),
            Request::new(Call::CrossingsWithSelf, &[a]),
        ]
    }
}

/// one time in eight each call at some margin, with buffers of exactly the answer's length: for comparisons that use margin 0 else
pub fn also(tally: &mut Tally, i: &mut Inputs, lists: Lists) {
    if i.margins.below(8) == 0 {
        for r in lists.requests() {
            let margin = margins::any(&mut i.margins, &margins::sizes(&r)).1;
            small::send(tally, r.margin(margin));
        }
    }
}

// ---- lists

/// a leg, and a string whose vertices are beside its plane
fn beside_plane(i: &mut Inputs) -> [(Vec<f64>, u8); 2] {
    let (leg, n) = (plane::two(i), 2 + i.below(5));
    let beside: Vec<_> = (0..n).map(|_| within_range(plane::third(i, leg))).collect();
    [(flat(&[leg.0, leg.1]), 0), (flat(&beside), i.flag())]
}

/// a string of long legs, which cross often
fn course(i: &mut Inputs) -> Vec<f64> {
    let n = 2 + i.below(10) as usize;
    flat(&i.course(n, false))
}

/// two strings with their flags, one time in eight perhaps damaged
fn two(i: &mut Inputs, turn: usize) -> [(Vec<f64>, u8); 2] {
    match i.below(8) {
        0 => [0, 1].map(|_| (i.string(), i.flag())),
        1 => beside_plane(i),
        2..5 => [0, 1].map(|_| (course(i), i.flag())),
        _ => narrow::strings(i, turn),
    }
}

/// two vertices of a string, or others
fn leg(i: &mut Inputs, v: &[f64]) -> Vec<f64> {
    let start = 3 * i.below(v.len() as u64 / 3 + 1) as usize;
    if v.is_empty() || i.one_in(4) { i.singles(2) } else { v.iter().copied().cycle().skip(start).take(6).collect() }
}

// ---- comparisons

/// counts what a margin over 0 made of the pairs, and of the marks, that there are at margin 0
fn see(tally: &mut Tally, at_0: &Answer, answer: &Answer) {
    let counts = answer.numbers.last_chunk::<4>().unwrap_or(&[0; 4]);
    for k in 0..4 {
        tally.see_times(GRAZING[k], answer.grazed.from[k]);
        if k != 2 {
            tally.see_times(STILL[k], counts[k]);
        }
    }
    tally.see_times("pairs: least side value at the margin", answer.grazed.at);
    tally.see_times("pairs: least side value at the next float above", answer.grazed.above);
    for marks in at_0.bytes.iter().zip(&answer.bytes) {
        tally.see(match marks {
            (1, 1) => "kept points: mark 1, and still",
            (1, _) => "kept points: mark 1 to 0",
            _ => "kept points: mark 0, and still",
        });
    }
}

/// a request at several margins, each with room around its answer, which is as long at every margin
fn at_margins(tally: &mut Tally, i: &mut Inputs, r: &Request, at_0: &Expected, sizes: &[f64]) {
    for _ in 0..EACH {
        let (name, margin) = margins::any(&mut i.margins, sizes);
        let r = i.roomed(r.clone().margin(margin), at_0);
        let expected = expected::result(&r);
        tally.see(&format!("calls at margin: {name}"));
        tally.request(&r, &expected);
        if let (Ok(at_0), Ok(answer), true) = (at_0, &expected, margin > 0.0) {
            see(tally, at_0, answer);
        }
    }
}

/// What the library answers at a margin and at a wider one: the same points; marks and counts that only turn to grazing.
fn wider(tally: &mut Tally, i: &mut Inputs, r: &Request, sizes: &[f64]) {
    let mut margins = [0, 1].map(|_| margins::accepted(&mut i.margins, sizes));
    margins.sort_by(f64::total_cmp);
    let [one, wide] = margins.map(|margin| calls::answer(&r.clone().margin(margin)));
    let (kept, counts) = (one.numbers.len() - 4, |left: &Left| left.numbers.last_chunk::<4>().copied().unwrap_or_default());
    let ([clean, end, grazing, apart], [wide_clean, wide_end, wide_grazing, wide_apart]) = (counts(&one), counts(&wide));
    let points = [one.number, wide.number] == [0, 0] && one.floats == wide.floats && one.numbers[..kept] == wide.numbers[..kept];
    let marks = one.bytes.iter().zip(&wide.bytes).all(|(mark, wide)| wide <= mark);
    let fewer = wide_clean <= clean && wide_end <= end && wide_apart <= apart;
    let all = wide_clean + wide_end + wide_grazing + wide_apart == clean + end + grazing + apart;
    let kind = format!("{}: wider margin, same points", r.call.name());
    tally.compare(&kind, points && marks && fewer && all, || margins.map(|margin| r.clone().margin(margin).line(&kind)).join("\n"));
}

fn requests(tally: &mut Tally, i: &mut Inputs, lists: &Lists) {
    for mut r in lists.requests() {
        let (at_0, sizes) = (expected::result(&r), margins::sizes(&r));
        at_margins(tally, i, &r, &at_0, &sizes);
        if let Ok(answer) = &at_0 {
            r.room = answer.needed(r.call);
            wider(tally, i, &r, &sizes);
        }
    }
}

/// two strings changed, and one walked backwards, at a margin that is every second time the size of a side value
fn changes(tally: &mut Tally, i: &mut Inputs, lists: &Lists) {
    let [_, crossed, _, with_self] = lists.requests();
    let [margin, own] = [crossed, with_self].map(|r| {
        let sizes = margins::sizes(&r);
        if i.margins.below(2) == 0 { i.margins.of(&sizes) } else { margins::accepted(&mut i.margins, &sizes) }
    });
    let held = [(lists.a, lists.flags[0]), (lists.b, lists.flags[1])].map(|(v, flag)| Request::new(Call::WalkBack, &[v]).flags(flag, 0));
    strings::changed(tally, i, held, margin);
    strings::walked_back(tally, lists.a, own);
}

pub fn run(tally: &mut Tally, n: u64) {
    let mut i = Inputs::new(19);
    let mut turn = 0;
    while tally.done < n {
        i.long = i.one_in(2000);
        let [(a, fa), (b, fb)] = two(&mut i, turn);
        let leg = leg(&mut i, &a);
        let lists = Lists { a: &a, b: &b, leg: &leg, flags: [fa, fb] };
        requests(tally, &mut i, &lists);
        changes(tally, &mut i, &lists);
        turn += 1;
    }
}
