//! A request: one call of arcstring_c with everything that it is lent. As a line it is what crates/replay reads, so that a
//! difference can be run again by either program.
use crate::calls::bits;

/// The calls, in the sequence of their numbers in a line.
#[derive(Clone, Copy, Debug, PartialEq, Eq, PartialOrd, Ord)]
pub enum Call {
    XyzEq,
    XyzsCoplanar,
    Point,
    Build,
    BuildFlagged,
    WalkBack,
    Restart,
    Run,
    Pair,
    LegCrossings,
    Crossings,
    Count,
    CrossingsWithSelf,
    CrossesSelf,
    SameSide,
    TurnOrientations,
    Midpoints,
    Along,
    Simplify,
    InsertVertices,
    SplitLeg,
    Split,
    Eq,
    Equals,
    Crosses,
    Overlaps,
    Within,
    Contains,
    MarkOnLeg,
    MarkOnString,
    CutAtMarks,
}

use Call::*;

pub const CALLS: [(Call, &str); 31] = [
    (XyzEq, "xyz_eq"),
    (XyzsCoplanar, "xyzs_coplanar"),
    (Point, "point"),
    (Build, "build"),
    (BuildFlagged, "build_flagged"),
    (WalkBack, "walk_back"),
    (Restart, "restart"),
    (Run, "run"),
    (Pair, "pair"),
    (LegCrossings, "leg_crossings"),
    (Crossings, "crossings"),
    (Count, "count"),
    (CrossingsWithSelf, "crossings_with_self"),
    (CrossesSelf, "crosses_self"),
    (SameSide, "same_side"),
    (TurnOrientations, "turn_orientations"),
    (Midpoints, "midpoints"),
    (Along, "along"),
    (Simplify, "simplify"),
    (InsertVertices, "insert_vertices"),
    (SplitLeg, "split_leg"),
    (Split, "split"),
    (Eq, "eq"),
    (Equals, "equals"),
    (Crosses, "crosses"),
    (Overlaps, "overlaps"),
    (Within, "within"),
    (Contains, "contains"),
    (MarkOnLeg, "mark_on_leg"),
    (MarkOnString, "mark_on_string"),
    (CutAtMarks, "cut_at_marks"),
];

/// How many elements of each kind a call is lent: buoys are the numbers that vertices carry, numbers are counts and positions.
#[derive(Clone, Copy, Debug, Default, PartialEq, Eq)]
pub struct Places {
    pub floats: usize,
    pub buoys: usize,
    pub bytes: usize,
    pub numbers: usize,
}

impl Places {
    /// whether there is room for as many of each kind
    pub fn fit(self, room: Places) -> bool {
        self.floats <= room.floats && self.buoys <= room.buoys && self.bytes <= room.bytes && self.numbers <= room.numbers
    }
}

impl Call {
    pub fn name(self) -> &'static str {
        CALLS[self as usize].1
    }

    /// places of a fixed size: single results, counts, the point of a pair
    pub fn fixed(self) -> Places {
        let (floats, bytes, numbers) = match self {
            Point => (3, 0, 0),
            Pair => (3, 2, 0),
            Build => (0, 1, 1),
            BuildFlagged | WalkBack | Restart | TurnOrientations | Midpoints | Simplify | InsertVertices | SplitLeg | Split | CutAtMarks => (0, 0, 1),
            Run => (0, 0, 2),
            LegCrossings | Crossings | CrossingsWithSelf => (0, 0, 5),
            Count => (0, 0, 4),
            _ => (0, 1, 0),
        };
        Places { floats, bytes, numbers, ..Places::default() }
    }

    /// of these places those of the kinds of buffer that it is lent with a length
    pub fn buffers(self, places: Places) -> Places {
        let (Places { floats, buoys, bytes, numbers }, none) = (places, Places::default());
        match self {
            TurnOrientations | Midpoints | SplitLeg => Places { floats, ..none },
            LegCrossings | Crossings | CrossingsWithSelf => Places { floats, bytes, ..none },
            Build | BuildFlagged | WalkBack | Restart | Simplify | InsertVertices => Places { floats, buoys, ..none },
            CutAtMarks => Places { floats, buoys, numbers, ..none },
            Split => places,
            _ => none,
        }
    }

    /// whether it is lent a margin: a pair grazes where the size of a side value is no larger
    pub fn takes_margin(self) -> bool {
        matches!(self, LegCrossings | Crossings | Count | CrossingsWithSelf)
    }

    /// how many lists of buoys it is lent: that of the first list's vertices, and that of the points put in or cut at
    pub fn buoy_lists(self) -> usize {
        match self {
            Build | BuildFlagged | WalkBack | Restart | Simplify => 1,
            InsertVertices | Split | CutAtMarks => 2,
            _ => 0,
        }
    }
}

/// A call, its flags, positions, margin and lists, and the lengths of its buffers. The lists are: the first string's vertices (or
/// points, or a leg by itself), its near list; the second string's vertices (or extra points, or the mark beside a leg), its near list.
/// The buoys are those of the first and of the third list. The margin is 0 for a call that takes none.
#[derive(Clone, Debug)]
pub struct Request {
    pub call: Call,
    pub flags: [u8; 2],
    pub at: [usize; 2],
    pub room: Places,
    pub margin: f64,
    pub lists: [Vec<f64>; 4],
    pub buoys: [Vec<u32>; 2],
}

impl Request {
    /// a call on the first lists given, open, with no buffers, at margin 0, and with a buoy of its own for each vertex and point
    pub fn new(call: Call, lists: &[&[f64]]) -> Self {
        let list = |k: usize| lists.get(k).map_or(vec![], |l| l.to_vec());
        let lists = [list(0), list(1), list(2), list(3)];
        let buoys = [0, 1].map(|k| if k < call.buoy_lists() { different(k as u32, lists[2 * k].len() / 3) } else { vec![] });
        Self { call, flags: [0, 0], at: [0, 0], room: Places::default(), margin: 0.0, lists, buoys }
    }

    pub fn flags(mut self, a: u8, b: u8) -> Self {
        self.flags = [a, b];
        self
    }

    pub fn at(mut self, from: usize, to: usize) -> Self {
        self.at = [from, to];
        self
    }

    pub fn margin(mut self, margin: f64) -> Self {
        self.margin = margin;
        self
    }

    /// with room for so many vertices, and for their buoys where the call is lent any
    pub fn room_for(mut self, vertices: usize) -> Self {
        self.room = self.call.buffers(Places { floats: 3 * vertices, buoys: vertices, ..Places::default() });
        self
    }

    /// all that the call is lent, fixed places and buffers
    pub fn places(&self) -> Places {
        let (fixed, room) = (self.call.fixed(), self.room);
        Places {
            floats: fixed.floats + room.floats,
            buoys: fixed.buoys + room.buoys,
            bytes: fixed.bytes + room.bytes,
            numbers: fixed.numbers + room.numbers,
        }
    }

    pub fn line(&self, label: &str) -> String {
        let room = [self.room.floats, self.room.bytes, self.room.numbers, self.room.buoys];
        let mut words = vec![self.call as u64, self.flags[0] as u64, self.flags[1] as u64, self.at[0] as u64, self.at[1] as u64];
        words.extend(room.map(|n| n as u64));
        words.extend(bits(&[self.margin]));
        self.lists.iter().for_each(|list| words.extend(listed(list.iter().map(|x| x.to_bits()).collect())));
        self.buoys.iter().for_each(|list| words.extend(listed(list.iter().map(|n| *n as u64).collect())));
        let words: Vec<String> = words.iter().map(|w| format!("{w:016X}")).collect();
        format!("{label:<48.48}{}", words.join(" "))
    }

    /// the request of a line, if it is one
    pub fn parse(line: &str) -> Option<Self> {
        let mut words = line.get(48..)?.split(' ').map(|w| u64::from_str_radix(w, 16));
        let mut next = || words.next()?.ok();
        let call = CALLS.get(next()? as usize)?.0;
        let flags = [next()? as u8, next()? as u8];
        let at = [next()? as usize, next()? as usize];
        let [floats, bytes, numbers, buoys] = [next()? as usize, next()? as usize, next()? as usize, next()? as usize];
        let room = Places { floats, buoys, bytes, numbers };
        let margin = f64::from_bits(next()?);
        let mut lists: [Vec<f64>; 4] = Default::default();
        for list in &mut lists {
            *list = list_of(&mut next)?.into_iter().map(f64::from_bits).collect();
        }
        let mut buoys: [Vec<u32>; 2] = Default::default();
        for list in &mut buoys {
            *list = list_of(&mut next)?.into_iter().map(|n| u32::try_from(n).ok()).collect::<Option<Vec<u32>>>()?;
        }
        Some(Self { call, flags, at, room, margin, lists, buoys })
    }
}

/// n numbers of all four bytes, different from each other and from those of the other list
fn different(list: u32, n: usize) -> Vec<u32> {
    (1..=n as u32).map(|k| (4096 * list + k).wrapping_mul(0x9E37_79B9)).collect()
}

/// a list as words: its length, how many of its elements are given, and these, which the list repeats to its length
fn listed(list: Vec<u64>) -> Vec<u64> {
    let period = (1..list.len()).find(|p| list[*p..] == list[..list.len() - p]).unwrap_or(list.len());
    [&[list.len() as u64, period as u64], &list[..period]].concat()
}

fn list_of(next: &mut impl FnMut() -> Option<u64>) -> Option<Vec<u64>> {
    let (length, period) = (next()? as usize, next()? as usize);
    let given = (0..period).map(|_| next()).collect::<Option<Vec<u64>>>()?;
    Some(given.into_iter().cycle().take(length).collect())
}
