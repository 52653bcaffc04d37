//! Stand-in for the crate kiddo: a plain list in the place of the k-d tree, as docs/TERMS.md reads it. The distance of
//! an entry is (dx·dx + dy·dy) + dz·dz, and the nearest entry is the first with the least distance.
use std::marker::PhantomData;
use std::num::NonZero;

#[derive(Debug)]
pub struct ImmutableKdTree<A, const K: usize> {
    pub entries: Vec<[A; K]>,
}

#[derive(Debug)]
pub struct ConstructionError;

pub struct SquaredEuclidean<A>(PhantomData<A>);

pub trait Distance {
    fn between(a: &[f64; 3], b: &[f64; 3]) -> f64;
}

impl Distance for SquaredEuclidean<f64> {
    fn between(a: &[f64; 3], b: &[f64; 3]) -> f64 {
        let d = [a[0] - b[0], a[1] - b[1], a[2] - b[2]];
        (d[0] * d[0] + d[1] * d[1]) + d[2] * d[2]
    }
}

#[derive(Debug, Clone, Copy)]
pub struct Entry {
    pub distance: f64,
    pub item: u64,
}

impl ImmutableKdTree<f64, 3> {
    pub fn new_from_slice(entries: &[[f64; 3]]) -> Result<Self, ConstructionError> {
        Ok(Self { entries: entries.to_vec() })
    }

    pub fn query(&self, point: &[f64; 3]) -> Query<'_> {
        Query { entries: &self.entries, point: *point }
    }
}

pub struct Query<'a> {
    entries: &'a [[f64; 3]],
    point: [f64; 3],
}

/// What a query found, in the order in which `execute` hands it out.
pub struct Found<T>(T);

impl<T> Found<T> {
    pub fn execute(self) -> T {
        self.0
    }
}

impl Query<'_> {
    fn by_distance<M: Distance>(&self) -> Vec<Entry> {
        let mut all: Vec<Entry> = (0u64..)
            .zip(self.entries)
            .map(|(item, entry)| Entry { distance: M::between(&self.point, entry), item })
            .collect();
        all.sort_by(|a, b| a.distance.total_cmp(&b.distance));
        all
    }

    pub fn nearest_one<M: Distance>(self) -> Found<Entry> {
        let mut nearest = Entry { distance: f64::INFINITY, item: 0 };
        for (item, entry) in (0u64..).zip(self.entries) {
            let distance = M::between(&self.point, entry);
            if distance < nearest.distance {
                nearest = Entry { distance, item };
            }
        }
        Found(nearest)
    }

    pub fn nearest_n<M: Distance>(self, n: NonZero<usize>) -> Found<Vec<Entry>> {
        let mut all = self.by_distance::<M>();
        all.truncate(n.get());
        Found(all)
    }

    pub fn within<M: Distance>(self, distance: f64) -> Found<Vec<Entry>> {
        let mut all = self.by_distance::<M>();
        all.retain(|entry| entry.distance < distance);
        Found(all)
    }
}
