//! A look into the tables.
use crate::{Geometry, Refusal};

/// The tables, read by name, whatever they hold and with any index. What is not there is `None`, or an empty slice. Soundness is not tested:
/// counts, lists and queue are answered as they stand, at most p and n words long.
#[derive(Clone, Copy)]
pub struct View<'a> {
    geo: Geometry,
    tab: &'a [u32],
}

// The tables have their size, so the geometry is good: no sum below wraps, and every range of a table lies inside them.
impl<'a> View<'a> {
    pub(crate) fn new(geo: Geometry, tab: &'a [u32]) -> Result<Self, Refusal> {
        if geo.sizes()?.tab != tab.len() {
            return Err(Refusal::Wrong);
        }
        Ok(View { geo, tab })
    }

    // The k-th of the tables of n words each, which follow the map.
    fn table(&self, k: usize) -> &'a [u32] {
        &self.tab[self.geo.e + k * self.geo.n..][..self.geo.n]
    }

    // A segment's word in the k-th table.
    fn word(&self, k: usize, segment: usize) -> Option<usize> {
        self.table(k).get(segment).map(|&x| x as usize)
    }

    /// The segment g and the page k in it that logical page `l` is mapped to; its bytes lie from (g·p + k)·s, its mark at g·p + k. `None`
    /// for a page never written, for `l` from e up, and for a word that names no page.
    pub fn place(&self, l: usize) -> Option<(usize, usize)> {
        let word = *self.tab[..self.geo.e].get(l)? as usize;
        let (segment, page) = (word >> self.geo.w, word & ((1 << self.geo.w) - 1));
        // the empty word's segment is 65,535 or more, never below n
        (segment < self.geo.n && page < self.geo.p).then_some((segment, page))
    }

    /// Free pages of a segment; `None` from n up.
    pub fn free(&self, segment: usize) -> Option<usize> {
        self.word(0, segment)
    }

    /// Valid count of a segment: its mapped pages, and pages spent by a refused programming; `None` from n up.
    pub fn valid(&self, segment: usize) -> Option<usize> {
        self.word(1, segment)
    }

    /// The logical pages mapped into a segment; none from n up.
    pub fn list(&self, segment: usize) -> &'a [u32] {
        let Some(len) = self.word(2, segment) else { return &[] };
        &self.tab[self.geo.e + 5 * self.geo.n + 2 + segment * self.geo.p..][..len.min(self.geo.p)]
    }

    /// The segments queued for collection, from the front.
    pub fn queue(&self) -> &'a [u32] {
        let len = (self.tab[self.geo.e + 5 * self.geo.n + 1] as usize).min(self.geo.n);
        &self.table(3)[..len]
    }

    /// Whether a segment's flag is set: it is queued, or a refused collection took it off the queue. `None` from n up.
    pub fn flag(&self, segment: usize) -> Option<bool> {
        self.word(4, segment).map(|x| x != 0)
    }

    /// The allocation segment, where the search for a free page begins; `None` for a word from n up.
    pub fn alloc(&self) -> Option<usize> {
        let segment = self.tab[self.geo.e + 5 * self.geo.n] as usize;
        (segment < self.geo.n).then_some(segment)
    }

    /// The segment that the next collection takes: the first with the fewest valid pages. `None` when the queue is empty; queued numbers
    /// from n up are passed over.
    pub fn victim(&self) -> Option<usize> {
        let queued = self.queue().iter().map(|&g| g as usize);
        queued.filter(|&g| g < self.geo.n).min_by_key(|&g| self.valid(g))
    }
}
