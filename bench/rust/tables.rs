//! Tables in the port's words: the one input that both sides are given.
pub const EMPTY: u32 = u32::MAX;

#[derive(Clone, Copy)]
pub struct Geo {
    pub n: usize,
    pub p: usize,
    pub s: usize,
    pub w: usize,
    pub e: usize,
    pub limit: usize,
}
impl Geo {
    /// The least address width that holds p pages; an erase limit that is never met.
    pub fn new(n: usize, p: usize, s: usize, e: usize) -> Geo {
        let w = p.next_power_of_two().trailing_zeros() as usize;
        Geo { n, p, s, w, e, limit: u32::MAX as usize }
    }
    pub fn pages(&self) -> usize {
        self.n * self.p
    }
    pub fn free(&self) -> usize {
        self.e
    }
    pub fn valid(&self) -> usize {
        self.e + self.n
    }
    pub fn lens(&self) -> usize {
        self.e + self.n * 2
    }
    pub fn queue(&self) -> usize {
        self.e + self.n * 3
    }
    pub fn flags(&self) -> usize {
        self.e + self.n * 4
    }
    pub fn alloc(&self) -> usize {
        self.e + self.n * 5
    }
    pub fn queued(&self) -> usize {
        self.alloc() + 1
    }
    pub fn lists(&self) -> usize {
        self.alloc() + 2
    }
    pub fn words(&self) -> usize {
        self.lists() + self.pages()
    }
    pub fn file(&self) -> usize {
        44 + 4 * self.e + 4 * self.n
    }
}

/// A small generator of numbers, the same ones in every run.
pub struct Random(pub u64);
impl Random {
    pub fn below(&mut self, k: usize) -> usize {
        self.0 ^= self.0 << 13;
        self.0 ^= self.0 >> 7;
        self.0 ^= self.0 << 17;
        ((self.0 >> 11) % k as u64) as usize
    }
    pub fn shuffled(&mut self, k: usize) -> Vec<usize> {
        let mut xs: Vec<usize> = (0..k).collect();
        for i in (1..k).rev() {
            xs.swap(i, self.below(i + 1));
        }
        xs
    }
}

#[derive(Clone, PartialEq)]
pub struct Tables {
    pub tab: Vec<u32>,
    pub used: Vec<u8>,
}
impl Tables {
    /// Nothing mapped, every page free.
    pub fn opened(z: &Geo) -> Tables {
        let mut t = Tables { tab: vec![0; z.words()], used: vec![0; z.pages()] };
        t.tab[..z.e].fill(EMPTY);
        t.tab[z.free()..z.valid()].fill(z.p as u32);
        t
    }
    /// Segment g is full and nothing in it is mapped.
    pub fn fill(&mut self, z: &Geo, g: usize) {
        self.tab[z.free() + g] = 0;
        self.used[g * z.p..(g + 1) * z.p].fill(1);
    }
    /// Logical page l goes to page k of the full segment g, and to the end of its list.
    pub fn map(&mut self, z: &Geo, l: usize, g: usize, k: usize) {
        let len = self.tab[z.lens() + g];
        self.tab[l] = ((g << z.w) + k) as u32;
        self.tab[z.lists() + g * z.p + len as usize] = l as u32;
        self.tab[z.lens() + g] += 1;
        self.tab[z.valid() + g] += 1;
    }
    /// The first segments full, the logical pages mapped to them in the order given.
    pub fn mapped(z: &Geo, order: &[usize]) -> Tables {
        let mut t = Tables::opened(z);
        for g in 0..order.len().div_ceil(z.p) {
            t.fill(z, g);
        }
        for (i, &l) in order.iter().enumerate() {
            t.map(z, l, i / z.p, i % z.p);
        }
        t
    }
    /// Segment g goes to the end of the queue, and its flag is set.
    pub fn enqueue(&mut self, z: &Geo, g: usize) {
        let k = self.tab[z.queued()];
        self.tab[z.queue() + k as usize] = g as u32;
        self.tab[z.flags() + g] = 1;
        self.tab[z.queued()] += 1;
    }
    /// The same with the queue empty; the flags stay, which is sound.
    pub fn unqueued(&self, z: &Geo) -> Tables {
        let mut t = self.clone();
        t.tab[z.queue()..z.flags()].fill(0);
        t.tab[z.queued()] = 0;
        t
    }
}
