//! Document 01's flash model, with the fuse and 02's order of programming.
#[derive(Clone)]
pub struct Flash {
    pub segments: usize,
    pub pages: usize,
    pub size: usize,
    pub limit: u32,
    pub bytes: Vec<u8>,
    pub marks: Vec<u8>,
    pub counts: Vec<u32>,
    pub fuse: u64,
    /// Programmings refused for their order alone.
    pub disorders: u64,
}

impl Flash {
    /// Neither blank nor zero at first, so that formatting has something to do.
    pub fn new(segments: usize, pages: usize, size: usize, limit: u32) -> Flash {
        Flash {
            segments,
            pages,
            size,
            limit,
            bytes: vec![0xA5; segments * pages * size],
            marks: vec![1; segments * pages],
            counts: vec![9; segments],
            fuse: u64::MAX,
            disorders: 0,
        }
    }

    fn burn(&mut self) {
        if self.fuse != u64::MAX {
            self.fuse -= 1;
        }
    }

    fn blank(&mut self, g: usize) {
        let (p, s) = (self.pages, self.size);
        self.bytes[g * p * s..(g + 1) * p * s].fill(255);
        self.marks[g * p..(g + 1) * p].fill(0);
        self.burn();
    }

    /// Every segment erased whatever its count, counts to 0; at fuse 0 the rest is skipped whole.
    pub fn format(&mut self) {
        for g in 0..self.segments {
            if self.fuse == 0 {
                return;
            }
            self.blank(g);
            self.counts[g] = 0;
        }
    }

    pub fn page(&self, g: usize, k: usize) -> &[u8] {
        let at = g * self.pages + k;
        &self.bytes[at * self.size..][..self.size]
    }

    /// False: refused. 02, M-102: "only if no higher page of its segment has been since the erase".
    pub fn program(&mut self, g: usize, k: usize, src: &[u8]) -> bool {
        assert!(g < self.segments && k < self.pages && src.len() == self.size, "programming outside the device");
        let (at, end) = (g * self.pages + k, (g + 1) * self.pages);
        if self.marks[at] != 0 || self.fuse == 0 {
            return false;
        }
        if self.marks[at + 1..end].iter().any(|&mark| mark != 0) {
            self.disorders += 1;
            return false;
        }
        self.bytes[at * self.size..][..self.size].copy_from_slice(src);
        self.marks[at] = 1;
        self.burn();
        true
    }

    /// False: refused.
    pub fn erase(&mut self, g: usize) -> bool {
        assert!(g < self.segments, "erase outside the device");
        if self.counts[g] >= self.limit || self.fuse == 0 {
            return false;
        }
        self.blank(g);
        self.counts[g] += 1;
        true
    }
}
