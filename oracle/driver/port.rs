//! The port's static library: its C entries and a thin safe layer over them.
//!
//! The fields of [`Unit`] are public vectors, so that wrong sizes can be lent too.
#![allow(dead_code)]

/// The empty word of the map.
pub const EMPTY: u32 = u32::MAX;
/// A fuse without end.
pub const ENDLESS: u64 = u64::MAX;

extern "C" {
    fn shr_crc32(xs: *const u8, xs_len: usize) -> u32;
}

/// Declares an entry: it takes the six numbers of a geometry first.
macro_rules! entry {
    ($name:ident($($arg:ident: $ty:ty),*) -> $ret:ty) => {
        extern "C" {
            fn $name(n: usize, p: usize, s: usize, w: usize, e: usize, limit: usize
                     $(, $arg: $ty)*) -> $ret;
        }
    };
}

/// Declares the entries; a name behind the answer is one more entry with the same parameters.
macro_rules! entries {
    ($($name:ident $args:tt -> $ret:ty $(, $other:ident)?;)*) => {
        $(entry! { $name $args -> $ret } $(entry! { $other $args -> $ret })?)*
    };
}

entries! {
    shr_format(bytes: *mut u8, bytes_len: usize, marks: *mut u8, marks_len: usize,
        counts: *mut u32, counts_len: usize, fuse: *mut u64) -> i64;
    shr_open(tab: *mut u32, tab_len: usize, used: *mut u8, used_len: usize) -> i64;
    shr_read(sector: usize, length: usize, tab: *const u32, tab_len: usize,
        used: *const u8, used_len: usize, bytes: *const u8, bytes_len: usize,
        out: *mut u8, out_len: usize, seen: *mut u8, seen_len: usize) -> i64;
    shr_write(sector: usize, len: usize, xs: *const u8, xs_len: usize,
        bad: *const u8, bad_len: usize, tab: *mut u32, tab_len: usize,
        used: *mut u8, used_len: usize, bytes: *mut u8, bytes_len: usize,
        marks: *mut u8, marks_len: usize, counts: *const u32, counts_len: usize,
        fuse: *mut u64, page: *mut u8, page_len: usize,
        seen: *mut u8, seen_len: usize) -> i64, shr_write_told;
    shr_collect(bad: *const u8, bad_len: usize, tab: *mut u32, tab_len: usize,
        used: *mut u8, used_len: usize, bytes: *mut u8, bytes_len: usize,
        marks: *mut u8, marks_len: usize, counts: *mut u32, counts_len: usize,
        fuse: *mut u64, page: *mut u8, page_len: usize, seen: *mut u8, seen_len: usize,
        order: *mut u32, order_len: usize) -> i64, shr_collect_told;
    shr_collect_list(m: usize, bad: *const u8, bad_len: usize, tab: *mut u32, tab_len: usize,
        used: *mut u8, used_len: usize, bytes: *mut u8, bytes_len: usize,
        marks: *mut u8, marks_len: usize, counts: *mut u32, counts_len: usize,
        fuse: *mut u64, page: *mut u8, page_len: usize, seen: *mut u8, seen_len: usize,
        order: *mut u32, order_len: usize) -> i64, shr_collect_list_told;
    shr_collect_threshold(threshold: u64, m: usize, bad: *const u8, bad_len: usize,
        tab: *mut u32, tab_len: usize, used: *mut u8, used_len: usize,
        bytes: *mut u8, bytes_len: usize, marks: *mut u8, marks_len: usize,
        counts: *mut u32, counts_len: usize, fuse: *mut u64, page: *mut u8, page_len: usize,
        seen: *mut u8, seen_len: usize, order: *mut u32, order_len: usize)
        -> i64, shr_collect_threshold_told;
    shr_encode(tab: *const u32, tab_len: usize, used: *const u8, used_len: usize,
        buffer: *mut u8, buffer_len: usize, seen: *mut u8, seen_len: usize) -> i64;
    shr_restore(file: *const u8, file_len: usize, tab: *mut u32, tab_len: usize,
        used: *mut u8, used_len: usize, taken: *mut u8, taken_len: usize) -> i64, shr_restore_dead;
    shr_tab_words() -> usize;
    shr_used_bytes() -> usize;
    shr_flash_bytes() -> usize;
    shr_mark_bytes() -> usize;
    shr_count_words() -> usize;
    shr_bad_bytes() -> usize;
    shr_page_bytes() -> usize;
    shr_seen_bytes() -> usize;
    shr_order_words() -> usize;
    shr_taken_bytes() -> usize;
    shr_checkpoint_bytes() -> usize;
}

/// The numbers that a refusal is told in: document 01's, or those of 02, M-101.
#[derive(Clone, Copy, PartialEq, Eq, Debug)]
pub enum Numbers {
    Old,
    New,
}

/// What a restore queues: nothing, or the dead segments of 02, M-109.
#[derive(Clone, Copy, PartialEq, Eq, Debug)]
pub enum Queueing {
    Empty,
    Dead,
}

/// The six numbers of a device.
#[derive(Clone, Copy, PartialEq, Eq, Debug)]
pub struct Geometry {
    pub n: usize,
    pub p: usize,
    pub s: usize,
    pub w: usize,
    pub e: usize,
    pub limit: usize,
}

impl Geometry {
    /// Length of a checkpoint, by document 01.
    pub fn checkpoint_bytes(&self) -> usize {
        44 + 4 * self.e + 4 * self.n
    }

    /// Words of `tab`, by document 01's parts.
    pub fn tab_words(&self) -> usize {
        self.e + 5 * self.n + 2 + self.n * self.p
    }

    /// The address of page `k` of segment `g`.
    pub fn address(&self, g: usize, k: usize) -> u32 {
        ((g << self.w) + k) as u32
    }

    // Where the parts of `tab` begin.
    pub fn at_free(&self) -> usize {
        self.e
    }
    pub fn at_valid(&self) -> usize {
        self.e + self.n
    }
    pub fn at_lens(&self) -> usize {
        self.e + 2 * self.n
    }
    pub fn at_queue(&self) -> usize {
        self.e + 3 * self.n
    }
    pub fn at_flags(&self) -> usize {
        self.e + 4 * self.n
    }
    pub fn at_alloc(&self) -> usize {
        self.e + 5 * self.n
    }
    pub fn at_queued(&self) -> usize {
        self.at_alloc() + 1
    }
    pub fn at_lists(&self) -> usize {
        self.at_alloc() + 2
    }
}

/// Everything that is lent but the bad list and the caller's own buffers.
#[derive(Clone, PartialEq, Eq, Debug)]
pub struct Unit {
    pub tab: Vec<u32>,
    pub used: Vec<u8>,
    pub bytes: Vec<u8>,
    pub marks: Vec<u8>,
    pub counts: Vec<u32>,
    pub fuse: u64,
    pub page: Vec<u8>,
    pub seen: Vec<u8>,
    pub order: Vec<u32>,
    pub taken: Vec<u8>,
}

impl Unit {
    /// The right sizes, all zero; the fuse is endless.
    pub fn new(g: &Geometry) -> Unit {
        let np = g.n * g.p;
        Unit {
            tab: vec![0; g.tab_words()],
            used: vec![0; np],
            bytes: vec![0; np * g.s],
            marks: vec![0; np],
            counts: vec![0; g.n],
            fuse: ENDLESS,
            page: vec![0; g.s],
            seen: vec![0; g.n + g.p],
            order: vec![0; g.n],
            taken: vec![0; np],
        }
    }

    /// Formatted flash and fresh tables. Panics when the port refuses either.
    pub fn fresh(g: &Geometry) -> Unit {
        let mut u = Unit::new(g);
        assert_eq!(format(g, &mut u), 0, "format {g:?}");
        assert_eq!(open(g, &mut u), 0, "open {g:?}");
        u
    }

    // Parts of `tab`; the sizes must be right.
    pub fn map(&self, g: &Geometry) -> &[u32] {
        &self.tab[..g.e]
    }
    pub fn free(&self, g: &Geometry) -> &[u32] {
        &self.tab[g.at_free()..][..g.n]
    }
    pub fn valid(&self, g: &Geometry) -> &[u32] {
        &self.tab[g.at_valid()..][..g.n]
    }
    pub fn lens(&self, g: &Geometry) -> &[u32] {
        &self.tab[g.at_lens()..][..g.n]
    }
    pub fn queue(&self, g: &Geometry) -> &[u32] {
        &self.tab[g.at_queue()..][..g.n]
    }
    pub fn flags(&self, g: &Geometry) -> &[u32] {
        &self.tab[g.at_flags()..][..g.n]
    }
    pub fn alloc(&self, g: &Geometry) -> u32 {
        self.tab[g.at_alloc()]
    }
    pub fn queued(&self, g: &Geometry) -> u32 {
        self.tab[g.at_queued()]
    }
    pub fn lists(&self, g: &Geometry) -> &[u32] {
        &self.tab[g.at_lists()..][..g.n * g.p]
    }
    /// All p slots of segment `k`'s list.
    pub fn list(&self, g: &Geometry, k: usize) -> &[u32] {
        &self.lists(g)[k * g.p..][..g.p]
    }

    // The same parts, to be written.
    pub fn map_mut(&mut self, g: &Geometry) -> &mut [u32] {
        &mut self.tab[..g.e]
    }
    pub fn free_mut(&mut self, g: &Geometry) -> &mut [u32] {
        &mut self.tab[g.at_free()..][..g.n]
    }
    pub fn valid_mut(&mut self, g: &Geometry) -> &mut [u32] {
        &mut self.tab[g.at_valid()..][..g.n]
    }
    pub fn lens_mut(&mut self, g: &Geometry) -> &mut [u32] {
        &mut self.tab[g.at_lens()..][..g.n]
    }
    pub fn queue_mut(&mut self, g: &Geometry) -> &mut [u32] {
        &mut self.tab[g.at_queue()..][..g.n]
    }
    pub fn flags_mut(&mut self, g: &Geometry) -> &mut [u32] {
        &mut self.tab[g.at_flags()..][..g.n]
    }
    pub fn alloc_mut(&mut self, g: &Geometry) -> &mut u32 {
        &mut self.tab[g.at_alloc()]
    }
    pub fn queued_mut(&mut self, g: &Geometry) -> &mut u32 {
        &mut self.tab[g.at_queued()]
    }
    pub fn lists_mut(&mut self, g: &Geometry) -> &mut [u32] {
        let at = g.at_lists();
        &mut self.tab[at..][..g.n * g.p]
    }

    /// Whether every scratch slice is all zero.
    pub fn scratch_is_zero(&self) -> bool {
        self.page.iter().all(|&x| x == 0)
            && self.seen.iter().all(|&x| x == 0)
            && self.order.iter().all(|&x| x == 0)
            && self.taken.iter().all(|&x| x == 0)
    }
}

/// Calls an entry with the geometry's six numbers before its own arguments. An empty
/// slice's pointer is dangling but neither null nor unaligned, as the entries ask.
macro_rules! call {
    ($f:ident, $g:expr $(, $arg:expr)*) => {
        unsafe { $f($g.n, $g.p, $g.s, $g.w, $g.e, $g.limit $(, $arg)*) }
    };
}

pub fn format(g: &Geometry, u: &mut Unit) -> i64 {
    call!(shr_format, g,
        u.bytes.as_mut_ptr(), u.bytes.len(), u.marks.as_mut_ptr(), u.marks.len(),
        u.counts.as_mut_ptr(), u.counts.len(), &mut u.fuse)
}

pub fn open(g: &Geometry, u: &mut Unit) -> i64 {
    call!(shr_open, g, u.tab.as_mut_ptr(), u.tab.len(), u.used.as_mut_ptr(), u.used.len())
}

pub fn read(g: &Geometry, sector: usize, length: usize, u: &mut Unit, out: &mut [u8]) -> i64 {
    call!(shr_read, g, sector, length,
        u.tab.as_ptr(), u.tab.len(), u.used.as_ptr(), u.used.len(),
        u.bytes.as_ptr(), u.bytes.len(), out.as_mut_ptr(), out.len(),
        u.seen.as_mut_ptr(), u.seen.len())
}

/// The entry under its name for these numbers.
macro_rules! named {
    ($numbers:expr, $old:ident, $new:ident) => {
        match $numbers {
            Numbers::Old => $old,
            Numbers::New => $new,
        }
    };
}

pub fn write(
    g: &Geometry,
    numbers: Numbers,
    bad: &[u8],
    sector: usize,
    len: usize,
    xs: &[u8],
    u: &mut Unit,
) -> i64 {
    let f = named!(numbers, shr_write, shr_write_told);
    call!(f, g, sector, len, xs.as_ptr(), xs.len(), bad.as_ptr(), bad.len(),
        u.tab.as_mut_ptr(), u.tab.len(), u.used.as_mut_ptr(), u.used.len(),
        u.bytes.as_mut_ptr(), u.bytes.len(), u.marks.as_mut_ptr(), u.marks.len(),
        u.counts.as_ptr(), u.counts.len(), &mut u.fuse,
        u.page.as_mut_ptr(), u.page.len(), u.seen.as_mut_ptr(), u.seen.len())
}

/// A collection entry: its own numbers, then what all three are lent.
macro_rules! collection {
    ($f:ident, $g:expr, $bad:expr, $u:expr $(, $number:expr)*) => {
        call!($f, $g, $($number,)* $bad.as_ptr(), $bad.len(),
            $u.tab.as_mut_ptr(), $u.tab.len(), $u.used.as_mut_ptr(), $u.used.len(),
            $u.bytes.as_mut_ptr(), $u.bytes.len(), $u.marks.as_mut_ptr(), $u.marks.len(),
            $u.counts.as_mut_ptr(), $u.counts.len(), &mut $u.fuse,
            $u.page.as_mut_ptr(), $u.page.len(), $u.seen.as_mut_ptr(), $u.seen.len(),
            $u.order.as_mut_ptr(), $u.order.len())
    };
}

pub fn collect(g: &Geometry, numbers: Numbers, bad: &[u8], u: &mut Unit) -> i64 {
    let f = named!(numbers, shr_collect, shr_collect_told);
    collection!(f, g, bad, u)
}

pub fn collect_list(g: &Geometry, numbers: Numbers, bad: &[u8], m: usize, u: &mut Unit) -> i64 {
    let f = named!(numbers, shr_collect_list, shr_collect_list_told);
    collection!(f, g, bad, u, m)
}

pub fn collect_threshold(
    g: &Geometry,
    numbers: Numbers,
    bad: &[u8],
    threshold: u64,
    m: usize,
    u: &mut Unit,
) -> i64 {
    let f = named!(numbers, shr_collect_threshold, shr_collect_threshold_told);
    collection!(f, g, bad, u, threshold, m)
}

pub fn encode(g: &Geometry, u: &mut Unit, buffer: &mut [u8]) -> i64 {
    call!(shr_encode, g, u.tab.as_ptr(), u.tab.len(), u.used.as_ptr(), u.used.len(),
        buffer.as_mut_ptr(), buffer.len(), u.seen.as_mut_ptr(), u.seen.len())
}

pub fn restore(g: &Geometry, queueing: Queueing, file: &[u8], u: &mut Unit) -> i64 {
    let f = match queueing {
        Queueing::Empty => shr_restore,
        Queueing::Dead => shr_restore_dead,
    };
    call!(f, g, file.as_ptr(), file.len(),
        u.tab.as_mut_ptr(), u.tab.len(), u.used.as_mut_ptr(), u.used.len(),
        u.taken.as_mut_ptr(), u.taken.len())
}

pub fn crc32(xs: &[u8]) -> u32 {
    unsafe { shr_crc32(xs.as_ptr(), xs.len()) }
}

/// The sizes as the port itself gives them; all 0 for a geometry that is refused.
#[derive(Clone, Copy, PartialEq, Eq, Debug)]
pub struct Sizes {
    pub tab: usize,
    pub used: usize,
    pub bytes: usize,
    pub marks: usize,
    pub counts: usize,
    pub bad: usize,
    pub page: usize,
    pub seen: usize,
    pub order: usize,
    pub taken: usize,
    pub checkpoint: usize,
}

pub fn sizes(g: &Geometry) -> Sizes {
    Sizes {
        tab: call!(shr_tab_words, g),
        used: call!(shr_used_bytes, g),
        bytes: call!(shr_flash_bytes, g),
        marks: call!(shr_mark_bytes, g),
        counts: call!(shr_count_words, g),
        bad: call!(shr_bad_bytes, g),
        page: call!(shr_page_bytes, g),
        seen: call!(shr_seen_bytes, g),
        order: call!(shr_order_words, g),
        taken: call!(shr_taken_bytes, g),
        checkpoint: call!(shr_checkpoint_bytes, g),
    }
}
