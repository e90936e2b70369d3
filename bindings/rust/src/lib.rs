//! Shillingreed, a proved flash translation layer core, from Rust.
//!
//! [`Ftl`] borrows all memory that the library is lent and keeps nothing of its own; with the feature `std` (the default) [`OwnedFtl`]
//! owns it. Every call answers a count or a [`Refusal`]; what a refusal leaves behind is said in docs/USING.md.
//!
//! A sector is a byte position: logical page `sector / s`, offset `sector % s`. A read or a write stays inside that one logical page. The
//! first write to a page leaves zeros (and not 255) where it lays no bytes.
//!
//! Page k of segment g lies at place g·p + k: its bytes are `bytes[(g * p + k) * s..][..s]`, its mark is `marks[g * p + k]`. Its address, by
//! which the map names it, is another number, g·2^w + k; [`View::place`] answers g and k.
//!
//! ```
//! use shillingreed::{Geometry, OwnedFtl, Refusal};
//!
//! let geo = Geometry { n: 4, p: 8, s: 16, w: 3, e: 20, limit: 1000 };
//! let mut unit = OwnedFtl::new(geo)?;
//! unit.format()?;
//! unit.open()?;
//! unit.write_told(5, b"1.32")?;
//! let file = unit.checkpoint()?;
//! unit.restore_dead(&file)?;
//! let mut out = [0; 4];
//! assert_eq!(unit.read(5, &mut out), Ok(4));
//! assert_eq!(&out, b"1.32");
//! let mut page = [255; 16];
//! assert_eq!(unit.read(0, &mut page), Ok(16));
//! assert_eq!(&page, b"\0\0\0\0\x001.32\0\0\0\0\0\0\0");
//! let (g, k) = unit.view()?.place(0).expect("page 0 was written");
//! assert_eq!(&unit.bytes[(g * geo.p + k) * geo.s..][..geo.s], &page);
//! assert_eq!(unit.read(16, &mut out), Err(Refusal::Unmapped));
//! # Ok::<(), Refusal>(())
//! ```
#![cfg_attr(not(feature = "std"), no_std)]
#![warn(missing_docs)]

#[cfg(feature = "std")]
mod owned;
#[rustfmt::skip]
mod raw;
mod refusal;
mod tables;

#[cfg(feature = "std")]
pub use owned::OwnedFtl;
use refusal::{answer, restored};
pub use refusal::{Reason, Refusal};
pub use tables::View;

/// A fuse without end.
pub const ENDLESS: u64 = u64::MAX;

/// The shape of a unit. Any numbers may be given; a call refuses wrong ones with [`Refusal::Wrong`].
#[derive(Clone, Copy, Debug, PartialEq, Eq)]
pub struct Geometry {
    /// Segments, 1 to 65,535.
    pub n: usize,
    /// Pages in each, 1 to 1,024.
    pub p: usize,
    /// Bytes in each page, 1 to 16,384.
    pub s: usize,
    /// Address width, 0 to 16, with p at most 2^w: page k of segment g has the address g·2^w + k, and lies at place g·p + k.
    pub w: usize,
    /// Map entries (logical pages), 1 to n·p.
    pub e: usize,
    /// Erases that a segment bears, 0 to 2^32 - 1.
    pub limit: usize,
}

/// The sizes of what a unit lends, in elements.
#[derive(Clone, Copy, Debug, PartialEq, Eq)]
#[allow(missing_docs)]
pub struct Sizes {
    pub tab: usize,
    pub used: usize,
    pub bytes: usize,
    pub marks: usize,
    pub counts: usize,
    pub bad: usize,
    pub page: usize,
    pub seen: usize,
    pub order: usize,
    pub taken: usize,
    pub checkpoint: usize,
}

macro_rules! size {
    ($geo:expr, $call:ident) => {
        // Six numbers in, a number out: nothing is lent.
        unsafe { raw::$call($geo.n, $geo.p, $geo.s, $geo.w, $geo.e, $geo.limit) }
    };
}

impl Geometry {
    /// The lent sizes, or `Wrong`.
    pub fn sizes(&self) -> Result<Sizes, Refusal> {
        let tab = size!(self, shr_tab_words);
        if tab == 0 {
            return Err(Refusal::Wrong);
        }
        Ok(Sizes {
            tab,
            used: size!(self, shr_used_bytes),
            bytes: size!(self, shr_flash_bytes),
            marks: size!(self, shr_mark_bytes),
            counts: size!(self, shr_count_words),
            bad: size!(self, shr_bad_bytes),
            page: size!(self, shr_page_bytes),
            seen: size!(self, shr_seen_bytes),
            order: size!(self, shr_order_words),
            taken: size!(self, shr_taken_bytes),
            checkpoint: size!(self, shr_checkpoint_bytes),
        })
    }
}

/// The CRC-32 of IEEE 802.3.
pub fn crc32(xs: &[u8]) -> u32 {
    // A slice's pointer and length.
    unsafe { raw::shr_crc32(xs.as_ptr(), xs.len()) }
}

/// The mapping's tables: lost with the power, made again by [`Ftl::restore_dead`].
pub struct Tables<'a> {
    /// Map, free, valid, list lengths, queue, flags, allocation segment, queue length, lists.
    pub tab: &'a mut [u32],
    /// Use marks: that of page k of segment g at g·p + k.
    pub used: &'a mut [u8],
}

/// The flash.
pub struct Flash<'a> {
    /// Every page's bytes: those of page k of segment g are the s from (g·p + k)·s.
    pub bytes: &'a mut [u8],
    /// Every page's programmed mark: that of page k of segment g at g·p + k.
    pub marks: &'a mut [u8],
    /// Every segment's erase count.
    pub counts: &'a mut [u32],
    /// The device operations still done; [`ENDLESS`] without end.
    pub fuse: &'a mut u64,
}

/// Scratch: zero before and after each call.
pub struct Scratch<'a> {
    /// s bytes.
    pub page: &'a mut [u8],
    /// n + p bytes.
    pub seen: &'a mut [u8],
    /// n words.
    pub order: &'a mut [u32],
    /// n·p bytes.
    pub taken: &'a mut [u8],
}

/// A unit over borrowed memory. The parts may have any size and content: a wrong one gets a refusal.
pub struct Ftl<'a> {
    /// The shape.
    pub geo: Geometry,
    /// The tables.
    pub tables: Tables<'a>,
    /// The flash.
    pub flash: Flash<'a>,
    /// The bad list: a nonzero mark for a bad segment.
    pub bad: &'a [u8],
    /// Scratch.
    pub scratch: Scratch<'a>,
}

// A write, and a collection with its threshold and m, by a raw call of that name. In these and in every call below each lent part is a borrow of
// its own, so its pointer is not null and aligned, and no two overlap. That is all the library cannot find out by itself.
#[rustfmt::skip]
macro_rules! writes {
    ($unit:expr, $call:ident, $sector:expr, $data:expr) => {{
        let (g, t, f, c, bad) = ($unit.geo, &mut $unit.tables, &mut $unit.flash, &mut $unit.scratch, $unit.bad);
        answer(unsafe {
            raw::$call(
                g.n, g.p, g.s, g.w, g.e, g.limit,
                $sector, $data.len(), $data.as_ptr(), $data.len(), bad.as_ptr(), bad.len(),
                t.tab.as_mut_ptr(), t.tab.len(), t.used.as_mut_ptr(), t.used.len(),
                f.bytes.as_mut_ptr(), f.bytes.len(), f.marks.as_mut_ptr(), f.marks.len(), f.counts.as_ptr(), f.counts.len(),
                f.fuse, c.page.as_mut_ptr(), c.page.len(), c.seen.as_mut_ptr(), c.seen.len(),
            )
        })
    }};
}

#[rustfmt::skip]
macro_rules! collects {
    ($unit:expr, $call:ident $(, $own:expr)*) => {{
        let (g, t, f, c, bad) = ($unit.geo, &mut $unit.tables, &mut $unit.flash, &mut $unit.scratch, $unit.bad);
        answer(unsafe {
            raw::$call(
                g.n, g.p, g.s, g.w, g.e, g.limit, $($own,)*
                bad.as_ptr(), bad.len(),
                t.tab.as_mut_ptr(), t.tab.len(), t.used.as_mut_ptr(), t.used.len(),
                f.bytes.as_mut_ptr(), f.bytes.len(), f.marks.as_mut_ptr(), f.marks.len(),
                f.counts.as_mut_ptr(), f.counts.len(), f.fuse,
                c.page.as_mut_ptr(), c.page.len(), c.seen.as_mut_ptr(), c.seen.len(), c.order.as_mut_ptr(), c.order.len(),
            )
        })
    }};
}

#[rustfmt::skip]
macro_rules! restores {
    ($unit:expr, $call:ident, $file:expr) => {{
        let (g, t, c) = ($unit.geo, &mut $unit.tables, &mut $unit.scratch);
        restored(unsafe {
            raw::$call(
                g.n, g.p, g.s, g.w, g.e, g.limit,
                $file.as_ptr(), $file.len(), t.tab.as_mut_ptr(), t.tab.len(), t.used.as_mut_ptr(), t.used.len(),
                c.taken.as_mut_ptr(), c.taken.len(),
            )
        })
    }};
}

#[rustfmt::skip]
impl Ftl<'_> {
    /// Erases every segment from 0 up, as far as the fuse reaches, and sets its count to 0. Answers 0.
    pub fn format(&mut self) -> Result<usize, Refusal> {
        let (g, f) = (self.geo, &mut self.flash);
        answer(unsafe {
            raw::shr_format(
                g.n, g.p, g.s, g.w, g.e, g.limit,
                f.bytes.as_mut_ptr(), f.bytes.len(), f.marks.as_mut_ptr(), f.marks.len(),
                f.counts.as_mut_ptr(), f.counts.len(), f.fuse,
            )
        })
    }

    /// Empties the tables: nothing mapped, every page free. Answers 0.
    pub fn open(&mut self) -> Result<usize, Refusal> {
        let (g, t) = (self.geo, &mut self.tables);
        answer(unsafe {
            raw::shr_open(
                g.n, g.p, g.s, g.w, g.e, g.limit,
                t.tab.as_mut_ptr(), t.tab.len(), t.used.as_mut_ptr(), t.used.len(),
            )
        })
    }

    /// Fills `out` from a sector, a byte position, inside one logical page. Answers its length.
    pub fn read(&mut self, sector: usize, out: &mut [u8]) -> Result<usize, Refusal> {
        let (g, t, f, c) = (self.geo, &self.tables, &self.flash, &mut self.scratch);
        answer(unsafe {
            raw::shr_read(
                g.n, g.p, g.s, g.w, g.e, g.limit,
                sector, out.len(),
                t.tab.as_ptr(), t.tab.len(), t.used.as_ptr(), t.used.len(), f.bytes.as_ptr(), f.bytes.len(),
                out.as_mut_ptr(), out.len(), c.seen.as_mut_ptr(), c.seen.len(),
            )
        })
    }

    /// Writes `data` at a sector, a byte position, inside one logical page. The page's other bytes stay; at its first write they become
    /// zero (and not 255). Spends one page. Answers the length. In the old numbers; see [`Ftl::write_told`].
    pub fn write(&mut self, sector: usize, data: &[u8]) -> Result<usize, Refusal> {
        writes!(self, shr_write, sector, data)
    }

    /// One collection: the queued segment with the fewest valid pages is copied out and erased. Answers 0. In the old numbers.
    pub fn collect(&mut self) -> Result<usize, Refusal> {
        collects!(self, shr_collect)
    }

    /// Collections until one is refused, the queue is empty, or m are counted. Answers the count, without the one that empties the queue.
    /// In the old numbers.
    pub fn collect_list(&mut self, m: usize) -> Result<usize, Refusal> {
        collects!(self, shr_collect_list, m)
    }

    /// The same when the free pages of all segments are at most the threshold; above it nothing runs. In the old numbers.
    pub fn collect_threshold(&mut self, threshold: u64, m: usize) -> Result<usize, Refusal> {
        collects!(self, shr_collect_threshold, threshold, m)
    }

    /// [`Ftl::write`] in the new numbers: [`Refusal::Full`] where it says [`Refusal::NoRoom`]. All else is the same.
    pub fn write_told(&mut self, sector: usize, data: &[u8]) -> Result<usize, Refusal> {
        writes!(self, shr_write_told, sector, data)
    }

    /// [`Ftl::collect`] in the new numbers: [`Refusal::Full`] or [`Refusal::CopyDevice`] where it says [`Refusal::NoRoom`].
    pub fn collect_told(&mut self) -> Result<usize, Refusal> {
        collects!(self, shr_collect_told)
    }

    /// [`Ftl::collect_list`] in the new numbers.
    pub fn collect_list_told(&mut self, m: usize) -> Result<usize, Refusal> {
        collects!(self, shr_collect_list_told, m)
    }

    /// [`Ftl::collect_threshold`] in the new numbers.
    pub fn collect_threshold_told(&mut self, threshold: u64, m: usize) -> Result<usize, Refusal> {
        collects!(self, shr_collect_threshold_told, threshold, m)
    }

    /// Writes the checkpoint of the tables into the buffer's front. Answers its length.
    pub fn encode(&mut self, buffer: &mut [u8]) -> Result<usize, Refusal> {
        let (g, t, c) = (self.geo, &self.tables, &mut self.scratch);
        answer(unsafe {
            raw::shr_encode(
                g.n, g.p, g.s, g.w, g.e, g.limit,
                t.tab.as_ptr(), t.tab.len(), t.used.as_ptr(), t.used.len(),
                buffer.as_mut_ptr(), buffer.len(), c.seen.as_mut_ptr(), c.seen.len(),
            )
        })
    }

    /// Makes the tables of a checkpoint, whatever they held; the queue is empty. Answers 0; a reason changes nothing. For new programs:
    /// [`Ftl::restore_dead`].
    pub fn restore(&mut self, file: &[u8]) -> Result<usize, Refusal> {
        restores!(self, shr_restore, file)
    }

    /// The same, and each segment with free count 0 and a list shorter than p is queued, ascending, its flag set.
    pub fn restore_dead(&mut self, file: &[u8]) -> Result<usize, Refusal> {
        restores!(self, shr_restore_dead, file)
    }

    /// A look into the tables, whatever they hold; or `Wrong` where they do not have their size.
    pub fn view(&self) -> Result<View<'_>, Refusal> {
        View::new(self.geo, self.tables.tab)
    }
}
