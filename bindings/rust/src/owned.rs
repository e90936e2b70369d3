//! A unit that owns its memory.
use crate::{Flash, Ftl, Geometry, Refusal, Scratch, Tables, View, ENDLESS};

/// A unit with its own memory, the flash's too. The fields are what [`Ftl`] lends.
#[derive(Clone, Debug, PartialEq, Eq)]
#[allow(missing_docs)]
pub struct OwnedFtl {
    pub geo: Geometry,
    pub tab: Vec<u32>,
    pub used: Vec<u8>,
    pub bytes: Vec<u8>,
    pub marks: Vec<u8>,
    pub counts: Vec<u32>,
    pub fuse: u64,
    pub bad: Vec<u8>,
    page: Vec<u8>,
    seen: Vec<u8>,
    order: Vec<u32>,
    taken: Vec<u8>,
}

impl OwnedFtl {
    /// Memory for a geometry, all zero, the fuse endless; or `Wrong`. Format and open before use, or fill in the flash and restore.
    pub fn new(geo: Geometry) -> Result<Self, Refusal> {
        let z = geo.sizes()?;
        Ok(OwnedFtl {
            geo,
            tab: vec![0; z.tab],
            used: vec![0; z.used],
            bytes: vec![0; z.bytes],
            marks: vec![0; z.marks],
            counts: vec![0; z.counts],
            fuse: ENDLESS,
            bad: vec![0; z.bad],
            page: vec![0; z.page],
            seen: vec![0; z.seen],
            order: vec![0; z.order],
            taken: vec![0; z.taken],
        })
    }

    /// The unit as one that borrows.
    pub fn lend(&mut self) -> Ftl<'_> {
        Ftl {
            geo: self.geo,
            tables: Tables { tab: &mut self.tab, used: &mut self.used },
            flash: Flash { bytes: &mut self.bytes, marks: &mut self.marks, counts: &mut self.counts, fuse: &mut self.fuse },
            bad: &self.bad,
            scratch: Scratch { page: &mut self.page, seen: &mut self.seen, order: &mut self.order, taken: &mut self.taken },
        }
    }

    /// See [`Ftl::format`].
    pub fn format(&mut self) -> Result<usize, Refusal> {
        self.lend().format()
    }

    /// See [`Ftl::open`].
    pub fn open(&mut self) -> Result<usize, Refusal> {
        self.lend().open()
    }

    /// See [`Ftl::read`].
    pub fn read(&mut self, sector: usize, out: &mut [u8]) -> Result<usize, Refusal> {
        self.lend().read(sector, out)
    }

    /// See [`Ftl::write`].
    pub fn write(&mut self, sector: usize, data: &[u8]) -> Result<usize, Refusal> {
        self.lend().write(sector, data)
    }

    /// See [`Ftl::collect`].
    pub fn collect(&mut self) -> Result<usize, Refusal> {
        self.lend().collect()
    }

    /// See [`Ftl::collect_list`].
    pub fn collect_list(&mut self, m: usize) -> Result<usize, Refusal> {
        self.lend().collect_list(m)
    }

    /// See [`Ftl::collect_threshold`].
    pub fn collect_threshold(&mut self, threshold: u64, m: usize) -> Result<usize, Refusal> {
        self.lend().collect_threshold(threshold, m)
    }

    /// See [`Ftl::write_told`].
    pub fn write_told(&mut self, sector: usize, data: &[u8]) -> Result<usize, Refusal> {
        self.lend().write_told(sector, data)
    }

    /// See [`Ftl::collect_told`].
    pub fn collect_told(&mut self) -> Result<usize, Refusal> {
        self.lend().collect_told()
    }

    /// See [`Ftl::collect_list_told`].
    pub fn collect_list_told(&mut self, m: usize) -> Result<usize, Refusal> {
        self.lend().collect_list_told(m)
    }

    /// See [`Ftl::collect_threshold_told`].
    pub fn collect_threshold_told(&mut self, threshold: u64, m: usize) -> Result<usize, Refusal> {
        self.lend().collect_threshold_told(threshold, m)
    }

    /// See [`Ftl::encode`].
    pub fn encode(&mut self, buffer: &mut [u8]) -> Result<usize, Refusal> {
        self.lend().encode(buffer)
    }

    /// See [`Ftl::restore`].
    pub fn restore(&mut self, file: &[u8]) -> Result<usize, Refusal> {
        self.lend().restore(file)
    }

    /// See [`Ftl::restore_dead`].
    pub fn restore_dead(&mut self, file: &[u8]) -> Result<usize, Refusal> {
        self.lend().restore_dead(file)
    }

    /// The checkpoint as a file of its own.
    pub fn checkpoint(&mut self) -> Result<Vec<u8>, Refusal> {
        let mut file = vec![0; self.geo.sizes()?.checkpoint];
        let len = self.encode(&mut file)?;
        file.truncate(len);
        Ok(file)
    }

    /// See [`Ftl::view`].
    pub fn view(&self) -> Result<View<'_>, Refusal> {
        View::new(self.geo, &self.tab)
    }
}
