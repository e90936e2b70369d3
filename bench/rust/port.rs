//! The port: its static library, and all that is lent to it.
use crate::tables::{Geo, Tables};
use core::ffi::c_void;

type Z = usize;
type Write = unsafe extern "C" fn(
    Z, Z, Z, Z, Z, Z, Z, Z, *const u8, Z, *const u8, Z, *mut u32, Z, *mut u8, Z, *mut u8, Z, *mut u8, Z, *const u32, Z,
    *mut u64, *mut u8, Z, *mut u8, Z,
) -> i64;
type Collect = unsafe extern "C" fn(
    Z, Z, Z, Z, Z, Z, *const u8, Z, *mut u32, Z, *mut u8, Z, *mut u8, Z, *mut u8, Z, *mut u32, Z, *mut u64, *mut u8, Z,
    *mut u8, Z, *mut u32, Z,
) -> i64;
type Sound = unsafe extern "C" fn(Z, Z, Z, Z, Z, Z, *const u32, Z, *const u8, Z, *mut u8, Z) -> bool;

#[allow(dead_code)]
unsafe extern "C" {
    fn shr_open(n: Z, p: Z, s: Z, w: Z, e: Z, limit: Z, tab: *mut u32, _: Z, used: *mut u8, _: Z) -> i64;
    fn shr_read(
        n: Z, p: Z, s: Z, w: Z, e: Z, limit: Z, sector: Z, length: Z, tab: *const u32, _: Z, used: *const u8, _: Z,
        bytes: *const u8, _: Z, out: *mut u8, _: Z, seen: *mut u8, _: Z,
    ) -> i64;
    fn shr_write(
        n: Z, p: Z, s: Z, w: Z, e: Z, limit: Z, sector: Z, len: Z, xs: *const u8, _: Z, bad: *const u8, _: Z,
        tab: *mut u32, _: Z, used: *mut u8, _: Z, bytes: *mut u8, _: Z, marks: *mut u8, _: Z, counts: *const u32, _: Z,
        fuse: *mut u64, page: *mut u8, _: Z, seen: *mut u8, _: Z,
    ) -> i64;
    fn shr_collect(
        n: Z, p: Z, s: Z, w: Z, e: Z, limit: Z, bad: *const u8, _: Z, tab: *mut u32, _: Z, used: *mut u8, _: Z,
        bytes: *mut u8, _: Z, marks: *mut u8, _: Z, counts: *mut u32, _: Z, fuse: *mut u64, page: *mut u8, _: Z,
        seen: *mut u8, _: Z, order: *mut u32, _: Z,
    ) -> i64;
    fn shr_collect_list(
        n: Z, p: Z, s: Z, w: Z, e: Z, limit: Z, m: Z, bad: *const u8, _: Z, tab: *mut u32, _: Z, used: *mut u8, _: Z,
        bytes: *mut u8, _: Z, marks: *mut u8, _: Z, counts: *mut u32, _: Z, fuse: *mut u64, page: *mut u8, _: Z,
        seen: *mut u8, _: Z, order: *mut u32, _: Z,
    ) -> i64;
    fn shr_collect_threshold(
        n: Z, p: Z, s: Z, w: Z, e: Z, limit: Z, threshold: u64, m: Z, bad: *const u8, _: Z, tab: *mut u32, _: Z,
        used: *mut u8, _: Z, bytes: *mut u8, _: Z, marks: *mut u8, _: Z, counts: *mut u32, _: Z, fuse: *mut u64,
        page: *mut u8, _: Z, seen: *mut u8, _: Z, order: *mut u32, _: Z,
    ) -> i64;
    fn shr_encode(
        n: Z, p: Z, s: Z, w: Z, e: Z, limit: Z, tab: *const u32, _: Z, used: *const u8, _: Z, buffer: *mut u8, _: Z,
        seen: *mut u8, _: Z,
    ) -> i64;
    fn shr_restore(
        n: Z, p: Z, s: Z, w: Z, e: Z, limit: Z, file: *const u8, _: Z, tab: *mut u32, _: Z, used: *mut u8, _: Z,
        taken: *mut u8, _: Z,
    ) -> i64;
    fn shr_crc32(xs: *const u8, _: Z) -> u32;
    fn shr_format(
        n: Z, p: Z, s: Z, w: Z, e: Z, limit: Z, bytes: *mut u8, _: Z, marks: *mut u8, _: Z, counts: *mut u32, _: Z,
        fuse: *mut u64,
    ) -> i64;
}

/// The inner calls, where the library exports them: the build looks for the names.
#[cfg(inner_write)]
unsafe extern "C" {
    fn shr_inner_write(
        n: Z, p: Z, s: Z, w: Z, e: Z, limit: Z, sector: Z, len: Z, xs: *const u8, _: Z, bad: *const u8, _: Z,
        tab: *mut u32, _: Z, used: *mut u8, _: Z, bytes: *mut u8, _: Z, marks: *mut u8, _: Z, counts: *const u32, _: Z,
        fuse: *mut u64, page: *mut u8, _: Z, seen: *mut u8, _: Z,
    ) -> i64;
}
#[cfg(inner_collect)]
unsafe extern "C" {
    fn shr_inner_collect(
        n: Z, p: Z, s: Z, w: Z, e: Z, limit: Z, bad: *const u8, _: Z, tab: *mut u32, _: Z, used: *mut u8, _: Z,
        bytes: *mut u8, _: Z, marks: *mut u8, _: Z, counts: *mut u32, _: Z, fuse: *mut u64, page: *mut u8, _: Z,
        seen: *mut u8, _: Z, order: *mut u32, _: Z,
    ) -> i64;
}
#[cfg(sound)]
unsafe extern "C" {
    fn shr_sound(
        n: Z, p: Z, s: Z, w: Z, e: Z, limit: Z, tab: *const u32, _: Z, used: *const u8, _: Z, seen: *mut u8, _: Z,
    ) -> bool;
}
#[cfg(inner_write)]
pub const INNER_WRITE: Option<Write> = Some(shr_inner_write);
#[cfg(not(inner_write))]
pub const INNER_WRITE: Option<Write> = None;
#[cfg(inner_collect)]
pub const INNER_COLLECT: Option<Collect> = Some(shr_inner_collect);
#[cfg(not(inner_collect))]
pub const INNER_COLLECT: Option<Collect> = None;
#[cfg(sound)]
pub const SOUND: Option<Sound> = Some(shr_sound);
#[cfg(not(sound))]
pub const SOUND: Option<Sound> = None;

pub fn crc(xs: &[u8]) -> u32 {
    unsafe { shr_crc32(xs.as_ptr(), xs.len()) }
}

pub struct Port {
    pub z: Geo,
    pub tables: Tables,
    pub bytes: Vec<u8>,
    pub marks: Vec<u8>,
    pub counts: Vec<u32>,
    pub fuse: u64,
    bad: Vec<u8>,
    page: Vec<u8>,
    seen: Vec<u8>,
    order: Vec<u32>,
    taken: Vec<u8>,
}
impl Port {
    /// Formatted flash and opened tables.
    pub fn new(z: Geo) -> Port {
        let (n, pages) = (z.n, z.pages());
        Port {
            z,
            tables: Tables::opened(&z),
            bytes: vec![255; pages * z.s],
            marks: vec![0; pages],
            counts: vec![0; n],
            fuse: u64::MAX,
            bad: vec![0; n],
            page: vec![0; z.s],
            seen: vec![0; n + z.p],
            order: vec![0; n],
            taken: vec![0; pages],
        }
    }
    /// Other tables; what they use is programmed.
    pub fn load(&mut self, t: &Tables) {
        self.tables.tab.copy_from_slice(&t.tab);
        self.tables.used.copy_from_slice(&t.used);
        self.marks.copy_from_slice(&t.used);
        self.counts.fill(0);
    }
    pub fn format(&mut self) -> i64 {
        let Geo { n, p, s, w, e, limit } = self.z;
        let (b, m, c) = (&mut self.bytes, &mut self.marks, &mut self.counts);
        unsafe {
            shr_format(
                n, p, s, w, e, limit, b.as_mut_ptr(), b.len(), m.as_mut_ptr(), m.len(), c.as_mut_ptr(), c.len(), &mut self.fuse,
            )
        }
    }
    pub fn open(&mut self) -> i64 {
        let Geo { n, p, s, w, e, limit } = self.z;
        let (t, u) = (&mut self.tables.tab, &mut self.tables.used);
        unsafe { shr_open(n, p, s, w, e, limit, t.as_mut_ptr(), t.len(), u.as_mut_ptr(), u.len()) }
    }
    pub fn read(&mut self, sector: usize, out: &mut [u8]) -> i64 {
        let Geo { n, p, s, w, e, limit } = self.z;
        let (t, u, b, x) = (&self.tables.tab, &self.tables.used, &self.bytes, &mut self.seen);
        unsafe {
            shr_read(
                n, p, s, w, e, limit, sector, out.len(), t.as_ptr(), t.len(), u.as_ptr(), u.len(), b.as_ptr(), b.len(),
                out.as_mut_ptr(), out.len(), x.as_mut_ptr(), x.len(),
            )
        }
    }
    /// All that a read tests before it looks at its sector: the soundness of the whole tables.
    pub fn tests(&mut self) -> i64 {
        match SOUND {
            Some(f) => self.sound(f),
            None => self.read(self.z.e * self.z.s, &mut []),
        }
    }
    fn sound(&mut self, f: Sound) -> i64 {
        let Geo { n, p, s, w, e, limit } = self.z;
        let (t, u, x) = (&self.tables.tab, &self.tables.used, &mut self.seen);
        unsafe { f(n, p, s, w, e, limit, t.as_ptr(), t.len(), u.as_ptr(), u.len(), x.as_mut_ptr(), x.len()) as i64 }
    }
    pub fn write(&mut self, sector: usize, xs: &[u8]) -> i64 {
        self.write_by(shr_write, sector, xs)
    }
    pub fn write_by(&mut self, f: Write, sector: usize, xs: &[u8]) -> i64 {
        let Geo { n, p, s, w, e, limit } = self.z;
        let (t, u) = (&mut self.tables.tab, &mut self.tables.used);
        let (b, m, c) = (&mut self.bytes, &mut self.marks, &self.counts);
        let (a, g, x) = (&self.bad, &mut self.page, &mut self.seen);
        unsafe {
            f(
                n, p, s, w, e, limit, sector, xs.len(), xs.as_ptr(), xs.len(), a.as_ptr(), a.len(), t.as_mut_ptr(), t.len(),
                u.as_mut_ptr(), u.len(), b.as_mut_ptr(), b.len(), m.as_mut_ptr(), m.len(), c.as_ptr(), c.len(),
                &mut self.fuse, g.as_mut_ptr(), g.len(), x.as_mut_ptr(), x.len(),
            )
        }
    }
    pub fn collect(&mut self) -> i64 {
        self.collect_by(shr_collect)
    }
    pub fn collect_by(&mut self, f: Collect) -> i64 {
        let Geo { n, p, s, w, e, limit } = self.z;
        let (t, u) = (&mut self.tables.tab, &mut self.tables.used);
        let (b, m, c) = (&mut self.bytes, &mut self.marks, &mut self.counts);
        let (a, g, x, o) = (&self.bad, &mut self.page, &mut self.seen, &mut self.order);
        unsafe {
            f(
                n, p, s, w, e, limit, a.as_ptr(), a.len(), t.as_mut_ptr(), t.len(), u.as_mut_ptr(), u.len(), b.as_mut_ptr(),
                b.len(), m.as_mut_ptr(), m.len(), c.as_mut_ptr(), c.len(), &mut self.fuse, g.as_mut_ptr(), g.len(),
                x.as_mut_ptr(), x.len(), o.as_mut_ptr(), o.len(),
            )
        }
    }
    pub fn collect_list(&mut self, k: usize) -> i64 {
        let Geo { n, p, s, w, e, limit } = self.z;
        let (t, u) = (&mut self.tables.tab, &mut self.tables.used);
        let (b, m, c) = (&mut self.bytes, &mut self.marks, &mut self.counts);
        let (a, g, x, o) = (&self.bad, &mut self.page, &mut self.seen, &mut self.order);
        unsafe {
            shr_collect_list(
                n, p, s, w, e, limit, k, a.as_ptr(), a.len(), t.as_mut_ptr(), t.len(), u.as_mut_ptr(), u.len(),
                b.as_mut_ptr(), b.len(), m.as_mut_ptr(), m.len(), c.as_mut_ptr(), c.len(), &mut self.fuse, g.as_mut_ptr(),
                g.len(), x.as_mut_ptr(), x.len(), o.as_mut_ptr(), o.len(),
            )
        }
    }
    pub fn collect_threshold(&mut self, threshold: u64, k: usize) -> i64 {
        let Geo { n, p, s, w, e, limit } = self.z;
        let (t, u) = (&mut self.tables.tab, &mut self.tables.used);
        let (b, m, c) = (&mut self.bytes, &mut self.marks, &mut self.counts);
        let (a, g, x, o) = (&self.bad, &mut self.page, &mut self.seen, &mut self.order);
        unsafe {
            shr_collect_threshold(
                n, p, s, w, e, limit, threshold, k, a.as_ptr(), a.len(), t.as_mut_ptr(), t.len(), u.as_mut_ptr(), u.len(),
                b.as_mut_ptr(), b.len(), m.as_mut_ptr(), m.len(), c.as_mut_ptr(), c.len(), &mut self.fuse, g.as_mut_ptr(),
                g.len(), x.as_mut_ptr(), x.len(), o.as_mut_ptr(), o.len(),
            )
        }
    }
    pub fn encode(&mut self, file: &mut [u8]) -> i64 {
        let Geo { n, p, s, w, e, limit } = self.z;
        let (t, u, x) = (&self.tables.tab, &self.tables.used, &mut self.seen);
        unsafe {
            shr_encode(
                n, p, s, w, e, limit, t.as_ptr(), t.len(), u.as_ptr(), u.len(), file.as_mut_ptr(), file.len(),
                x.as_mut_ptr(), x.len(),
            )
        }
    }
    pub fn restore(&mut self, file: &[u8]) -> i64 {
        let Geo { n, p, s, w, e, limit } = self.z;
        let (t, u, k) = (&mut self.tables.tab, &mut self.tables.used, &mut self.taken);
        unsafe {
            shr_restore(
                n, p, s, w, e, limit, file.as_ptr(), file.len(), t.as_mut_ptr(), t.len(), u.as_mut_ptr(), u.len(),
                k.as_mut_ptr(), k.len(),
            )
        }
    }
}

/// zlib's and crc32fast's CRC-32, where the build found them.
pub fn zlib(_xs: &[u8]) -> Option<u32> {
    #[cfg(zlib)]
    {
        unsafe extern "C" {
            fn zlib_crc32(crc: u64, xs: *const c_void, len: u32) -> u64;
        }
        return Some(unsafe { zlib_crc32(0, _xs.as_ptr() as *const c_void, _xs.len() as u32) } as u32);
    }
    #[cfg(not(zlib))]
    None
}
pub fn fast(_xs: &[u8]) -> Option<u32> {
    #[cfg(crc32fast)]
    return Some(crc32fast::hash(_xs));
    #[cfg(not(crc32fast))]
    None
}
