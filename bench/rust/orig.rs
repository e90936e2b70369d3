//! The Rust originals, over the stand-ins, given the same tables.
use crate::bits::{get_bit, set_bit};
use crate::device::{device, DeviceDirection, Request};
use crate::ftl::{page_core, page_gc, PageFtl};
use crate::hooks;
use crate::tables::{Geo, Tables};
use core::ffi::c_void;
use core::sync::atomic::Ordering::SeqCst;

pub struct Orig {
    pub z: Geo,
    pub dev: Box<device>,
    pub ftl: Box<PageFtl>,
    rq: Request,
}

fn answer(r: std::io::Result<isize>) -> i64 {
    match r {
        Ok(v) => v as i64,
        Err(e) => -(e.raw_os_error().unwrap() as i64),
    }
}

impl Orig {
    pub fn new(z: Geo) -> Orig {
        let mut dev = device::new(z.n, z.p, z.s, z.w as u32, z.e, z.limit as u32);
        let mut ftl = Box::new(PageFtl::empty());
        ftl.dev = &mut *dev;
        let mut o = Orig { z, dev, ftl, rq: Request::new().unwrap() };
        assert!(o.open() == 0);
        o
    }
    pub fn open(&mut self) -> i64 {
        unsafe { page_core::open(&mut self.ftl, core::ptr::null(), libc::O_CREAT) as i64 }
    }
    /// The tables as the originals keep them. Lists have room for p, the queue for n: no push allocates.
    pub fn load(&mut self, t: &Tables) {
        let (z, f) = (self.z, &mut *self.ftl);
        f.trans_map.copy_from_slice(&t.tab[..z.e]);
        f.alloc_segnum = t.tab[z.alloc()] as u64;
        f.gc_list.clear();
        f.gc_list.reserve(z.n);
        f.gc_list.extend(t.tab[z.queue()..][..t.tab[z.queued()] as usize].iter().map(|&g| g as usize));
        f.gc_seg_bits.fill(0);
        for (g, seg) in f.segments.iter_mut().enumerate() {
            seg.nr_free_pages.store(t.tab[z.free() + g] as i32, SeqCst);
            seg.nr_valid_pages.store(t.tab[z.valid() + g] as i32, SeqCst);
            seg.use_bits.fill(0);
            for k in 0..z.p - t.tab[z.free() + g] as usize {
                set_bit(&mut seg.use_bits, k as u64);
            }
            seg.lpn_list.clear();
            seg.lpn_list.reserve(z.p);
            let list = &t.tab[z.lists() + g * z.p..][..t.tab[z.lens() + g] as usize];
            seg.lpn_list.extend(list.iter().map(|&l| l as usize));
            if t.tab[z.flags() + g] == 1 {
                set_bit(&mut f.gc_seg_bits, g as u64);
            }
        }
        self.dev.marks.copy_from_slice(&t.used);
        self.dev.counts.fill(0);
    }
    /// The originals' tables in the port's words.
    pub fn view(&self) -> Tables {
        let (z, f) = (self.z, &self.ftl);
        let mut t = Tables::opened(&z);
        t.tab[..z.e].copy_from_slice(&f.trans_map);
        t.tab[z.alloc()] = f.alloc_segnum as u32;
        t.tab[z.queued()] = f.gc_list.len() as u32;
        for (i, &g) in f.gc_list.iter().enumerate() {
            t.tab[z.queue() + i] = g as u32;
        }
        for (g, seg) in f.segments.iter().enumerate() {
            t.tab[z.free() + g] = seg.free_pages() as u32;
            t.tab[z.valid() + g] = seg.nr_valid_pages.load(SeqCst) as u32;
            t.tab[z.lens() + g] = seg.lpn_list.len() as u32;
            t.tab[z.flags() + g] = get_bit(&f.gc_seg_bits, g as u64) as u32;
            for (i, &l) in seg.lpn_list.iter().enumerate() {
                t.tab[z.lists() + g * z.p + i] = l as u32;
            }
            for k in 0..z.p {
                t.used[g * z.p + k] = get_bit(&seg.use_bits, k as u64) as u8;
            }
        }
        t
    }
    fn request(&mut self, way: DeviceDirection, sector: usize, len: usize, data: *mut c_void) -> i64 {
        self.rq.flag = way.into();
        self.rq.sector = sector;
        self.rq.data_len = len;
        self.rq.data = data;
        answer(page_core::submit_request(&mut self.ftl, &mut self.rq))
    }
    pub fn write(&mut self, sector: usize, xs: &[u8]) -> i64 {
        self.request(DeviceDirection::Write, sector, xs.len(), xs.as_ptr() as *mut c_void)
    }
    pub fn read(&mut self, sector: usize, out: &mut [u8]) -> i64 {
        self.request(DeviceDirection::Read, sector, out.len(), out.as_mut_ptr() as *mut c_void)
    }
    pub fn collect(&mut self) -> i64 {
        self.request(DeviceDirection::Erase, 0, 0, core::ptr::null_mut())
    }
    /// `gc_ratio` becomes m: the original is given (m + 0.5) / n.
    pub fn collect_list(&mut self, m: usize) -> i64 {
        self.rq.flag = DeviceDirection::Erase.into();
        answer(page_gc::gc_from_list(&mut self.ftl, &mut self.rq, (m as f64 + 0.5) / self.z.n as f64))
    }
    /// `gc_pass`, private in page_core.rs, with the originals' constants 0.2 and 0.1.
    pub fn collect_threshold(&mut self) -> i64 {
        answer((hooks::get().pass)(&mut self.ftl))
    }
    /// `checkpoint_save`, private in page_core.rs.
    pub fn save(&mut self) {
        (hooks::get().save)(&self.ftl, "x").unwrap();
    }
    /// `checkpoint_load`, private in page_core.rs.
    pub fn load_file(&mut self) -> bool {
        (hooks::get().load)(&mut self.ftl, "x").unwrap()
    }
}

pub fn crc(xs: &[u8]) -> u32 {
    crate::crc32::crc32(xs.as_ptr() as *const c_void, xs.len(), u32::MAX)
}
