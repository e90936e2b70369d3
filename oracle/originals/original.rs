//! A handle on the originals: one device and one FTL, and document 01's calls on them.
//!
//! Where 01 rules otherwise than the Rust, this layer follows 01: an allocation segment >= n
//! becomes 0 before `open`; a restore is tried on a second FTL and taken over only if it succeeds,
//! so a refused one leaves the tables.
use crate::bits::{get_bit, set_bit};
use crate::device::{device, set_address_width, DeviceDirection, Request};
use crate::flash::Flash;
use crate::ftl::{page_core, page_gc, PageFtl, THRESHOLD_PAGES};
use crate::{hooks, said};
use core::ffi::c_void;
use core::sync::atomic::Ordering;
use std::ffi::CString;

/// The name that `open` is given; its checkpoint's name is made from it.
const NAME: &str = "device";
const FILE: &str = "device.ckpt";

/// Document 01's geometry and erase limit.
#[derive(Clone, Copy, PartialEq, Eq, Debug)]
pub struct Shape {
    pub n: usize,
    pub p: usize,
    pub s: usize,
    pub w: u32,
    pub e: usize,
    pub limit: u32,
}

pub struct Original {
    shape: Shape,
    /// Raw, as the FTL holds its address; made and released by this handle alone.
    dev: *mut device,
    ftl: Box<PageFtl>,
}

fn number(answer: std::io::Result<isize>) -> i64 {
    match answer {
        Ok(count) => count as i64,
        Err(e) => -(e.raw_os_error().expect("a number") as i64),
    }
}

fn bits_of(bad: &[u8]) -> Vec<u64> {
    let mut bits = vec![0u64; bad.len() / 64 + 1];
    for g in (0..bad.len()).filter(|&g| bad[g] != 0) {
        bits[g / 64] |= 1 << (g % 64);
    }
    bits
}

fn request(way: DeviceDirection, sector: usize, length: usize, data: *mut u8) -> Request {
    let mut rq = Request::new().expect("a request");
    rq.flag = way.into();
    rq.sector = sector;
    rq.data_len = length;
    rq.data = data as *mut c_void;
    rq
}

impl Original {
    /// Formatted flash and fresh tables.
    pub fn new(shape: Shape, bad: &[u8]) -> Original {
        hooks::prepare();
        let flash = Flash::new(shape.n, shape.p, shape.s, shape.limit);
        let dev = Box::into_raw(device::boxed(flash, shape.e, bits_of(bad)));
        let mut ftl = Box::new(PageFtl::empty());
        ftl.dev = dev;
        let mut original = Original { shape, dev, ftl };
        original.format();
        assert!(original.open() == 0);
        original
    }

    /// The same state on its own device.
    pub fn copy(&self) -> Original {
        let dev = Box::into_raw(self.device().copy());
        Original { shape: self.shape, dev, ftl: Box::new(self.ftl.copy(dev)) }
    }

    fn device(&self) -> &device {
        unsafe { &*self.dev }
    }

    /// What the originals take from statics, set for the call that follows.
    fn enter(&mut self) -> &mut PageFtl {
        set_address_width(self.shape.w);
        &mut self.ftl
    }

    fn submit(&mut self, mut rq: Request) -> i64 {
        number(page_core::submit_request(self.enter(), &mut rq))
    }

    pub fn format(&mut self) -> i64 {
        unsafe { (*self.dev).flash_mut().format() }
        0
    }

    /// The original `open` on the FTL as it stands, without a name.
    pub fn open(&mut self) -> i64 {
        if self.ftl.alloc_segnum >= self.shape.n as u64 {
            self.ftl.alloc_segnum = 0; // 01's rule; the original keeps it
        }
        unsafe { page_core::open(self.enter(), core::ptr::null(), libc::O_CREAT) as i64 }
    }

    /// Tables lent with this allocation segment, for an opening.
    pub fn lend_alloc(&mut self, alloc: u64) {
        self.ftl.alloc_segnum = alloc;
    }

    pub fn lend_fuse(&mut self, fuse: u64) {
        unsafe { (*self.dev).flash_mut().fuse = fuse }
    }

    /// `xs` holds at least `length` bytes.
    pub fn write(&mut self, sector: usize, length: usize, xs: &[u8]) -> i64 {
        assert!(xs.len() >= length);
        let mut copy = xs.to_vec();
        self.submit(request(DeviceDirection::Write, sector, length, copy.as_mut_ptr()))
    }

    /// A buffer shorter than the length is a wrong size, 22, as 01 has it.
    pub fn read(&mut self, sector: usize, length: usize, out: &mut [u8]) -> i64 {
        if out.len() < length {
            return -(libc::EINVAL as i64);
        }
        #[cfg(leaves)]
        if let Some(refusal) = self.refused_by_01(sector, length) {
            return refusal;
        }
        self.submit(request(DeviceDirection::Read, sector, length, out.as_mut_ptr()))
    }

    /// The original page_read.rs gives zeros for an unmapped page, before it looks at the length.
    #[cfg(leaves)]
    fn refused_by_01(&self, sector: usize, length: usize) -> Option<i64> {
        let (page, offset) = (sector / self.shape.s, sector % self.shape.s);
        if page >= self.shape.e || length > self.shape.s - offset {
            return Some(-(libc::EINVAL as i64));
        }
        (self.ftl.trans_map[page] == crate::device::PADDR_EMPTY).then_some(-(libc::ENODATA as i64))
    }

    pub fn collect(&mut self) -> i64 {
        self.submit(request(DeviceDirection::Erase, 0, 0, core::ptr::null_mut()))
    }

    /// `gc_ratio` becomes m: the Rust is given (m + 0.5) / n.
    fn ratio(&self, m: u64) -> f64 {
        (m as f64 + 0.5) / self.shape.n as f64
    }

    pub fn collect_list(&mut self, m: u64) -> i64 {
        let ratio = self.ratio(m);
        let mut rq = request(DeviceDirection::Erase, 0, 0, core::ptr::null_mut());
        number(page_gc::gc_from_list(self.enter(), &mut rq, ratio))
    }

    /// page_core.rs' private `gc_pass`, its two constants set for this call.
    pub fn collect_threshold(&mut self, threshold: u64, m: u64) -> i64 {
        THRESHOLD_PAGES.store(threshold, Ordering::Relaxed);
        libc::set_ratio(self.ratio(m));
        let (_, pass) = hooks::get();
        number(pass(self.enter()))
    }

    /// page_core.rs' private `checkpoint_save`.
    pub fn encode(&self) -> Vec<u8> {
        let (save, _) = hooks::get();
        save(&self.ftl, FILE).expect("a save");
        std::fs::take(FILE).expect("a file")
    }

    /// The original `open` of an empty FTL under a name whose file holds the bytes.
    pub fn restore(&mut self, file: &[u8]) -> i64 {
        set_address_width(self.shape.w);
        let mut other = Box::new(PageFtl::empty());
        other.dev = self.dev;
        std::fs::put(FILE, file.to_vec());
        let name = CString::new(NAME).expect("a name");
        said::take();
        let opened = unsafe { page_core::open(&mut other, name.as_ptr(), libc::O_CREAT) };
        assert!(opened == 0);
        std::fs::take(FILE);
        let answer = said::take().expect("an outcome of the load");
        if answer == 0 {
            self.ftl = other;
        }
        answer
    }

    /// 02, M-109: `restore`, then each segment with free count 0 and a list shorter than p is queued, ascending, its flag
    /// set. The Rust has no counterpart; the queueing is plain.rs's rule over the originals' own structures.
    pub fn restore_dead(&mut self, file: &[u8]) -> i64 {
        let answer = self.restore(file);
        if answer != 0 {
            return answer;
        }
        for g in 0..self.shape.n {
            if self.free(g) == 0 && self.list(g).len() < self.shape.p {
                self.ftl.gc_list.push(g);
                set_bit(&mut self.ftl.gc_seg_bits, g as u64);
            }
        }
        0
    }

    /// The file that the original `close` writes; the tables are gone then.
    pub fn close(mut self) -> Vec<u8> {
        self.ftl.checkpoint = Some(FILE.into());
        assert!(unsafe { page_core::close(self.enter()) } == 0);
        std::fs::take(FILE).expect("a file")
    }

    // The state, read from the originals' own structures.
    pub fn map(&self) -> &[u32] {
        &self.ftl.trans_map
    }
    pub fn segments(&self) -> usize {
        self.ftl.segments.len()
    }
    pub fn free(&self, g: usize) -> i64 {
        self.ftl.segments[g].free_pages() as i64
    }
    pub fn valid(&self, g: usize) -> i64 {
        self.ftl.segments[g].valid_pages() as i64
    }
    pub fn used(&self, g: usize, k: usize) -> bool {
        get_bit(&self.ftl.segments[g].use_bits, k as u64)
    }
    pub fn list(&self, g: usize) -> &[usize] {
        &self.ftl.segments[g].lpn_list
    }
    pub fn queue(&self) -> &[usize] {
        &self.ftl.gc_list
    }
    pub fn flag(&self, g: usize) -> bool {
        get_bit(&self.ftl.gc_seg_bits, g as u64)
    }
    pub fn alloc(&self) -> u64 {
        self.ftl.alloc_segnum
    }
    pub fn flash(&self) -> &Flash {
        self.device().flash()
    }
}

impl Drop for Original {
    fn drop(&mut self) {
        drop(unsafe { Box::from_raw(self.dev) });
    }
}
