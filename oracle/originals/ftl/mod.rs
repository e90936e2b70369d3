//! Stand-in: `PageFtl` and what the four originals take from `crate::ftl`. The fields are the
//! original's; `map_entries` gives document 01's e, and the collector's two constants are set for
//! each call.
use crate::device::device;
use core::ops::Mul;
use core::sync::atomic::{AtomicI32, AtomicU64, Ordering};
use std::sync::{Mutex, MutexGuard};
use std::thread::JoinHandle;

// The four originals, byte for byte.
pub mod page_core;
pub mod page_gc;
pub mod page_map;
pub mod page_write;
pub mod page_read;

/// `total_pages as f64 * PAGE_FTL_GC_THRESHOLD` in page_core.rs becomes a threshold in whole pages.
pub struct Threshold;
pub const PAGE_FTL_GC_THRESHOLD: Threshold = Threshold;
pub static THRESHOLD_PAGES: AtomicU64 = AtomicU64::new(0);

impl Mul<Threshold> for f64 {
    type Output = f64;
    fn mul(self, _: Threshold) -> f64 {
        THRESHOLD_PAGES.load(Ordering::Relaxed) as f64
    }
}

unsafe extern "C" {
    #[link_name = "ORACLE_GC_RATIO"]
    pub safe static PAGE_FTL_GC_RATIO: f64;
}

pub struct PageFtlSegment {
    pub nr_free_pages: AtomicI32,
    pub nr_valid_pages: AtomicI32,
    pub use_bits: Vec<u64>,
    pub lpn_list: Vec<usize>,
}

impl PageFtlSegment {
    pub fn empty(use_bits: Vec<u64>, free_pages: i32) -> Self {
        PageFtlSegment {
            nr_free_pages: AtomicI32::new(free_pages),
            nr_valid_pages: AtomicI32::new(0),
            use_bits,
            lpn_list: Vec::new(),
        }
    }
    pub fn copy(&self) -> Self {
        PageFtlSegment {
            nr_free_pages: AtomicI32::new(self.free_pages()),
            nr_valid_pages: AtomicI32::new(self.valid_pages()),
            use_bits: self.use_bits.clone(),
            lpn_list: self.lpn_list.clone(),
        }
    }
    pub fn set_use_bit(&mut self, page: u64) {
        crate::bits::set_bit(&mut self.use_bits, page);
    }
    pub fn free_pages(&self) -> i32 {
        self.nr_free_pages.load(Ordering::SeqCst)
    }
    pub fn valid_pages(&self) -> i32 {
        self.nr_valid_pages.load(Ordering::SeqCst)
    }
}

pub struct PageFtl {
    pub trans_map: Vec<u32>,
    pub alloc_segnum: u64,
    pub segments: Vec<PageFtlSegment>,
    pub dev: *mut device,
    pub mutex: Mutex<()>,
    pub gc_thread: Option<JoinHandle<()>>,
    pub o_flags: core::ffi::c_int,
    pub gc_list: Vec<usize>,
    pub gc_seg_bits: Vec<u64>,
    pub checkpoint: Option<Box<str>>,
}

impl PageFtl {
    pub fn empty() -> PageFtl {
        PageFtl {
            trans_map: Vec::new(),
            alloc_segnum: 0,
            segments: Vec::new(),
            dev: core::ptr::null_mut(),
            mutex: Mutex::new(()),
            gc_thread: None,
            o_flags: 0,
            gc_list: Vec::new(),
            gc_seg_bits: Vec::new(),
            checkpoint: None,
        }
    }
    /// The same tables, on another device.
    pub fn copy(&self, dev: *mut device) -> PageFtl {
        PageFtl {
            trans_map: self.trans_map.clone(),
            alloc_segnum: self.alloc_segnum,
            segments: self.segments.iter().map(PageFtlSegment::copy).collect(),
            dev,
            gc_list: self.gc_list.clone(),
            gc_seg_bits: self.gc_seg_bits.clone(),
            ..PageFtl::empty()
        }
    }
    pub(crate) fn dev(&self) -> &device {
        unsafe { &*self.dev }
    }
    pub fn map_entries(&self) -> usize {
        self.dev().entries
    }
    pub fn lpn(&self, sector: usize) -> usize {
        sector / self.dev().page_size()
    }
    pub fn page_offset(&self, sector: usize) -> usize {
        sector % self.dev().page_size()
    }
    pub fn free_pages(&self) -> usize {
        self.segments.iter().map(|s| s.free_pages() as usize).sum()
    }
}

pub(crate) fn lock_recover<T>(mutex: &Mutex<T>) -> MutexGuard<'_, T> {
    mutex.lock().unwrap_or_else(|e| e.into_inner())
}

pub struct PageFtlLock<'a>(&'a mut PageFtl);

impl<'a> PageFtlLock<'a> {
    /// # Safety
    /// As in the original; there is one thread here.
    pub unsafe fn acquire(pgftl: *mut PageFtl) -> PageFtlLock<'a> {
        PageFtlLock(&mut *pgftl)
    }
    pub fn get(&mut self) -> &mut PageFtl {
        self.0
    }
}
