//! Stand-in: `PageFtl` with the originals' fields, and what they take from here. `map_entries` is e.
use crate::device::device;
use core::sync::atomic::{AtomicI32, Ordering};
use std::sync::{Mutex, MutexGuard};
use std::thread::JoinHandle;

pub mod page_core; // the original
pub mod page_gc; // the original
pub mod page_map; // the original
pub mod page_read;
pub mod page_write; // the original

pub const PAGE_FTL_GC_THRESHOLD: f64 = 0.2;
pub const PAGE_FTL_GC_RATIO: f64 = 0.1;

pub struct PageFtlSegment {
    pub nr_free_pages: AtomicI32,
    pub nr_valid_pages: AtomicI32,
    pub use_bits: Vec<u64>,
    pub lpn_list: Vec<usize>,
}
impl PageFtlSegment {
    pub fn empty(use_bits: Vec<u64>, free: i32) -> Self {
        let count = AtomicI32::new;
        PageFtlSegment { nr_free_pages: count(free), nr_valid_pages: count(0), use_bits, lpn_list: Vec::new() }
    }
    pub fn set_use_bit(&mut self, page: u64) {
        crate::bits::set_bit(&mut self.use_bits, page);
    }
    pub fn free_pages(&self) -> i32 {
        self.nr_free_pages.load(Ordering::SeqCst)
    }
}

pub struct PageFtl {
    pub trans_map: Vec<u32>,
    pub alloc_segnum: u64,
    pub segments: Vec<PageFtlSegment>,
    pub dev: *mut device,
    pub mutex: Mutex<()>,
    pub gc_thread: Option<JoinHandle<()>>,
    pub o_flags: core::ffi::c_int,
    pub gc_list: Vec<usize>,
    pub gc_seg_bits: Vec<u64>,
    pub checkpoint: Option<Box<str>>,
}
impl PageFtl {
    pub fn empty() -> PageFtl {
        PageFtl {
            trans_map: Vec::new(),
            alloc_segnum: 0,
            segments: Vec::new(),
            dev: core::ptr::null_mut(),
            mutex: Mutex::new(()),
            gc_thread: None,
            o_flags: 0,
            gc_list: Vec::new(),
            gc_seg_bits: Vec::new(),
            checkpoint: None,
        }
    }
    pub(crate) fn dev(&self) -> &device {
        unsafe { &*self.dev }
    }
    pub fn map_entries(&self) -> usize {
        self.dev().entries
    }
    pub fn lpn(&self, sector: usize) -> usize {
        sector / self.dev().page_size()
    }
    pub fn page_offset(&self, sector: usize) -> usize {
        sector % self.dev().page_size()
    }
    pub fn free_pages(&self) -> usize {
        self.segments.iter().map(|s| s.free_pages() as usize).sum()
    }
}

pub(crate) fn lock_recover<T>(mutex: &Mutex<T>) -> MutexGuard<'_, T> {
    mutex.lock().unwrap_or_else(|e| e.into_inner())
}
pub struct PageFtlLock<'a>(&'a mut PageFtl);
impl<'a> PageFtlLock<'a> {
    /// # Safety
    /// There is one thread.
    pub unsafe fn acquire(ftl: *mut PageFtl) -> PageFtlLock<'a> {
        PageFtlLock(&mut *ftl)
    }
    pub fn get(&mut self) -> &mut PageFtl {
        self.0
    }
}
