//! Stand-in: the device in the shapes that the originals call, over plain memory that lies as the port's does.
#![allow(non_camel_case_types)]
use core::ffi::{c_char, c_int, c_uint, c_void};
use std::fmt;
use std::io;
use std::ops::{Deref, DerefMut};

pub const PADDR_EMPTY: u32 = u32::MAX;
pub const DEVICE_DEFAULT_REQUEST: u64 = 0;
/// w of the device in use; an address does not carry it.
pub static mut WIDTH: u32 = 0;

#[derive(Clone, Copy, PartialEq)]
pub enum DeviceDirection {
    Write = 0,
    Read = 1,
    Erase = 2,
}
impl From<DeviceDirection> for c_uint {
    fn from(d: DeviceDirection) -> c_uint {
        d as c_uint
    }
}

#[derive(Clone, Copy)]
pub struct device_address {
    pub lpn: u32,
}
impl device_address {
    pub fn from_segment_page(segment: u16, page: u32) -> Self {
        Self { lpn: ((segment as u32) << unsafe { WIDTH }) | page }
    }
    pub fn block(&self) -> u32 {
        self.lpn >> unsafe { WIDTH }
    }
    pub fn segment_page(&self) -> u32 {
        self.lpn & ((1 << unsafe { WIDTH }) - 1)
    }
}
impl From<u32> for device_address {
    fn from(lpn: u32) -> Self {
        Self { lpn }
    }
}
impl fmt::Display for device_address {
    fn fmt(&self, f: &mut fmt::Formatter<'_>) -> fmt::Result {
        write!(f, "{}", self.lpn)
    }
}

pub struct device_request {
    pub flag: c_uint,
    pub data_len: usize,
    pub sector: usize,
    pub paddr: device_address,
    pub data: *mut c_void,
    pub end_rq: Option<unsafe extern "C" fn(*mut device_request)>,
    pub rq_private: *mut c_void,
}
impl device_request {
    pub fn direction(&self) -> Option<DeviceDirection> {
        match self.flag {
            0 => Some(DeviceDirection::Write),
            1 => Some(DeviceDirection::Read),
            2 => Some(DeviceDirection::Erase),
            _ => None,
        }
    }
    /// # Safety
    /// `data` is null or points at `data_len` bytes.
    pub unsafe fn buffer_mut(&mut self) -> Option<&mut [u8]> {
        if self.data.is_null() {
            return None;
        }
        Some(core::slice::from_raw_parts_mut(self.data as *mut u8, self.data_len))
    }
}

/// Requests that were handed back. One is taken from here before any is allocated.
static mut POOL: Vec<*mut device_request> = Vec::new();
/// # Safety
/// One thread.
pub unsafe extern "C" fn ffi_device_alloc_request(_: u64) -> *mut device_request {
    let pool = &mut *(&raw mut POOL);
    let blank = core::mem::zeroed::<device_request>();
    match pool.pop() {
        Some(rq) => {
            *rq = blank;
            rq
        }
        None => Box::into_raw(Box::new(blank)),
    }
}
/// # Safety
/// `rq` came from `ffi_device_alloc_request`.
pub unsafe extern "C" fn ffi_device_free_request(rq: *mut device_request) {
    (*(&raw mut POOL)).push(rq);
}
pub struct Request(*mut device_request);
impl Request {
    pub fn new() -> io::Result<Self> {
        Ok(Request(unsafe { ffi_device_alloc_request(DEVICE_DEFAULT_REQUEST) }))
    }
}
impl Deref for Request {
    type Target = device_request;
    fn deref(&self) -> &device_request {
        unsafe { &*self.0 }
    }
}
impl DerefMut for Request {
    fn deref_mut(&mut self) -> &mut device_request {
        unsafe { &mut *self.0 }
    }
}
impl Drop for Request {
    fn drop(&mut self) {
        unsafe { ffi_device_free_request(self.0) }
    }
}

pub struct device_operations {
    pub open: Option<unsafe extern "C" fn(*mut device, *const c_char, c_int) -> c_int>,
    pub write: Option<unsafe extern "C" fn(*mut device, *mut device_request) -> isize>,
    pub erase: Option<unsafe extern "C" fn(*mut device, *mut device_request) -> c_int>,
    pub close: Option<unsafe extern "C" fn(*mut device) -> c_int>,
}
static OPS: device_operations =
    device_operations { open: Some(open), write: Some(write), erase: Some(erase), close: Some(close) };

pub struct device {
    pub d_op: *const device_operations,
    pub badseg_bitmap: *mut u64,
    pub segments: usize,
    pub pages: usize,
    pub size: usize,
    pub entries: usize,
    pub limit: u32,
    pub bytes: Vec<u8>,
    pub marks: Vec<u8>,
    pub counts: Vec<u32>,
    pub fuse: u64,
}
impl device {
    /// Formatted flash without end of its fuse, no segment bad.
    pub fn new(segments: usize, pages: usize, size: usize, w: u32, entries: usize, limit: u32) -> Box<device> {
        unsafe { WIDTH = w };
        let bad = vec![0u64; segments / 64 + 1].leak();
        Box::new(device {
            d_op: &OPS,
            badseg_bitmap: bad.as_mut_ptr(),
            segments,
            pages,
            size,
            entries,
            limit,
            bytes: vec![255; segments * pages * size],
            marks: vec![0; segments * pages],
            counts: vec![0; segments],
            fuse: u64::MAX,
        })
    }
    pub fn nr_segments(&self) -> usize {
        self.segments
    }
    pub fn pages_per_segment(&self) -> usize {
        self.pages
    }
    pub fn page_size(&self) -> usize {
        self.size
    }
    pub fn total_pages(&self) -> usize {
        self.segments * self.pages
    }
    pub fn page(&self, a: device_address) -> &[u8] {
        let at = (a.block() as usize * self.pages + a.segment_page() as usize) * self.size;
        &self.bytes[at..at + self.size]
    }
    fn burn(&mut self) {
        if self.fuse != u64::MAX {
            self.fuse -= 1;
        }
    }
    fn program(&mut self, a: device_address, from: &[u8]) -> bool {
        let row = a.block() as usize * self.pages;
        let (at, end) = (row + a.segment_page() as usize, row + self.pages);
        // the page and every higher one of its segment, in one vector loop
        if self.marks[at..end].iter().fold(0, |all, mark| all | mark) != 0 || self.fuse == 0 {
            return false;
        }
        self.bytes[at * self.size..(at + 1) * self.size].copy_from_slice(from);
        self.marks[at] = 1;
        self.burn();
        true
    }
    fn erase(&mut self, g: usize) -> bool {
        if self.counts[g] >= self.limit || self.fuse == 0 {
            return false;
        }
        let k = self.pages * self.size;
        self.marks[g * self.pages..(g + 1) * self.pages].fill(0);
        self.bytes[g * k..(g + 1) * k].fill(255);
        self.counts[g] += 1;
        self.burn();
        true
    }
}

unsafe fn done(rq: *mut device_request) {
    if let Some(end) = (*rq).end_rq {
        end(rq);
    }
}
unsafe extern "C" fn open(_: *mut device, _: *const c_char, _: c_int) -> c_int {
    0
}
unsafe extern "C" fn close(_: *mut device) -> c_int {
    0
}
unsafe extern "C" fn write(dev: *mut device, rq: *mut device_request) -> isize {
    let from = core::slice::from_raw_parts((*rq).data as *const u8, (*rq).data_len);
    if !(*dev).program((*rq).paddr, from) {
        return -(libc::EIO as isize);
    }
    done(rq);
    (*dev).size as isize
}
unsafe extern "C" fn erase(dev: *mut device, rq: *mut device_request) -> c_int {
    if !(*dev).erase((*rq).paddr.block() as usize) {
        return -libc::EIO;
    }
    done(rq);
    0
}
