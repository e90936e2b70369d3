//! Stand-in: a device over [`Flash`], in the shapes (names, table of functions, requests) that the
//! originals call. Geometry, address width, erase limit and fuse are set at run time.
#![allow(non_camel_case_types)]
use crate::flash::Flash;
use core::ffi::{c_char, c_int, c_uint, c_void};
use core::sync::atomic::{AtomicU32, Ordering};
use std::fmt;
use std::io;
use std::ops::{Deref, DerefMut};

pub const PADDR_EMPTY: u32 = u32::MAX;
pub const DEVICE_DEFAULT_REQUEST: u64 = 0;

/// w of the device in use; an address does not carry it.
static ADDRESS_WIDTH: AtomicU32 = AtomicU32::new(0);

pub fn set_address_width(w: u32) {
    ADDRESS_WIDTH.store(w, Ordering::Relaxed);
}

fn width() -> u32 {
    ADDRESS_WIDTH.load(Ordering::Relaxed)
}

#[derive(Clone, Copy, Debug, PartialEq, Eq)]
pub enum DeviceDirection {
    Write = 0,
    Read = 1,
    Erase = 2,
}

impl From<DeviceDirection> for c_uint {
    fn from(d: DeviceDirection) -> c_uint {
        d as c_uint
    }
}

#[repr(C)]
#[derive(Clone, Copy, Debug, Default, PartialEq, Eq)]
pub struct device_address {
    pub lpn: u32,
}

impl device_address {
    pub fn from_segment_page(segment: u16, page: u32) -> Self {
        Self { lpn: ((segment as u32) << width()) | page }
    }
    pub fn block(&self) -> u32 {
        self.lpn >> width()
    }
    pub fn segment_page(&self) -> u32 {
        self.lpn & ((1 << width()) - 1)
    }
}

impl From<u32> for device_address {
    fn from(lpn: u32) -> Self {
        Self { lpn }
    }
}

impl fmt::Display for device_address {
    fn fmt(&self, f: &mut fmt::Formatter<'_>) -> fmt::Result {
        write!(f, "{}.{}", self.block(), self.segment_page())
    }
}

#[repr(C)]
pub struct device_request {
    pub flag: c_uint,
    pub data_len: usize,
    pub sector: usize,
    pub paddr: device_address,
    pub data: *mut c_void,
    pub end_rq: Option<unsafe extern "C" fn(*mut device_request)>,
    pub rq_private: *mut c_void,
    /// Only the original page_read.rs waits on these three.
    pub is_finish: c_int,
    pub mutex: libc::pthread_mutex_t,
    pub cond: libc::pthread_cond_t,
}

impl device_request {
    pub fn direction(&self) -> Option<DeviceDirection> {
        match self.flag {
            0 => Some(DeviceDirection::Write),
            1 => Some(DeviceDirection::Read),
            2 => Some(DeviceDirection::Erase),
            _ => None,
        }
    }
    /// # Safety
    /// `data` is null or points at `data_len` bytes.
    pub unsafe fn buffer_mut(&mut self) -> Option<&mut [u8]> {
        if self.data.is_null() {
            return None;
        }
        Some(core::slice::from_raw_parts_mut(self.data as *mut u8, self.data_len))
    }
}

/// # Safety
/// To be released with `ffi_device_free_request`.
pub unsafe extern "C" fn ffi_device_alloc_request(_flags: u64) -> *mut device_request {
    Box::into_raw(Box::new(core::mem::MaybeUninit::<device_request>::zeroed().assume_init()))
}

/// # Safety
/// `rq` is null or came from `ffi_device_alloc_request`.
pub unsafe extern "C" fn ffi_device_free_request(rq: *mut device_request) {
    if !rq.is_null() {
        drop(Box::from_raw(rq));
    }
}

pub struct Request(*mut device_request);

impl Request {
    pub fn new() -> io::Result<Self> {
        Ok(Request(unsafe { ffi_device_alloc_request(DEVICE_DEFAULT_REQUEST) }))
    }
}

impl Deref for Request {
    type Target = device_request;
    fn deref(&self) -> &device_request {
        unsafe { &*self.0 }
    }
}

impl DerefMut for Request {
    fn deref_mut(&mut self) -> &mut device_request {
        unsafe { &mut *self.0 }
    }
}

impl Drop for Request {
    fn drop(&mut self) {
        unsafe { ffi_device_free_request(self.0) }
    }
}

pub struct device_operations {
    pub open: Option<unsafe extern "C" fn(*mut device, *const c_char, c_int) -> c_int>,
    pub write: Option<unsafe extern "C" fn(*mut device, *mut device_request) -> isize>,
    pub read: Option<unsafe extern "C" fn(*mut device, *mut device_request) -> isize>,
    pub erase: Option<unsafe extern "C" fn(*mut device, *mut device_request) -> c_int>,
    pub close: Option<unsafe extern "C" fn(*mut device) -> c_int>,
}

static OPERATIONS: device_operations = device_operations {
    open: Some(dev_open),
    write: Some(dev_write),
    read: Some(dev_read),
    erase: Some(dev_erase),
    close: Some(dev_close),
};

pub struct device {
    pub d_op: *const device_operations,
    pub badseg_bitmap: *mut u64,
    pub entries: usize,
    flash: Flash,
    bad: Vec<u64>,
}

impl device {
    /// A device with `entries` map entries and a bad list of one bit for each segment. It is
    /// boxed because the originals hold its address, and that of the bad list.
    pub fn boxed(flash: Flash, entries: usize, bad: Vec<u64>) -> Box<device> {
        let mut dev = Box::new(device { d_op: &OPERATIONS, badseg_bitmap: core::ptr::null_mut(), entries, flash, bad });
        dev.badseg_bitmap = dev.bad.as_mut_ptr();
        dev
    }
    pub fn copy(&self) -> Box<device> {
        device::boxed(self.flash.clone(), self.entries, self.bad.clone())
    }
    pub fn flash(&self) -> &Flash {
        &self.flash
    }
    pub fn flash_mut(&mut self) -> &mut Flash {
        &mut self.flash
    }
    pub fn nr_segments(&self) -> usize {
        self.flash.segments
    }
    pub fn pages_per_segment(&self) -> usize {
        self.flash.pages
    }
    pub fn page_size(&self) -> usize {
        self.flash.size
    }
    pub fn total_pages(&self) -> usize {
        self.flash.segments * self.flash.pages
    }
}

unsafe fn done(rq: *mut device_request) {
    if let Some(end) = (*rq).end_rq {
        end(rq);
    }
}

unsafe extern "C" fn dev_open(_: *mut device, _: *const c_char, _: c_int) -> c_int {
    0
}

unsafe extern "C" fn dev_close(_: *mut device) -> c_int {
    0
}

unsafe extern "C" fn dev_write(dev: *mut device, rq: *mut device_request) -> isize {
    let (flash, at) = ((*dev).flash_mut(), (*rq).paddr);
    let src = core::slice::from_raw_parts((*rq).data as *const u8, (*rq).data_len);
    if !flash.program(at.block() as usize, at.segment_page() as usize, src) {
        return -(libc::EIO as isize);
    }
    let size = flash.size;
    done(rq);
    size as isize
}

unsafe extern "C" fn dev_read(dev: *mut device, rq: *mut device_request) -> isize {
    let (flash, at) = ((*dev).flash(), (*rq).paddr);
    let dst = core::slice::from_raw_parts_mut((*rq).data as *mut u8, flash.size);
    dst.copy_from_slice(flash.page(at.block() as usize, at.segment_page() as usize));
    let size = flash.size;
    done(rq);
    size as isize
}

unsafe extern "C" fn dev_erase(dev: *mut device, rq: *mut device_request) -> c_int {
    let at = (*rq).paddr;
    if !(*dev).flash_mut().erase(at.block() as usize) {
        return -libc::EIO;
    }
    done(rq);
    0
}
