//! Stand-in for the `libc` crate: the names that the originals use, with Linux's values on x86-64.
#![allow(non_camel_case_types)]
pub const EIO: i32 = 5;
pub const EAGAIN: i32 = 11;
pub const ENOMEM: i32 = 12;
pub const EFAULT: i32 = 14;
pub const ENODEV: i32 = 19;
pub const EINVAL: i32 = 22;
pub const ENODATA: i32 = 61;
pub const O_CREAT: i32 = 0o100;

/// Opaque, of glibc's sizes; only the original page_read.rs waits on them.
#[repr(C, align(8))]
pub struct pthread_mutex_t([u8; 40]);
#[repr(C, align(8))]
pub struct pthread_cond_t([u8; 48]);
extern "C" {
    pub fn pthread_mutex_init(m: *mut pthread_mutex_t, a: *const u8) -> i32;
    pub fn pthread_mutex_destroy(m: *mut pthread_mutex_t) -> i32;
    pub fn pthread_mutex_lock(m: *mut pthread_mutex_t) -> i32;
    pub fn pthread_mutex_unlock(m: *mut pthread_mutex_t) -> i32;
    pub fn pthread_cond_init(c: *mut pthread_cond_t, a: *const u8) -> i32;
    pub fn pthread_cond_destroy(c: *mut pthread_cond_t) -> i32;
    pub fn pthread_cond_signal(c: *mut pthread_cond_t) -> i32;
    pub fn pthread_cond_wait(c: *mut pthread_cond_t, m: *mut pthread_mutex_t) -> i32;
}

/// The storage of `PAGE_FTL_GC_RATIO`, a constant in the originals. The stand-in `ftl` names it
/// as a foreign static, so that each call can set it.
#[no_mangle]
#[used]
static mut ORACLE_GC_RATIO: f64 = 0.1;

pub fn set_ratio(ratio: f64) {
    unsafe { core::ptr::write_volatile(&raw mut ORACLE_GC_RATIO, ratio) }
}
