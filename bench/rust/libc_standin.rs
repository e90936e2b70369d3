//! Stand-in for the crate `libc`: the numbers that the originals name.
pub const EIO: i32 = 5;
pub const EAGAIN: i32 = 11;
pub const ENOMEM: i32 = 12;
pub const EFAULT: i32 = 14;
pub const ENODEV: i32 = 19;
pub const EINVAL: i32 = 22;
pub const ENODATA: i32 = 61;
pub const O_CREAT: i32 = 0o100;
