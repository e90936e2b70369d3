//! The four Rust originals, unchanged, over stand-ins that follow document 01, and a handle on them.
extern crate std_standin as std;

/// What a restore said. The originals log a text of its own for each refusal; the log macros below
/// know those texts and keep the reason, so it is the Rust's and no second check of ours.
pub mod said {
    use std::cell::Cell;
    std::thread_local!(static LAST: Cell<Option<i64>> = const { Cell::new(None) });

    pub fn note(answer: i64) {
        LAST.with(|last| last.set(Some(answer)));
    }
    pub fn take() -> Option<i64> {
        LAST.with(|last| last.take())
    }
}

/// Private functions of page_core.rs, handed over by a log line inside its `open`.
pub mod hooks {
    use crate::ftl::PageFtl;
    use std::io;
    use std::sync::OnceLock;

    pub type Save = fn(&PageFtl, &str) -> io::Result<()>;
    pub type Pass = fn(&mut PageFtl) -> io::Result<isize>;
    static HOOKS: OnceLock<(Save, Pass)> = OnceLock::new();

    pub fn give(save: Save, pass: Pass) {
        let _ = HOOKS.set((save, pass));
    }
    pub fn get() -> (Save, Pass) {
        *HOOKS.get().expect("prepare() was called")
    }
    /// Calls `open` on an FTL without a device. It logs that, and answers 22 before anything else;
    /// the log line is where page_core.rs names its own functions.
    pub fn prepare() {
        if HOOKS.get().is_none() {
            let answer = unsafe { crate::ftl::page_core::open(&mut PageFtl::empty(), core::ptr::null(), 0) };
            assert!(answer == -libc::EINVAL);
        }
    }
}

/// The other log lines: their arguments are looked at, nothing is kept.
#[macro_export]
macro_rules! quiet {
    ($fmt:literal $(, $arg:expr)* $(,)?) => {{
        let _ = ::core::format_args!($fmt $(, $arg)*);
    }};
}

#[macro_export]
macro_rules! pr_err {
    ("page FTL has no device") => {
        $crate::hooks::give(checkpoint_save, gc_pass)
    };
    ($($line:tt)*) => { $crate::quiet!($($line)*) };
}

#[macro_export]
macro_rules! pr_warn {
    ("checkpoint {} is shorter than its header", $($arg:tt)*) => { $crate::said::note(-1) };
    ("checkpoint {} has a foreign magic", $($arg:tt)*) => { $crate::said::note(-2) };
    ("checkpoint {} has version {} (expected {})", $($arg:tt)*) => { $crate::said::note(-3) };
    ("checkpoint {} holds a {} x {} device (expected {} x {})", $($arg:tt)*) => { $crate::said::note(-4) };
    ("checkpoint {} holds {} entries (expected {})", $($arg:tt)*) => { $crate::said::note(-5) };
    ("checkpoint {} is not {} bytes long", $($arg:tt)*) => { $crate::said::note(-6) };
    ("checkpoint {} checksum mismatch", $($arg:tt)*) => { $crate::said::note(-7) };
    ("checkpoint {} allocates segment {} of {}", $($arg:tt)*) => { $crate::said::note(-8) };
    ("checkpoint {} frees {} pages of segment {} (max {})", $($arg:tt)*) => { $crate::said::note(-9) };
    ($($line:tt)*) => { $crate::quiet!($($line)*) };
}

#[macro_export]
macro_rules! pr_debug {
    ("checkpoint {} loaded", $($arg:tt)*) => { $crate::said::note(0) };
    ($($line:tt)*) => { $crate::quiet!($($line)*) };
}

pub mod bits;
pub mod crc32;
pub mod device;
pub mod flash;
pub mod ftl;
mod original;

pub use original::{Original, Shape};
