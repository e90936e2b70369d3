//! bench: each call of the port beside the Rust originals, in one process, on the same inputs.
//!
//!   bench [--quick] [write] [collect] [list] [checkpoint] [crc] [sound] [others]
#![allow(static_mut_refs)]
extern crate std_standin as std;

/// Private functions of page_core.rs, which it hands over itself in the one `pr_err!` below.
pub mod hooks {
    use crate::ftl::PageFtl;
    use std::io;
    use std::sync::OnceLock;
    pub struct Hooks {
        pub save: fn(&PageFtl, &str) -> io::Result<()>,
        pub load: fn(&mut PageFtl, &str) -> io::Result<bool>,
        pub pass: fn(&mut PageFtl) -> io::Result<isize>,
    }
    pub static HOOKS: OnceLock<Hooks> = OnceLock::new();
    /// Opening without a device logs that there is none, answers -EINVAL and does nothing else.
    pub fn get() -> &'static Hooks {
        if HOOKS.get().is_none() {
            let r = unsafe { crate::ftl::page_core::open(&mut PageFtl::empty(), core::ptr::null(), 0) };
            assert!(r == -libc::EINVAL);
        }
        HOOKS.get().unwrap()
    }
}

/// The originals' logging: nothing is printed, kept or formatted.
#[macro_export]
macro_rules! silent {
    ($($t:tt)*) => {
        if false {
            let _ = ::core::format_args!($($t)*);
        }
    };
}
#[macro_export]
macro_rules! pr_err {
    ("page FTL has no device") => {
        let _ = $crate::hooks::HOOKS.set($crate::hooks::Hooks { save: checkpoint_save, load: checkpoint_load, pass: gc_pass });
    };
    ($($t:tt)*) => { $crate::silent!($($t)*) };
}
#[macro_export]
macro_rules! pr_warn {
    ($($t:tt)*) => { $crate::silent!($($t)*) };
}
#[macro_export]
macro_rules! pr_debug {
    ($($t:tt)*) => { $crate::silent!($($t)*) };
}

pub mod bits; // the original
pub mod crc32; // the original
pub mod device;
pub mod ftl;
mod orig;
mod port;
mod report;
mod rows;
mod tables;
mod time;

use std::time::Duration;

fn main() {
    let args: Vec<String> = std::env::args().skip(1).collect();
    let quick = args.iter().any(|a| a == "--quick");
    let groups: [(&str, fn(&mut report::Report)); 7] = [
        ("write", rows::write::run),
        ("collect", rows::collect::run),
        ("list", rows::list::run),
        ("checkpoint", rows::checkpoint::run),
        ("crc", rows::crc::run),
        ("sound", rows::sound::run),
        ("others", rows::others::run),
    ];
    let known = |a: &&String| *a != "--quick" && !groups.iter().any(|g| g.0 == a.as_str());
    if let Some(a) = args.iter().find(known) {
        eprintln!("bench: no group {a}");
        std::process::exit(2);
    }
    let named = args.iter().any(|a| a != "--quick");
    let mut r = report::Report::new(Duration::from_millis(if quick { 60 } else { 1000 }));
    for (name, run) in groups {
        if !named || args.iter().any(|a| a == name) {
            run(&mut r);
        }
    }
    r.end();
}
