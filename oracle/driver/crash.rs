//! A call that does not come back: the program says which run it was in, and ends with status 1.
//! A panic of the Rust that does come back is a difference like any other.
use std::sync::atomic::{AtomicBool, AtomicU64, Ordering};

static SEED: AtomicU64 = AtomicU64::new(0);

extern "C" {
    fn signal(number: i32, handler: extern "C" fn(i32)) -> usize;
    fn _exit(status: i32) -> !;
}

extern "C" fn died(number: i32) {
    let seed = SEED.load(Ordering::Relaxed);
    println!("DIED by signal {number} in the run of seed {seed}; with --seed {seed} --say the last line on stderr is the call");
    unsafe { _exit(1) }
}

/// Illegal instruction, abort (a panic below a C function of the Rust ends there), bus error,
/// division, segment. Of panics only the first is shown: a case is shortened by failing again.
pub fn watch() {
    static SHOWN: AtomicBool = AtomicBool::new(false);
    std::panic::set_hook(Box::new(|panic| {
        if !SHOWN.swap(true, Ordering::Relaxed) {
            eprintln!("{panic}");
        }
    }));
    for number in [4, 6, 7, 8, 11] {
        unsafe { signal(number, died) };
    }
}

pub fn entered(seed: u64) {
    SEED.store(seed, Ordering::Relaxed);
}
