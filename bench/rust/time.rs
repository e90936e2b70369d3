//! Least times: the subjects take turns, round after round, and each keeps its least.
use std::time::{Duration, Instant};

#[derive(Clone, Copy)]
pub struct Least {
    pub ns: f64,
    /// How far apart the least times of separate blocks of rounds lie: the greatest over the least, less 1.
    pub spread: f64,
}

const BLOCKS: usize = 5;

/// Above this many nanoseconds the processor's time counts, so that other programs' turns do not. Its clock is too coarse below.
const LONG: f64 = 200_000.0;

/// This thread's processor time, in nanoseconds.
fn worked() -> f64 {
    unsafe extern "C" {
        fn clock_gettime(clock: i32, time: *mut [i64; 2]) -> i32;
    }
    const THREAD: i32 = 3;
    let mut t = [0; 2];
    assert!(unsafe { clock_gettime(THREAD, &mut t) } == 0);
    t[0] as f64 * 1e9 + t[1] as f64
}

/// Nanoseconds of `f`, divided by the operations in it.
pub fn time(ops: usize, f: impl FnOnce()) -> f64 {
    let before = worked();
    let start = Instant::now();
    f();
    let passed = start.elapsed().as_nanos() as f64;
    let work = worked() - before;
    (if passed > LONG { work.min(passed) } else { passed }) / ops as f64
}

/// `run(i)` does one round of subject i and answers its time. What it prepares is not in that time.
pub fn turns(budget: Duration, subjects: usize, mut run: impl FnMut(usize) -> f64) -> Vec<Least> {
    let mut blocks = vec![vec![f64::MAX; subjects]; BLOCKS];
    for i in 0..subjects {
        run(i); // warm
    }
    for block in blocks.iter_mut() {
        let start = Instant::now();
        let mut rounds = 0;
        while rounds < 2 || start.elapsed() < budget / BLOCKS as u32 {
            for (i, least) in block.iter_mut().enumerate() {
                *least = least.min(run(i));
            }
            rounds += 1;
        }
    }
    (0..subjects)
        .map(|i| {
            let least = blocks.iter().map(|b| b[i]).fold(f64::MAX, f64::min);
            let most = blocks.iter().map(|b| b[i]).fold(0.0, f64::max);
            Least { ns: least, spread: most / least - 1.0 }
        })
        .collect()
}
