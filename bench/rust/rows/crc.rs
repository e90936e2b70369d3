//! CRC-32: the port, the Rust's crc32.rs, and zlib and crc32fast where they are installed.
use crate::report::{count, ratio, show, Report};
use crate::time::time;
use crate::{orig, port};
use std::hint::black_box;

fn each(r: &mut Report, xs: &[u8]) -> Vec<f64> {
    let want = orig::crc(xs);
    assert!(port::crc(xs) == want && port::zlib(xs).unwrap_or(want) == want && port::fast(xs).unwrap_or(want) == want);
    let reps = (40_000 / xs.len()).clamp(1, 1000);
    let go = |f: &dyn Fn(&[u8]) -> u32| time(reps, || (0..reps).for_each(|_| assert!(f(black_box(xs)) == want)));
    let times = r.turns(4, |i| match i {
        0 => go(&port::crc),
        1 => go(&orig::crc),
        2 => go(&|xs| port::zlib(xs).unwrap_or(want)),
        _ => go(&|xs| port::fast(xs).unwrap_or(want)),
    });
    times.iter().map(|t| t.ns).collect()
}

pub fn run(r: &mut Report) {
    r.table(
        "CRC-32",
        &["bytes", "port", "Rust", "zlib", "crc32fast", "port, GB/s", "Rust, GB/s", "port ÷ Rust", "speed against the Rust's"],
    );
    let (mut large, mut small) = (f64::MAX, 0.0);
    for k in [16, 64, 256, 512, 1 << 10, 4 << 10, 16 << 10, 64 << 10, 256 << 10, 1 << 20] {
        let xs: Vec<u8> = (0..k).map(|i| (i * 7 + i / 256) as u8).collect();
        let t = each(r, &xs);
        let or = |there: bool, ns: f64| if there { show(ns) } else { "not installed".into() };
        let speed = t[1] / t[0];
        large = if k >= 4 << 10 { speed.min(large) } else { large };
        small = if k == 512 { speed } else { small };
        r.row(&[
            count(k), show(t[0]), show(t[1]), or(port::zlib(&xs).is_some(), t[2]), or(port::fast(&xs).is_some(), t[3]),
            ratio(k as f64, t[0]), ratio(k as f64, t[1]), ratio(t[0], t[1]), format!("{speed:.2}"),
        ]);
    }
    r.goal("CRC-32, 4 KiB and more, the worst row", "≥ 1.9 times the Rust's speed", format!("{large:.2} times"), large >= 1.9);
    r.goal("CRC-32, 512 B", "≥ 0.9 times the Rust's speed", format!("{small:.2} times"), small >= 0.9);
}
