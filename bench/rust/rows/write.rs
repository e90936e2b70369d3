//! Writes: the public call, its tests alone, the deed alone, and the Rust's write.
use super::same;
use crate::orig::Orig;
use crate::port::{Port, INNER_WRITE};
use crate::report::{count, ratio, show, Report, Worst};
use crate::tables::{Geo, Random, Tables};
use crate::time::time;

struct Case {
    z: Geo,
    /// Pages that are mapped already, in a random order; else pages that are not, from 0 up.
    over: bool,
    len: usize,
}

/// As many writes as a segment has pages. A round begins with the lower half of the segments full, or with nothing.
struct Work {
    start: Tables,
    sectors: Vec<usize>,
    data: Vec<u8>,
}

fn work(c: &Case) -> Work {
    let z = c.z;
    let order: Vec<usize> = (0..z.e).collect();
    let mut start = if c.over { Tables::mapped(&z, &order) } else { Tables::opened(&z) };
    start.tab[z.alloc()] = (z.n / 2) as u32;
    let mut some = Random(0x5eed);
    let offset = if c.len < z.s { z.s / 4 } else { 0 };
    let sectors = (0..z.p).map(|i| (if c.over { some.below(z.e) } else { i }) * z.s + offset).collect();
    Work { start, sectors, data: (0..c.len).map(|i| i as u8).collect() }
}

fn times(r: &mut Report, c: &Case) -> [f64; 4] {
    let w = work(c);
    let (mut port, mut rust) = (Port::new(c.z), Orig::new(c.z));
    port.load(&w.start);
    rust.load(&w.start);
    for &x in &w.sectors {
        assert!(port.write(x, &w.data) == c.len as i64 && rust.write(x, &w.data) == c.len as i64);
    }
    same(&port, &rust);
    let end = port.tables.clone();
    let (k, beyond) = (w.sectors.len(), c.z.e * c.z.s);
    let t = r.turns(4 + INNER_WRITE.is_some() as usize, |i| {
        match i {
            3 => rust.load(&w.start),
            2 => port.load(&end),
            _ => port.load(&w.start),
        }
        match i {
            0 => time(k, || w.sectors.iter().for_each(|&x| assert!(port.write(x, &w.data) >= 0))),
            1 | 2 => time(k, || (0..k).for_each(|_| assert!(port.write(beyond, &w.data) == -22))),
            3 => time(k, || w.sectors.iter().for_each(|&x| assert!(rust.write(x, &w.data) >= 0))),
            _ => time(k, || w.sectors.iter().for_each(|&x| assert!(port.write_by(INNER_WRITE.unwrap(), x, &w.data) >= 0))),
        }
    });
    let tests = (t[1].ns + t[2].ns) / 2.0;
    let deed = if t.len() > 4 { t[4].ns } else { t[0].ns - tests };
    [t[0].ns, tests, deed, t[3].ns]
}

pub fn run(r: &mut Report) {
    let how = if INNER_WRITE.is_some() { "`shr_inner_write`" } else { "`shr_inner_write` is not exported yet: the public call less its tests" };
    r.table(
        &format!("Write, each (deed: {how})"),
        &["n", "p", "s", "pages", "write", "port, public", "its tests", "a page", "its deed", "Rust", "public ÷ Rust", "deed ÷ Rust"],
    );
    let sizes = [(16, 64, 512), (16, 64, 4096), (256, 64, 512), (4096, 64, 512), (4, 1024, 512), (256, 1024, 512)];
    let mut worst = Worst::default();
    for (n, p, s) in sizes {
        for (over, len, name) in [(false, s, "first, whole"), (true, s, "over, whole"), (true, 16, "over, 16 B")] {
            let z = Geo::new(n, p, s, n * p / 2);
            let [public, tests, deed, rust] = times(r, &Case { z, over, len });
            // A small difference of two large times says nothing.
            let clear = INNER_WRITE.is_some() || n * p <= 4 << 10;
            if clear {
                worst.see(deed / rust, format!("n {n}, p {p}, s {s}, {name}"));
            }
            let or = |x: String| if clear { x } else { "–".into() };
            r.row(&[
                n.to_string(), p.to_string(), s.to_string(), count(n * p), name.into(), show(public), show(tests),
                format!("{:.2} ns", tests / (n * p) as f64), or(show(deed)), show(rust), ratio(public, rust), or(ratio(deed, rust)),
            ]);
        }
    }
    r.goal("inner write, the worst row", "≤ 1 × the Rust", worst.show(), worst.value <= 1.0);
}
