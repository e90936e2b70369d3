//! One collection of one victim with k listed pages.
use super::same;
use crate::orig::Orig;
use crate::port::{Port, INNER_COLLECT};
use crate::report::{ratio, show, Report, Worst};
use crate::tables::{Geo, Tables};
use crate::time::time;

/// Segment 0 is full and queued, its first k pages mapped; the other segments are free.
fn victim(z: &Geo, k: usize) -> Tables {
    let mut t = Tables::opened(z);
    t.fill(z, 0);
    (0..k).for_each(|l| t.map(z, l, 0, l));
    t.enqueue(z, 0);
    t.tab[z.alloc()] = 1;
    t
}

/// The public call, its tests, its deed, the Rust's.
fn times(r: &mut Report, z: Geo, k: usize) -> [f64; 4] {
    let start = victim(&z, k);
    let idle = start.unqueued(&z);
    let (mut port, mut rust) = (Port::new(z), Orig::new(z));
    port.load(&start);
    rust.load(&start);
    assert!(port.collect() == 0 && rust.collect() == 0);
    same(&port, &rust);
    let t = r.turns(3 + INNER_COLLECT.is_some() as usize, |i| {
        match i {
            2 => rust.load(&start),
            1 => port.load(&idle),
            _ => port.load(&start),
        }
        match i {
            2 => time(1, || assert!(rust.collect() == 0)),
            3 => time(1, || assert!(port.collect_by(INNER_COLLECT.unwrap()) == 0)),
            _ => time(1, || assert!(port.collect() == 0)),
        }
    });
    let deed = if t.len() > 3 { t[3].ns } else { t[0].ns - t[1].ns };
    [t[0].ns, t[1].ns, deed, t[2].ns]
}

pub fn run(r: &mut Report) {
    let how = if INNER_COLLECT.is_some() { "`shr_inner_collect`" } else { "`shr_inner_collect` is not exported yet: the public call less its tests" };
    r.table(
        &format!("Collection of one victim with k listed pages, n 8 (deed: {how})"),
        &["p", "s", "k", "port, public", "its tests", "its deed", "Rust", "public ÷ Rust", "deed ÷ Rust", "copy: port", "copy: Rust", "copy ÷ Rust"],
    );
    let (mut worst, mut worst_copy) = (Worst::default(), Worst::default());
    for (p, s) in [(64, 512), (64, 4096), (1024, 512), (1024, 4096)] {
        let z = Geo::new(8, p, s, 8 * p);
        let mut none = [0.0; 4];
        for k in [0, p / 4, p] {
            let t = times(r, z, k);
            none = if k == 0 { t } else { none };
            let name = format!("p {p}, s {s}, k {k}");
            worst.see(t[2] / t[3], name.clone());
            let each = |i: usize| (t[i] - none[i]) / k as f64;
            let mut cells = vec![p.to_string(), s.to_string(), k.to_string()];
            cells.extend(t.iter().map(|&x| show(x)));
            cells.extend([ratio(t[0], t[3]), ratio(t[2], t[3])]);
            if k == 0 {
                cells.extend(["", "", ""].map(String::from));
            } else {
                worst_copy.see(each(2) / each(3), name);
                cells.extend([show(each(2)), show(each(3)), ratio(each(2), each(3))]);
            }
            r.row(&cells);
        }
    }
    r.goal("collection (deed), the worst row", "≤ 1 × the Rust", worst.show(), worst.value <= 1.0);
    r.goal("one copied page, the worst row", "≤ 1 × the Rust", worst_copy.show(), worst_copy.value <= 1.0);
}
