//! Collections from the list: every segment is queued with nothing listed, so that the sort is what is seen.
use super::same;
use crate::orig::Orig;
use crate::port::{Port, INNER_COLLECT};
use crate::report::{ratio, show, Report, Worst};
use crate::tables::{Geo, Random, Tables};
use crate::time::time;

/// All segments full and queued from the last to the first, valid counts at random or rising along the queue.
fn queued(z: &Geo, sorted: bool) -> Tables {
    let mut t = Tables::opened(z);
    let mut some = Random(0xface);
    for i in 0..z.n {
        let g = z.n - 1 - i;
        t.fill(z, g);
        t.enqueue(z, g);
        t.tab[z.valid() + g] = if sorted { i * (z.p + 1) / z.n } else { some.below(z.p + 1) } as u32;
    }
    t
}

/// The public call, its tests, its deed, the Rust's.
fn times(r: &mut Report, z: Geo, sorted: bool, m: usize) -> [f64; 4] {
    let start = queued(&z, sorted);
    let idle = start.unqueued(&z);
    let (mut port, mut rust) = (Port::new(z), Orig::new(z));
    port.load(&start);
    rust.load(&start);
    assert!(port.collect_list(m) == rust.collect_list(m));
    same(&port, &rust);
    // With m = 1 one collection is the deed.
    let inner = INNER_COLLECT.filter(|_| m == 1);
    let t = r.turns(3 + inner.is_some() as usize, |i| {
        match i {
            2 => rust.load(&start),
            1 => port.load(&idle),
            _ => port.load(&start),
        }
        match i {
            2 => time(1, || assert!(rust.collect_list(m) >= 0)),
            3 => time(1, || assert!(port.collect_by(inner.unwrap()) == 0)),
            _ => time(1, || assert!(port.collect_list(m) >= 0)),
        }
    });
    let deed = if inner.is_some() { t[3].ns } else { t[0].ns - t[1].ns };
    [t[0].ns, t[1].ns, deed, t[2].ns]
}

pub fn run(r: &mut Report) {
    r.table(
        "Collection from the list, limit m, all n segments queued with nothing listed",
        &["n queued", "p", "queue", "m", "port, public", "its tests", "its deed", "Rust", "public ÷ Rust", "deed ÷ Rust"],
    );
    let mut worst = Worst::default();
    let few = [(1000, 16, 1), (1000, 64, 1), (1000, 16, 1000), (65_535, 16, 1), (65_535, 64, 1), (65_535, 16, 20)];
    for (n, p, m) in few {
        for sorted in [false, true] {
            let t = times(r, Geo::new(n, p, 1, 1), sorted, m);
            let name = if sorted { "in order" } else { "random" };
            let mut cells = vec![n.to_string(), p.to_string(), name.into(), m.to_string()];
            cells.extend(t.iter().map(|&x| show(x)));
            cells.extend([ratio(t[0], t[3]), ratio(t[2], t[3])]);
            r.row(&cells);
            worst.see(t[2] / t[3], format!("n {n}, p {p}, {name}, m {m}"));
        }
    }
    r.goal("list collection (deed), the worst row", "≤ 2 × the Rust", worst.show(), worst.value <= 2.0);
}
