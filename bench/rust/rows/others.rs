//! The other calls: opening, a read, a threshold that is not reached, formatting.
use crate::orig::Orig;
use crate::port::Port;
use crate::report::{count, ratio, show, Report};
use crate::tables::{Geo, Tables};
use crate::time::time;

fn pair(r: &mut Report, name: &str, z: &Geo, mut run: impl FnMut(usize) -> f64) {
    let t = r.turns(2, &mut run);
    r.row(&[name.into(), count(z.pages()), show(t[0].ns), show(t[1].ns), ratio(t[0].ns, t[1].ns)]);
}

fn one(r: &mut Report, n: usize) {
    let z = Geo::new(n, 64, 512, n * 32);
    let order: Vec<usize> = (0..z.e).collect();
    let start = Tables::mapped(&z, &order);
    let (mut port, mut rust) = (Port::new(z), Orig::new(z));
    port.load(&start);
    rust.load(&start);
    let mut out = vec![0; z.s];
    let far = (z.e - 1) * z.s;
    pair(r, "read, a whole page (the Rust's side is a stand-in)", &z, |i| match i {
        0 => time(8, || (0..8).for_each(|_| assert!(port.read(far, &mut out) == 512))),
        _ => time(8, || (0..8).for_each(|_| assert!(rust.read(far, &mut out) == 512))),
    });
    pair(r, "threshold a fifth, half free: nothing to do", &z, |i| match i {
        0 => time(8, || (0..8).for_each(|_| assert!(port.collect_threshold(z.pages() as u64 / 5, z.n / 10) == 0))),
        _ => time(8, || (0..8).for_each(|_| assert!(rust.collect_threshold() == 0))),
    });
    pair(r, "opening (the Rust allocates)", &z, |i| match i {
        0 => time(1, || assert!(port.open() == 0)),
        _ => time(1, || assert!(rust.open() == 0)),
    });
    pair(r, "formatting (against filling the same memory)", &z, |i| match i {
        0 => time(1, || assert!(port.format() == 0)),
        _ => time(1, || {
            rust.dev.bytes.fill(255);
            rust.dev.marks.fill(0);
            rust.dev.counts.fill(0);
        }),
    });
    assert!(port.tables.tab[..z.e] == rust.view().tab[..z.e] && port.bytes == rust.dev.bytes);
}

pub fn run(r: &mut Report) {
    r.table("The other calls, p 64, s 512, half full", &["call", "pages", "port", "Rust", "port ÷ Rust"]);
    for n in [16, 1024] {
        one(r, n);
    }
}
