//! Encoding against `checkpoint_save`, restoring against `checkpoint_load`, whose file is plain memory.
use crate::orig::Orig;
use crate::port::Port;
use crate::report::{count, ratio, show, Report, Worst};
use crate::tables::{Geo, Random, Tables};
use crate::time::time;

/// The Rust's file, kept once.
fn saved(rust: &mut Orig) -> Vec<u8> {
    unsafe { std::fs::KEEP = true };
    rust.save();
    unsafe { std::fs::KEEP = false };
    unsafe { (*(&raw const std::fs::BYTES)).clone() }
}

/// Encoding, its tests, the Rust's save; restoring, the Rust's load.
fn times(r: &mut Report, z: Geo, order: &[usize]) -> [f64; 5] {
    let start = Tables::mapped(&z, order);
    let (mut port, mut rust) = (Port::new(z), Orig::new(z));
    port.load(&start);
    rust.load(&start);
    let mut file = vec![0; z.file()];
    assert!(port.encode(&mut file) == z.file() as i64 && saved(&mut rust) == file, "the files differ");
    let encode = r.turns(3, |i| match i {
        0 => time(1, || assert!(port.encode(&mut file) >= 0)),
        1 => time(1, || assert!(port.tests() != -117)),
        _ => time(1, || rust.save()),
    });
    rust.open();
    assert!(port.restore(&file) == 0 && rust.load_file());
    assert!(port.tables == rust.view(), "the restored tables differ");
    let restore = r.turns(2, |i| match i {
        0 => time(1, || assert!(port.restore(&file) == 0)),
        _ => {
            rust.open();
            time(1, || assert!(rust.load_file()))
        }
    });
    [encode[0].ns, encode[1].ns, encode[2].ns, restore[0].ns, restore[1].ns]
}

pub fn run(r: &mut Report) {
    r.table(
        "Encoding and restoring e entries, p 64, all mapped (deed: encoding less its soundness test)",
        &["e", "order", "encode: port", "its deed", "Rust", "encode ÷ Rust", "deed ÷ Rust", "restore: port", "per entry", "Rust", "per entry", "restore ÷ Rust"],
    );
    let mut worst = Worst::default();
    for e in [1 << 10, 1 << 16, 1 << 20] {
        for (order, name) in [((0..e).collect(), "in order"), (Random(0xbead).shuffled(e), "random")] {
            let t = times(r, Geo::new(e / 64, 64, 1, e), &order);
            let deed = t[0] - t[1];
            worst.see(t[3] / t[4], format!("{} {name}", count(e)));
            r.row(&[
                count(e), name.into(), show(t[0]), show(deed), show(t[2]), ratio(t[0], t[2]), ratio(deed, t[2]), show(t[3]),
                show(t[3] / e as f64), show(t[4]), show(t[4] / e as f64), ratio(t[3], t[4]),
            ]);
        }
    }
    r.goal("restore, the worst row", "≤ 0.10 × the Rust", worst.show(), worst.value <= 0.1);
}
