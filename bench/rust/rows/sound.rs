//! The soundness test against one pass over the same memory: a plain sum of its 64-bit words.
use crate::port::{Port, SOUND};
use crate::report::{count, ratio, show, Report, Worst};
use crate::tables::{Geo, Random, Tables};
use crate::time::time;
use std::hint::black_box;

fn sum(words: &[u64]) -> u64 {
    words.iter().fold(0, |a, &x| a.wrapping_add(x))
}
fn pass(t: &Tables) -> u64 {
    let (tab, used) = unsafe { (t.tab.align_to::<u64>().1, t.used.align_to::<u64>().1) };
    sum(tab).wrapping_add(sum(used))
}

/// The test and the pass, each over tables that are all mapped.
fn times(r: &mut Report, z: Geo, order: &[usize]) -> [f64; 2] {
    let mut port = Port::new(z);
    port.load(&Tables::mapped(&z, order));
    assert!(port.tests() == if SOUND.is_some() { 1 } else { -22 }, "the tables are sound");
    let reps = (100_000 / z.pages()).max(1);
    let t = r.turns(2, |i| match i {
        0 => time(reps, || (0..reps).for_each(|_| assert!(port.tests() != -117))),
        _ => time(reps, || (0..reps).for_each(|_| { black_box(pass(black_box(&port.tables))); })),
    });
    [t[0].ns, t[1].ns]
}

fn spread(xs: &[f64]) -> f64 {
    xs.iter().copied().fold(0.0, f64::max) / xs.iter().copied().fold(f64::MAX, f64::min)
}

pub fn run(r: &mut Report) {
    let how = if SOUND.is_some() { "`shr_sound`" } else { "`shr_sound` is not exported yet: a read refused for its sector, which comes after the test" };
    r.table(
        &format!("Soundness test, all pages mapped, against one pass over the same memory (by {how})"),
        &["pages", "p", "lists", "test", "per page", "pass", "per page", "test ÷ pass"],
    );
    let (mut worst, mut orders): (Worst, [Vec<f64>; 2]) = Default::default();
    for (pages, p) in [(1 << 10, 256), (16 << 10, 256), (128 << 10, 256), (1 << 20, 256), (8 << 20, 256), (1 << 20, 64), (1 << 20, 1024)] {
        let mixed = Random(0xd1ce).shuffled(pages);
        for (at, (order, name)) in [((0..pages).collect(), "in order"), (mixed, "random")].iter().enumerate() {
            let t = times(r, Geo::new(pages / p, p, 1, pages), order);
            let (each, all) = (t[0] / pages as f64, t[0] / t[1]);
            if at == 0 {
                worst.see(all, format!("{} pages, p {p}", count(pages)));
            }
            if p == 256 && pages <= 1 << 20 {
                orders[at].push(each);
            }
            r.row(&[
                count(pages), p.to_string(), name.to_string(), show(t[0]), format!("{each:.2} ns"), show(t[1]),
                format!("{:.2} ns", t[1] / pages as f64), ratio(t[0], t[1]),
            ]);
        }
    }
    r.goal("soundness in order, the worst row", "≤ 3 passes over the memory", worst.show(), worst.value <= 3.0);
    for (at, name) in ["in order", "random"].iter().enumerate() {
        let grown = spread(&orders[at]);
        let what = format!("soundness per page, 1 K to 1 M, {name}");
        r.goal(&what, "constant within 1.5", format!("{grown:.2}"), grown <= 1.5);
    }
}
