//! Geometries up to document 01's limits, with fewer calls. Most pages of such a device are used by
//! a checkpoint that is made for it and restored, so that its far ends are met at once.
use crate::calls::Call;
use crate::port::{Geometry, Unit, EMPTY};
use crate::random::{bad_list, collection, data, Gen};
use crate::restores::seal;
use crate::rng::Rng;
use crate::run::{Failure, Run, Tally};

/// n, p, s, w, e (0: as many as there are pages), and the calls made on each.
const DEVICES: [(usize, usize, usize, usize, usize, usize); 13] = [
    (1, 1, 16_384, 16, 1, 400),
    (1, 1_024, 1, 10, 0, 2_500),
    (64, 1_024, 16, 16, 0, 600),
    (3, 1_024, 512, 10, 2_000, 4_000),
    (40, 40, 16_384, 16, 1_000, 100),
    (1_000, 64, 4, 6, 50_000, 600),
    (3, 1_024, 16_384, 10, 2_500, 40),
    (65_535, 1, 1, 0, 0, 250),
    (65_535, 1, 1, 16, 60_000, 250),
    (65_535, 2, 3, 16, 100, 250),
    (65_535, 16, 1, 16, 0, 30),
    (4_096, 1_024, 1, 16, 4_000_000, 6),
    (65_535, 1_024, 1, 16, 1_000, 5),
];

/// Free counts of a crowded device: most segments full, some empty, some with a page or two left.
fn counts(rng: &mut Rng, g: &Geometry) -> Vec<usize> {
    let some = |rng: &mut Rng, k: usize| match rng.below(16) {
        0 => g.p,
        1 => rng.range(0, g.p.min(2)),
        _ if k + 2 == g.n => g.p,
        _ => 0,
    };
    (0..g.n).map(|k| some(rng, k)).collect()
}

/// A checkpoint of such a device: the allocation segment near the end, and a part of the used pages
/// mapped, from the far end on.
fn crowded(rng: &mut Rng, g: &Geometry) -> Vec<u8> {
    let free = counts(rng, g);
    let alloc = g.n - 1 - rng.below(g.n.min(3));
    let part = rng.range(1, 8);
    let mut file: Vec<u8> = [0x5046_5443u32, 1].iter().flat_map(|word| word.to_le_bytes()).collect();
    file.extend([alloc, g.n, g.p, g.e].iter().flat_map(|&long| (long as u64).to_le_bytes()));
    file.extend([0; 4]);
    for entry in 0..g.e {
        let at = g.n * g.p - 1 - entry;
        let word = if rng.chance(part) { g.address(at / g.p, at % g.p) } else { EMPTY };
        file.extend(word.to_le_bytes());
    }
    file.extend(free.iter().flat_map(|&count| (count as u32).to_le_bytes()));
    seal(&mut file);
    file
}

/// A collection where something is queued; else a write to a mapped page, which may queue its segment.
fn hunt(rng: &mut Rng, g: &Geometry, unit: &Unit) -> Call {
    if unit.queued(g) > 0 && rng.chance(2) {
        return collection(rng, g);
    }
    let from = rng.below(g.e);
    let mapped = (0..g.e).map(|i| (from + i) % g.e).find(|&page| unit.map(g)[page] != EMPTY);
    data(rng, g, mapped.unwrap_or(from))
}

fn one(seed: u64, which: usize, tally: &mut Tally) -> Result<(), Failure> {
    let (n, p, s, w, e, calls) = DEVICES[which];
    let mut rng = Rng::new(seed);
    let e = if e == 0 { n * p } else { e };
    let g = Geometry { n, p, s, w, e, limit: rng.pick(&[1, 2, u32::MAX as usize]) };
    let bad = bad_list(&mut rng, n);
    let mut gen = Gen::new(&bad, false);
    let mut run = Run::new(g, bad, seed, tally)?;
    let file = crowded(&mut rng, &g);
    for i in 0..calls {
        let call = match i {
            _ if i == calls / 4 => Call::Restore(file.clone()),
            _ if i > calls / 4 && rng.chance(2) => hunt(&mut rng, &g, &run.pair.unit),
            _ => gen.next(&mut rng, &g, &run.pair.unit),
        };
        run.step(call, tally)?;
    }
    run.close()
}

/// All devices in turn, again and again; seed 1 begins with the first.
pub fn run(seed: u64, tally: &mut Tally) -> Result<(), Failure> {
    let mut seed = seed;
    while !tally.spent() {
        one(seed, seed.wrapping_sub(1) as usize % DEVICES.len(), tally)?;
        seed += 1;
    }
    Ok(())
}
