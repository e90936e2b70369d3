//! Every sequence of calls up to a fixed length on tiny devices, with every bad list and erase
//! limits 0 to 2. A state that is reached again is not walked from a second time: what follows from
//! it was compared already, as all that a call depends on is part of the state.
use crate::calls::{Call, Case};
use crate::pair::Pair;
use crate::port::Geometry;
use crate::run::{Failure, Tally};
use std::collections::HashSet;

/// n, p, s, w, e and how much longer or shorter than asked the sequences are on this one.
const DEVICES: [(usize, usize, usize, usize, usize, isize); 13] = [
    (1, 1, 1, 0, 1, 20),
    (1, 2, 1, 1, 1, 20),
    (1, 2, 2, 3, 2, 20),
    (1, 3, 1, 2, 2, 0),
    (2, 1, 1, 0, 1, 20),
    (2, 1, 2, 16, 2, 0),
    (2, 2, 1, 1, 1, 0),
    (2, 2, 2, 1, 2, -1),
    (2, 2, 1, 2, 3, -1),
    (3, 1, 1, 0, 2, -1),
    (3, 1, 2, 5, 3, -1),
    (3, 2, 1, 1, 2, -1),
    (3, 2, 1, 1, 3, -2),
];

/// The data of each write is fixed, so that states meet again; it tells pages and lengths apart.
fn write(g: &Geometry, page: usize, offset: usize, len: usize) -> Call {
    let data = (0..len).map(|i| (16 * (page + 1) + 4 * (offset + i) + len) as u8).collect();
    Call::Write { sector: page * g.s + offset, len, data }
}

fn alphabet(g: &Geometry) -> Vec<Call> {
    let mut calls: Vec<Call> = (0..g.e).map(|page| write(g, page, 0, g.s)).collect();
    calls.extend([write(g, 0, 0, 0), write(g, g.e - 1, g.s - 1, 1), write(g, 0, g.s - 1, 2), write(g, g.e, 0, g.s)]);
    calls.extend((0..g.e).map(|page| Call::Read { sector: page * g.s, length: g.s }));
    calls.extend([
        Call::Read { sector: g.s - 1, length: 2 },
        Call::Read { sector: g.e * g.s, length: 0 },
        Call::Collect,
        Call::List(0),
        Call::List(1),
        Call::List(2),
        Call::Threshold(0, 1),
        Call::Threshold((g.n * g.p / 2) as u64, 2),
        Call::Threshold((g.n * g.p) as u64, 1),
        Call::Encode,
        Call::RestoreLast,
        Call::Open(None),
        Call::Open(Some(g.n as u32)),
        Call::Format,
    ]);
    calls
}

/// One device: layer by layer, the states that are new in the layer and the way to each. The count
/// of states, and whether no new one was left to walk from: then every length is covered.
fn device(g: Geometry, bad: &[u8], depth: usize, tally: &mut Tally) -> Result<(usize, bool), Failure> {
    let letters = alphabet(&g);
    let fail = |way: &[u8], difference| {
        let calls = way.iter().map(|&i| letters[i as usize].clone()).collect();
        Failure { case: Case { g, bad: bad.to_vec(), calls }, difference, seed: 0 }
    };
    tally.begin(0, &g);
    let mut first = Pair::new(g, bad).map_err(|d| fail(&[], d))?;
    first.spoil = tally.spoil;
    let mut seen = HashSet::from([first.key()]);
    let mut layer: Vec<(Pair, Vec<u8>)> = vec![(first, vec![])];
    let mut fresh = 1;
    for length in 1..=depth {
        let mut next = vec![];
        fresh = 0;
        for (pair, way) in &layer {
            for (i, call) in letters.iter().enumerate() {
                let mut pair = pair.copy();
                let way = [&way[..], &[i as u8]].concat();
                tally.step(&mut pair, call).map_err(|d| fail(&way, d))?;
                if seen.insert(pair.key()) {
                    fresh += 1;
                    next.extend((length < depth).then_some((pair, way)));
                }
            }
        }
        layer = next;
    }
    Ok((seen.len(), fresh == 0))
}

/// What the bad lists and erase limits of one device come to.
#[derive(Default)]
struct Sum {
    calls: u64,
    states: usize,
    variants: usize,
    closed: usize,
}

fn variants(which: usize, depth: usize, tally: &mut Tally) -> Result<Sum, Failure> {
    let (n, p, s, w, e, more) = DEVICES[which];
    let mut sum = Sum { calls: tally.calls, ..Sum::default() };
    for limit in 0..=2 {
        for list in 0..1usize << n {
            let bad: Vec<u8> = (0..n).map(|k| (list >> k & 1) as u8).collect();
            let (states, closed) = device(Geometry { n, p, s, w, e, limit }, &bad, depth.saturating_add_signed(more), tally)?;
            sum.states += states;
            sum.variants += 1;
            sum.closed += closed as usize;
        }
    }
    sum.calls = tally.calls - sum.calls;
    Ok(sum)
}

pub fn run_quietly(depth: usize, tally: &mut Tally) -> Result<(), Failure> {
    (0..DEVICES.len()).try_for_each(|which| variants(which, depth, tally).map(drop))
}

pub fn run(depth: usize, tally: &mut Tally) -> Result<(), Failure> {
    println!("  every sequence of calls, every bad list, erase limits 0 to 2 (closed: no new state is left, so sequences of any length):");
    for (which, (n, p, s, w, e, more)) in DEVICES.into_iter().enumerate() {
        let letters = alphabet(&Geometry { n, p, s, w, e, limit: 0 }).len();
        let sum = variants(which, depth, tally)?;
        let length = depth.saturating_add_signed(more);
        println!("  n {n}, p {p}, s {s}, w {w}, e {e}: {letters} calls, up to {length} in a row: {} compared, {} states; {} of {} variants closed",
            sum.calls, sum.states, sum.closed, sum.variants);
    }
    Ok(())
}
