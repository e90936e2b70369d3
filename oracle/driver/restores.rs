//! Restores of every earlier checkpoint of a run, and of damaged copies: each single byte, with the
//! CRC as it was and put right again; cut and lengthened ones; single words replaced.
use crate::calls::Call;
use crate::port::{self, Geometry, EMPTY};
use crate::random::{bad_list, shaped, Gen};
use crate::rng::Rng;
use crate::run::{Failure, Run, Tally};

/// Puts the CRC right, so that the tests behind it are met.
pub fn seal(file: &mut [u8]) {
    if file.len() >= 44 {
        let covered = [&file[..40], &file[44..]].concat();
        file[40..44].copy_from_slice(&port::crc32(&covered).to_le_bytes());
    }
}

fn sealed(mut file: Vec<u8>) -> Vec<u8> {
    seal(&mut file);
    file
}

fn put_word(file: &[u8], at: usize, word: u32) -> Vec<u8> {
    let mut file = file.to_vec();
    file[at..at + 4].copy_from_slice(&word.to_le_bytes());
    sealed(file)
}

fn put_long(file: &[u8], at: usize, long: u64) -> Vec<u8> {
    let mut file = file.to_vec();
    file[at..at + 8].copy_from_slice(&long.to_le_bytes());
    sealed(file)
}

/// Every byte damaged by some bits, plain and sealed.
fn bytes_damaged(rng: &mut Rng, file: &[u8]) -> Vec<Vec<u8>> {
    let mut all = vec![];
    for at in 0..file.len() {
        for bits in [1, 0x80, rng.range(1, 255) as u8] {
            let mut damaged = file.to_vec();
            damaged[at] ^= bits;
            all.push(damaged.clone());
            all.push(sealed(damaged));
        }
    }
    all
}

/// Every shorter length, and some longer ones, plain and sealed.
fn lengths_damaged(rng: &mut Rng, file: &[u8]) -> Vec<Vec<u8>> {
    let mut all: Vec<Vec<u8>> = (0..file.len()).map(|len| file[..len].to_vec()).collect();
    for more in [1, 2, 3, 4, 8, 100] {
        all.push([file, &rng.bytes(more)].concat());
        all.push([file, &vec![0; more]].concat());
    }
    let again: Vec<Vec<u8>> = all.iter().cloned().map(sealed).collect();
    all.extend(again);
    all
}

/// Map words that name other pages, free counts and numbers of the head at their edges; sealed.
fn words_damaged(rng: &mut Rng, g: &Geometry, file: &[u8]) -> Vec<Vec<u8>> {
    let mut all = vec![];
    for entry in 0..g.e {
        let other = 44 + 4 * rng.below(g.e);
        let repeat = u32::from_le_bytes(file[other..other + 4].try_into().unwrap());
        let (k, page) = (rng.below(g.n), rng.below(g.p));
        for word in [repeat, g.address(k, page), g.address(k, g.p - 1), g.address(g.n, 0), g.address(k, 0) + g.p as u32, EMPTY, EMPTY - 1, 1 << 31] {
            all.push(put_word(file, 44 + 4 * entry, word));
        }
    }
    for k in 0..g.n {
        for free in [0, g.p as u32, g.p as u32 + 1, rng.range(0, g.p) as u32, 1 << 31, u32::MAX] {
            all.push(put_word(file, 44 + 4 * g.e + 4 * k, free));
        }
    }
    for (at, is) in [(16, g.n), (24, g.p), (32, g.e)] {
        for long in [0, is as u64 + 1, is as u64 - 1, is as u64 + (1 << 32), u64::MAX] {
            all.push(put_long(file, at, long));
        }
    }
    for alloc in [0, g.n as u64 - 1, g.n as u64, 1 << 32, (1 << 32) + g.n as u64 - 1, u64::MAX] {
        all.push(put_long(file, 8, alloc));
    }
    all
}

/// Restores each file on a branch of the run; after a success a few calls follow. A refusal leaves
/// the branch as it is, so the next file is tried on the same one.
fn each(rng: &mut Rng, run: &Run, files: &[Vec<u8>], tally: &mut Tally) -> Result<(), Failure> {
    let mut branch = run.branch();
    for file in files {
        let refused = branch.step(Call::Restore(file.clone()), tally)? < 0;
        if refused {
            branch.calls.pop();
            continue;
        }
        let mut calls = Gen::new(&branch.pair.bad, false);
        for _ in 0..rng.range(1, 4) {
            let call = calls.next(rng, &branch.pair.g, &branch.pair.unit);
            branch.step(call, tally)?;
        }
        branch = run.branch();
    }
    Ok(())
}

fn one(seed: u64, tally: &mut Tally) -> Result<(), Failure> {
    let mut rng = Rng::new(seed);
    let (n, p) = if rng.chance(20) { (rng.range(1, 2), rng.range(62, 66)) } else { (rng.range(1, 5), rng.range(1, 5)) };
    let s = rng.range(1, 4);
    let g = shaped(&mut rng, n, p, s);
    let bad = bad_list(&mut rng, n);
    let mut calls = Gen::new(&bad, false);
    let mut run = Run::new(g, bad, seed, tally)?;
    let mut shelf = vec![run.pair.now.clone()];
    for _ in 0..rng.range(10, 120) {
        let call = calls.next(&mut rng, &g, &run.pair.unit);
        run.step(call, tally)?;
        shelf.push(run.pair.now.clone());
    }
    shelf.dedup();
    each(&mut rng, &run, &shelf, tally)?;
    let now = run.pair.now.clone();
    for files in [bytes_damaged(&mut rng, &now), lengths_damaged(&mut rng, &now), words_damaged(&mut rng, &g, &now)] {
        each(&mut rng, &run, &files, tally)?;
    }
    run.close()
}

pub fn run(seed: u64, tally: &mut Tally) -> Result<(), Failure> {
    let mut seed = seed;
    while !tally.spent() {
        one(seed, tally)?;
        seed += 1;
    }
    Ok(())
}
