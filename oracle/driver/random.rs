//! Long random runs, with moods that fill a device, overwrite a few pages, tie valid counts, wear
//! segments out, or mix everything.
use crate::calls::Call;
use crate::port::{Geometry, Unit};
use crate::rng::Rng;
use crate::run::{Failure, Run, Tally};

/// A good geometry: one of several shapes, with every address width that fits.
pub fn geometry(rng: &mut Rng) -> Geometry {
    let (n, p, s) = match rng.below(7) {
        0 => (rng.range(1, 3), rng.range(1, 3), rng.range(1, 4)),
        1 | 2 => (rng.range(2, 8), rng.range(1, 8), rng.range(1, 16)),
        3 => (rng.range(2, 16), rng.range(1, 16), rng.range(1, 64)),
        4 => (rng.range(60, 140), rng.range(1, 3), rng.range(1, 4)),
        5 => (rng.range(2, 4), rng.pick(&[62, 63, 64, 65, 66, 127, 128, 129]), rng.range(1, 4)),
        _ => (rng.range(2, 4), rng.range(1, 4), rng.pick(&[255, 256, 511, 512])),
    };
    shaped(rng, n, p, s)
}

/// Width, entries and erase limit for these three.
pub fn shaped(rng: &mut Rng, n: usize, p: usize, s: usize) -> Geometry {
    let least = p.next_power_of_two().trailing_zeros() as usize;
    let w = if rng.chance(2) { least } else { rng.range(least, 16) };
    let e = match rng.below(8) {
        0 => n * p,
        1 => 1,
        2 => rng.range(1, n * p),
        _ => rng.range(1, ((n - 1) * p * 2 / 3).max(1)),
    };
    let limit = rng.pick(&[0, 1, 2, 3, 5, 20, 1000, 1000, u32::MAX as usize, u32::MAX as usize]);
    Geometry { n, p, s, w, e, limit }
}

pub fn bad_list(rng: &mut Rng, n: usize) -> Vec<u8> {
    let of = rng.pick(&[0, 0, 0, 8, 4, 2]);
    if rng.chance(50) {
        return vec![1; n];
    }
    (0..n).map(|_| if of > 0 && rng.chance(of) { rng.pick(&[1, 2, 255]) } else { 0 }).collect()
}

#[derive(Clone, Copy)]
enum Mood {
    Fill,
    Hot,
    Tie,
    Drain,
    Wear,
    Mixed,
}

/// Calls for a run: a mood for a while, then another.
pub struct Gen {
    mood: Mood,
    left: usize,
    at: usize,
    hot: usize,
    bad: Vec<u8>,
    /// What has to follow the call just made.
    then: Option<Call>,
    fuses: bool,
}

impl Gen {
    pub fn new(bad: &[u8], fuses: bool) -> Gen {
        Gen { mood: Mood::Fill, left: 0, at: 0, hot: 1, bad: bad.to_vec(), then: None, fuses }
    }

    pub fn next(&mut self, rng: &mut Rng, g: &Geometry, unit: &Unit) -> Call {
        if let Some(call) = self.then.take() {
            return call;
        }
        if self.full(g, unit) && rng.chance(2) {
            return self.relief(rng, g, unit);
        }
        if self.left == 0 {
            self.mood = rng.pick(&[Mood::Fill, Mood::Hot, Mood::Tie, Mood::Drain, Mood::Wear, Mood::Wear, Mood::Mixed]);
            self.left = rng.range(1, (2 * g.n * g.p).clamp(4, 60));
            self.at = rng.below(g.e);
            self.hot = rng.range(1, g.e.div_ceil(4));
        }
        self.call(rng, g, unit)
    }

    /// No good segment has a page left.
    fn full(&self, g: &Geometry, unit: &Unit) -> bool {
        (0..g.n).all(|k| self.bad[k] != 0 || unit.free(g)[k] == 0)
    }

    /// A collection; or, where nothing is queued, now and then a device made fresh.
    fn relief(&mut self, rng: &mut Rng, g: &Geometry, unit: &Unit) -> Call {
        if unit.queued(g) > 0 {
            return collection(rng, g);
        }
        if rng.chance(4) {
            self.then = Some(Call::Open(None));
            return Call::Format;
        }
        self.plain(rng, g)
    }

    fn call(&mut self, rng: &mut Rng, g: &Geometry, unit: &Unit) -> Call {
        self.left -= 1;
        if rng.chance(24) {
            return self.odd(rng, g);
        }
        match self.mood {
            Mood::Fill => self.onward(rng, g, 1),
            Mood::Hot => {
                let page = (self.at + rng.below(self.hot)) % g.e;
                data(rng, g, page)
            }
            Mood::Tie => self.tie(rng, g, unit),
            Mood::Drain => collection(rng, g),
            Mood::Wear if rng.chance(3) => collection(rng, g),
            Mood::Wear => self.onward(rng, g, self.hot),
            Mood::Mixed if rng.chance(4) => self.odd(rng, g),
            Mood::Mixed => self.plain(rng, g),
        }
    }

    fn onward(&mut self, rng: &mut Rng, g: &Geometry, by: usize) -> Call {
        self.at = (self.at + by) % g.e;
        data(rng, g, self.at)
    }

    /// Overwrites a page of one segment after the other, so that valid counts meet.
    fn tie(&mut self, rng: &mut Rng, g: &Geometry, unit: &Unit) -> Call {
        self.at += 1;
        let k = self.at % g.n;
        let held = unit.lens(g)[k] as usize;
        if held == 0 {
            return self.plain(rng, g);
        }
        let page = unit.list(g, k)[rng.below(held.min(g.p))] as usize;
        data(rng, g, page.min(g.e - 1))
    }

    fn plain(&mut self, rng: &mut Rng, g: &Geometry) -> Call {
        match rng.below(6) {
            0 => Call::Read { sector: rng.below(g.e * g.s), length: rng.range(0, g.s) },
            1 | 2 => collection(rng, g),
            _ => {
                let page = rng.below(g.e);
                data(rng, g, page)
            }
        }
    }

    fn odd(&mut self, rng: &mut Rng, g: &Geometry) -> Call {
        match rng.below(if self.fuses { 16 } else { 12 }) {
            0 | 1 => Call::Encode,
            2 => Call::RestoreLast,
            3 => Call::Open(rng.pick(&[None, Some(0), Some(g.n as u32 - 1), Some(g.n as u32), Some(u32::MAX)])),
            4 => Call::Format,
            5 => wrong_write(rng, g),
            6 => wrong_read(rng, g),
            7..=11 => self.plain(rng, g),
            12 => Call::Fuse(u64::MAX),
            _ => Call::Fuse(rng.below(8) as u64),
        }
    }
}

/// A write into a page: whole, empty, or a part; the buffer is sometimes longer than the length.
pub fn data(rng: &mut Rng, g: &Geometry, page: usize) -> Call {
    let offset = if rng.chance(2) { 0 } else { rng.below(g.s) };
    let len = match rng.below(8) {
        0 => 0,
        1..=4 => g.s - offset,
        _ => rng.range(0, g.s - offset),
    };
    let more = if rng.chance(8) { rng.range(1, 4) } else { 0 };
    Call::Write { sector: page * g.s + offset, len, data: rng.bytes(len + more) }
}

fn wrong_write(rng: &mut Rng, g: &Geometry) -> Call {
    let sector = rng.pick(&[0, g.s - 1, g.e * g.s - 1, g.e * g.s, g.e * g.s + g.s, usize::MAX, usize::MAX - 1]);
    let len = rng.pick(&[0, 1, 2, g.s, g.s + 1]);
    Call::Write { sector, len, data: rng.bytes(len) }
}

fn wrong_read(rng: &mut Rng, g: &Geometry) -> Call {
    let sector = rng.pick(&[0, g.s - 1, g.e * g.s - 1, g.e * g.s, usize::MAX]);
    Call::Read { sector, length: rng.pick(&[0, 1, 2, g.s, g.s + 1, usize::MAX, usize::MAX - g.s]) }
}

pub fn collection(rng: &mut Rng, g: &Geometry) -> Call {
    let m = rng.pick(&[0, 1, 1, 2, 3, g.n, g.n + 1, usize::MAX]);
    match rng.below(4) {
        0 => Call::List(m),
        1 => Call::Threshold(rng.pick(&[0, 1, pages_over(g, 4), pages_over(g, 2), pages_over(g, 1), u64::MAX]), m),
        _ => Call::Collect,
    }
}

fn pages_over(g: &Geometry, part: usize) -> u64 {
    (g.n * g.p / part) as u64
}

/// One run of a random length.
fn one(seed: u64, fuses: bool, tally: &mut Tally) -> Result<(), Failure> {
    let mut rng = Rng::new(seed);
    let g = geometry(&mut rng);
    let bad = bad_list(&mut rng, g.n);
    let mut calls = Gen::new(&bad, fuses);
    let mut run = Run::new(g, bad, seed, tally)?;
    for _ in 0..rng.pick(&[50, 200, 1000]) {
        let call = calls.next(&mut rng, &g, &run.pair.unit);
        run.step(call, tally)?;
    }
    run.close()
}

/// Runs from this seed on, one seed for each.
pub fn run(seed: u64, fuses: bool, tally: &mut Tally) -> Result<(), Failure> {
    let mut seed = seed;
    while !tally.spent() {
        one(seed, fuses, tally)?;
        seed += 1;
    }
    Ok(())
}
