//! Power cuts. A checkpoint is taken, calls follow, and the power goes at every device operation in turn, between two of them or in the
//! middle of one. Whatever is left in memory, the checkpoint restored over the flash by either name gives every page back, so long as no
//! segment that holds a page mapped at the checkpoint was begun to be erased.
use shillingreed::{Geometry, OwnedFtl, Refusal};

struct Rng(u64);

impl Rng {
    fn below(&mut self, n: usize) -> usize {
        self.0 ^= self.0 >> 12;
        self.0 ^= self.0 << 25;
        self.0 ^= self.0 >> 27;
        (self.0.wrapping_mul(2_685_821_657_736_338_717) >> 16) as usize % n
    }

    fn garble(&mut self, xs: &mut [u8]) {
        xs.iter_mut().for_each(|x| *x = self.below(256) as u8);
    }
}

#[derive(Clone, Debug)]
enum Call {
    Write(usize, Vec<u8>),
    Collect,
    List(usize),
    Threshold(u64, usize),
    RestoreSame,
    RestoreSameDead,
}

fn any_call(rng: &mut Rng, geo: Geometry) -> Call {
    match rng.below(10) {
        0..=5 => {
            let (l, off) = (rng.below(geo.e), rng.below(geo.s));
            let mut data = vec![0; rng.below(geo.s - off + 1)];
            rng.garble(&mut data);
            Call::Write(l * geo.s + off, data)
        }
        6 | 7 => Call::Collect,
        8 if rng.below(2) == 0 => Call::List(rng.below(3)),
        8 => Call::Threshold(rng.below(geo.n * geo.p) as u64, rng.below(3)),
        _ if rng.below(2) == 0 => Call::RestoreSame,
        _ => Call::RestoreSameDead,
    }
}

fn run(unit: &mut OwnedFtl, call: &Call, file: &[u8]) -> Result<usize, Refusal> {
    match call {
        Call::Write(sector, data) => unit.write(*sector, data),
        Call::Collect => unit.collect(),
        Call::List(m) => unit.collect_list(*m),
        Call::Threshold(t, m) => unit.collect_threshold(*t, *m),
        Call::RestoreSame => unit.restore(file),
        Call::RestoreSameDead => unit.restore_dead(file),
    }
}

/// The unit after the calls, with a fuse of f.
fn after(start: &OwnedFtl, calls: &[Call], file: &[u8], f: u64) -> OwnedFtl {
    let mut unit = start.clone();
    unit.fuse = f;
    for call in calls {
        match run(&mut unit, call, file) {
            Ok(_) | Err(Refusal::NoRoom | Refusal::Device) => (),
            Err(other) => panic!("{call:?}: {other}"),
        }
    }
    unit
}

fn contents(unit: &mut OwnedFtl) -> Vec<Result<Vec<u8>, Refusal>> {
    let Geometry { s, e, .. } = unit.geo;
    let page = |l| {
        let mut out = vec![0; s];
        unit.read(l * s, &mut out).map(|_| out)
    };
    (0..e).map(page).collect()
}

/// A device operation, as two flashes show it that differ by one.
#[derive(Clone, Copy, Debug, PartialEq)]
enum Op {
    Program(usize),
    Erase(usize),
}

fn between(a: &OwnedFtl, b: &OwnedFtl) -> Op {
    let erased = (0..a.geo.n).find(|&g| a.counts[g] != b.counts[g]).map(Op::Erase);
    let marked = || (0..a.marks.len()).find(|&at| a.marks[at] != b.marks[at]).map(Op::Program);
    erased.or_else(marked).expect("one more operation changes the flash")
}

/// The flash with the operation torn: a page marked with any bytes, or a segment of which nothing is known.
fn torn(unit: &mut OwnedFtl, op: Op, rng: &mut Rng) {
    let (p, s) = (unit.geo.p, unit.geo.s);
    match op {
        Op::Program(at) => {
            rng.garble(&mut unit.bytes[at * s..][..s]);
            unit.marks[at] = 1 + rng.below(255) as u8;
        }
        Op::Erase(g) => {
            rng.garble(&mut unit.bytes[g * p * s..][..p * s]);
            rng.garble(&mut unit.marks[g * p..][..p]);
            unit.counts[g] = rng.below(1 << 32) as u32;
        }
    }
}

/// What the tables hold when the power is back: anything.
fn forget(unit: &mut OwnedFtl, rng: &mut Rng) {
    unit.tab.iter_mut().for_each(|x| *x = rng.below(1 << 32) as u32);
    rng.garble(&mut unit.used);
    unit.fuse = shillingreed::ENDLESS;
}

#[derive(Default, Debug)]
struct Seen {
    cuts: usize,
    given_back: usize,
    after_an_erase: usize,
    ended: usize,
}

/// A unit with a past, some of its queued segments drained by writes of no bytes.
fn with_a_past(rng: &mut Rng) -> OwnedFtl {
    let (n, p) = (3 + rng.below(4), 1 + rng.below(4));
    let geo = Geometry { n, p, s: 1 + rng.below(6), w: 2 + rng.below(2), e: 1 + rng.below((n - 2) * p), limit: 3 + rng.below(20) };
    let mut unit = OwnedFtl::new(geo).unwrap();
    unit.bad[rng.below(n)] = rng.below(2) as u8;
    unit.format().and(unit.open()).unwrap();
    for _ in 0..rng.below(40) {
        let call = any_call(rng, geo);
        let _ = run(&mut unit, &call, &[]);
    }
    for _ in 0..rng.below(3) {
        let Some(victim) = unit.view().unwrap().victim() else { break };
        for l in unit.view().unwrap().list(victim).to_vec() {
            let _ = unit.write(l as usize * geo.s, &[]);
        }
    }
    unit
}

/// Cuts one history at every operation.
fn cut_everywhere(rng: &mut Rng, seen: &mut Seen) {
    let mut start = with_a_past(rng);
    let file = start.checkpoint().unwrap();
    let held = contents(&mut start);
    let view = start.view().unwrap();
    let holds = |g: usize| (0..start.geo.e).any(|l| view.place(l).is_some_and(|(at, _)| at == g));
    let calls: Vec<Call> = (0..1 + rng.below(25)).map(|_| any_call(rng, start.geo)).collect();
    let plenty = 1 << 20;
    let total = plenty - after(&start, &calls, &file, plenty).fuse;
    let mut begun: Vec<usize> = Vec::new();
    for f in 0..=total {
        let flash = after(&start, &calls, &file, f);
        let next = (f < total).then(|| between(&flash, &after(&start, &calls, &file, f + 1)));
        given_back(flash.clone(), &file, &held, !begun.iter().any(|&g| holds(g)), !begun.is_empty(), rng, seen);
        if let Some(Op::Erase(g)) = next {
            begun.push(g);
        }
        if let Some(op) = next {
            let mut cut = flash;
            torn(&mut cut, op, rng);
            given_back(cut, &file, &held, !begun.iter().any(|&g| holds(g)), !begun.is_empty(), rng, seen);
        }
    }
}

/// The power comes back over a flash. Where the guarantee stands, the checkpoint gives every page back, and the unit goes on.
fn given_back(
    mut unit: OwnedFtl, file: &[u8], held: &[Result<Vec<u8>, Refusal>], stands: bool, erased: bool, rng: &mut Rng, seen: &mut Seen,
) {
    seen.cuts += 1;
    forget(&mut unit, rng);
    let mut old = unit.clone();
    assert_eq!((unit.restore_dead(file), old.restore(file)), (Ok(0), Ok(0)));
    if !stands {
        seen.ended += 1;
        return;
    }
    assert_eq!(contents(&mut unit), held);
    assert_eq!(contents(&mut old), held);
    seen.given_back += 1;
    seen.after_an_erase += usize::from(erased);
    goes_on(&mut unit, held, rng);
}

/// A write after the restore, repeated while pages programmed since the checkpoint, or below such, are met, is read back, and no other page changes.
fn goes_on(unit: &mut OwnedFtl, held: &[Result<Vec<u8>, Refusal>], rng: &mut Rng) {
    let (l, s) = (rng.below(unit.geo.e), unit.geo.s);
    let mut page = vec![0; s];
    rng.garble(&mut page);
    let answer = loop {
        match unit.write(l * s, &page) {
            Err(Refusal::Device) => continue,
            other => break other,
        }
    };
    let mut now = held.to_vec();
    match answer {
        Ok(_) => now[l] = Ok(page),
        Err(refusal) => assert_eq!(refusal, Refusal::NoRoom),
    }
    assert_eq!(contents(unit), now);
}

#[test]
fn every_cut_gives_the_checkpoint_back() {
    let mut seen = Seen::default();
    for seed in 1..=5_000u64 {
        cut_everywhere(&mut Rng(seed.wrapping_mul(0x9E37_79B9_7F4A_7C15)), &mut seen);
    }
    println!("{seen:?}");
    assert_eq!(seen.cuts, seen.given_back + seen.ended);
    assert!(seen.given_back > 30_000 && seen.after_an_erase > 9_000 && seen.ended > 30_000, "{seen:?}");
}

/// Formatting's erases are device operations too: torn in a segment without mapped pages, it takes nothing.
#[test]
fn a_torn_formatting_of_an_empty_segment_takes_nothing() {
    let mut rng = Rng(77);
    let mut unit = OwnedFtl::new(Geometry { n: 3, p: 2, s: 4, w: 1, e: 2, limit: 9 }).unwrap();
    unit.format().and(unit.open()).unwrap();
    for l in [0, 1, 0, 1] {
        unit.write(l * 4, b"peak").unwrap();
    }
    assert_eq!(unit.collect(), Ok(0));
    let file = unit.checkpoint().unwrap();
    let held = contents(&mut unit);
    for f in 0..2 {
        let mut cut = unit.clone();
        cut.fuse = f;
        assert_eq!(cut.format(), Ok(0));
        if f == 0 {
            torn(&mut cut, Op::Erase(0), &mut rng);
        }
        forget(&mut cut, &mut rng);
        assert_eq!(cut.restore_dead(&file), Ok(0));
        assert_eq!(contents(&mut cut), held);
    }
}
