//! A look into tables that hold anything, with any index: no panic, and nothing where there is none.
use shillingreed::{Geometry, OwnedFtl, Refusal, View};

const SHAPES: [Geometry; 4] = [
    Geometry { n: 1, p: 1, s: 1, w: 0, e: 1, limit: 9 },
    Geometry { n: 5, p: 1, s: 4, w: 16, e: 3, limit: 9 },
    Geometry { n: 4, p: 3, s: 4, w: 2, e: 6, limit: 9 },
    Geometry { n: 6, p: 4, s: 8, w: 2, e: 24, limit: 9 },
];

/// Words that damage: past a length, past the last segment or page, and the largest.
fn words(geo: Geometry) -> [u32; 9] {
    [0, 1, geo.p as u32, geo.p as u32 + 1, geo.n as u32, geo.n as u32 + 1, geo.e as u32, 0x7FFF_FFFF, u32::MAX]
}

/// Where the queue, its length, the valid counts and the list lengths begin.
fn starts(geo: Geometry) -> (usize, usize, usize, usize) {
    let Geometry { n, e, .. } = geo;
    (e + 3 * n, e + 5 * n + 1, e + n, e + 2 * n)
}

fn indices(geo: Geometry) -> impl Iterator<Item = usize> {
    (0..geo.n * geo.p + geo.e + 2).chain([usize::MAX / geo.p, usize::MAX / 2, usize::MAX - 1, usize::MAX])
}

/// The victim by its definition: the first of the queued segments that are there with the fewest valid pages.
fn victim_of(geo: Geometry, tab: &[u32]) -> Option<usize> {
    let (queue, length, valid, _) = starts(geo);
    let queued = &tab[queue..][..geo.n.min(tab[length] as usize)];
    let there: Vec<usize> = queued.iter().map(|&g| g as usize).filter(|&g| g < geo.n).collect();
    let least = there.iter().map(|&g| tab[valid + g]).min()?;
    there.into_iter().find(|&g| tab[valid + g] == least)
}

fn look(geo: Geometry, view: View<'_>, tab: &[u32]) {
    assert!(view.queue().len() <= geo.n && view.alloc().iter().all(|&g| g < geo.n));
    assert_eq!(view.victim(), victim_of(geo, tab));
    for i in indices(geo) {
        assert!(view.place(i).iter().all(|&(g, k)| i < geo.e && g < geo.n && k < geo.p));
        let there = i < geo.n;
        assert_eq!((view.free(i).is_some(), view.valid(i).is_some(), view.flag(i).is_some()), (there, there, there));
        assert!(view.list(i).len() <= if there { geo.p } else { 0 });
    }
}

fn used_unit(geo: Geometry) -> OwnedFtl {
    let mut unit = OwnedFtl::new(geo).unwrap();
    unit.format().and(unit.open()).unwrap();
    for i in 0..geo.n * geo.p {
        let _ = unit.write(i * i % geo.e * geo.s, &[i as u8]);
    }
    unit
}

#[test]
fn any_words_and_any_index() {
    let mut seed = 1u64;
    let mut any = || {
        seed ^= seed << 13;
        seed ^= seed >> 7;
        seed ^= seed << 17;
        (seed >> 16) as u32
    };
    for geo in SHAPES {
        let mut unit = used_unit(geo);
        let sound = unit.tab.clone();
        for (at, word) in (0..sound.len()).flat_map(|at| words(geo).map(|word| (at, word))) {
            unit.tab.copy_from_slice(&sound);
            unit.tab[at] = word;
            look(geo, unit.view().unwrap(), &unit.tab);
        }
        for _ in 0..500 {
            let mask = any() >> (any() % 32);
            unit.tab.iter_mut().for_each(|x| *x = any() & mask);
            look(geo, unit.view().unwrap(), &unit.tab);
        }
    }
}

#[test]
fn a_damaged_queue_has_no_victim_but_those_that_are_there() {
    for geo in SHAPES {
        let mut unit = used_unit(geo);
        let (queue, length, _, lens) = starts(geo);
        unit.tab.fill(u32::MAX);
        let view = unit.view().unwrap();
        assert_eq!((view.victim(), view.alloc(), view.place(0)), (None, None, None));
        assert_eq!((view.queue().len(), view.list(0).len()), (geo.n, geo.p));
        unit.tab[length] = 0x7FFF_FFFF;
        unit.tab[queue..][..geo.n].fill(geo.n as u32);
        assert_eq!(unit.view().unwrap().victim(), None);
        unit.tab[queue + geo.n - 1] = geo.n as u32 - 1;
        assert_eq!(unit.view().unwrap().victim(), Some(geo.n - 1));
        unit.tab[lens + geo.n - 1] = geo.p as u32 + 1;
        assert_eq!(unit.view().unwrap().list(geo.n - 1).len(), geo.p);
        assert_eq!(unit.collect(), Err(Refusal::Unsound));
    }
}

#[test]
fn tables_of_another_size_are_not_looked_into() {
    for geo in SHAPES {
        let mut unit = used_unit(geo);
        for wrong in [Geometry { w: 64, ..geo }, Geometry { n: usize::MAX, ..geo }, Geometry { e: 0, ..geo }] {
            unit.geo = wrong;
            assert_eq!(unit.view().err(), Some(Refusal::Wrong));
        }
        unit.geo = geo;
        unit.tab.push(0);
        assert_eq!(unit.view().err(), Some(Refusal::Wrong));
        while unit.tab.len() > geo.sizes().unwrap().tab {
            unit.tab.pop();
        }
        assert!(unit.view().is_ok());
        while unit.tab.pop().is_some() {
            assert_eq!(unit.view().err(), Some(Refusal::Wrong));
        }
    }
}
