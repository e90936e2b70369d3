//! What is lent wrongly is refused and stays; refusals have words.
use shillingreed::{Geometry, OwnedFtl, Reason, Refusal, ENDLESS};

const GEO: Geometry = Geometry { n: 3, p: 4, s: 8, w: 2, e: 7, limit: 9 };

fn fresh() -> OwnedFtl {
    let mut unit = OwnedFtl::new(GEO).unwrap();
    unit.format().and(unit.open()).unwrap();
    unit
}

/// Every call that is lent the tables, the flash, the bad list and scratch.
fn all_refuse(unit: &mut OwnedFtl, why: Refusal) {
    let before = unit.clone();
    assert_eq!(unit.write(0, b"x"), Err(why));
    assert_eq!(unit.collect(), Err(why));
    assert_eq!(unit.collect_list(1), Err(why));
    assert_eq!(unit.collect_threshold(0, 1), Err(why));
    assert!(*unit == before);
}

#[test]
fn a_part_one_short_or_one_long_is_wrong() {
    type Change = fn(&mut OwnedFtl, bool);
    fn resize<T: Clone + Default>(xs: &mut Vec<T>, longer: bool) {
        if longer {
            xs.push(T::default())
        } else {
            xs.pop();
        }
    }
    let parts: [Change; 6] = [
        |u, b| resize(&mut u.tab, b),
        |u, b| resize(&mut u.used, b),
        |u, b| resize(&mut u.bytes, b),
        |u, b| resize(&mut u.marks, b),
        |u, b| resize(&mut u.counts, b),
        |u, b| resize(&mut u.bad, b),
    ];
    for change in parts {
        for longer in [false, true] {
            let mut unit = fresh();
            change(&mut unit, longer);
            all_refuse(&mut unit, Refusal::Wrong);
        }
    }
}

#[test]
fn a_wrong_geometry_has_no_sizes() {
    let wrong = [
        Geometry { n: 0, ..GEO },
        Geometry { n: 65_536, ..GEO },
        Geometry { p: 0, ..GEO },
        Geometry { p: 5, ..GEO },
        Geometry { p: 1_025, w: 11, ..GEO },
        Geometry { s: 0, ..GEO },
        Geometry { s: 16_385, ..GEO },
        Geometry { w: 17, ..GEO },
        Geometry { w: usize::MAX, ..GEO },
        Geometry { e: 0, ..GEO },
        Geometry { e: 13, ..GEO },
        Geometry { limit: 1 << 32, ..GEO },
        Geometry { n: usize::MAX, p: usize::MAX, s: usize::MAX, w: usize::MAX, e: usize::MAX, limit: usize::MAX },
    ];
    for geo in wrong {
        assert_eq!(geo.sizes(), Err(Refusal::Wrong), "{geo:?}");
        let mut unit = fresh();
        unit.geo = geo;
        all_refuse(&mut unit, Refusal::Wrong);
        assert_eq!(unit.format(), Err(Refusal::Wrong));
    }
}

#[test]
fn sizes_are_those_of_the_largest_geometry_too() {
    let z = GEO.sizes().unwrap();
    assert_eq!((z.tab, z.used, z.bytes, z.marks, z.counts, z.bad), (7 + 15 + 2 + 12, 12, 96, 12, 3, 3));
    assert_eq!((z.page, z.seen, z.order, z.taken, z.checkpoint), (8, 7, 3, 12, 44 + 28 + 12));
    let pages = 65_535 * 1_024;
    let most = Geometry { n: 65_535, p: 1_024, s: 16_384, w: 16, e: pages, limit: u32::MAX as usize };
    let z = most.sizes().unwrap();
    assert_eq!((z.tab, z.bytes, z.checkpoint), (2 * pages + 5 * 65_535 + 2, pages * 16_384, 44 + 4 * pages + 4 * 65_535));
}

#[test]
fn tables_that_are_not_sound_stay() {
    let mut unit = fresh();
    unit.write(0, b"x").unwrap();
    unit.tab[0] = 1; // the second page of segment 0 is not used
    all_refuse(&mut unit, Refusal::Unsound);
    assert_eq!(unit.read(8, &mut [0; 1]), Err(Refusal::Unsound));
    assert_eq!(unit.checkpoint(), Err(Refusal::Unsound));
}

#[test]
fn a_refused_programming_spends_its_page_and_the_next_write_goes_on() {
    let mut unit = fresh();
    unit.marks[0] = 7;
    assert_eq!(unit.write(0, b"x"), Err(Refusal::Device));
    let view = unit.view().unwrap();
    assert_eq!((view.place(0), view.free(0), view.valid(0)), (None, Some(3), Some(1)));
    assert_eq!(unit.write(0, b"x"), Ok(1));
    assert_eq!(unit.view().unwrap().place(0), Some((0, 1)));
    assert_eq!((unit.marks[0], unit.fuse), (7, ENDLESS));
}

#[test]
fn a_worn_segment_leaves_the_queue() {
    let mut unit = OwnedFtl::new(Geometry { limit: 0, ..GEO }).unwrap();
    unit.format().and(unit.open()).unwrap();
    for _ in 0..5 {
        unit.write(0, b"x").unwrap();
    }
    assert_eq!(unit.view().unwrap().queue(), [0]);
    assert_eq!(unit.collect(), Err(Refusal::Device));
    let view = unit.view().unwrap();
    assert_eq!((view.queue().len(), view.flag(0), view.free(0), view.list(0).len()), (0, Some(true), Some(0), 0));
}

#[test]
fn refusals_have_words_and_numbers() {
    assert_eq!(Refusal::NoRoom.to_string(), "no room (14)");
    assert_eq!(Refusal::Reason(Reason::Crc).to_string(), "not restored: checksum does not fit (7)");
    assert_eq!(Refusal::Reason(Reason::Entries).number(), 5);
    assert_eq!(Refusal::Device.number(), 5);
}
