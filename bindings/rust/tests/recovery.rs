//! What docs/USING.md says of draining and of refused collections, and what the old restore leaves unqueued. The restore that queues the dead is in
//! dead.rs.
use shillingreed::{Geometry, OwnedFtl, Refusal, ENDLESS};

const GEO: Geometry = Geometry { n: 4, p: 3, s: 4, w: 2, e: 6, limit: 9 };

fn with(geo: Geometry, pages: &[usize]) -> OwnedFtl {
    let mut unit = OwnedFtl::new(geo).unwrap();
    unit.format().and(unit.open()).unwrap();
    pages.iter().for_each(|l| assert_eq!(unit.write(l * geo.s, &[*l as u8 + 1; 4]), Ok(4)));
    unit
}

fn contents(unit: &mut OwnedFtl) -> Vec<[u8; 4]> {
    let page = |l| {
        let mut out = [0; 4];
        assert!(matches!(unit.read(l * 4, &mut out), Ok(4) | Err(Refusal::Unmapped)));
        out
    };
    (0..GEO.e).map(page).collect()
}

/// Puts a segment at the queue's end, past the calls.
fn queue_by_hand(unit: &mut OwnedFtl, segment: usize) {
    let (queue, n) = (unit.geo.e + 3 * unit.geo.n, unit.geo.n);
    let (flags, length) = (queue + n, queue + 2 * n + 1);
    let at = queue + unit.tab[length] as usize;
    unit.tab[at] = segment as u32;
    unit.tab[flags + segment] = 1;
    unit.tab[length] += 1;
}

/// A collection of segment 0 that is refused at its second copy.
fn refused_at_a_copy() -> OwnedFtl {
    let mut unit = with(GEO, &[0, 1, 2, 0]);
    assert_eq!(unit.view().unwrap().queue(), [0]);
    unit.fuse = 1;
    let held = contents(&mut unit);
    assert_eq!(unit.collect(), Err(Refusal::NoRoom));
    unit.fuse = ENDLESS;
    assert_eq!(contents(&mut unit), held);
    let view = unit.view().unwrap();
    assert_eq!((view.queue().len(), view.flag(0), view.list(0)), (0, Some(true), &[1][..]));
    unit
}

#[test]
fn a_refused_copy_is_made_good_by_the_old_restore_and_a_write() {
    let mut unit = refused_at_a_copy();
    unit.write(4, &[]).unwrap(); // the flag is set: no write queues the segment
    assert!(unit.view().unwrap().queue().is_empty());
    let mut unit = refused_at_a_copy();
    let held = contents(&mut unit);
    let file = unit.checkpoint().unwrap();
    assert_eq!(unit.restore(&file), Ok(0));
    assert_eq!(unit.view().unwrap().flag(0), Some(false));
    unit.write(4, &[]).unwrap(); // page 1 is moved out of segment 0
    assert_eq!(unit.view().unwrap().queue(), [0]);
    assert_eq!(unit.collect(), Ok(0));
    assert_eq!((unit.view().unwrap().free(0), contents(&mut unit)), (Some(3), held));
}

#[test]
fn a_refused_copy_is_made_good_by_hand() {
    let mut unit = refused_at_a_copy();
    let held = contents(&mut unit);
    queue_by_hand(&mut unit, 0);
    assert_eq!(unit.collect(), Ok(0));
    assert_eq!((unit.view().unwrap().free(0), contents(&mut unit)), (Some(3), held));
}

#[test]
fn queueing_by_hand_what_is_not_full_is_found_out() {
    let mut unit = with(GEO, &[0, 0]);
    queue_by_hand(&mut unit, 0);
    assert_eq!(unit.collect(), Err(Refusal::Unsound));
}

#[test]
fn after_the_old_restore_a_full_segment_without_pages_is_queued_by_hand_alone() {
    let mut unit = with(GEO, &[0, 1, 2, 0, 1, 2]);
    let file = unit.checkpoint().unwrap();
    assert_eq!(unit.restore(&file), Ok(0));
    for l in 0..3 {
        unit.write(l * 4, &[]).unwrap();
    }
    assert_eq!(unit.view().unwrap().queue(), [1]); // segment 0 is full of dead pages, and no call reaches it
    queue_by_hand(&mut unit, 0);
    assert_eq!(unit.collect(), Ok(0));
    assert_eq!(unit.collect(), Ok(0));
    assert_eq!((unit.view().unwrap().free(0), unit.view().unwrap().free(1)), (Some(3), Some(3)));
}

#[test]
fn a_worn_segment_queued_again_comes_first_and_stops_the_list() {
    let mut unit = with(Geometry { limit: 0, ..GEO }, &[0, 1, 2, 0, 1, 2, 0]);
    assert_eq!(unit.collect(), Err(Refusal::Device));
    for _ in 0..2 {
        queue_by_hand(&mut unit, 0);
        assert_eq!(unit.view().unwrap().victim(), Some(0));
        assert_eq!(unit.collect_list(9), Err(Refusal::Device));
        assert_eq!(unit.view().unwrap().queue(), [1]);
    }
}

/// From many states: the segment that `victim` names is the one taken, also after it was drained, and then it is erased with one operation.
#[test]
fn a_drained_segment_is_taken_and_only_erased() {
    let mut seed = 1u64;
    let mut any = |n: usize| {
        seed = seed.wrapping_mul(6_364_136_223_846_793_005).wrapping_add(1_442_695_040_888_963_407);
        (seed >> 33) as usize % n
    };
    let mut drained = 0;
    for _ in 0..3_000 {
        let mut unit = with(Geometry { n: 6, ..GEO }, &[]);
        for _ in 0..any(60) {
            unit.marks[any(18)] |= u8::from(any(9) == 0); // pages that refuse, as after a restart
            let _ = if any(5) == 0 { unit.collect() } else { unit.write(any(6) * 4, &[7]) };
        }
        let Some(g) = unit.view().unwrap().victim() else { continue };
        let held = contents(&mut unit);
        while let Some(&l) = unit.view().unwrap().list(g).last() {
            if unit.write(l as usize * 4, &[]) == Err(Refusal::NoRoom) {
                break;
            }
        }
        assert_eq!(contents(&mut unit), held);
        if !unit.view().unwrap().list(g).is_empty() || unit.counts[g] == 9 {
            continue;
        }
        let before = unit.counts[g];
        unit.fuse = 5;
        assert_eq!(unit.collect(), Ok(0));
        assert_eq!((unit.fuse, unit.counts[g], unit.view().unwrap().free(g)), (4, before + 1, Some(3)));
        drained += 1;
    }
    assert!(drained > 500, "{drained}");
}

/// Over older checkpoints a clear page may lie below a programmed one: it is refused and spent, and the write is repeated.
#[test]
fn an_old_checkpoint_may_leave_a_page_out_of_order() {
    let mut unit = with(GEO, &[]);
    let none = unit.checkpoint().unwrap();
    assert_eq!(unit.write(0, &[1; 4]), Ok(4));
    let first = unit.checkpoint().unwrap();
    assert_eq!((unit.write(0, &[2; 4]), unit.write(0, &[3; 4]), unit.collect()), (Ok(4), Ok(4), Ok(0)));
    assert_eq!((unit.restore_dead(&first), unit.write(0, &[4; 4])), (Ok(0), Ok(4)));
    assert_eq!((unit.restore_dead(&none), &unit.marks[..3]), (Ok(0), &[0, 1, 0][..]));
    assert_eq!(unit.write(0, &[5; 4]), Err(Refusal::Device)); // page 0, below page 1
    assert_eq!(unit.write(0, &[5; 4]), Err(Refusal::Device)); // page 1, marked itself
    assert_eq!(unit.write(0, &[5; 4]), Ok(4));
    assert_eq!((unit.view().unwrap().free(0), &unit.marks[..3]), (Some(0), &[0, 1, 1][..]));
}
