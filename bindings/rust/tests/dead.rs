//! The restore that queues the dead: beside the old one, and as the cure of a refused collection.
use shillingreed::{crc32, Geometry, OwnedFtl, Reason, Refusal, ENDLESS};

const FOUR: Geometry = Geometry { n: 4, p: 2, s: 4, w: 1, e: 3, limit: 5 };
const THREE: Geometry = Geometry { n: 3, ..FOUR };
const A: Geometry = Geometry { n: 2, ..FOUR };
const B: Geometry = Geometry { n: 2, p: 3, s: 4, w: 2, e: 4, limit: 5 };

/// A unit with these whole pages written.
fn with(geo: Geometry, pages: &[usize]) -> OwnedFtl {
    let mut unit = OwnedFtl::new(geo).unwrap();
    unit.format().and(unit.open()).unwrap();
    write(&mut unit, pages);
    unit
}

fn write(unit: &mut OwnedFtl, pages: &[usize]) {
    pages.iter().for_each(|l| assert_eq!(unit.write_told(l * 4, &[*l as u8 + 1; 4]), Ok(4)));
}

fn queue(unit: &OwnedFtl) -> Vec<u32> {
    unit.view().unwrap().queue().to_vec()
}

fn flags(unit: &OwnedFtl) -> Vec<u32> {
    let view = unit.view().unwrap();
    (0..unit.geo.n as u32).filter(|&g| view.flag(g as usize) == Some(true)).collect()
}

fn room(unit: &OwnedFtl) -> usize {
    let view = unit.view().unwrap();
    (0..unit.geo.n).filter(|&g| unit.bad[g] == 0).filter_map(|g| view.free(g)).sum()
}

fn contents(unit: &mut OwnedFtl) -> Vec<Result<[u8; 4], Refusal>> {
    let e = unit.geo.e;
    let page = |l| {
        let mut out = [0; 4];
        unit.read(l * 4, &mut out).map(|_| out)
    };
    (0..e).map(page).collect()
}

/// Restores a file by both names, over lost tables. The new one queues these segments and sets their flags, the old one none; nothing else
/// differs. Gives the new one's unit.
fn beside(unit: &OwnedFtl, file: &[u8], dead: &[u32]) -> OwnedFtl {
    let (mut old, mut new) = (unit.clone(), unit.clone());
    old.tab.fill(0xA5A5_A5A5);
    new.tab.fill(0xDEAD_BEEF);
    new.used.fill(9);
    assert_eq!((old.restore(file), new.restore_dead(file)), (Ok(0), Ok(0)));
    assert_eq!((queue(&old), flags(&old)), (vec![], vec![]));
    assert_eq!((queue(&new), flags(&new)), (dead.to_vec(), dead.to_vec()));
    let (given, n) = (new.clone(), new.geo.n);
    let start = new.geo.e + 3 * n;
    new.tab[start..][..2 * n].fill(0);
    new.tab[start + 2 * n + 1] = 0;
    assert!(old == new);
    given
}

/// Saved, and restored so.
fn again(unit: &mut OwnedFtl, dead: &[u32]) {
    let file = unit.checkpoint().unwrap();
    *unit = beside(unit, &file, dead);
    assert_eq!(unit.checkpoint().unwrap(), file);
}

#[test]
fn small_devices() {
    let (thin, one) = (Geometry { n: 3, p: 1, w: 0, e: 2, ..FOUR }, Geometry { n: 1, e: 2, ..FOUR });
    let rows: [(Geometry, &[usize], &[u32]); 12] = [
        (FOUR, &[0, 0, 0, 0, 0, 0], &[0, 1, 2]),
        (THREE, &[0, 0, 1, 2], &[0]), // segment 1 is full and live
        (B, &[0, 0], &[]),            // one free page
        (B, &[0, 0, 0], &[0]),
        (B, &[0, 0, 1], &[0]), // dead before it was full: no write queues it
        (B, &[0, 1, 2], &[]),
        (thin, &[0, 1], &[]),
        (thin, &[0, 0], &[0]), // p 1: full and unmapped
        (one, &[], &[]),
        (one, &[0], &[]),
        (one, &[0, 1], &[]),
        (one, &[0, 0], &[0]),
    ];
    for (geo, pages, dead) in rows {
        again(&mut with(geo, pages), dead);
    }
}

/// The file with a byte changed and its checksum put right.
fn sealed(file: &[u8], at: usize, byte: u8) -> Vec<u8> {
    let mut file = file.to_vec();
    file[at] = byte;
    let crc = crc32(&[&file[..40], &file[44..]].concat());
    file[40..44].copy_from_slice(&crc.to_le_bytes());
    file
}

#[test]
fn a_dropped_map_word_leaves_a_dead_page() {
    let mut unit = with(FOUR, &[0, 1]);
    let file = unit.checkpoint().unwrap();
    beside(&unit, &file, &[]);
    for word in [0, 2, 8] {
        beside(&unit, &sealed(&file, 48, word), &[0]); // page 1: taken already, a page not used, a segment >= n
    }
}

/// A unit with queue 2, 1, of equal valid counts.
fn two_queued() -> OwnedFtl {
    let mut unit = with(THREE, &[0, 1, 2, 0]);
    assert_eq!(unit.collect_told(), Ok(0));
    write(&mut unit, &[2, 1]);
    assert_eq!((queue(&unit), unit.view().unwrap().victim()), (vec![2, 1], Some(2)));
    unit
}

#[test]
fn a_refused_file_leaves_everything() {
    let mut unit = two_queued();
    let before = unit.clone();
    let file = unit.checkpoint().unwrap();
    let mut no_crc = file.clone();
    no_crc[40] ^= 1;
    let files = [
        (file[..43].to_vec(), Reason::Short),
        (sealed(&file, 0, 0), Reason::Magic),
        (sealed(&file, 4, 2), Reason::Version),
        (sealed(&file, 16, 2), Reason::Shape),
        (sealed(&file, 24, 1), Reason::Shape),
        (sealed(&file, 32, 2), Reason::Entries),
        ([&file[..], &[0]].concat(), Reason::Length),
        (no_crc, Reason::Crc),
        (sealed(&file, 8, 3), Reason::Alloc),
        (sealed(&file, 56, 3), Reason::Free),
    ];
    for (bad, why) in files {
        assert_eq!((unit.restore(&bad), unit.restore_dead(&bad)), (Err(Refusal::Reason(why)), Err(Refusal::Reason(why))));
        assert!(unit == before, "{why:?}");
    }
    let changes: [fn(&mut OwnedFtl); 3] = [|u| u.tab.push(0), |u| u.used.push(0), |u| u.geo.p = 0];
    for change in changes {
        let mut wrong = before.clone();
        change(&mut wrong);
        let was = wrong.clone();
        assert_eq!(wrong.restore_dead(&file), Err(Refusal::Wrong));
        assert!(wrong == was);
    }
    assert_eq!(unit.restore_dead(&file), Ok(0));
}

#[test]
fn the_lowest_of_equals_is_taken() {
    let mut unit = two_queued();
    let before = unit.counts.clone();
    again(&mut unit, &[1, 2]);
    assert_eq!((unit.view().unwrap().victim(), unit.collect_told()), (Some(1), Ok(0)));
    assert_eq!(unit.counts, [before[0], before[1] + 1, before[2]]);
}

/// The collection of segment 0 is refused: it is off the queue, its flag set. Saved and restored it is queued.
fn refused(unit: &mut OwnedFtl, fuse: u64, why: Refusal) {
    let held = contents(unit);
    unit.fuse = fuse;
    assert_eq!((queue(unit), unit.collect_told()), (vec![0], Err(why)));
    unit.fuse = ENDLESS;
    assert_eq!((queue(unit), flags(unit), unit.view().unwrap().free(0)), (vec![], vec![0], Some(0)));
    again(unit, &[0]);
    assert_eq!(contents(unit), held);
}

#[test]
fn a_refused_collection_is_made_good() {
    let mut full = with(A, &[0, 1, 2, 0]);
    refused(&mut full, ENDLESS, Refusal::Full);
    assert_eq!(full.collect_told(), Err(Refusal::Full)); // there is still no room
    for (fuse, gain) in [(0, 1), (1, 2)] {
        let mut unit = with(B, &[0, 1, 0]); // at the first copy, at the second
        refused(&mut unit, fuse, Refusal::CopyDevice);
        let (held, before) = (contents(&mut unit), room(&unit));
        assert_eq!(unit.collect_told(), Ok(0));
        assert_eq!((contents(&mut unit), room(&unit)), (held, before + gain));
    }
}

/// The erase is refused of a segment that holds no page: by the old restore no call reaches it, and the unit ends without room.
#[test]
fn a_refused_erase_is_made_good_but_not_by_the_old_restore() {
    let mut unit = with(THREE, &[0, 1, 0, 1]);
    refused(&mut unit, 0, Refusal::Device);
    let mut old = unit.clone();
    let file = old.checkpoint().unwrap();
    assert_eq!(old.restore(&file), Ok(0));
    assert_eq!((unit.collect_told(), room(&unit)), (Ok(0), 4));
    assert_eq!((old.collect_told(), room(&old)), (Ok(0), 2));
    for _ in 0..4 {
        for unit in [&mut unit, &mut old] {
            write(unit, &[0, 1]);
            assert_eq!(unit.collect_told(), Ok(0));
        }
        assert_eq!((room(&unit), room(&old), old.view().unwrap().free(0)), (4, 2, Some(0)));
    }
    write(&mut unit, &[0, 1, 2]);
    write(&mut old, &[0, 1]);
    assert_eq!(old.write_told(8, &[3; 4]), Err(Refusal::Full));
}

/// A full segment without pages that a restart finds: the old restore leaves it to the hand, see recovery.rs.
#[test]
fn a_full_segment_without_pages_is_queued() {
    let mut unit = with(Geometry { n: 4, ..B }, &[0, 1, 2, 0, 1, 2]);
    again(&mut unit, &[0]);
    assert_eq!((unit.collect_told(), unit.view().unwrap().free(0)), (Ok(0), Some(3)));
}

#[test]
fn a_worn_out_segment_is_refused_at_every_restart() {
    let mut unit = with(FOUR, &[0, 1, 0, 1, 0]);
    unit.counts[0] = 5;
    for dead in [&[0, 1][..], &[0], &[0]] {
        again(&mut unit, dead);
        assert_eq!(unit.collect_list_told(9), Err(Refusal::Device));
        assert_eq!((queue(&unit), unit.view().unwrap().flag(0)), (dead[1..].to_vec(), Some(true)));
        assert_eq!((unit.collect_list_told(9), unit.counts[1]), (Ok(0), 1));
    }
}

/// A collection does not look at the bad list: the pages of a bad segment move out, and it gives no room.
#[test]
fn a_bad_segment_is_collected_once() {
    let mut unit = with(FOUR, &[0, 1, 2, 0]);
    unit.bad[0] = 1;
    again(&mut unit, &[0]);
    assert_eq!((room(&unit), unit.collect_told()), (4, Ok(0)));
    assert_eq!((room(&unit), unit.view().unwrap().free(0)), (3, Some(2)));
    again(&mut unit, &[]);
}
