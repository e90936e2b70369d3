//! The new numbers beside the old: same units, and answers equal after 28 and 121 are read as 14.
use shillingreed::{Geometry, OwnedFtl, Refusal};

const A: Geometry = Geometry { n: 2, p: 2, s: 4, w: 1, e: 3, limit: 5 };
const B: Geometry = Geometry { n: 2, p: 3, s: 4, w: 2, e: 4, limit: 5 };

type Call = fn(&mut OwnedFtl) -> Result<usize, Refusal>;

/// Each call of the old numbers, and its told one.
const WRITE: (Call, Call) = (|u| u.write(0, &[7]), |u| u.write_told(0, &[7]));
const COLLECTIONS: [(Call, Call); 3] = [
    (|u| u.collect(), |u| u.collect_told()),
    (|u| u.collect_list(4), |u| u.collect_list_told(4)),
    (|u| u.collect_threshold(9, 4), |u| u.collect_threshold_told(9, 4)),
];
/// With a threshold that the free pages are above, and one that they equal.
const BELOW: (Call, Call) = (|u| u.collect_threshold(0, 4), |u| u.collect_threshold_told(0, 4));
const EQUAL: (Call, Call) = (|u| u.collect_threshold(1, 4), |u| u.collect_threshold_told(1, 4));

/// Made on units that are the same, the two leave the same, and the new answer read as old is the old one. Gives the new one.
fn beside(unit: &OwnedFtl, (old, told): (Call, Call)) -> Result<usize, Refusal> {
    let (mut a, mut b) = (unit.clone(), unit.clone());
    let (was, is) = (old(&mut a), told(&mut b));
    assert!(a == b);
    assert_eq!(is.map_err(Refusal::as_old), was);
    assert_ne!(is, Err(Refusal::NoRoom));
    is
}

/// A unit with these marks set and these whole pages written.
fn after(geo: Geometry, marks: &[u8], list: &[usize]) -> OwnedFtl {
    let mut unit = OwnedFtl::new(geo).unwrap();
    unit.format().unwrap();
    unit.open().unwrap();
    unit.marks[..marks.len()].copy_from_slice(marks);
    for &l in list {
        unit.write_told(l * geo.s, &vec![l as u8; geo.s]).unwrap();
    }
    unit
}

#[test]
fn full() {
    let unit = after(A, &[], &[0, 1, 2, 0]);
    assert_eq!(beside(&unit, WRITE), Err(Refusal::Full));
    for call in COLLECTIONS {
        assert_eq!(beside(&unit, call), Err(Refusal::Full));
    }
}

#[test]
fn a_copy_at_the_device() {
    let marked = after(B, &[0, 0, 0, 0, 0, 2], &[0, 1, 0]);
    let mut dead = after(B, &[], &[0, 1, 0]);
    dead.fuse = 0;
    for call in COLLECTIONS {
        assert_eq!(beside(&marked, call), Err(Refusal::CopyDevice));
        assert_eq!(beside(&dead, call), Err(Refusal::CopyDevice));
    }
    assert_eq!(beside(&dead, WRITE), Err(Refusal::Device));
}

#[test]
fn the_rest_is_as_it_was() {
    let worn = after(Geometry { limit: 0, ..A }, &[], &[0, 0]);
    let done = after(A, &[], &[0, 0]);
    let mut unsound = after(A, &[], &[0, 0]);
    unsound.tab[0] = 9;
    let mut wrong = done.clone();
    wrong.geo.p = 0;
    for call in COLLECTIONS {
        assert_eq!(beside(&worn, call), Err(Refusal::Device));
        assert_eq!(beside(&done, call), Ok(0));
        assert_eq!(beside(&unsound, call), Err(Refusal::Unsound));
        assert_eq!(beside(&wrong, call), Err(Refusal::Wrong));
    }
    assert_eq!(beside(&done, WRITE), Ok(1));
    assert_eq!(beside(&unsound, WRITE), Err(Refusal::Unsound));
    assert_eq!(beside(&wrong, WRITE), Err(Refusal::Wrong));
}

#[test]
fn two_queued() {
    let mut unit = after(Geometry { n: 3, ..A }, &[], &[0, 1, 2, 0]);
    assert_eq!(unit.collect_told(), Ok(0));
    for l in [2, 1] {
        assert_eq!(unit.write_told(l * 4, &[l as u8; 4]), Ok(4));
    }
    assert_eq!(COLLECTIONS.map(|call| beside(&unit, call)), [Ok(0), Ok(1), Ok(1)]);
    assert_eq!(beside(&unit, BELOW), Ok(0));
    assert_eq!(beside(&unit, EQUAL), Ok(1));
}

#[test]
fn in_words() {
    assert_eq!(Refusal::Full.to_string(), "full: no free page outside the bad list (28)");
    assert_eq!(Refusal::CopyDevice.to_string(), "the device refused a copy (121)");
}
