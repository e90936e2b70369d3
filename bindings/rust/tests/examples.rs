//! Document 01's marked examples E1 to E10 and its trace, as calls.
use shillingreed::{crc32, Flash, Ftl, Geometry, OwnedFtl, Reason, Refusal, Scratch, Tables, ENDLESS};

const A: Geometry = Geometry { n: 2, p: 2, s: 4, w: 1, e: 3, limit: 5 };

fn fresh(geo: Geometry) -> OwnedFtl {
    let mut unit = OwnedFtl::new(geo).unwrap();
    assert_eq!(unit.format(), Ok(0));
    assert_eq!(unit.open(), Ok(0));
    unit
}

/// Writes whole logical pages, each filled with its place in the list.
fn pages(unit: &mut OwnedFtl, list: &[usize]) {
    for (i, &l) in list.iter().enumerate() {
        let s = unit.geo.s;
        assert_eq!(unit.write(l * s, &vec![i as u8; s]), Ok(s));
    }
}

fn map(unit: &OwnedFtl) -> Vec<Option<(usize, usize)>> {
    let view = unit.view().unwrap();
    (0..unit.geo.e).map(|l| view.place(l)).collect()
}

/// A checkpoint's file, put together here.
fn file(geo: Geometry, alloc: u64, map: &[u32], free: &[u32]) -> Vec<u8> {
    let mut head = Vec::new();
    head.extend(0x5046_5443u32.to_le_bytes());
    head.extend(1u32.to_le_bytes());
    for x in [alloc, geo.n as u64, geo.p as u64, geo.e as u64] {
        head.extend(x.to_le_bytes());
    }
    let body: Vec<u8> = map.iter().chain(free).flat_map(|x| x.to_le_bytes()).collect();
    let crc = by_bits(&[&head[..], &body].concat());
    [&head[..], &crc.to_le_bytes(), &body].concat()
}

/// CRC-32, bit by bit.
fn by_bits(xs: &[u8]) -> u32 {
    let step = |c: u32| if c & 1 == 1 { c >> 1 ^ 0xEDB8_8320 } else { c >> 1 };
    !xs.iter().fold(!0, |c, &x| (0..8).fold(c ^ u32::from(x), |c, _| step(c)))
}

#[test]
fn e1_length_0_spends_a_page() {
    let mut unit = fresh(A);
    assert_eq!(unit.write(0, &[]), Ok(0));
    assert_eq!(unit.view().unwrap().place(0), Some((0, 0)));
    let mut out = [9; 4];
    assert_eq!(unit.read(0, &mut out), Ok(4));
    assert_eq!(out, [0; 4]);
}

#[test]
fn e2_a_write_stays_in_its_page() {
    let mut unit = fresh(A);
    assert_eq!(unit.write(1, &[1, 2, 3]), Ok(3));
    let before = unit.clone();
    assert_eq!(unit.write(1, &[1, 2, 3, 4]), Err(Refusal::Wrong));
    assert!(unit == before);
}

#[test]
fn e3_the_last_sector() {
    let mut unit = fresh(A);
    assert_eq!(unit.write(11, &[1]), Ok(1));
    assert_eq!(unit.write(12, &[1]), Err(Refusal::Wrong));
    assert_eq!(unit.write(12, &[]), Err(Refusal::Wrong));
}

#[test]
fn e4_e5_no_room_for_a_copy() {
    let mut unit = fresh(A);
    pages(&mut unit, &[0, 1, 2, 0]);
    assert_eq!(unit.collect(), Err(Refusal::NoRoom));
    assert_eq!(unit.view().unwrap().place(1), Some((0, 1)));
    let before = unit.clone();
    assert_eq!(unit.collect(), Ok(0));
    assert!(unit == before);
}

#[test]
fn e6_full_with_a_dead_page_and_not_queued() {
    let mut unit = fresh(Geometry { p: 3, w: 2, ..A });
    pages(&mut unit, &[0, 0, 1]);
    let view = unit.view().unwrap();
    assert_eq!((view.free(0), view.valid(0), view.list(0)), (Some(0), Some(2), &[0, 1][..]));
    assert_eq!((view.queue().len(), view.flag(0)), (0, Some(false)));
}

#[test]
fn e7_equal_valid_counts_keep_the_queues_order() {
    let mut unit = fresh(Geometry { n: 3, ..A });
    pages(&mut unit, &[0, 1, 2, 0]);
    assert_eq!(unit.collect(), Ok(0));
    pages(&mut unit, &[2, 1]);
    let view = unit.view().unwrap();
    assert_eq!((view.queue(), view.valid(2), view.valid(1)), (&[2, 1][..], Some(1), Some(1)));
    assert_eq!(view.victim(), Some(2));
    let before = unit.counts.clone();
    assert_eq!(unit.collect(), Ok(0));
    assert_eq!((unit.counts[1], unit.counts[2]), (before[1], before[2] + 1));
}

#[test]
fn e8_the_first_repeat_wins() {
    let mut unit = fresh(A);
    assert_eq!(unit.restore(&file(A, 0, &[0, 0, 1], &[1, 2])), Ok(0));
    assert_eq!(map(&unit), [Some((0, 0)), None, None]);
}

#[test]
fn e9_reasons_in_their_order() {
    let mut unit = fresh(A);
    let because = |r| Err(Refusal::Reason(r));
    assert_eq!(unit.restore(&file(A, 0, &[0, 0, 1], &[2, 2])), Ok(0));
    let before = unit.clone();
    assert_eq!(unit.restore(&file(A, 0, &[0, 0, 1], &[2, 3])), because(Reason::Free));
    assert_eq!(unit.restore(&file(A, 2, &[0, 0, 1], &[2, 3])), because(Reason::Alloc));
    let mut bad = file(A, 2, &[0, 0, 1], &[2, 3]);
    bad[40] ^= 1;
    assert_eq!(unit.restore(&bad), because(Reason::Crc));
    bad.push(0);
    assert_eq!(unit.restore(&bad), because(Reason::Length));
    assert_eq!(unit.restore(&file(Geometry { e: 2, ..A }, 0, &[0; 2], &[2, 2])), because(Reason::Entries));
    assert_eq!(unit.restore(&file(Geometry { p: 1, ..A }, 0, &[0; 3], &[1, 1])), because(Reason::Shape));
    bad[4] = 2;
    assert_eq!(unit.restore(&bad), because(Reason::Version));
    bad[0] = 0;
    assert_eq!(unit.restore(&bad), because(Reason::Magic));
    assert_eq!(unit.restore(&bad[..43]), because(Reason::Short));
    assert!(unit == before);
}

#[test]
fn e10_a_checkpoint_of_64_bytes_in_borrowed_memory() {
    let (mut tab, mut used, mut bytes, mut marks, mut counts) = ([0; 19], [0; 4], [0; 16], [0; 4], [0; 2]);
    let (mut fuse, mut page, mut seen, mut order, mut taken) = (ENDLESS, [0; 4], [0; 4], [0; 2], [0; 4]);
    let mut unit = Ftl {
        geo: A,
        tables: Tables { tab: &mut tab, used: &mut used },
        flash: Flash { bytes: &mut bytes, marks: &mut marks, counts: &mut counts, fuse: &mut fuse },
        bad: &[0, 0],
        scratch: Scratch { page: &mut page, seen: &mut seen, order: &mut order, taken: &mut taken },
    };
    assert_eq!(unit.format().and(unit.open()), Ok(0));
    let mut buffer = [7; 66];
    assert_eq!(unit.encode(&mut buffer[..63]), Err(Refusal::Wrong));
    assert_eq!(unit.encode(&mut buffer), Ok(64));
    assert_eq!(buffer[..64], file(A, 0, &[u32::MAX; 3], &[2, 2]));
    assert_eq!(buffer[64..], [7, 7]);
    assert_eq!(unit.restore(&buffer[..64]), Ok(0));
}

#[test]
fn the_trace_as_calls() {
    let mut unit = fresh(Geometry { n: 3, p: 2, s: 4, w: 1, e: 3, limit: 10 });
    assert_eq!(unit.write(0, b"ab"), Ok(2));
    assert_eq!(unit.write(1, b"c"), Ok(1));
    assert_eq!(unit.write(4, b"wxyz"), Ok(4));
    assert_eq!(unit.collect(), Ok(0));
    let mut out = [9; 4];
    assert_eq!(unit.read(0, &mut out), Ok(4));
    assert_eq!(out, [0x61, 0x63, 0, 0]);
    assert_eq!(unit.write(12, b"!"), Err(Refusal::Wrong));
    assert_eq!(map(&unit), [Some((1, 1)), Some((1, 0)), None]);
}

#[test]
fn crc32_is_the_published_one() {
    assert_eq!(crc32(b"123456789"), 0xCBF4_3926);
    assert_eq!(crc32(b""), 0);
    let xs: Vec<u8> = (0..1000u32).map(|i| ((i * i) >> 3) as u8).collect();
    for end in 0..xs.len() {
        assert_eq!(crc32(&xs[..end]), by_bits(&xs[..end]));
    }
}
