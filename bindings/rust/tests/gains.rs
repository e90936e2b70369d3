//! What a collection gains, planned before the call by the view's names and held to what the call did.
use shillingreed::{Geometry, OwnedFtl, Refusal, ENDLESS};

const FOUR: Geometry = Geometry { n: 4, p: 2, s: 4, w: 1, e: 3, limit: 5 };
const B: Geometry = Geometry { n: 2, p: 3, s: 4, w: 2, e: 4, limit: 5 };
const NINE: Geometry = Geometry { n: 3, e: 5, ..B };
const EIGHT: Geometry = Geometry { n: 2, p: 4, s: 4, w: 2, e: 6, limit: 5 };

/// The victim and its listed pages (not its valid count, which a spent page raises), the free pages outside the bad list and in all.
struct Plan {
    victim: Option<usize>,
    listed: usize,
    room: usize,
    total: usize,
}

fn plan(unit: &OwnedFtl) -> Plan {
    let view = unit.view().unwrap();
    let free = |g: usize| view.free(g).unwrap();
    let (victim, n) = (view.victim(), unit.geo.n);
    Plan {
        victim,
        listed: victim.map_or(0, |g| view.list(g).len()),
        room: (0..n).filter(|&g| unit.bad[g] == 0).map(free).sum(),
        total: (0..n).map(free).sum(),
    }
}

/// One collection, held to its plan. In service and with an endless fuse the device refuses no copy.
fn collect(unit: &mut OwnedFtl, service: bool) -> Result<usize, Refusal> {
    let (before, was, p) = (unit.clone(), plan(unit), unit.geo.p);
    let answer = unit.collect_told();
    let Some(g) = was.victim else {
        assert!(answer == Ok(0) && *unit == before);
        return answer;
    };
    let (now, v) = (plan(unit), was.listed);
    match answer {
        Ok(count) => {
            assert!(count == 0 && was.room >= v);
            assert_eq!(now.total, was.total + (p - v));
            assert_eq!(now.room, if unit.bad[g] == 0 { was.room + (p - v) } else { was.room - v });
        }
        Err(Refusal::Full) => assert!(was.room < v && now.room == 0 && now.total == was.total - was.room),
        Err(Refusal::CopyDevice) => {
            let spent = was.total - now.total;
            assert!(!service && (1..=v.min(was.room)).contains(&spent) && now.room == was.room - spent);
        }
        Err(Refusal::Device) => assert!(was.room >= v && now.room == was.room - v && now.total == was.total - v),
        Err(other) => panic!("{other}"),
    }
    answer
}

fn fresh(geo: Geometry) -> OwnedFtl {
    let mut unit = OwnedFtl::new(geo).unwrap();
    unit.format().and(unit.open()).unwrap();
    unit
}

/// Steps, bad segments, fuse; listed pages, room, total; the answer; room and total then. A digit writes that whole page; x is a
/// write with the fuse out, which spends a page.
type Row = (Geometry, &'static str, &'static [usize], u64, [usize; 3], Result<usize, Refusal>, [usize; 2]);

#[test]
fn directed() {
    let (one, worn) = (Geometry { n: 1, e: 2, ..FOUR }, Geometry { limit: 0, ..FOUR });
    let rows: [Row; 12] = [
        (FOUR, "01", &[], ENDLESS, [0, 6, 6], Ok(0), [6, 6]), // nothing queued
        (FOUR, "0101", &[], ENDLESS, [0, 4, 4], Ok(0), [6, 6]),
        (FOUR, "0101", &[0, 1, 2, 3], ENDLESS, [0, 0, 4], Ok(0), [0, 6]), // all bad
        (FOUR, "010", &[0], ENDLESS, [1, 5, 5], Ok(0), [4, 6]),           // a bad victim
        (B, "x1002", &[], ENDLESS, [1, 1, 1], Ok(0), [3, 3]),             // valid 2, for a page was spent
        (NINE, "0120", &[2], ENDLESS, [2, 2, 5], Ok(0), [3, 6]),
        (NINE, "01203", &[2], ENDLESS, [2, 1, 4], Err(Refusal::Full), [0, 3]), // free pages enough, in a bad segment
        (EIGHT, "012304", &[], 2, [3, 2, 2], Err(Refusal::Full), [0, 0]),
        (EIGHT, "012304", &[], 1, [3, 2, 2], Err(Refusal::CopyDevice), [0, 0]), // the fuse ends before the room
        (one, "00", &[], ENDLESS, [1, 0, 0], Err(Refusal::Full), [0, 0]),
        (worn, "010", &[], ENDLESS, [1, 5, 5], Err(Refusal::Device), [4, 4]),
        (worn, "010", &[1, 2, 3], ENDLESS, [1, 0, 5], Err(Refusal::Full), [0, 5]),
    ];
    for (geo, steps, bad, fuse, held, answer, then) in rows {
        let mut unit = fresh(geo);
        for step in steps.chars() {
            unit.fuse = if step == 'x' { 0 } else { ENDLESS };
            let answer = unit.write_told(step.to_digit(10).unwrap_or(0) as usize * 4, &[7; 4]);
            assert_eq!(answer, if step == 'x' { Err(Refusal::Device) } else { Ok(4) });
        }
        bad.iter().for_each(|&g| unit.bad[g] = 1);
        unit.fuse = fuse;
        let was = plan(&unit);
        assert_eq!(([was.listed, was.room, was.total], collect(&mut unit, false)), (held, answer), "{steps}");
        let now = plan(&unit);
        assert_eq!([now.room, now.total], then, "{steps}");
    }
}

/// Every collection of many short lives. Out of service there are restores of an older state, and fuses for collections.
fn many_lives(mut seed: u64, service: bool) {
    let mut any = |below: usize| {
        seed ^= seed << 13;
        seed ^= seed >> 7;
        seed ^= seed << 17;
        (seed >> 16) as usize % below
    };
    let mut ends = [0; 122];
    for _ in 0..400 {
        let mut unit = fresh(Geometry { limit: [1, 99][any(2)], ..[FOUR, B, NINE, EIGHT][any(4)] });
        let mut file = unit.checkpoint().unwrap();
        for _ in 0..50 {
            unit.bad[any(unit.geo.n)] = (any(5) == 0) as u8;
            let (call, fuse) = (any(20), if any(6) == 0 { any(3) as u64 } else { ENDLESS });
            unit.fuse = if service && call < 8 { ENDLESS } else { fuse };
            match call {
                0 if !service => file = unit.checkpoint().unwrap(),
                1 if !service => assert_eq!(unit.restore_dead(&file), Ok(0)),
                0..=7 if plan(&unit).victim.is_some() => {
                    ends[collect(&mut unit, service).map_or_else(|why| why.number() as usize, |_| 0)] += 1
                }
                _ => drop(unit.write_told(any(unit.geo.e) * 4, &[7; 4])),
            }
        }
    }
    assert!([0, 5, 28].iter().all(|&end| ends[end] > 50) && if service { ends[121] == 0 } else { ends[121] > 50 }, "{ends:?}");
}

#[test]
fn from_many_states() {
    many_lives(88172645463325252, false);
    many_lives(2463534242, true);
}
