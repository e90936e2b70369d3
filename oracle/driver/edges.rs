//! Compares the port with `plain.rs` after every call: the answer and all that was lent.
//!
//! It covers what has no counterpart in the Rust: wrong sizes, dirty scratch, unsound
//! tables, wrong geometries, fuses, worn and marked flash, damaged checkpoints. A write and a
//! collection are also made in the new numbers, on a copy of what the old call was lent; so is
//! every restore with the dead queued, and runs go on from what either of the two left. What a
//! single collection must gain or spend is worked out here, beside both sides.
//!
//!     edges [part] [--seconds N] [--calls N] [--seed S] [--announce]
//!
//! Parts: all (every part, then random runs to the end), selftest, runs (random ones),
//! extremes (right geometries at their limits), words (all tables of tiny devices), files (all maps
//! and free counts of tiny devices), numbers (sizes and CRC-32), and those of `PARTS`. A difference
//! is printed with the shortest run that still shows it, and the exit status is 1.
//! `--announce` prints each call before it is made, for a port that would not return; its told
//! call, or a restore's other one, follows unannounced.

#[path = "plain.rs"]
mod plain;
#[path = "port.rs"]
mod port;

use plain::{Answer, Cause, Geometry, Lent, Numbers, EMPTY, ENDLESS};
use std::collections::BTreeMap;
use std::process::ExitCode;
use std::time::Instant;

// ---------------------------------------------------------------- chance

/// Splitmix: a seed gives the same run on every machine.
struct Rng(u64);

impl Rng {
    fn next(&mut self) -> u64 {
        self.0 = self.0.wrapping_add(0x9E37_79B9_7F4A_7C15);
        let mut x = self.0;
        x = (x ^ (x >> 30)).wrapping_mul(0xBF58_476D_1CE4_E5B9);
        x = (x ^ (x >> 27)).wrapping_mul(0x94D0_49BB_1331_11EB);
        x ^ (x >> 31)
    }

    /// A number from 0 to `bound` - 1.
    fn below(&mut self, bound: u64) -> u64 {
        self.next() % bound
    }

    fn one_in(&mut self, times: u64) -> bool {
        self.below(times) == 0
    }

    fn pick<T: Copy>(&mut self, from: &[T]) -> T {
        from[self.below(from.len() as u64) as usize]
    }

    fn shuffle<T>(&mut self, list: &mut [T]) {
        for i in (1..list.len()).rev() {
            list.swap(i, self.below(i as u64 + 1) as usize);
        }
    }
}

// ---------------------------------------------------------------- what is lent

/// The parts of what is lent, each compared after every call.
#[derive(Clone, Copy, PartialEq, Eq, Debug)]
enum Field {
    Tab,
    Used,
    Bytes,
    Marks,
    Counts,
    Fuse,
    Bad,
    Data,
    Out,
    Buffer,
    File,
    Page,
    Seen,
    Order,
    Taken,
}

use Field::*;

const FIELDS: [Field; 15] = [
    Tab, Used, Bytes, Marks, Counts, Fuse, Bad, Data, Out, Buffer, File, Page, Seen, Order, Taken,
];
const SCRATCH: [Field; 4] = [Page, Seen, Order, Taken];

/// One part, with elements of any width seen as numbers.
enum Slot<'a> {
    Bytes(&'a mut Vec<u8>),
    Words(&'a mut Vec<u32>),
    Number(&'a mut u64),
}

fn slot(lent: &mut Lent, field: Field) -> Slot<'_> {
    match field {
        Tab => Slot::Words(&mut lent.tab),
        Used => Slot::Bytes(&mut lent.used),
        Bytes => Slot::Bytes(&mut lent.bytes),
        Marks => Slot::Bytes(&mut lent.marks),
        Counts => Slot::Words(&mut lent.counts),
        Fuse => Slot::Number(&mut lent.fuse),
        Bad => Slot::Bytes(&mut lent.bad),
        Data => Slot::Bytes(&mut lent.data),
        Out => Slot::Bytes(&mut lent.out),
        Buffer => Slot::Bytes(&mut lent.buffer),
        File => Slot::Bytes(&mut lent.file),
        Page => Slot::Bytes(&mut lent.page),
        Seen => Slot::Bytes(&mut lent.seen),
        Order => Slot::Words(&mut lent.order),
        Taken => Slot::Bytes(&mut lent.taken),
    }
}

impl Slot<'_> {
    fn len(&self) -> usize {
        match self {
            Slot::Bytes(list) => list.len(),
            Slot::Words(list) => list.len(),
            Slot::Number(_) => 1,
        }
    }

    fn get(&self, at: usize) -> u64 {
        match self {
            Slot::Bytes(list) => list[at] as u64,
            Slot::Words(list) => list[at] as u64,
            Slot::Number(number) => **number,
        }
    }

    fn set(&mut self, at: usize, value: u64) {
        match self {
            Slot::Bytes(list) => list[at] = value as u8,
            Slot::Words(list) => list[at] = value as u32,
            Slot::Number(number) => **number = value,
        }
    }

    /// New elements are 0.
    fn resize(&mut self, length: usize) {
        match self {
            Slot::Bytes(list) => list.resize(length, 0),
            Slot::Words(list) => list.resize(length, 0),
            Slot::Number(_) => (),
        }
    }
}

/// The exact length of a part, where the numbers, right or wrong, give one.
fn exact(geo: &Geometry, field: Field) -> Option<usize> {
    let pages = geo.n.checked_mul(geo.p)?;
    let length = match field {
        Tab => geo.n.checked_mul(5)?.checked_add(geo.e)?.checked_add(2)?.checked_add(pages)?,
        Used | Marks | Taken => pages,
        Bytes => pages.checked_mul(geo.s)?,
        Counts | Bad | Order => geo.n,
        Page => geo.s,
        Seen => geo.n.checked_add(geo.p)?,
        _ => return None,
    };
    usize::try_from(length).ok()
}

/// Where the named words of `tab` begin (decision Q2).
fn at_free(geo: &Geometry) -> usize {
    geo.e as usize
}
fn at_valid(geo: &Geometry) -> usize {
    (geo.e + geo.n) as usize
}
fn at_lens(geo: &Geometry) -> usize {
    (geo.e + 2 * geo.n) as usize
}
fn at_queue(geo: &Geometry) -> usize {
    (geo.e + 3 * geo.n) as usize
}
fn at_flags(geo: &Geometry) -> usize {
    (geo.e + 4 * geo.n) as usize
}
fn at_alloc(geo: &Geometry) -> usize {
    (geo.e + 5 * geo.n) as usize
}
fn at_queued(geo: &Geometry) -> usize {
    at_alloc(geo) + 1
}
fn at_lists(geo: &Geometry) -> usize {
    at_alloc(geo) + 2
}

/// A word of `tab` by its name.
fn word_name(geo: &Geometry, at: usize) -> String {
    let (n, p, e) = (geo.n as usize, geo.p as usize, geo.e as usize);
    if at < e {
        return format!("map {at}");
    }
    if at >= at_lists(geo) {
        let k = at - at_lists(geo);
        return format!("list {} slot {}", k / p, k % p);
    }
    match (at - e) / n {
        0 => format!("free {}", at - e),
        1 => format!("valid {}", at - e - n),
        2 => format!("list length {}", at - e - 2 * n),
        3 => format!("queue slot {}", at - e - 3 * n),
        4 => format!("flag {}", at - e - 4 * n),
        _ if at == at_alloc(geo) => "allocation segment".into(),
        _ => "queue length".into(),
    }
}

// ---------------------------------------------------------------- calls

#[derive(Clone, Copy, Debug, PartialEq, Eq)]
enum Call {
    Format,
    Open,
    Read(u64, u64),
    Write(u64, u64),
    Collect,
    List(u64),
    Threshold(u64, u64),
    Encode,
    Restore,
    RestoreDead,
}

use Call::*;

impl Call {
    fn name(&self) -> &'static str {
        match self {
            Format => "format",
            Open => "open",
            Read(..) => "read",
            Write(..) => "write",
            Collect => "collect",
            List(_) => "collect_list",
            Threshold(..) => "collect_threshold",
            Encode => "encode",
            Restore => "restore",
            RestoreDead => "restore_dead",
        }
    }

    /// The name under which the call answers in the new numbers, if it has one.
    fn told(&self) -> Option<&'static str> {
        match self {
            Write(..) => Some("write_told"),
            Collect => Some("collect_told"),
            List(_) => Some("collect_list_told"),
            Threshold(..) => Some("collect_threshold_told"),
            _ => None,
        }
    }

    /// A restore under its other name.
    fn other(&self) -> Option<Call> {
        match self {
            Restore => Some(RestoreDead),
            RestoreDead => Some(Restore),
            _ => None,
        }
    }

    /// What the entry is lent.
    fn lent(&self) -> &'static [Field] {
        match self {
            Format => &[Bytes, Marks, Counts, Fuse],
            Open => &[Tab, Used],
            Read(..) => &[Tab, Used, Bytes, Out, Seen],
            Write(..) => &[Data, Bad, Tab, Used, Bytes, Marks, Counts, Fuse, Page, Seen],
            Collect | List(_) | Threshold(..) => {
                &[Bad, Tab, Used, Bytes, Marks, Counts, Fuse, Page, Seen, Order]
            }
            Encode => &[Tab, Used, Buffer, Seen],
            Restore | RestoreDead => &[File, Tab, Used, Taken],
        }
    }
}

/// The calls that every part makes on a state, with numbers that mostly succeed.
fn usual_calls(geo: &Geometry) -> Vec<Call> {
    let last = geo.s.saturating_mul(geo.e.saturating_sub(1));
    let pages = geo.n.saturating_mul(geo.p);
    vec![
        Format,
        Open,
        Read(0, geo.s),
        Read(last, 0),
        Write(0, geo.s),
        Write(last, 0),
        Collect,
        List(0),
        List(2),
        List(u64::MAX),
        Threshold(0, 3),
        Threshold(pages, 3),
        Encode,
        Restore,
    ]
}

fn by_plain(geo: &Geometry, call: &Call, lent: &mut Lent) -> Answer {
    match *call {
        Format => plain::format(geo, lent),
        Open => plain::open(geo, lent),
        Read(sector, length) => plain::read(geo, sector, length, lent),
        Write(sector, length) => plain::write(geo, sector, length, lent),
        Collect => plain::collect(geo, lent),
        List(m) => plain::collect_list(geo, m, lent),
        Threshold(t, m) => plain::collect_threshold(geo, t, m, lent),
        Encode => plain::encode(geo, lent),
        Restore => plain::restore(geo, lent),
        RestoreDead => plain::restore_dead(geo, lent),
    }
}

/// An answer in 01's numbers.
fn old(answer: Answer) -> i64 {
    plain::number(Numbers::Old, answer)
}

fn port_geometry(geo: &Geometry) -> port::Geometry {
    port::Geometry {
        n: geo.n as usize,
        p: geo.p as usize,
        s: geo.s as usize,
        w: geo.w as usize,
        e: geo.e as usize,
        limit: geo.limit as usize,
    }
}

fn port_numbers(numbers: Numbers) -> port::Numbers {
    match numbers {
        Numbers::Old => port::Numbers::Old,
        Numbers::New => port::Numbers::New,
    }
}

/// Moves what both layers name alike from `$from` to `$to`.
macro_rules! move_unit {
    ($from:expr, $to:expr) => {
        $to.tab = std::mem::take(&mut $from.tab);
        $to.used = std::mem::take(&mut $from.used);
        $to.bytes = std::mem::take(&mut $from.bytes);
        $to.marks = std::mem::take(&mut $from.marks);
        $to.counts = std::mem::take(&mut $from.counts);
        $to.fuse = $from.fuse;
        $to.page = std::mem::take(&mut $from.page);
        $to.seen = std::mem::take(&mut $from.seen);
        $to.order = std::mem::take(&mut $from.order);
        $to.taken = std::mem::take(&mut $from.taken);
    };
}

/// The library's call on vectors that are lent as they are.
fn ask_port(geo: &Geometry, numbers: Numbers, call: &Call, lent: &mut Lent) -> i64 {
    let (g, numbers) = (&port_geometry(geo), port_numbers(numbers));
    let empty = port::Geometry { n: 0, p: 0, s: 0, w: 0, e: 0, limit: 0 };
    let mut unit = port::Unit::new(&empty);
    move_unit!(lent, unit);
    let (u, bad) = (&mut unit, &lent.bad[..]);
    let answer = match *call {
        Format => port::format(g, u),
        Open => port::open(g, u),
        Read(sector, length) => port::read(g, sector as usize, length as usize, u, &mut lent.out),
        Write(sector, length) => {
            port::write(g, numbers, bad, sector as usize, length as usize, &lent.data, u)
        }
        Collect => port::collect(g, numbers, bad, u),
        List(m) => port::collect_list(g, numbers, bad, m as usize, u),
        Threshold(t, m) => port::collect_threshold(g, numbers, bad, t, m as usize, u),
        Encode => port::encode(g, u, &mut lent.buffer),
        Restore => port::restore(g, port::Queueing::Empty, &lent.file, u),
        RestoreDead => port::restore(g, port::Queueing::Dead, &lent.file, u),
    };
    move_unit!(unit, lent);
    answer
}

/// Elements behind each lent vector that no call may touch.
const GUARD: usize = 8;
const GUARD_VALUE: u64 = 0xA5A5_A5A5;

/// Lengthens a part by its guard, then hides the guard: it lies past the length.
fn guard(lent: &mut Lent, field: Field) {
    match slot(lent, field) {
        Slot::Bytes(list) => {
            let length = list.len();
            list.resize(length + GUARD, GUARD_VALUE as u8);
            unsafe { list.set_len(length) }
        }
        Slot::Words(list) => {
            let length = list.len();
            list.resize(length + GUARD, GUARD_VALUE as u32);
            unsafe { list.set_len(length) }
        }
        Slot::Number(_) => (),
    }
}

/// Whether the guard, which `guard` has written, is whole.
fn guarded(lent: &mut Lent, field: Field) -> bool {
    match slot(lent, field) {
        Slot::Bytes(list) => {
            let past = unsafe { std::slice::from_raw_parts(list.as_ptr().add(list.len()), GUARD) };
            past.iter().all(|&byte| byte == GUARD_VALUE as u8)
        }
        Slot::Words(list) => {
            let past = unsafe { std::slice::from_raw_parts(list.as_ptr().add(list.len()), GUARD) };
            past.iter().all(|&word| word == GUARD_VALUE as u32)
        }
        Slot::Number(_) => true,
    }
}

/// What a side leaves: its answer, all that was lent, and a part it wrote past, if any.
#[derive(Clone)]
struct Outcome {
    answer: i64,
    lent: Lent,
    past: Option<Field>,
}

fn by_port(geo: &Geometry, numbers: Numbers, call: &Call, lent: &Lent) -> Outcome {
    let mut lent = lent.clone();
    for field in FIELDS {
        guard(&mut lent, field);
    }
    let answer = ask_port(geo, numbers, call, &mut lent);
    let past = FIELDS.into_iter().find(|&field| !guarded(&mut lent, field));
    Outcome { answer, lent, past }
}

// ---------------------------------------------------------------- comparing

#[derive(Clone, Debug)]
struct Difference {
    field: String,
    plain: String,
    port: String,
}

fn difference(field: &str, plain: impl ToString, port: impl ToString) -> Option<Difference> {
    Some(Difference { field: field.into(), plain: plain.to_string(), port: port.to_string() })
}

/// The first place where one part differs.
fn compare_field(geo: &Geometry, field: Field, a: Slot, b: Slot) -> Option<Difference> {
    let name = format!("{field:?}");
    if a.len() != b.len() {
        return difference(&format!("{name} length"), a.len(), b.len());
    }
    let at = (0..a.len()).find(|&at| a.get(at) != b.get(at))?;
    let place = match field {
        Tab if plain::geometry_right(geo) => format!("{name}[{at}] ({})", word_name(geo, at)),
        _ => format!("{name}[{at}]"),
    };
    difference(&place, a.get(at), b.get(at))
}

fn compare(geo: &Geometry, plain: &mut Outcome, port: &mut Outcome) -> Option<Difference> {
    if plain.answer != port.answer {
        return difference("answer", plain.answer, port.answer);
    }
    if let Some(field) = port.past {
        return difference(&format!("past {field:?}"), "kept", "written");
    }
    if plain.lent == port.lent {
        return None;
    }
    FIELDS.into_iter().find_map(|field| {
        compare_field(geo, field, slot(&mut plain.lent, field), slot(&mut port.lent, field))
    })
}

/// "Under the new one answers equal the old after 28 and 121 are read as 14."
fn as_old(answer: i64) -> i64 {
    match answer {
        -28 | -121 => -14,
        other => other,
    }
}

/// The call in the new numbers beside the one in the old: it has plain's answer in these numbers,
/// which reads as the old one, and leaves what that left.
fn compare_told(
    geo: &Geometry,
    plain: Answer,
    old: &mut Outcome,
    told: &mut Outcome,
) -> Option<Difference> {
    let answer = plain::number(Numbers::New, plain);
    if answer != told.answer {
        return difference("answer in the new numbers", answer, told.answer);
    }
    told.answer = as_old(answer);
    let found = compare(geo, old, told);
    told.answer = answer;
    let found = found?;
    Some(Difference { field: format!("new numbers beside old: {}", found.field), ..found })
}

/// The two restores beside each other: the same answer, and the same left but for the queue's
/// words, its length and the flags, in which only restores that are done may differ.
fn compare_beside(geo: &Geometry, one: &Outcome, other: &Outcome) -> Option<Difference> {
    let (mut one, mut other) = (one.clone(), other.clone());
    if one.answer == 0 && other.answer == 0 {
        for at in (at_queue(geo)..at_alloc(geo)).chain([at_queued(geo)]) {
            other.lent.tab[at] = one.lent.tab[at];
        }
    }
    let found = compare(geo, &mut one, &mut other)?;
    Some(Difference { field: format!("the two restores: {}", found.field), ..found })
}

/// A restore under its other name, by the plain reading and by the side that is compared: both
/// give the same, and beside the restore that was asked for it is as it must be.
fn compare_other(
    geo: &Geometry,
    asked: &Outcome,
    other: &mut (Outcome, Outcome),
) -> Option<Difference> {
    let (plain, port) = other;
    match compare(geo, plain, port) {
        Some(found) => {
            Some(Difference { field: format!("under the other name: {}", found.field), ..found })
        }
        None => compare_beside(geo, asked, port),
    }
}

/// What a restore that queues the dead, and is done, makes of the full segments.
#[derive(Clone, Copy)]
struct Requeued {
    queued: usize,
    live: usize,
}

fn requeued(geo: &Geometry, left: &Outcome) -> Option<Requeued> {
    if left.answer != 0 {
        return None;
    }
    let live = segments(geo, &left.lent, |free, length, p| free == 0 && length == p);
    Some(Requeued { queued: queued(geo, &left.lent), live: live.len() })
}

// ---------------------------------------------------------------- what a pass gains

/// A single collection that ran: what 02, M-111 counts at its entry, and its answer in the new
/// numbers.
#[derive(Clone, Copy, Debug)]
struct Pass {
    victim: usize,
    /// The victim is on the bad list.
    bad: bool,
    /// The length of the victim's list, M-111's v.
    listed: u64,
    total: u64,
    room: u64,
    told: i64,
}

/// "Total free pages."
fn total_free(geo: &Geometry, tab: &[u32]) -> u64 {
    tab[at_free(geo)..at_valid(geo)].iter().map(|&free| free as u64).sum()
}

/// "The free pages of segments outside the bad list."
fn room(geo: &Geometry, bad: &[u8], tab: &[u32]) -> u64 {
    let counts = tab[at_free(geo)..at_valid(geo)].iter().zip(bad);
    counts.filter(|(_, &mark)| mark == 0).map(|(&free, _)| free as u64).sum()
}

/// The pass that a call made, if it is a single collection and a queue was there to run on.
fn passed(geo: &Geometry, call: &Call, bad: &[u8], before: &[u32], told: i64) -> Option<Pass> {
    if *call != Collect || matches!(told, -22 | -117) {
        return None;
    }
    let queue = before[at_queue(geo)..][..before[at_queued(geo)] as usize].iter();
    let victim = queue.map(|&g| g as usize).min_by_key(|&g| before[at_valid(geo) + g])?;
    Some(Pass {
        victim,
        bad: bad[victim] != 0,
        listed: before[at_lens(geo) + victim] as u64,
        total: total_free(geo, before),
        room: room(geo, bad, before),
        told,
    })
}

/// The sums of 02, M-111, each as it is reported where it does not hold.
const GAIN: &str = "a finished pass did not gain p - v";
const USE: &str = "a finished pass did not take v pages of the room";
const SHORT: &str = "a pass short of room was not refused for it";
const AMPLE: &str = "a pass with room for its list was refused for room";
const LEFT: &str = "a pass refused for room left some";
const OTHERS: &str = "a pass refused for room spent other pages";
const ERASE: &str = "a pass with its erase refused did not spend v pages";
const NONE: &str = "a pass refused at the device spent no page";
const MORE: &str = "a pass refused at the device spent more than v pages";
const STRANGE: &str = "a pass answered as none may";

/// The first sum that total free and room after a pass do not keep.
fn broken_sum(geo: &Geometry, pass: &Pass, total: u64, room: u64) -> Option<&'static str> {
    let v = pass.listed;
    let given = if pass.bad { 0 } else { geo.p };
    match pass.told {
        0 | -5 if pass.room < v => Some(SHORT),
        0 if total + v != pass.total + geo.p => Some(GAIN),
        0 if room + v != pass.room + given => Some(USE),
        -28 if pass.room >= v => Some(AMPLE),
        -28 if room != 0 => Some(LEFT),
        -28 if total + pass.room != pass.total => Some(OTHERS),
        -5 if total + v != pass.total => Some(ERASE),
        -121 if total >= pass.total => Some(NONE),
        -121 if total + v < pass.total => Some(MORE),
        0 | -28 | -5 | -121 => None,
        _ => Some(STRANGE),
    }
}

/// The sums over the words that a side left, worked out here and not by the plain reading, which
/// may be wrong in the same way.
fn compare_sums(geo: &Geometry, pass: &Pass, left: &Lent) -> Option<Difference> {
    let (total, room) = (total_free(geo, &left.tab), room(geo, &left.bad, &left.tab));
    let broken = broken_sum(geo, pass, total, room)?;
    let sums = format!("total free {} to {total}, room {} to {room}", pass.total, pass.room);
    let place = format!("{broken}: v {}, {sums}, answer on both sides", pass.listed);
    difference(&place, pass.told, pass.told)
}

/// The sums of both calls of a single collection; the old one's 14 is read by what the other told.
fn compare_pass(
    geo: &Geometry,
    call: &Call,
    before: &[u32],
    old: &Outcome,
    told: &Outcome,
) -> Option<Difference> {
    let pass = passed(geo, call, &told.lent.bad, before, told.answer)?;
    let answer = if old.answer == -14 { told.answer } else { old.answer };
    compare_sums(geo, &Pass { told: answer, ..pass }, &old.lent)
        .or_else(|| compare_sums(geo, &pass, &told.lent))
}

/// The kinds that a pass is counted under.
fn kinds(geo: &Geometry, pass: &Pass) -> Vec<&'static str> {
    let short = pass.room < pass.listed;
    let mut kinds = vec![match pass.told {
        0 if pass.listed == 0 => "v = 0",
        0 if pass.listed < geo.p => "0 < v < p",
        0 => "v = p",
        -28 => "for room",
        -5 => "erase refused",
        _ if short => "at the device, short of room",
        _ => "at the device",
    }];
    if pass.bad {
        kinds.push(if pass.told == 0 { "bad victim" } else { "bad victim, refused" });
    }
    if pass.told == 0 && pass.listed > 0 && pass.room == pass.listed {
        kinds.push("room = v");
    }
    kinds
}

// ---------------------------------------------------------------- steps

/// A change of what is lent before a call.
#[derive(Clone, Debug)]
enum Poke {
    /// One of the geometry's six numbers.
    Geo(usize, u64),
    /// Every exact part cut or lengthened to what the numbers ask.
    Fit,
    /// A part cut, or lengthened with zeros.
    Size(Field, usize),
    /// One element; nothing where the part is too short.
    Put(Field, usize, u64),
    /// Two words of `tab` exchanged.
    Swap(usize, usize),
    /// A whole part: so many bytes, counted from a first one.
    Pattern(Field, usize, u8),
    /// All words and use marks.
    Tables(Vec<u32>, Vec<u8>),
    /// Just the used pages are programmed.
    Marked,
    /// The file becomes an earlier checkpoint of this run.
    Saved(usize),
    /// The file becomes a checkpoint of the tables as they stand, if they are sound.
    Encoded,
    /// The file's eight bytes at a place.
    Number(usize, u64),
    /// The file's four bytes at a place.
    Word(usize, u32),
    /// The file's CRC put right.
    Seal,
}

/// Pokes, then a call. A call that is not kept leaves the run's state as it was.
#[derive(Clone, Debug)]
struct Step {
    pokes: Vec<Poke>,
    call: Call,
    keep: bool,
}

/// The state of a run between calls.
#[derive(Clone)]
struct State {
    geo: Geometry,
    lent: Lent,
    saved: Vec<Vec<u8>>,
    /// The dead segments that a restore queued and that are queued still.
    requeued: Vec<u32>,
}

/// Right sizes; tables and flash all zero; buffers with room and a pattern.
fn start(geo: &Geometry, bad: &[u8]) -> State {
    let mut lent = Lent { fuse: ENDLESS, ..Lent::default() };
    for field in FIELDS {
        if let Some(length) = exact(geo, field) {
            slot(&mut lent, field).resize(length);
        }
    }
    lent.bad = bad.to_vec();
    lent.data = pattern(geo.s as usize, 1);
    lent.out = pattern(geo.s as usize + 3, 200);
    lent.buffer = pattern(plain::checkpoint_bytes(geo) + 5, 100);
    State { geo: *geo, lent, saved: Vec::new(), requeued: Vec::new() }
}

fn pattern(length: usize, first: u8) -> Vec<u8> {
    (0..length).map(|i| first.wrapping_add(i as u8)).collect()
}

fn number_of(geo: &mut Geometry, which: usize) -> &mut u64 {
    match which {
        0 => &mut geo.n,
        1 => &mut geo.p,
        2 => &mut geo.s,
        3 => &mut geo.w,
        4 => &mut geo.e,
        _ => &mut geo.limit,
    }
}

/// No part is lengthened beyond this.
const MOST: usize = 1 << 22;

fn fit(geo: &Geometry, lent: &mut Lent) {
    for field in FIELDS {
        match exact(geo, field) {
            Some(length) if length <= MOST => slot(lent, field).resize(length),
            _ => (),
        }
    }
}

/// Puts bytes into the file where it has room for them.
fn put_file(file: &mut [u8], at: usize, bytes: &[u8]) {
    if at + bytes.len() <= file.len() {
        file[at..at + bytes.len()].copy_from_slice(bytes);
    }
}

fn put(lent: &mut Lent, field: Field, at: usize, value: u64) {
    let mut part = slot(lent, field);
    if at < part.len() {
        part.set(at, value);
    }
}

/// A checkpoint of the tables by the plain reading; empty where it is refused.
fn encoded(geo: &Geometry, lent: &Lent) -> Vec<u8> {
    let mut lent = lent.clone();
    lent.buffer = vec![0; plain::checkpoint_bytes(geo)];
    match plain::encode(geo, &mut lent) {
        Ok(_) => lent.buffer,
        Err(_) => Vec::new(),
    }
}

fn apply(poke: &Poke, saved: &[Vec<u8>], geo: &mut Geometry, lent: &mut Lent) {
    match poke {
        Poke::Geo(which, value) => *number_of(geo, *which) = *value,
        Poke::Fit => fit(geo, lent),
        Poke::Size(field, length) => slot(lent, *field).resize(*length),
        Poke::Put(field, at, value) => put(lent, *field, *at, *value),
        Poke::Swap(a, b) if *a < lent.tab.len() && *b < lent.tab.len() => lent.tab.swap(*a, *b),
        Poke::Swap(..) => (),
        Poke::Pattern(field, length, first) => {
            if let Slot::Bytes(list) = slot(lent, *field) {
                *list = pattern(*length, *first);
            }
        }
        Poke::Tables(tab, used) => {
            lent.tab = tab.clone();
            lent.used = used.clone();
        }
        Poke::Marked => lent.marks = lent.used.clone(),
        Poke::Saved(which) => lent.file = saved.get(*which).cloned().unwrap_or_default(),
        Poke::Encoded => lent.file = encoded(geo, lent),
        Poke::Number(at, value) => put_file(&mut lent.file, *at, &value.to_le_bytes()),
        Poke::Word(at, value) => put_file(&mut lent.file, *at, &value.to_le_bytes()),
        Poke::Seal if lent.file.len() >= 44 => {
            let crc = plain::seal(&lent.file);
            put_file(&mut lent.file, 40, &crc.to_le_bytes());
        }
        Poke::Seal => (),
    }
}

/// Who is compared with the plain reading: the port, a program of the self-test that is wrong where
/// it answers in these numbers, or one with which the plain reading shares its fault.
#[derive(Clone, Copy)]
enum Side {
    Port,
    Wrong(Numbers, Fault),
    Shared(PassFault),
}

/// The plain reading, with the fault that it shares.
fn read_by(side: Side, geo: &Geometry, call: &Call, lent: &mut Lent) -> Answer {
    let Side::Shared(fault) = side else { return by_plain(geo, call, lent) };
    let before = lent.clone();
    let answer = by_plain(geo, call, lent);
    let told = plain::number(Numbers::New, answer);
    match passed(geo, call, &before.bad, &before.tab, told) {
        Some(pass) => fault(geo, &pass, &before, lent, answer),
        None => answer,
    }
}

fn by_side(side: Side, geo: &Geometry, numbers: Numbers, call: &Call, lent: &Lent) -> Outcome {
    match side {
        Side::Port => by_port(geo, numbers, call, lent),
        Side::Wrong(spoilt, fault) => {
            let mut after = lent.clone();
            let mut answer = plain::number(numbers, by_plain(geo, call, &mut after));
            if numbers == spoilt {
                answer = fault(geo, call, lent, &mut after, answer);
            }
            Outcome { answer, lent: after, past: None }
        }
        Side::Shared(_) => {
            let mut after = lent.clone();
            let answer = plain::number(numbers, read_by(side, geo, call, &mut after));
            Outcome { answer, lent: after, past: None }
        }
    }
}

/// "Every public call leaves sound tables sound": words that a call has changed are sound.
fn unsound_after(geo: &Geometry, before: &[u32], after: &Outcome) -> Option<Difference> {
    if after.lent.tab == before || plain::is_sound(geo, &after.lent) {
        return None;
    }
    difference("soundness after the call, on both sides", "unsound", "unsound")
}

/// How many checkpoints a run remembers.
const REMEMBERED: usize = 8;

/// A call by the plain reading, on a copy of what is lent.
fn by_reading(geo: &Geometry, call: &Call, lent: &Lent) -> Outcome {
    let mut lent = lent.clone();
    let answer = old(by_plain(geo, call, &mut lent));
    Outcome { answer, lent, past: None }
}

/// A step without a difference: the plain answer, what a restore that queues the dead came to, and
/// the kinds of a single collection that ran.
struct Made {
    answer: Answer,
    requeued: Option<Requeued>,
    kinds: Vec<&'static str>,
}

/// One step of both sides from one state, or the difference.
fn take(side: Side, state: &mut State, step: &Step) -> Result<Made, Difference> {
    let (mut geo, mut lent) = (state.geo, state.lent.clone());
    for poke in &step.pokes {
        apply(poke, &state.saved, &mut geo, &mut lent);
    }
    let made = |numbers, call: &Call| by_side(side, &geo, numbers, call, &lent);
    let mut port = made(Numbers::Old, &step.call);
    let mut told = step.call.told().map(|_| made(Numbers::New, &step.call));
    let mut other = (step.call.other())
        .map(|call| (by_reading(&geo, &call, &lent), made(Numbers::Old, &call)));
    let before = lent.tab.clone();
    let answer = read_by(side, &geo, &step.call, &mut lent);
    let mut plain = Outcome { answer: old(answer), lent, past: None };
    let found = compare(&geo, &mut plain, &mut port)
        .or_else(|| compare_told(&geo, answer, &mut port, told.as_mut()?))
        .or_else(|| compare_other(&geo, &port, other.as_mut()?))
        .or_else(|| compare_pass(&geo, &step.call, &before, &port, told.as_ref()?))
        .or_else(|| unsound_after(&geo, &before, &plain))
        .or_else(|| unsound_after(&geo, &before, &other.as_ref()?.0));
    if let Some(found) = found {
        return Err(found);
    }
    let dead = match step.call {
        RestoreDead => Some(&plain),
        _ => other.as_ref().map(|(plain, _)| plain),
    };
    let requeued = dead.and_then(|left| requeued(&geo, left));
    let pass = told.and_then(|told| passed(&geo, &step.call, &told.lent.bad, &before, told.answer));
    let kinds = pass.map_or(Vec::new(), |pass| kinds(&geo, &pass));
    if step.keep {
        state.requeued = still_queued(state, step, &plain);
        state.lent = plain.lent;
        if step.call == Encode && plain.answer > 0 && state.saved.len() < REMEMBERED {
            state.saved.push(state.lent.buffer[..plain.answer as usize].to_vec());
        }
    }
    Ok(Made { answer, requeued, kinds })
}

/// The dead segments that a restore queued and that are queued still after a kept step.
fn still_queued(state: &State, step: &Step, left: &Outcome) -> Vec<u32> {
    let done = step.call == RestoreDead && left.answer == 0;
    if !done && (state.requeued.is_empty() || gives_tables(step)) {
        return Vec::new();
    }
    let queue = &left.lent.tab[at_queue(&state.geo)..][..queued(&state.geo, &left.lent)];
    if done {
        return queue.to_vec();
    }
    state.requeued.iter().copied().filter(|g| queue.contains(g)).collect()
}

fn gives_tables(step: &Step) -> bool {
    step.pokes.iter().any(|poke| matches!(poke, Poke::Tables(..)))
}

// ---------------------------------------------------------------- reports

/// A run that shows a difference.
struct Report {
    geo: Geometry,
    bad: Vec<u8>,
    steps: Vec<Step>,
    found: Difference,
}

/// Runs from the start; the first difference and the number of steps up to it.
fn replay(side: Side, geo: &Geometry, bad: &[u8], steps: &[Step]) -> Option<(usize, Difference)> {
    let mut state = start(geo, bad);
    for (i, step) in steps.iter().enumerate() {
        if let Err(found) = take(side, &mut state, step) {
            return Some((i + 1, found));
        }
    }
    None
}

/// Leaves out steps, in falling numbers at a time, as long as a difference stays.
fn shrink_steps(side: Side, report: &mut Report) {
    let mut width = report.steps.len().div_ceil(2);
    while width > 0 {
        let mut at = 0;
        while at < report.steps.len() {
            let mut fewer = report.steps.clone();
            fewer.drain(at..(at + width).min(fewer.len()));
            match replay(side, &report.geo, &report.bad, &fewer) {
                Some((length, found)) => {
                    fewer.truncate(length);
                    (report.steps, report.found) = (fewer, found);
                }
                None => at += width,
            }
        }
        width /= 2;
    }
}

/// Leaves out single pokes as long as a difference stays.
fn shrink_pokes(side: Side, report: &mut Report) {
    for step in 0..report.steps.len() {
        let mut at = 0;
        while step < report.steps.len() && at < report.steps[step].pokes.len() {
            let mut fewer = report.steps.clone();
            fewer[step].pokes.remove(at);
            match replay(side, &report.geo, &report.bad, &fewer) {
                Some((length, found)) => {
                    fewer.truncate(length);
                    (report.steps, report.found) = (fewer, found);
                }
                None => at += 1,
            }
        }
    }
}

fn shrink(side: Side, report: &mut Report) {
    shrink_steps(side, report);
    shrink_pokes(side, report);
    shrink_steps(side, report);
}

fn print_report(report: &Report) {
    println!("DIFFERENCE");
    println!("{:?}", report.geo);
    println!("bad list {:?}", report.bad);
    println!("run from all zero tables and flash, endless fuse:");
    for step in &report.steps {
        println!("  {}{:?} {:?}", if step.keep { "" } else { "(aside) " }, step.call, step.pokes);
    }
    let found = &report.found;
    println!("first difference: {}: plain {}, port {}", found.field, found.plain, found.port);
}

// ---------------------------------------------------------------- the driver

/// Why the driver stops: its time or calls are over, or a difference.
enum Stop {
    Over,
    Found(Box<Report>),
}

type Going<T = ()> = Result<T, Stop>;

/// A run so far: its kept steps, and the state they reach.
#[derive(Clone)]
struct Place {
    bad: Vec<u8>,
    steps: Vec<Step>,
    state: State,
}

struct Driver {
    side: Side,
    rng: Rng,
    started: Instant,
    seconds: f64,
    most: u64,
    announce: bool,
    calls: u64,
    /// Those of them that were also made in the new numbers.
    told: u64,
    /// The restores, each made under both names.
    restores: u64,
    /// The single collections that ran, the sums of both their calls checked.
    passes: u64,
    tally: BTreeMap<(&'static str, String), u64>,
}

impl Driver {
    fn new(side: Side, seed: u64, seconds: f64, most: u64) -> Driver {
        Driver {
            side,
            rng: Rng(seed),
            started: Instant::now(),
            seconds,
            most,
            announce: false,
            calls: 0,
            told: 0,
            restores: 0,
            passes: 0,
            tally: BTreeMap::new(),
        }
    }

    fn over(&self) -> bool {
        let late = self.calls % 16 == 0 && self.started.elapsed().as_secs_f64() >= self.seconds;
        self.calls >= self.most || late
    }

    fn count(&mut self, call: &Call, made: &Made) {
        self.calls += 1;
        self.answered(call.name(), old(made.answer));
        if let Some(told) = call.told() {
            self.told += 1;
            self.answered(told, plain::number(Numbers::New, made.answer));
        }
        if let Some(other) = call.other() {
            self.restores += 1;
            self.answered(other.name(), old(made.answer));
        }
        if let Some(full) = made.requeued {
            self.met("queued by it", ["none", "one", "more"][full.queued.min(2)].into());
            if full.live > 0 {
                self.met("queued by it", "not a live one".into());
            }
        }
        self.passes += u64::from(!made.kinds.is_empty());
        for kind in &made.kinds {
            self.met("passes", kind.to_string());
        }
    }

    /// A write or a collection that comes to dead segments which a restore queued.
    fn count_after(&mut self, call: &Call, answer: i64) {
        let entry = if collects(call) { "collected after it" } else { "written after it" };
        if !matches!(answer, -22 | -117) && call.told().is_some() {
            self.answered(entry, answer);
        }
    }

    fn answered(&mut self, entry: &'static str, answer: i64) {
        let class = match answer {
            i64::MIN..=0 => answer.to_string(),
            _ => "above 0".into(),
        };
        self.met(entry, class);
    }

    fn met(&mut self, entry: &'static str, class: String) {
        *self.tally.entry((entry, class)).or_insert(0) += 1;
    }

    /// One step from a place, compared; a kept one moves the place. The answer is in 01's numbers.
    fn step(&mut self, place: &mut Place, step: Step) -> Going<i64> {
        if self.over() {
            return Err(Stop::Over);
        }
        if self.announce {
            eprintln!("{:?} {:?} {step:?}", place.state.geo, place.bad);
        }
        let after = !place.state.requeued.is_empty() && !gives_tables(&step);
        match take(self.side, &mut place.state, &step) {
            Ok(made) => {
                let answer = old(made.answer);
                self.count(&step.call, &made);
                if after {
                    self.count_after(&step.call, answer);
                }
                if step.keep {
                    place.steps.push(step);
                }
                Ok(answer)
            }
            Err(found) => {
                let mut steps = place.steps.clone();
                steps.push(step);
                let (geo, bad) = (place.state.geo, place.bad.clone());
                let mut report = Report { geo, bad, steps, found };
                shrink(self.side, &mut report);
                Err(Stop::Found(Box::new(report)))
            }
        }
    }

    fn keep(&mut self, place: &mut Place, pokes: Vec<Poke>, call: Call) -> Going<i64> {
        self.step(place, Step { pokes, call, keep: true })
    }

    fn aside(&mut self, place: &mut Place, pokes: Vec<Poke>, call: Call) -> Going<i64> {
        self.step(place, Step { pokes, call, keep: false })
    }

    /// Every usual call on the same pokes.
    fn all_calls(&mut self, place: &mut Place, pokes: &[Poke]) -> Going {
        for call in usual_calls(&place.state.geo) {
            self.aside(place, pokes.to_vec(), call)?;
        }
        Ok(())
    }
}

// ---------------------------------------------------------------- places to start from

impl Driver {
    fn small_geometry(&mut self) -> Geometry {
        let rng = &mut self.rng;
        let n = rng.pick(&[1, 2, 2, 3, 3, 4, 5, 6]);
        let p = 1 + rng.below(4);
        let s = 1 + rng.below(5);
        let narrow = (0..17).find(|&w| p <= 1 << w).unwrap();
        let w = if rng.one_in(8) { 16 } else { (narrow + rng.below(3)).min(16) };
        let pages = n * p;
        let e = if rng.one_in(6) { pages } else { 1 + rng.below((pages / 2).max(1)) };
        let limit = rng.pick(&[0, 1, 2, 3, 9, 9, 9, 0xFFFF_FFFF]);
        Geometry { n, p, s, w, e, limit }
    }

    /// One mark in eight is set, to some nonzero value.
    fn bad_list(&mut self, n: u64) -> Vec<u8> {
        let rng = &mut self.rng;
        (0..n).map(|_| if rng.one_in(8) { rng.pick(&[1, 1, 7, 255]) } else { 0 }).collect()
    }

    /// Formatted flash and fresh tables; a good checkpoint lies in `file`.
    fn fresh(&mut self, geo: &Geometry, bad: Vec<u8>) -> Going<Place> {
        let state = start(geo, &bad);
        let mut place = Place { bad, steps: Vec::new(), state };
        self.keep(&mut place, vec![], Format)?;
        self.keep(&mut place, vec![], Open)?;
        self.keep(&mut place, vec![Poke::Encoded], Read(0, 0))?;
        Ok(place)
    }

    /// A few calls later; the checkpoint in `file` is of the state reached.
    fn reached(&mut self, steps: u64) -> Going<Place> {
        let geo = self.small_geometry();
        let bad = self.bad_list(geo.n);
        let mut place = self.fresh(&geo, bad)?;
        for _ in 0..steps {
            let (pokes, call) = self.good_call(&place.state);
            self.keep(&mut place, pokes, call)?;
        }
        if self.rng.one_in(3) {
            let pokes = self.sound_tables(&geo);
            self.keep(&mut place, pokes, Read(0, 0))?;
        }
        let data = Poke::Pattern(Data, geo.s as usize, 1);
        self.keep(&mut place, vec![Poke::Encoded, data], Read(0, 0))?;
        Ok(place)
    }

    /// Places of many ages, from fresh to long used.
    fn some_place(&mut self) -> Going<Place> {
        let steps = self.rng.pick(&[0, 3, 6, 10, 20, 40, 80]);
        self.reached(steps)
    }

    /// A sector and a length of one page, mostly of a whole one.
    fn inside(&mut self, geo: &Geometry) -> (u64, u64) {
        let sector = self.rng.below(geo.e) * geo.s;
        if self.rng.one_in(2) {
            return (sector, geo.s);
        }
        let offset = self.rng.below(geo.s);
        (sector + offset, self.rng.below(geo.s - offset + 1))
    }

    /// A call as a careful caller would make it.
    fn good_call(&mut self, state: &State) -> (Vec<Poke>, Call) {
        let geo = &state.geo;
        let (sector, length) = self.inside(geo);
        match self.rng.below(20) {
            0..=10 => {
                let first = self.rng.next() as u8;
                let longer = if self.rng.one_in(4) { self.rng.below(4) } else { 0 };
                let data = Poke::Pattern(Data, (length + longer) as usize, first);
                (vec![data], Write(sector, length))
            }
            11..=12 => (vec![], Read(sector, length)),
            13..=15 => (vec![], Collect),
            16 => (vec![], List(self.rng.pick(&[0, 1, 2, 3, u64::MAX]))),
            17 => {
                let threshold = self.rng.below(geo.n * geo.p + 2);
                (vec![], Threshold(threshold, self.rng.pick(&[0, 1, 2, 3, u64::MAX])))
            }
            18 => (vec![], Encode),
            _ if state.saved.is_empty() => (vec![], Encode),
            _ => {
                let which = self.rng.below(state.saved.len() as u64) as usize;
                (vec![Poke::Saved(which)], self.a_restore())
            }
        }
    }

    /// Under either name; the run goes on from what this one leaves.
    fn a_restore(&mut self) -> Call {
        self.rng.pick(&[Restore, RestoreDead])
    }

    /// Sound tables of any kind, also such as no run from fresh ones reaches.
    fn sound_tables(&mut self, geo: &Geometry) -> Vec<Poke> {
        let (n, p, e) = (geo.n as usize, geo.p as usize, geo.e as usize);
        let rng = &mut self.rng;
        let some = |rng: &mut Rng| rng.below(geo.p + 1) as usize;
        let spent: Vec<usize> =
            (0..n).map(|_| if rng.one_in(2) { p } else { some(rng) }).collect();
        let mut pages: Vec<(usize, usize)> =
            (0..n).flat_map(|g| (0..spent[g]).map(move |k| (g, k))).collect();
        rng.shuffle(&mut pages);
        let mut map = vec![EMPTY; e];
        let mut lists = vec![Vec::new(); n];
        let mut logical: Vec<usize> = (0..e).collect();
        rng.shuffle(&mut logical);
        for l in logical {
            if rng.one_in(4) {
                continue;
            }
            let Some((g, k)) = pages.pop() else { break };
            map[l] = ((g << geo.w) + k) as u32;
            lists[g].push(l as u32);
        }
        let tab = self.packed(geo, map, &spent, &lists);
        let used = (0..n * p).map(|i| u8::from(i % p < spent[i / p])).collect();
        let tables = Poke::Tables(tab, used);
        if self.rng.one_in(3) { vec![tables] } else { vec![tables, Poke::Marked] }
    }

    /// Counts, flags and queue for a map and its lists, in the order of `tab`.
    fn packed(
        &mut self,
        geo: &Geometry,
        map: Vec<u32>,
        spent: &[usize],
        lists: &[Vec<u32>],
    ) -> Vec<u32> {
        let (n, p, rng) = (geo.n as usize, geo.p as usize, &mut self.rng);
        let valid = |rng: &mut Rng, g: usize| {
            lists[g].len() as u64 + rng.below((spent[g] - lists[g].len()) as u64 + 1)
        };
        let flags: Vec<u32> = (0..n).map(|g| u32::from(spent[g] == p && !rng.one_in(3))).collect();
        let mut queue: Vec<u32> = (0..n as u32).filter(|&g| flags[g as usize] == 1).collect();
        rng.shuffle(&mut queue);
        queue.truncate(queue.len().saturating_sub(rng.below(2) as usize).min(LONG_QUEUE as usize));
        let queued = queue.len() as u32;
        queue.resize(n, 0);
        let mut tab = map;
        tab.extend(spent.iter().map(|&spent| (p - spent) as u32));
        tab.extend((0..n).map(|g| valid(rng, g) as u32));
        tab.extend(lists.iter().map(|list| list.len() as u32));
        tab.extend(queue);
        tab.extend(flags);
        tab.extend([rng.below(n as u64) as u32, queued]);
        for list in lists {
            tab.extend(list);
            tab.extend(vec![0; p - list.len()]);
        }
        tab
    }
}

// ---------------------------------------------------------------- parts

/// Each part makes its calls around one place.
type Part = fn(&mut Driver, &mut Place) -> Going;

const PARTS: [(&str, Part); 10] = [
    ("sizes", Driver::sizes),
    ("scratch", Driver::scratch),
    ("tables", Driver::tables),
    ("geometry", Driver::geometry),
    ("spans", Driver::spans),
    ("fuses", Driver::fuses),
    ("flash", Driver::flash),
    ("passes", Driver::passes),
    ("opening", Driver::opening),
    ("restore", Driver::restore),
];

/// An unsound word beside another fault: 22 comes before 117.
fn unsound(geo: &Geometry) -> Poke {
    Poke::Put(Tab, at_alloc(geo), geo.n)
}

impl Driver {
    /// Every lent size shorter and longer, for every entry and every slice.
    fn sizes(&mut self, place: &mut Place) -> Going {
        let geo = place.state.geo;
        for call in usual_calls(&geo) {
            for &field in call.lent() {
                if field == Fuse {
                    continue;
                }
                let length = self.needed(place, &call, field);
                let lengths =
                    [0, length / 2, length.saturating_sub(1), length, length + 1, length + 13];
                for length in lengths {
                    self.aside(place, vec![Poke::Size(field, length)], call)?;
                    self.aside(place, vec![Poke::Size(field, length), unsound(&geo)], call)?;
                }
            }
        }
        Ok(())
    }

    /// What a call needs of a part: exact, or at least.
    fn needed(&self, place: &Place, call: &Call, field: Field) -> usize {
        let geo = &place.state.geo;
        match (field, call) {
            (Data, Write(_, length)) | (Out, Read(_, length)) => *length as usize,
            (Buffer | File, _) => plain::checkpoint_bytes(geo),
            _ => exact(geo, field).unwrap_or(1),
        }
    }

    /// A single nonzero byte or word at each place of each scratch.
    fn scratch(&mut self, place: &mut Place) -> Going {
        let geo = place.state.geo;
        for call in usual_calls(&geo) {
            for field in SCRATCH {
                if !call.lent().contains(&field) {
                    continue;
                }
                for at in 0..exact(&geo, field).unwrap() {
                    for value in [1, 0x80, 255, 0xFFFF_FF00] {
                        let dirty = Poke::Put(field, at, value);
                        self.aside(place, vec![dirty.clone()], call)?;
                        self.aside(place, vec![dirty, unsound(&geo)], call)?;
                    }
                }
            }
        }
        Ok(())
    }

    /// Every word and every use mark changed singly, then every pair of words exchanged.
    fn tables(&mut self, place: &mut Place) -> Going {
        for at in 0..place.state.lent.tab.len() {
            for value in self.other_words(place, at) {
                self.all_calls(place, &[Poke::Put(Tab, at, value as u64)])?;
            }
        }
        for at in 0..place.state.lent.used.len() {
            for value in [0, 1, 2, 128, 255] {
                self.all_calls(place, &[Poke::Put(Used, at, value)])?;
            }
        }
        self.exchanges(place)
    }

    /// Words that may stand in place of another.
    fn other_words(&mut self, place: &Place, at: usize) -> Vec<u32> {
        let (geo, tab) = (&place.state.geo, &place.state.lent.tab);
        let (n, p, e, old) = (geo.n as u32, geo.p as u32, geo.e as u32, tab[at]);
        let last = ((geo.n - 1) << geo.w) as u32 + p - 1;
        let page = 1 << geo.w;
        let mut words = vec![
            0, 1, n - 1, n, n + 1, p, p + 1, e - 1, e, last, last + 1, page, page + 1, EMPTY,
            EMPTY - 1, 1 << 31, old.wrapping_sub(1), old.wrapping_add(1),
        ];
        words.extend((0..3).map(|_| self.rng.pick(tab)));
        words.sort();
        words.dedup();
        words.retain(|&word| word != old);
        words
    }

    fn exchanges(&mut self, place: &mut Place) -> Going {
        let words = place.state.lent.tab.len();
        for a in 0..words {
            for b in a + 1..words {
                if place.state.lent.tab[a] != place.state.lent.tab[b] {
                    let call = self.a_call(&place.state.geo);
                    self.aside(place, vec![Poke::Swap(a, b)], call)?;
                }
            }
        }
        Ok(())
    }

    fn a_call(&mut self, geo: &Geometry) -> Call {
        self.rng.pick(&usual_calls(geo))
    }

    /// Each number at and around its limits, the sizes as they were and as it asks.
    fn geometry(&mut self, place: &mut Place) -> Going {
        let geo = place.state.geo;
        let limits = [65_535, 1_024, 16_384, 16, geo.n * geo.p, 0xFFFF_FFFF];
        for which in 0..6 {
            let (limit, old) = (limits[which], *number_of(&mut geo.clone(), which));
            let mut values = vec![0, 1, 2, 17, 64, 65, 1 << 16, (1 << 32) - 1, 1 << 32];
            values.extend([old.saturating_sub(1), old + 1, limit - 1, limit, limit + 1, 2 * limit]);
            values.extend([(1 << 32) + old, 1 << 63, (1 << 63) + old, u64::MAX, u64::MAX - 1]);
            for value in values {
                let poke = Poke::Geo(which, value);
                self.all_calls(place, &[poke.clone()])?;
                let mut asked = geo;
                *number_of(&mut asked, which) = value;
                if exact(&asked, Bytes).is_some_and(|length| length <= 1 << 16) {
                    self.all_calls(place, &[poke, Poke::Fit])?;
                }
            }
        }
        self.wrapping(place)
    }

    /// Numbers whose products wrap to small ones, with sizes that fit the wrapped ones.
    fn wrapping(&mut self, place: &mut Place) -> Going {
        let geo = place.state.geo;
        for big in [1 << 32, 1 << 62, 1 << 63] {
            for (a, b) in [(0, 1), (0, 2), (1, 2), (0, 4), (3, 4)] {
                let pokes = vec![Poke::Geo(a, big), Poke::Geo(b, big)];
                self.all_calls(place, &pokes)?;
                let mut empty = pokes;
                empty.extend(FIELDS.map(|field| Poke::Size(field, 0)));
                self.all_calls(place, &empty)?;
            }
        }
        let wide = [Poke::Geo(1, geo.p + 1), Poke::Geo(3, 0), Poke::Fit];
        self.all_calls(place, &wide)
    }

    /// Sectors and lengths at the extremes, with short and with long buffers.
    fn spans(&mut self, place: &mut Place) -> Going {
        let Geometry { s, e, .. } = place.state.geo;
        let mut sectors = vec![0, 1, s - 1, s, s + 1, s * e - 1, s * e, s * e + 1, s * (e - 1)];
        sectors.extend([1 << 32, s << 32, (s << 32) - 1, 1 << 63, u64::MAX, u64::MAX - s]);
        let mut lengths = vec![0, 1, s - 1, s, s + 1, 2 * s, u64::MAX, u64::MAX - s + 1];
        lengths.extend([1 << 32, (1 << 32) + 1, 1 << 63, (1 << 63) - 1, (1 << 63) + 1]);
        for &sector in &sectors {
            for &length in &lengths {
                for room in [0, s, 2 * s + 1] {
                    let pokes = |field| vec![Poke::Pattern(field, room as usize, 9)];
                    self.aside(place, pokes(Data), Write(sector, length))?;
                    self.aside(place, pokes(Out), Read(sector, length))?;
                }
            }
        }
        for m in [0, 1, 2, 1 << 32, 1 << 63, u64::MAX - 1, u64::MAX] {
            self.aside(place, vec![], List(m))?;
            for t in 0..=place.state.geo.n * place.state.geo.p + 1 {
                self.aside(place, vec![], Threshold(t, m))?;
            }
            self.aside(place, vec![], Threshold(u64::MAX, m))?;
        }
        Ok(())
    }

    /// Every fuse from 0 to one more than the call's operations, and endless ones.
    fn fuses(&mut self, place: &mut Place) -> Going {
        let geo = place.state.geo;
        let mut calls = usual_calls(&geo);
        calls.extend((0..geo.e).map(|l| Write(l * geo.s, geo.s)));
        for call in calls {
            if !call.lent().contains(&Fuse) {
                continue;
            }
            let mut lent = place.state.lent.clone();
            lent.fuse = 1 << 40;
            let _ = by_plain(&geo, &call, &mut lent);
            let operations = (1 << 40) - lent.fuse;
            let fuses = (0..=operations + 1).chain([1 << 32, 1 << 63, ENDLESS - 1, ENDLESS]);
            for fuse in fuses {
                self.aside(place, vec![Poke::Put(Fuse, 0, fuse)], call)?;
            }
        }
        Ok(())
    }

    /// Programmed marks set beforehand, singly and in pairs; counts at and around the limit.
    fn flash(&mut self, place: &mut Place) -> Going {
        let geo = place.state.geo;
        let pages = (geo.n * geo.p) as usize;
        for at in 0..pages {
            for value in [0, 1, 7, 255] {
                let one = Poke::Put(Marks, at, value);
                self.flash_calls(place, &[one.clone()])?;
                let other = Poke::Put(Marks, self.rng.below(pages as u64) as usize, 3);
                self.flash_calls(place, &[one, other])?;
            }
        }
        for at in 0..geo.n as usize {
            let limit = geo.limit;
            let most = 0xFFFF_FFFF;
            for count in [0, limit.saturating_sub(1), limit, (limit + 1).min(most), most] {
                self.flash_calls(place, &[Poke::Put(Counts, at, count)])?;
                let at_most = [Poke::Put(Counts, at, count), Poke::Geo(5, most)];
                self.flash_calls(place, &at_most)?;
            }
        }
        Ok(())
    }

    fn flash_calls(&mut self, place: &mut Place, pokes: &[Poke]) -> Going {
        let Geometry { n, s, .. } = place.state.geo;
        for call in [Format, Write(0, s), Write(s / 2, 0), Collect, List(n), Threshold(n, 1)] {
            self.aside(place, pokes.to_vec(), call)?;
        }
        let fuse = Poke::Put(Fuse, 0, self.rng.below(4));
        let fused: Vec<Poke> = pokes.iter().cloned().chain([fuse]).collect();
        self.aside(place, fused.clone(), Format)?;
        self.aside(place, fused, List(n))?;
        Ok(())
    }

    /// Single collections on sound tables with long lists, many segments bad, on a worn device.
    fn passes(&mut self, place: &mut Place) -> Going {
        let Geometry { n, p, .. } = place.state.geo;
        let geo = Geometry { e: n * p, ..place.state.geo };
        for _ in 0..1_000 {
            let mut pokes = vec![Poke::Geo(4, geo.e), Poke::Fit];
            pokes.extend(self.sound_tables(&geo));
            for g in 0..n as usize {
                if self.rng.one_in(3) {
                    pokes.push(Poke::Put(Bad, g, self.rng.pick(&[0, 1, 7, 255])));
                }
            }
            self.device_pokes(&place.state, &mut pokes);
            self.aside(place, pokes, Collect)?;
        }
        Ok(())
    }

    /// Opening from any allocation segment and from tables that are no tables.
    fn opening(&mut self, place: &mut Place) -> Going {
        let geo = place.state.geo;
        for alloc in (0..geo.n + 3).chain([0x7FFF_FFFF, 1 << 31, 0xFFFF_FFFE, 0xFFFF_FFFF]) {
            self.opened(place, vec![Poke::Put(Tab, at_alloc(&geo), alloc)])?;
        }
        for _ in 0..20 {
            let rng = &mut self.rng;
            let tab: Vec<u32> = place.state.lent.tab.iter().map(|_| rng.next() as u32).collect();
            let used: Vec<u8> = place.state.lent.used.iter().map(|_| rng.next() as u8).collect();
            let junk = Poke::Tables(tab, used);
            self.opened(place, vec![junk])?;
        }
        Ok(())
    }

    /// Opens, then goes on with what stands.
    fn opened(&mut self, place: &mut Place, pokes: Vec<Poke>) -> Going {
        let mut branch = place.clone();
        self.all_calls(&mut branch, &pokes)?;
        self.keep(&mut branch, pokes, Open)?;
        self.all_calls(&mut branch, &[])?;
        self.keep(&mut branch, vec![], Write(0, 1))?;
        self.all_calls(&mut branch, &[])
    }
}

// ---------------------------------------------------------------- damaged checkpoints

impl Driver {
    fn restore(&mut self, place: &mut Place) -> Going {
        self.damaged_bytes(place)?;
        self.damaged_header(place)?;
        self.damaged_body(place)?;
        self.cut_files(place)
    }

    /// The file as changed, with its old CRC and with a right one.
    fn restored(&mut self, place: &mut Place, pokes: Vec<Poke>) -> Going {
        self.aside(place, pokes.clone(), Restore)?;
        let sealed: Vec<Poke> = pokes.into_iter().chain([Poke::Seal]).collect();
        let accepted = self.aside(place, sealed.clone(), Restore)? == 0;
        if accepted && self.rng.one_in(8) {
            let mut branch = place.clone();
            let call = self.a_restore();
            self.keep(&mut branch, sealed, call)?;
            self.all_calls(&mut branch, &[])?;
        }
        Ok(())
    }

    /// Each byte of the file changed singly.
    fn damaged_bytes(&mut self, place: &mut Place) -> Going {
        let geo = place.state.geo;
        for at in 0..place.state.lent.file.len() {
            let old = place.state.lent.file[at];
            for value in [0, 1, 255, old ^ 1, old ^ 128, geo.n as u8, geo.p as u8 + 1] {
                self.restored(place, vec![Poke::Put(File, at, value as u64)])?;
            }
        }
        Ok(())
    }

    /// Each number of the header at its edges, alone and beside a later fault.
    fn damaged_header(&mut self, place: &mut Place) -> Going {
        let geo = place.state.geo;
        let later = Poke::Number(8, geo.n);
        for (at, right) in [(8, geo.n), (16, geo.n), (24, geo.p), (32, geo.e)] {
            for value in [0, right - 1, right, right + 1, (1 << 32) + right, 1 << 63, u64::MAX] {
                let poke = Poke::Number(at, value);
                self.restored(place, vec![poke.clone()])?;
                self.restored(place, vec![later.clone(), poke])?;
            }
        }
        for (at, right) in [(0, 0x5046_5443_u32), (4, 1)] {
            for value in [0, right - 1, right, right + 1, right.swap_bytes(), u32::MAX] {
                let poke = Poke::Word(at, value);
                self.restored(place, vec![poke.clone()])?;
                self.restored(place, vec![poke, later.clone(), Poke::Number(32, 0)])?;
            }
        }
        Ok(())
    }

    /// Each map word and each free count, with the CRC put right.
    fn damaged_body(&mut self, place: &mut Place) -> Going {
        let geo = place.state.geo;
        for l in 0..geo.e as usize {
            for value in self.other_words(place, l) {
                self.restored(place, vec![Poke::Word(44 + 4 * l, value)])?;
            }
        }
        let frees = 44 + 4 * geo.e as usize;
        for g in 0..geo.n as usize {
            for value in (0..geo.p as u32 + 2).chain([1 << 16, 1 << 31, u32::MAX]) {
                self.restored(place, vec![Poke::Word(frees + 4 * g, value)])?;
            }
        }
        for _ in 0..40 {
            let mut pokes: Vec<Poke> = Vec::new();
            for l in 0..geo.e as usize {
                let word = (self.rng.below(geo.n + 1) << geo.w) + self.rng.below(geo.p + 1);
                pokes.push(Poke::Word(44 + 4 * l, word as u32));
            }
            for g in 0..geo.n as usize {
                pokes.push(Poke::Word(frees + 4 * g, self.rng.below(geo.p + 1) as u32));
            }
            self.restored(place, pokes)?;
        }
        Ok(())
    }

    /// Every length, an empty file, and files of other geometries.
    fn cut_files(&mut self, place: &mut Place) -> Going {
        let geo = place.state.geo;
        let length = place.state.lent.file.len();
        for size in (0..length + 6).chain([2 * length, 5000]) {
            self.restored(place, vec![Poke::Size(File, size)])?;
            self.restored(place, vec![Poke::Size(File, size), Poke::Put(Taken, 0, 1)])?;
            self.restored(place, vec![Poke::Size(File, size), Poke::Size(Tab, 3)])?;
            self.restored(place, vec![Poke::Pattern(File, size, 7)])?;
        }
        for which in [0, 1, 2, 4] {
            let value = *number_of(&mut geo.clone(), which) + 1;
            self.restored(place, vec![Poke::Geo(which, value), Poke::Fit])?;
        }
        Ok(())
    }
}

// ---------------------------------------------------------------- random runs

impl Driver {
    /// A long run over one random geometry, with everything above now and then.
    fn run(&mut self) -> Going {
        let geo = if self.rng.one_in(16) { self.middle_geometry() } else { self.small_geometry() };
        let bad = self.bad_list(geo.n);
        let mut place = self.fresh(&geo, bad)?;
        for _ in 0..self.rng.pick(&[20, 60, 150]) {
            let (mut pokes, call) = self.good_call(&place.state);
            self.device_pokes(&place.state, &mut pokes);
            let full = self.keep(&mut place, pokes, call)? == -14;
            if self.rng.one_in(3) {
                let (pokes, call) = self.bad_call(&mut place);
                self.aside(&mut place, pokes, call)?;
            }
            if self.rng.one_in(if full { 2 } else { 12 }) {
                let (pokes, call) = self.odd_call(&place.state);
                self.keep(&mut place, pokes, call)?;
            }
        }
        Ok(())
    }

    fn middle_geometry(&mut self) -> Geometry {
        let rng = &mut self.rng;
        let (n, p, s) = (1 + rng.below(24), 1 + rng.below(12), 1 + rng.below(40));
        let w = (4 + rng.below(13)).min(16);
        let e = 1 + rng.below(n * p);
        Geometry { n, p, s, w, e, limit: rng.pick(&[1, 3, 1000]) }
    }

    /// Fuse, programmed marks and counts change under the run; mostly the fuse is endless.
    fn device_pokes(&mut self, state: &State, pokes: &mut Vec<Poke>) {
        let (geo, rng) = (&state.geo, &mut self.rng);
        if rng.one_in(12) {
            let fuse = rng.pick(&[0, 1, 2, 3, 5, 8, 13, ENDLESS - 1]);
            pokes.push(Poke::Put(Fuse, 0, fuse));
        } else if state.lent.fuse != ENDLESS && rng.one_in(3) {
            pokes.push(Poke::Put(Fuse, 0, ENDLESS));
        }
        if rng.one_in(25) {
            let at = rng.below(geo.n * geo.p) as usize;
            pokes.push(Poke::Put(Marks, at, rng.pick(&[0, 0, 0, 1, 7, 255])));
        }
        if rng.one_in(25) {
            let at = rng.below(geo.n) as usize;
            let count = rng.pick(&[0, 0, geo.limit, geo.limit.saturating_sub(1), 0xFFFF_FFFF]);
            pokes.push(Poke::Put(Counts, at, count));
        }
    }

    /// Rare calls that a run keeps: formatting, opening, other sound tables, damaged files.
    fn odd_call(&mut self, state: &State) -> (Vec<Poke>, Call) {
        let geo = &state.geo;
        match self.rng.below(8) {
            0 => (vec![], Format),
            1 | 2 => {
                let alloc = self.rng.below(geo.n + 2);
                (vec![Poke::Put(Tab, at_alloc(geo), alloc)], Open)
            }
            3 => {
                (self.sound_tables(geo), List(geo.n))
            }
            4 | 5 => {
                let length = geo.s.min(state.lent.data.len() as u64);
                (self.sound_tables(geo), Write(0, length))
            }
            _ => (self.damage(state), self.a_restore()),
        }
    }

    /// An earlier checkpoint with a few words and bytes changed.
    fn damage(&mut self, state: &State) -> Vec<Poke> {
        let (geo, rng) = (&state.geo, &mut self.rng);
        let mut pokes = vec![Poke::Saved(rng.below(REMEMBERED as u64) as usize)];
        if rng.one_in(3) {
            pokes[0] = Poke::Encoded;
        }
        let length = plain::checkpoint_bytes(geo);
        for _ in 0..rng.below(4) {
            let word = rng.below(geo.e + geo.n) as usize;
            let value = (rng.below(geo.n + 1) << geo.w) + rng.below(geo.p + 1);
            pokes.push(Poke::Word(44 + 4 * word, value as u32));
        }
        if rng.one_in(4) {
            pokes.push(Poke::Put(File, rng.below(length as u64) as usize, rng.next() & 255));
        }
        if !rng.one_in(4) {
            pokes.push(Poke::Seal);
        }
        if rng.one_in(8) {
            pokes.push(Poke::Size(File, rng.below(length as u64 + 9) as usize));
        }
        pokes
    }

    /// A call with something wrong, made aside.
    fn bad_call(&mut self, place: &mut Place) -> (Vec<Poke>, Call) {
        let geo = place.state.geo;
        let (mut pokes, mut call) = self.good_call(&place.state);
        if self.rng.one_in(2) {
            call = self.a_call(&geo);
        }
        for _ in 0..1 + self.rng.below(2) {
            pokes.push(self.bad_poke(place, &call));
        }
        if self.rng.one_in(6) {
            let sector = self.rng.pick(&[geo.s * geo.e, geo.s - 1, u64::MAX, self.calls]);
            let length = self.rng.pick(&[0, 1, geo.s, geo.s + 1, u64::MAX]);
            call = if self.rng.one_in(2) { Read(sector, length) } else { Write(sector, length) };
        }
        (pokes, call)
    }

    fn bad_poke(&mut self, place: &Place, call: &Call) -> Poke {
        let mut lent = place.state.lent.clone();
        match self.rng.below(8) {
            0 => Poke::Geo(self.rng.below(6) as usize, self.some_number()),
            1 => {
                let field = self.rng.pick(call.lent());
                let length = self.needed(place, call, field) as u64;
                let change = self.rng.below(5);
                Poke::Size(field, (length + change).saturating_sub(2) as usize)
            }
            2 => {
                let field = self.rng.pick(&SCRATCH);
                let length = slot(&mut lent, field).len() as u64;
                Poke::Put(field, self.rng.below(length) as usize, self.some_number())
            }
            3 => {
                let at = self.rng.below(lent.used.len() as u64) as usize;
                Poke::Put(Used, at, self.rng.below(3))
            }
            4 => {
                let words = lent.tab.len() as u64;
                Poke::Swap(self.rng.below(words) as usize, self.rng.below(words) as usize)
            }
            _ => {
                let at = self.rng.below(lent.tab.len() as u64) as usize;
                let words = self.other_words(place, at);
                Poke::Put(Tab, at, self.rng.pick(&words) as u64)
            }
        }
    }

    fn some_number(&mut self) -> u64 {
        let small = self.rng.below(20);
        self.rng.pick(&[0, 1, small, small, small << 32, 1 << 16, 1 << 32, 1 << 63, u64::MAX])
    }
}

// ---------------------------------------------------------------- right geometries at the limits

/// Right geometries with numbers at their limits, small enough to lend.
fn extremes() -> Vec<Geometry> {
    let geo = |n, p, s, w, e, limit| Geometry { n, p, s, w, e, limit };
    vec![
        geo(1, 1, 1, 0, 1, 0),
        geo(1, 1, 1, 16, 1, 0xFFFF_FFFF),
        geo(1, 1, 16_384, 0, 1, 1),
        geo(4, 4, 16_384, 2, 10, 2),
        geo(1, 1_024, 1, 10, 1_024, 3),
        geo(3, 1_024, 2, 16, 1_500, 3),
        geo(3, 1_023, 2, 10, 3_069, 3),
        geo(1_500, 2, 1, 1, 2_000, 9),
        geo(65_535, 1, 1, 0, 65_535, 4),
        geo(65_535, 1, 1, 16, 7, 4),
        geo(65_534, 2, 1, 16, 131_068, 4),
    ]
}

/// The plain reading takes long to sort more.
const LONG_QUEUE: u64 = 2_000;

impl Driver {
    fn extremes(&mut self) -> Going {
        for geo in extremes() {
            let bad = self.bad_list(geo.n);
            let mut place = self.fresh(&geo, bad)?;
            self.extreme_run(&mut place)?;
            let mut pokes = self.sound_tables(&geo);
            pokes.push(Poke::Encoded);
            self.keep(&mut place, pokes, Read(0, 0))?;
            self.extreme_run(&mut place)?;
        }
        Ok(())
    }

    fn extreme_run(&mut self, place: &mut Place) -> Going {
        let geo = place.state.geo;
        let (last, lists) = (geo.s * (geo.e - 1), at_lists(&geo));
        for (sector, length) in [(0, geo.s), (last, geo.s), (last, 1), (0, 0), (last + geo.s, 0)] {
            self.keep(place, vec![], Write(sector, length))?;
            self.keep(place, vec![], Read(sector, length))?;
        }
        for call in [Collect, List(2), Threshold(u64::MAX, 1), Encode] {
            self.keep(place, vec![], call)?;
        }
        self.keep(place, vec![Poke::Encoded], Restore)?;
        if geo.n <= LONG_QUEUE {
            self.keep(place, vec![], RestoreDead)?;
            self.keep(place, vec![], List(2))?;
            self.keep(place, vec![], Write(0, geo.s))?;
        }
        let end = place.state.lent.tab.len() - 1;
        for at in [0, at_free(&geo), at_valid(&geo) + 1, at_queued(&geo), lists, end] {
            let wrong = Poke::Put(Tab, at, 0x8000_0000);
            self.aside(place, vec![wrong], Write(0, 1))?;
        }
        let end = plain::page_count(&geo) - 1;
        self.aside(place, vec![Poke::Put(Used, end, 2)], Read(0, 1))?;
        self.aside(place, vec![Poke::Put(Taken, end, 1)], Restore)?;
        self.aside(place, vec![Poke::Put(Fuse, 0, geo.n / 2)], Format)?;
        self.aside(place, vec![], Open)?;
        Ok(())
    }
}

// ---------------------------------------------------------------- all tables of tiny devices

/// A tiny geometry, and the values that its map words, its other words and its use marks
/// take, each by each.
struct Tiny {
    geo: Geometry,
    map: &'static [u32],
    words: &'static [u32],
    used: &'static [u32],
}

fn tiny() -> [Tiny; 3] {
    let geo = |n, p, w, e| Geometry { n, p, s: 1, w, e, limit: 1 };
    let map = &[0, 1, 2, EMPTY];
    [
        Tiny { geo: geo(1, 1, 0, 1), map, words: &[0, 1, 2, EMPTY], used: &[0, 1, 2] },
        Tiny { geo: geo(2, 1, 0, 1), map, words: &[0, 1], used: &[0, 1] },
        Tiny { geo: geo(1, 2, 1, 2), map, words: &[0, 1, 2], used: &[0, 1] },
    ]
}

impl Driver {
    /// Every table over those values: which are sound, and every call on these.
    fn words(&mut self) -> Going {
        for tiny in tiny() {
            let bad = vec![0; tiny.geo.n as usize];
            let mut place = self.fresh(&tiny.geo, bad)?;
            let mut digits = vec![tiny.map; tiny.geo.e as usize];
            digits.resize(place.state.lent.tab.len(), tiny.words);
            digits.resize(digits.len() + place.state.lent.used.len(), tiny.used);
            let total: usize = digits.iter().map(|values| values.len()).product();
            for index in 0..total {
                let tables = nth_tables(&digits, index, place.state.lent.tab.len());
                if self.aside(&mut place, vec![tables.clone()], Encode)? > 0 {
                    self.all_calls(&mut place, &[tables])?;
                }
            }
        }
        Ok(())
    }
}

/// The words of one index, read as a number with a digit for each.
fn nth(digits: &[&[u32]], mut index: usize) -> Vec<u32> {
    let mut all = Vec::new();
    for values in digits {
        all.push(values[index % values.len()]);
        index /= values.len();
    }
    all
}

/// The tables of one index, with a digit for each word and mark.
fn nth_tables(digits: &[&[u32]], index: usize, words: usize) -> Poke {
    let mut all = nth(digits, index);
    let used = all.split_off(words).into_iter().map(|mark| mark as u8).collect();
    Poke::Tables(all, used)
}

// ---------------------------------------------------------------- all maps and free counts of tiny devices

/// n, p, w and e of devices; one has addresses past p.
const SMALLEST: [(u64, u64, u64, u64); 6] =
    [(1, 1, 0, 1), (1, 2, 1, 2), (1, 2, 2, 2), (3, 1, 0, 3), (2, 2, 1, 3), (3, 2, 1, 3)];

impl Driver {
    /// Every map and all free counts, the CRC right: what both restores leave, and some calls then.
    fn files(&mut self) -> Going {
        for (n, p, w, e) in SMALLEST {
            let geo = Geometry { n, p, s: 1, w, e, limit: 1 };
            let mut place = self.fresh(&geo, vec![0; n as usize])?;
            let words: Vec<u32> = (0..=(n << w) as u32).chain([EMPTY]).collect();
            let frees: Vec<u32> = (0..=p as u32).collect();
            let mut digits = vec![&words[..]; e as usize];
            digits.resize((e + n) as usize, &frees);
            for index in 0..digits.iter().map(|values| values.len()).product() {
                let file = nth(&digits, index).into_iter().enumerate();
                let words = file.map(|(i, word)| Poke::Word(44 + 4 * i, word));
                self.restored_file(&mut place, words.chain([Poke::Seal]).collect(), index)?;
            }
        }
        Ok(())
    }

    /// Every eighth file is kept with the dead queued.
    fn restored_file(&mut self, place: &mut Place, pokes: Vec<Poke>, index: usize) -> Going {
        if index % 8 > 0 {
            return self.aside(place, pokes, Restore).map(|_| ());
        }
        let mut branch = place.clone();
        self.keep(&mut branch, pokes, RestoreDead)?;
        for call in [Collect, List(2), List(u64::MAX), Threshold(1, 1), Write(0, 1)] {
            self.aside(&mut branch, vec![], call)?;
        }
        Ok(())
    }
}

// ---------------------------------------------------------------- sizes and CRC-32

/// Published check values of CRC-32.
const CRC_VALUES: [(&[u8], u32); 6] = [
    (b"", 0),
    (b"a", 0xE8B7_BE43),
    (b"123456789", 0xCBF4_3926),
    (b"The quick brown fox jumps over the lazy dog", 0x414F_A339),
    (&[0; 32], 0x190A_55AD),
    (&[255; 32], 0xFF6C_AB0B),
];

/// The sizes that a right geometry asks, 0 for a wrong one.
fn plain_sizes(geo: &Geometry) -> [usize; 11] {
    if !plain::geometry_right(geo) {
        return [0; 11];
    }
    let of = |field| exact(geo, field).unwrap();
    let parts = [Tab, Used, Bytes, Marks, Counts, Bad, Page, Seen, Order, Taken].map(of);
    let mut sizes = [plain::checkpoint_bytes(geo); 11];
    sizes[..10].copy_from_slice(&parts);
    sizes
}

fn port_sizes(geo: &Geometry) -> [usize; 11] {
    let z = port::sizes(&port_geometry(geo));
    [
        z.tab, z.used, z.bytes, z.marks, z.counts, z.bad, z.page, z.seen, z.order, z.taken,
        z.checkpoint,
    ]
}

impl Driver {
    /// Counts the comparisons; the first that fails, in words.
    fn numbers(&mut self) -> Result<u64, String> {
        let mut compared = 0;
        for (bytes, crc) in CRC_VALUES {
            if port::crc32(bytes) != crc || plain::crc32(bytes) != crc {
                return Err(format!("CRC-32 of {bytes:?}"));
            }
            compared += 1;
        }
        for length in 0..600 {
            let bytes: Vec<u8> = (0..length).map(|_| self.rng.next() as u8).collect();
            if port::crc32(&bytes) != plain::crc32(&bytes) {
                return Err(format!("CRC-32 of {bytes:?}"));
            }
            compared += 1;
        }
        for _ in 0..20_000 {
            let mut geo = self.small_geometry();
            for _ in 0..self.rng.below(3) {
                let value = self.edge_number();
                *number_of(&mut geo, self.rng.below(6) as usize) = value;
            }
            if port_sizes(&geo) != plain_sizes(&geo) {
                return Err(format!("sizes of {geo:?}"));
            }
            compared += 1;
        }
        Ok(compared)
    }

    fn edge_number(&mut self) -> u64 {
        let edge: u64 = self.rng.pick(&[0, 16, 1_024, 16_384, 65_535, 1 << 32, 1 << 63]);
        edge.wrapping_add(self.rng.below(3)).wrapping_sub(1)
    }}

// ---------------------------------------------------------------- wrong programs

/// A wrong program: from the call, the state before it and what the plain reading leaves,
/// it makes its own outcome and answer.
type Fault = fn(&Geometry, &Call, &Lent, &mut Lent, i64) -> i64;

fn collects(call: &Call) -> bool {
    matches!(call, Collect | List(_) | Threshold(..))
}

/// The queue's length; 0 where there is no such word.
fn queued(geo: &Geometry, lent: &Lent) -> usize {
    lent.tab.get(at_queued(geo)).map_or(0, |&length| length as usize)
}

/// The segments of a certain free count and length of list.
fn segments(geo: &Geometry, lent: &Lent, chosen: fn(u64, u64, u64) -> bool) -> Vec<u32> {
    let word = |at: usize, g: u64| lent.tab[at + g as usize] as u64;
    (0..geo.n)
        .filter(|&g| chosen(word(at_free(geo), g), word(at_lens(geo), g), geo.p))
        .map(|g| g as u32)
        .collect()
}

fn is_dead(free: u64, length: u64, p: u64) -> bool {
    free == 0 && length < p
}

/// Just these segments are queued and flagged.
fn queue_only(geo: &Geometry, lent: &mut Lent, segments: &[u32]) {
    lent.tab[at_queue(geo)..at_alloc(geo)].fill(0);
    lent.tab[at_queue(geo)..][..segments.len()].copy_from_slice(segments);
    lent.tab[at_queued(geo)] = segments.len() as u32;
    segments.iter().for_each(|&g| lent.tab[at_flags(geo) + g as usize] = 1);
}

/// The call once more from a changed beginning, in 01's numbers, with one part then put back.
fn again(geo: &Geometry, call: &Call, before: Lent, after: &mut Lent) -> i64 {
    *after = before;
    old(by_plain(geo, call, after))
}

const FAULTS: [(&str, Fault); 27] = [
    ("refuses everything", |_, _, before, after, _| {
        *after = before.clone();
        -22
    }),
    ("answers 0 always", |_, _, _, _, _| 0),
    ("a collection that does nothing", |_, call, before, after, answer| {
        if !collects(call) || answer < 0 {
            return answer;
        }
        *after = before.clone();
        0
    }),
    ("the draining pass counted", |geo, call, before, after, answer| {
        let drained = matches!(call, List(m) if *m > 0) && queued(geo, before) > 0;
        answer + i64::from(drained && answer >= 0 && queued(geo, after) == 0)
    }),
    ("allocation segment advanced after a write", |geo, call, _, after, answer| {
        if matches!(call, Write(..)) && answer >= 0 {
            let alloc = &mut after.tab[at_alloc(geo)];
            *alloc = (*alloc + 1) % geo.n as u32;
        }
        answer
    }),
    ("opening resets the allocation segment", |geo, call, _, after, answer| {
        if *call == Open && answer == 0 {
            after.tab[at_alloc(geo)] = 0;
        }
        answer
    }),
    ("formatting clears skipped counts", |_, call, _, after, answer| {
        if *call == Format && answer == 0 {
            after.counts.fill(0);
        }
        answer
    }),
    ("formatting passes bad segments", |geo, call, before, after, answer| {
        if *call == Format && answer == 0 {
            for g in 0..geo.n as usize {
                if before.bad.get(g).is_some_and(|&mark| mark != 0) {
                    after.counts[g] = before.counts[g];
                }
            }
        }
        answer
    }),
    ("a refused programming lowers the fuse", |_, call, _, after, answer| {
        if matches!(call, Write(..)) && answer == -5 && after.fuse != ENDLESS {
            after.fuse = after.fuse.saturating_sub(1);
        }
        answer
    }),
    ("61 before the overrun", |geo, call, before, _, answer| match call {
        Read(sector, length)
            if answer == -22 && plain::is_sound(geo, before)
                && before.out.len() as u64 >= *length && sector / geo.s < geo.e
                && before.tab[(sector / geo.s) as usize] == EMPTY =>
        {
            -61
        }
        _ => answer,
    }),
    ("marks brought to 1", |_, call, _, after, answer| {
        if matches!(call, Write(..)) && answer >= 0 {
            after.marks.iter_mut().for_each(|mark| *mark = (*mark).min(1));
        }
        answer
    }),
    ("a read clears the rest of its buffer", |_, call, _, after, answer| {
        if matches!(call, Read(..)) && answer >= 0 {
            after.out[answer as usize..].fill(0);
        }
        answer
    }),
    ("an encoding clears the rest of its buffer", |_, call, _, after, answer| {
        if *call == Encode && answer > 0 {
            after.buffer[answer as usize..].fill(0);
        }
        answer
    }),
    ("the page stays dirty after 5", |_, call, _, after, answer| {
        if matches!(call, Write(..)) && answer == -5 {
            after.page[0] = 1;
        }
        answer
    }),
    ("seen stays dirty after 117", |_, _, _, after, answer| {
        if answer == -117 {
            after.seen[0] = 1;
        }
        answer
    }),
    ("a refused victim loses its flag", |geo, call, before, after, answer| {
        if *call == Collect && matches!(answer, -14 | -5) && queued(geo, before) > 0 {
            for g in at_flags(geo)..at_alloc(geo) {
                after.tab[g] = 0;
            }
        }
        answer
    }),
    ("a spent page does not count as valid", |geo, call, before, after, answer| {
        if matches!(call, Write(..)) && answer == -5 {
            let valid = at_valid(geo)..at_valid(geo) + geo.n as usize;
            after.tab[valid.clone()].copy_from_slice(&before.tab[valid]);
        }
        answer
    }),
    ("the queue's last slot stays", |geo, call, before, after, answer| {
        if *call == Collect && answer == 0 && queued(geo, before) > 0 {
            let last = at_queue(geo) + queued(geo, after);
            after.tab[last] = before.tab[last];
        }
        answer
    }),
    ("queued at the back", |geo, call, before, after, answer| {
        let length = queued(geo, after);
        if matches!(call, Write(..)) && answer >= 0 && length > queued(geo, before) {
            after.tab[at_queue(geo)..][..length].rotate_left(1);
        }
        answer
    }),
    ("the lowest number of equals first", |geo, call, before, after, answer| {
        if *call != Collect || !matches!(answer, 0 | -5 | -14) {
            return answer;
        }
        let mut other = before.clone();
        let valid = before.tab[at_valid(geo)..][..geo.n as usize].to_vec();
        let queue = &mut other.tab[at_queue(geo)..][..queued(geo, before)];
        queue.sort_by_key(|&g| (valid[g as usize], g));
        again(geo, call, other, after)
    }),
    ("the threshold itself runs nothing", |geo, call, before, after, answer| match *call {
        Threshold(t, m) if answer != -22 && answer != -117 && t > 0 => {
            again(geo, &Threshold(t - 1, m), before.clone(), after)
        }
        _ => answer,
    }),
    ("unsound tables are wrong sizes", |_, _, _, _, answer| {
        if answer == -117 { -22 } else { answer }
    }),
    ("a short checkpoint buffer after soundness", |geo, call, before, after, answer| {
        if *call != Encode || answer != -22 || !plain::geometry_right(geo) {
            return answer;
        }
        let mut longer = before.clone();
        longer.buffer.resize(plain::checkpoint_bytes(geo), 0);
        let answer = again(geo, call, longer, after);
        *after = before.clone();
        if answer == -117 { -117 } else { -22 }
    }),
    ("dirty order words are passed", |geo, call, before, after, answer| {
        if !collects(call) || answer != -22 {
            return answer;
        }
        let mut clean = before.clone();
        clean.order.fill(0);
        let answer = again(geo, call, clean, after);
        after.order = before.order.clone();
        answer
    }),
    ("dirty taken marks are passed", |geo, call, before, after, answer| {
        if *call != Restore || answer != -22 {
            return answer;
        }
        let mut clean = before.clone();
        clean.taken.fill(0);
        let answer = again(geo, call, clean, after);
        after.taken = before.taken.clone();
        answer
    }),
    ("an erase at the limit is done", |geo, call, before, after, answer| {
        if !collects(call) || geo.limit >= 0xFFFF_FFFF {
            return answer;
        }
        let more = Geometry { limit: geo.limit + 1, ..*geo };
        again(&more, call, before.clone(), after)
    }),
    ("the last repeat wins", |geo, call, _, after, answer| {
        if *call == Restore && answer == 0 {
            for l in (1..geo.e as usize).rev() {
                let word = u32::from_le_bytes(after.file[44 + 4 * l..][..4].try_into().unwrap());
                if let Some(first) = after.tab[..l].iter().position(|&w| w == word && w != EMPTY) {
                    after.tab.swap(first, l);
                }
            }
        }
        answer
    }),
];

/// Programs that are wrong in the new numbers alone.
const TOLD_FAULTS: [(&str, Fault); 8] = [
    ("answers in the old numbers", |_, _, _, _, answer| as_old(answer)),
    ("a full write told as 14", |_, call, _, _, answer| match call {
        Write(..) => as_old(answer),
        _ => answer,
    }),
    ("a copy without room told as the device's", |_, call, _, _, answer| {
        if collects(call) && answer == -28 { -121 } else { answer }
    }),
    ("a copy that the device refuses told as 28", |_, _, _, _, answer| {
        if answer == -121 { -28 } else { answer }
    }),
    ("a copy at fuse 0 told as 28", |_, _, _, after, answer| {
        if answer == -121 && after.fuse == 0 { -28 } else { answer }
    }),
    ("a refused erase told as a copy's", |_, call, _, _, answer| {
        if collects(call) && answer == -5 { -121 } else { answer }
    }),
    ("a threshold collection told in the old numbers", |_, call, _, _, answer| match call {
        Threshold(..) => as_old(answer),
        _ => answer,
    }),
    ("a write without room moves the allocation segment", |geo, call, _, after, answer| {
        if matches!(call, Write(..)) && answer == -28 {
            let alloc = &mut after.tab[at_alloc(geo)];
            *alloc = (*alloc + 1) % geo.n as u32;
        }
        answer
    }),
];

/// Programs that are wrong where a restore queues the dead, or where the old one does not.
const DEAD_FAULTS: [(&str, Fault); 14] = [
    ("the dead queued descending", |geo, call, _, after, answer| {
        if *call == RestoreDead && answer == 0 {
            let dead: Vec<u32> = segments(geo, after, is_dead).into_iter().rev().collect();
            queue_only(geo, after, &dead);
        }
        answer
    }),
    ("a queued segment's flag not set", |geo, call, _, after, answer| {
        if *call == RestoreDead && answer == 0 && queued(geo, after) > 0 {
            let last = after.tab[at_queue(geo) + queued(geo, after) - 1] as usize;
            after.tab[at_flags(geo) + last] = 0;
        }
        answer
    }),
    ("a full live segment queued", |geo, call, _, after, answer| {
        if *call == RestoreDead && answer == 0 {
            let full = segments(geo, after, |free, _, _| free == 0);
            queue_only(geo, after, &full);
        }
        answer
    }),
    ("a full live segment flagged", |geo, call, _, after, answer| {
        if *call == RestoreDead && answer == 0 {
            for g in segments(geo, after, |free, _, _| free == 0) {
                after.tab[at_flags(geo) + g as usize] = 1;
            }
        }
        answer
    }),
    ("a segment with one free page queued", |geo, call, _, after, answer| {
        if *call == RestoreDead && answer == 0 {
            let nearly = segments(geo, after, |free, length, p| free <= 1 && length < p);
            queue_only(geo, after, &nearly);
        }
        answer
    }),
    ("only segments without a list queued", |geo, call, _, after, answer| {
        if *call == RestoreDead && answer == 0 {
            let bare = segments(geo, after, |free, length, _| free == 0 && length == 0);
            queue_only(geo, after, &bare);
        }
        answer
    }),
    ("the first segment missed", |geo, call, _, after, answer| {
        if *call == RestoreDead && answer == 0 {
            let mut dead = segments(geo, after, is_dead);
            dead.retain(|&g| g > 0);
            queue_only(geo, after, &dead);
        }
        answer
    }),
    ("the last segment missed", |geo, call, _, after, answer| {
        if *call == RestoreDead && answer == 0 {
            let mut dead = segments(geo, after, is_dead);
            dead.retain(|&g| g as u64 + 1 < geo.n);
            queue_only(geo, after, &dead);
        }
        answer
    }),
    ("a dropped word keeps its segment off the queue", |geo, call, _, after, answer| {
        if *call == RestoreDead && answer == 0 {
            let words: Vec<u32> = (after.file[44..][..4 * geo.e as usize].chunks(4))
                .map(|word| u32::from_le_bytes(word.try_into().unwrap()))
                .collect();
            let named = |g: u32| words.iter().filter(|&&word| word >> geo.w == g).count() as u64;
            let mut dead = segments(geo, after, is_dead);
            dead.retain(|&g| named(g) < geo.p);
            queue_only(geo, after, &dead);
        }
        answer
    }),
    ("slots of the old queue stay behind the new", |geo, call, before, after, answer| {
        if *call == RestoreDead && answer == 0 {
            let rest = at_queue(geo) + queued(geo, after)..at_flags(geo);
            after.tab[rest.clone()].copy_from_slice(&before.tab[rest]);
        }
        answer
    }),
    ("flags of the old tables stay", |geo, call, before, after, answer| {
        if *call == RestoreDead && answer == 0 {
            (at_flags(geo)..at_alloc(geo)).for_each(|at| after.tab[at] |= before.tab[at]);
        }
        answer
    }),
    ("a refused restore empties the queue", |geo, call, _, after, answer| {
        if *call == RestoreDead && (-9..0).contains(&answer) {
            queue_only(geo, after, &[]);
        }
        answer
    }),
    ("the old name queues the dead", |geo, call, before, after, answer| match call {
        Restore => again(geo, &RestoreDead, before.clone(), after),
        _ => answer,
    }),
    ("the new name queues nothing", |geo, call, before, after, answer| match call {
        RestoreDead => again(geo, &Restore, before.clone(), after),
        _ => answer,
    }),
];

/// A wrong pass of a single collection, made from what the plain reading leaves and answers.
type PassFault = fn(&Geometry, &Pass, &Lent, &mut Lent, Answer) -> Answer;

/// A free page of a segment becomes used, with nothing in it.
fn spend(geo: &Geometry, lent: &mut Lent, g: usize) {
    let free = lent.tab[at_free(geo) + g];
    lent.used[(g + 1) * geo.p as usize - free as usize] = 1;
    lent.tab[at_free(geo) + g] -= 1;
    lent.tab[at_valid(geo) + g] += 1;
}

/// The segments with free pages, on the bad list or outside it.
fn with_room(geo: &Geometry, lent: &Lent, bad: bool) -> Vec<usize> {
    (0..geo.n as usize)
        .filter(|&g| lent.tab[at_free(geo) + g] > 0 && (lent.bad[g] != 0) == bad)
        .collect()
}

/// Nothing is changed, and the pass answers so.
fn unmoved(before: &Lent, after: &mut Lent, answer: Answer) -> Answer {
    *after = before.clone();
    answer
}

/// The pass once more, with no segment bad.
fn with_none_bad(geo: &Geometry, before: &Lent) -> (Lent, Answer) {
    let mut after = before.clone();
    after.bad.fill(0);
    let answer = plain::collect(geo, &mut after);
    after.bad = before.bad.clone();
    (after, answer)
}

/// The victim's pages are held elsewhere over its erase and come back into it.
fn come_back(geo: &Geometry, pass: &Pass, before: &Lent, after: &mut Lent) {
    *after = before.clone();
    let (p, g, v) = (geo.p as usize, pass.victim, pass.listed as usize);
    for k in 0..v {
        let l = after.tab[at_lists(geo) + g * p + k] as usize;
        after.tab[l] = ((g << geo.w) + k) as u32;
    }
    after.used[g * p..][..p].fill(0);
    after.used[g * p..][..v].fill(1);
    after.tab[at_free(geo) + g] = (p - v) as u32;
    after.tab[at_valid(geo) + g] = v as u32;
    let mut queue = before.tab[at_queue(geo)..][..queued(geo, before)].to_vec();
    queue.retain(|&other| other as usize != g);
    queue_only(geo, after, &queue);
}

/// Programs that are wrong on both sides alike and leave sound tables, each with the sum that must
/// find it.
const PASS_FAULTS: [(&str, &str, PassFault); 15] = [
    ("an erased segment has p - 1 pages", GAIN, |geo, pass, _, after, answer| {
        if answer == Ok(0) {
            spend(geo, after, pass.victim);
        }
        answer
    }),
    ("copies go to bad segments too", USE, |geo, _, before, after, answer| {
        if answer != Ok(0) {
            return answer;
        }
        let (left, answer) = with_none_bad(geo, before);
        *after = left;
        answer
    }),
    ("bad segments are taken where no other has room", SHORT, |geo, _, before, after, answer| {
        match with_none_bad(geo, before) {
            (left, Ok(0)) if answer == Err(Cause::CopyNoRoom) => {
                *after = left;
                Ok(0)
            }
            _ => answer,
        }
    }),
    ("short of room, the list comes back", SHORT, |geo, pass, before, after, answer| {
        if answer != Err(Cause::CopyNoRoom) || pass.bad {
            return answer;
        }
        come_back(geo, pass, before, after);
        Ok(0)
    }),
    ("no room answered as a refused erase", SHORT, |_, _, _, _, answer| {
        if answer == Err(Cause::CopyNoRoom) { Err(Cause::Erase) } else { answer }
    }),
    ("the last free page is kept back", AMPLE, |_, pass, before, after, answer| {
        if answer == Ok(0) && pass.listed > 0 && pass.room == pass.listed {
            return unmoved(before, after, Err(Cause::CopyNoRoom));
        }
        answer
    }),
    ("room asked for by the valid count", AMPLE, |geo, pass, before, after, answer| {
        if answer == Ok(0) && pass.room < before.tab[at_valid(geo) + pass.victim] as u64 {
            return unmoved(before, after, Err(Cause::CopyNoRoom));
        }
        answer
    }),
    ("the device's refusal answered as no room", AMPLE, |_, pass, _, _, answer| {
        let device = answer == Err(Cause::CopyDevice) && pass.room >= pass.listed;
        if device { Err(Cause::CopyNoRoom) } else { answer }
    }),
    ("a refused erase answered as no room", AMPLE, |_, _, _, _, answer| {
        if answer == Err(Cause::Erase) { Err(Cause::CopyNoRoom) } else { answer }
    }),
    ("short of room, nothing is copied", LEFT, |_, _, before, after, answer| {
        if answer == Err(Cause::CopyNoRoom) { unmoved(before, after, answer) } else { answer }
    }),
    ("short of room, a bad segment's page is spent", OTHERS, |geo, _, _, after, answer| {
        let bad = with_room(geo, after, true);
        if answer == Err(Cause::CopyNoRoom) && !bad.is_empty() {
            spend(geo, after, bad[0]);
        }
        answer
    }),
    ("the erase is tried before the copies", ERASE, |_, _, before, after, answer| {
        if answer == Err(Cause::Erase) { unmoved(before, after, answer) } else { answer }
    }),
    ("a page that the device refuses is not spent", NONE, |_, _, before, after, answer| {
        if answer == Err(Cause::CopyDevice) { unmoved(before, after, answer) } else { answer }
    }),
    ("no room answered as the device's refusal", NONE, |_, _, _, _, answer| {
        if answer == Err(Cause::CopyNoRoom) { Err(Cause::CopyDevice) } else { answer }
    }),
    ("a copy that the device refuses spends all the room", MORE, |geo, _, _, after, answer| {
        while answer == Err(Cause::CopyDevice) {
            let Some(&g) = with_room(geo, after, false).first() else { break };
            spend(geo, after, g);
        }
        answer
    }),
];

/// Every wrong program, with the beginning of what must be reported of it.
fn wrong_programs() -> Vec<(&'static str, &'static str, Side)> {
    let by = |numbers| move |(name, fault)| (name, "", Side::Wrong(numbers, fault));
    let old = FAULTS.into_iter().map(by(Numbers::Old));
    let told = TOLD_FAULTS.into_iter().map(by(Numbers::New));
    let dead = DEAD_FAULTS.into_iter().map(by(Numbers::Old));
    let shared = PASS_FAULTS.into_iter().map(|(name, sum, fault)| (name, sum, Side::Shared(fault)));
    old.chain(told).chain(dead).chain(shared).collect()
}

// ---------------------------------------------------------------- self-test

/// Each part of an outcome changed singly must be found, and named.
fn perturbed(place: &Place, call: Call) -> Result<u64, String> {
    let geo = place.state.geo;
    let mut lent = place.state.lent.clone();
    let answer = old(by_plain(&geo, &call, &mut lent));
    let right = Outcome { answer, lent, past: None };
    let mut found = 0;
    let mut expect = |name: String, mut wrong: Outcome| {
        found += 1;
        match compare(&geo, &mut right.clone(), &mut wrong) {
            Some(difference) if difference.field.starts_with(&name) => Ok(()),
            other => Err(format!("{name} changed after {call:?}, found {other:?}")),
        }
    };
    for field in FIELDS {
        let length = slot(&mut right.lent.clone(), field).len();
        for at in (0..length).filter(|&at| at < 3 || at + 3 > length || at == length / 2) {
            let mut wrong = right.clone();
            let mut part = slot(&mut wrong.lent, field);
            part.set(at, part.get(at) ^ 1);
            expect(format!("{field:?}[{at}]"), wrong)?;
        }
        if field != Fuse {
            let mut wrong = right.clone();
            slot(&mut wrong.lent, field).resize(length + 1);
            expect(format!("{field:?} length"), wrong)?;
        }
        expect(format!("past {field:?}"), Outcome { past: Some(field), ..right.clone() })?;
    }
    expect("answer".into(), Outcome { answer: answer + 1, ..right.clone() })?;
    Ok(found)
}

/// Each word changed singly after one of the two restores must be found beside the other, but those
/// of the queue and the flags when they are done.
fn besides_work(place: &Place) -> Result<u64, String> {
    let (geo, mut found) = (place.state.geo, 0);
    for file in [place.state.lent.file.clone(), Vec::new()] {
        let lent = Lent { file, ..place.state.lent.clone() };
        let restored = |call| by_reading(&geo, &call, &lent);
        let (one, other) = (restored(Restore), restored(RestoreDead));
        if compare_beside(&geo, &one, &other).is_some() {
            return Err("a difference of the two restores".into());
        }
        for at in 0..lent.tab.len() {
            let mut wrong = other.clone();
            wrong.lent.tab[at] ^= 1;
            let of_queue = (at_queue(&geo)..at_alloc(&geo)).contains(&at) || at == at_queued(&geo);
            let expected = one.answer != 0 || !of_queue;
            if compare_beside(&geo, &one, &wrong).is_some() != expected {
                return Err(format!("{} changed after one of two restores", word_name(&geo, at)));
            }
            found += u64::from(expected);
        }
    }
    Ok(found)
}

/// A guard that is written to must be found.
fn guards_work(place: &Place) -> Result<u64, String> {
    for field in FIELDS.into_iter().filter(|&field| field != Fuse) {
        for at in [0, GUARD - 1] {
            let mut lent = place.state.lent.clone();
            guard(&mut lent, field);
            if !guarded(&mut lent, field) {
                return Err(format!("guard of {field:?} not whole"));
            }
            match slot(&mut lent, field) {
                Slot::Bytes(list) => unsafe { *list.as_mut_ptr().add(list.len() + at) ^= 1 },
                Slot::Words(list) => unsafe { *list.as_mut_ptr().add(list.len() + at) ^= 1 },
                Slot::Number(_) => (),
            }
            if guarded(&mut lent, field) {
                return Err(format!("guard of {field:?} not watched"));
            }
        }
    }
    Ok(2 * FIELDS.len() as u64 - 2)
}

/// After a pass, each free count changed by one and its answer turned must break a sum; so must
/// other readings of v and of the room.
fn sums_work(driver: &mut Driver, place: &Place) -> Result<u64, String> {
    let (mut geo, mut lent) = (place.state.geo, place.state.lent.clone());
    for poke in driver.sound_tables(&geo) {
        apply(&poke, &[], &mut geo, &mut lent);
    }
    let before = lent.tab.clone();
    let told = plain::number(Numbers::New, by_plain(&geo, &Collect, &mut lent));
    let Some(pass) = passed(&geo, &Collect, &lent.bad, &before, told) else { return Ok(0) };
    if let Some(broken) = compare_sums(&geo, &pass, &lent) {
        return Err(format!("the sums of the plain reading: {}", broken.field));
    }
    let wrong = misread(&geo, &pass, &before).into_iter().map(|pass| (pass, lent.clone()));
    let miscounted = miscounted(&geo, &pass, &lent).into_iter().map(|lent| (pass, lent));
    let all: Vec<(Pass, Lent)> = wrong.chain(miscounted).collect();
    match all.iter().find(|(pass, lent)| compare_sums(&geo, pass, lent).is_none()) {
        Some((wrong, _)) => Err(format!("a sum of {pass:?} holds of {wrong:?}")),
        None => Ok(all.len() as u64),
    }
}

/// A pass read wrongly where a sum must tell: another answer, but for the device's refusals, which
/// may spend as much as others; the valid count for v; bad segments' pages in the room.
fn misread(geo: &Geometry, pass: &Pass, before: &[u32]) -> Vec<Pass> {
    let sure = |told| pass.told == 0 || told == 0 || ![pass.told, told].contains(&-121);
    let others = [0, -28, -5, -121].into_iter().filter(|&told| told != pass.told && sure(told));
    let mut wrong: Vec<Pass> = others.map(|told| Pass { told, ..*pass }).collect();
    let valid = before[at_valid(geo) + pass.victim] as u64;
    if matches!(pass.told, 0 | -5) && valid != pass.listed {
        wrong.push(Pass { listed: valid, ..*pass });
    }
    if matches!(pass.told, 0 | -28) && pass.total != pass.room {
        wrong.push(Pass { room: pass.total, ..*pass });
    }
    wrong
}

/// What a pass leaves, with each free count one more and one less; not after the device's refusals.
fn miscounted(geo: &Geometry, pass: &Pass, left: &Lent) -> Vec<Lent> {
    let counts = (at_free(geo)..at_valid(geo)).filter(|_| pass.told != -121);
    let changed = |at: usize, change: i32| {
        let mut lent = left.clone();
        lent.tab[at] = lent.tab[at].checked_add_signed(change)?;
        Some(lent)
    };
    counts.flat_map(|at| [changed(at, 1), changed(at, -1)]).flatten().collect()
}

/// Random runs must find a wrong program with such a report, which must stay true when replayed.
fn finds(name: &str, report: &str, side: Side, seed: u64) -> Result<(u64, usize), String> {
    let mut driver = Driver::new(side, seed, f64::INFINITY, 400_000);
    loop {
        match driver.run() {
            Ok(()) => (),
            Err(Stop::Over) => return Err(format!("{name}: not found")),
            Err(Stop::Found(found)) => {
                if replay(side, &found.geo, &found.bad, &found.steps).is_none() {
                    return Err(format!("{name}: the shortened run does not show it"));
                }
                if !found.found.field.starts_with(report) {
                    return Err(format!("{name}: reported as {}", found.found.field));
                }
                return Ok((driver.calls, found.steps.len()));
            }
        }
    }
}

/// One of 01's examples: a geometry, calls with their answers, and what is seen then.
struct Example {
    name: &'static str,
    geo: Geometry,
    script: Vec<Asked>,
    /// What stood before the last call, and after it.
    seen: fn(&Lent, &Lent) -> bool,
}

/// Pokes, a call and the answer it must give.
type Asked = (Vec<Poke>, Call, i64);

/// Whole pages written one after another.
fn pages(list: &[u64]) -> Vec<Asked> {
    list.iter().map(|&l| (vec![Poke::Pattern(Data, 4, l as u8)], Write(4 * l, 4), 4)).collect()
}

/// A restore on device A of a file made by hand: allocation segment, map, free counts.
fn by_hand(alloc: u64, words: [u32; 5], answer: i64) -> Asked {
    let mut pokes = vec![Poke::Encoded, Poke::Number(8, alloc)];
    pokes.extend((0..5).map(|i| Poke::Word(44 + 4 * i, words[i])));
    if answer != -7 {
        pokes.push(Poke::Seal);
    }
    (pokes, Restore, answer)
}

/// E1 to E5 and E10 of document 01.
fn first_examples() -> Vec<Example> {
    let geo = Geometry { n: 2, p: 2, s: 4, w: 1, e: 3, limit: 5 };
    let room = || vec![Poke::Pattern(Data, 4, 1)];
    let mut e4 = pages(&[0, 1, 2, 0]);
    e4.push((vec![], Collect, -14));
    let mut e5 = e4.clone();
    e5.push((vec![], Collect, 0));
    let example = |name, script, seen| Example { name, geo, script, seen };
    vec![
        example("E1", vec![(vec![], Write(0, 0), 0)], |_, lent| {
            lent.tab[0] == 0 && lent.bytes[..4] == [0; 4] && lent.marks[0] == 1
        }),
        example("E2", vec![(room(), Write(1, 3), 3), (room(), Write(1, 4), -22)], |a, b| a == b),
        example("E3", vec![(room(), Write(11, 1), 1), (room(), Write(12, 1), -22)], |a, b| a == b),
        example("E4", e4, |_, lent| lent.tab[1] == 1),
        example("E5", e5, |before, lent| lent == before),
        example("E10", vec![(vec![], Encode, 64)], |_, _| true),
    ]
}

/// E6 to E9 and the calls of the trace.
fn other_examples() -> Vec<Example> {
    let geo = Geometry { n: 2, p: 2, s: 4, w: 1, e: 3, limit: 5 };
    let three = Geometry { p: 3, w: 2, ..geo };
    let more = Geometry { n: 3, ..geo };
    let mut e7 = pages(&[0, 1, 2, 0]);
    e7.push((vec![], Collect, 0));
    e7.extend(pages(&[2, 1]));
    e7.push((vec![], Collect, 0));
    let queued: fn(&Lent, &Lent) -> bool = |before, lent| {
        before.tab[12..15] == [2, 1, 0]
            && before.tab[7] == before.tab[8]
            && (before.counts[2], lent.counts[2]) == (0, 1)
    };
    let full_unqueued: fn(&Lent, &Lent) -> bool =
        |_, lent| (lent.tab[3], lent.tab[7], lent.tab[9], lent.tab[14]) == (0, 2, 0, 0);
    let e8 = vec![by_hand(0, [0, 0, 1, 1, 2], 0)];
    let e9 = vec![
        by_hand(0, [0, EMPTY, EMPTY, 1, 2], 0),
        by_hand(0, [0, EMPTY, EMPTY, 1, 3], -9),
        by_hand(2, [0, EMPTY, EMPTY, 1, 2], -8),
        by_hand(2, [0, EMPTY, EMPTY, 1, 3], -7),
    ];
    vec![
        Example { name: "E6", geo: three, script: pages(&[0, 0, 1]), seen: full_unqueued },
        Example { name: "E7", geo: more, script: e7, seen: queued },
        Example { name: "E8", geo, script: e8, seen: |_, lent| lent.tab[..3] == [0, EMPTY, EMPTY] },
        Example { name: "E9", geo, script: e9, seen: |_, _| true },
        traced(Geometry { limit: 10, ..more }),
    ]
}

/// The calls of 01's trace, with their answers and the map at its end.
fn traced(geo: Geometry) -> Example {
    let bytes = |first| vec![Poke::Pattern(Data, 4, first)];
    let script = vec![
        (bytes(b'a'), Write(0, 2), 2),
        (bytes(b'c'), Write(1, 1), 1),
        (bytes(b'w'), Write(4, 4), 4),
        (vec![], Collect, 0),
        (vec![], Read(0, 4), 4),
        (bytes(b'!'), Write(12, 1), -22),
    ];
    Example { name: "trace", geo, script, seen: |_, lent| {
        lent.tab[..3] == [3, 2, EMPTY] && lent.out[..4] == *b"ac\0\0"
    } }
}

/// Restores that queue the dead: three, one beside a full live segment, and the one that E4 loses.
fn dead_examples() -> Vec<Example> {
    let geo = Geometry { n: 2, p: 2, s: 4, w: 1, e: 3, limit: 5 };
    let more = Geometry { n: 3, ..geo };
    let mut three = pages(&[0, 0, 0, 0, 0, 0]);
    three.push((vec![Poke::Encoded], RestoreDead, 0));
    let (file, _, answer) = by_hand(0, [2, 3, EMPTY, 0, 0], 0);
    let one = vec![(file, RestoreDead, answer)];
    let mut e4 = pages(&[0, 1, 2, 0]);
    e4.push((vec![], Collect, -14));
    e4.push((vec![Poke::Encoded], RestoreDead, 0));
    e4.push((vec![], Collect, -14));
    vec![
        Example { name: "three dead", geo: more, script: three, seen: |_, lent| {
            lent.tab[12..18] == [0, 1, 2, 1, 1, 1] && lent.tab[19] == 3
        } },
        Example { name: "one dead", geo, script: one, seen: |_, lent| {
            lent.tab[9..13] == [0, 0, 1, 0] && lent.tab[14] == 1
        } },
        Example { name: "E4 restored", geo, script: e4, seen: |before, lent| {
            before.tab[9..13] == [0, 0, 1, 0] && (before.tab[14], lent.tab[14]) == (1, 0)
        } },
    ]
}

/// The plain reading gives what the examples say.
fn examples_hold(driver: &mut Driver) -> Result<(), String> {
    for example in first_examples().into_iter().chain(other_examples()).chain(dead_examples()) {
        let bad = vec![0; example.geo.n as usize];
        let failed = |what: &str| format!("example {}: {what}", example.name);
        let mut place = driver.fresh(&example.geo, bad).map_err(|_| failed("no place"))?;
        let mut before = place.state.lent.clone();
        for (pokes, call, answer) in example.script {
            before = place.state.lent.clone();
            match driver.keep(&mut place, pokes, call) {
                Ok(given) if given == answer => (),
                _ => return Err(failed(&format!("{call:?} does not answer {answer}"))),
            }
        }
        before.data = place.state.lent.data.clone();
        if !(example.seen)(&before, &place.state.lent) {
            return Err(failed("not what is seen"));
        }
    }
    Ok(())
}

fn no_fault(_: &Geometry, _: &Call, _: &Lent, _: &mut Lent, answer: i64) -> i64 {
    answer
}

fn selftest(seed: u64) -> Result<(), String> {
    let right = Side::Wrong(Numbers::Old, no_fault);
    let mut driver = Driver::new(right, seed, f64::INFINITY, 50_000);
    examples_hold(&mut driver)?;
    println!("E1 to E10, the trace's calls and three of M-109 hold of the plain reading");
    let (mut changes, mut sums) = (0, 0);
    for _ in 0..20 {
        let Ok(place) = driver.some_place() else { return Err("no place".into()) };
        for call in usual_calls(&place.state.geo) {
            changes += perturbed(&place, call)?;
        }
        changes += besides_work(&place)? + guards_work(&place)?;
        for _ in 0..20 {
            sums += sums_work(&mut driver, &place)?;
        }
    }
    println!("{changes} single changes of an outcome, each found and named");
    println!("{sums} changes of what a pass counts, each breaking a sum of M-111");
    loop {
        match driver.run() {
            Ok(()) => (),
            Err(Stop::Over) => break,
            Err(Stop::Found(_)) => return Err("a difference of the plain reading to itself".into()),
        }
    }
    println!("{} calls of the plain reading beside itself, no difference", driver.calls);
    for (name, report, side) in wrong_programs() {
        let (calls, steps) = finds(name, report, side, seed)?;
        println!("found after {calls} calls, {steps} steps left: {name}");
    }
    Ok(())
}

// ---------------------------------------------------------------- main

/// Every answer of document 01, and those of 02's new names, by entry; runs of `all` must meet
/// each, and no other.
const ANSWERS: [(&str, &[&str]); 14] = [
    ("format", &["0", "-22"]),
    ("open", &["0", "-22"]),
    ("read", &["0", "above 0", "-22", "-117", "-61"]),
    ("write", &["0", "above 0", "-22", "-117", "-14", "-5"]),
    ("collect", &["0", "-22", "-117", "-14", "-5"]),
    ("collect_list", &["0", "above 0", "-22", "-117", "-14", "-5"]),
    ("collect_threshold", &["0", "above 0", "-22", "-117", "-14", "-5"]),
    ("encode", &["above 0", "-22", "-117"]),
    ("restore", &["0", "-22", "-1", "-2", "-3", "-4", "-5", "-6", "-7", "-8", "-9"]),
    ("write_told", &["0", "above 0", "-22", "-117", "-28", "-5"]),
    ("collect_told", &["0", "-22", "-117", "-28", "-121", "-5"]),
    ("collect_list_told", &["0", "above 0", "-22", "-117", "-28", "-121", "-5"]),
    ("collect_threshold_told", &["0", "above 0", "-22", "-117", "-28", "-121", "-5"]),
    ("restore_dead", &["0", "-22", "-1", "-2", "-3", "-4", "-5", "-6", "-7", "-8", "-9"]),
];

/// What restore_dead queued when it was done, and what calls answered that came to segments queued
/// by it; runs of `all` must meet each so often. A live one is full and has a list of length p.
const AFTER_DEAD: [(&str, u64, &[&str]); 3] = [
    ("queued by it", 1_000, &["none", "one", "more", "not a live one"]),
    ("collected after it", 10, &["0", "above 0", "-14", "-5"]),
    ("written after it", 10, &["0", "above 0", "-14", "-5"]),
];

/// The single collections that ran, by kind; runs of `all` must meet each so often. The first five
/// kinds are of finished ones, the others of refused ones; short of room is room < v.
const PASSES: (&str, u64, &[&str]) = ("passes", 10, &[
    "v = 0", "0 < v < p", "v = p", "room = v", "bad victim", "for room", "erase refused",
    "at the device", "at the device, short of room", "bad victim, refused",
]);

struct Options {
    part: String,
    seconds: f64,
    calls: u64,
    seed: u64,
    announce: bool,
}

fn options() -> Option<Options> {
    let now = std::time::SystemTime::now().duration_since(std::time::UNIX_EPOCH);
    let seed = now.map_or(1, |since| since.as_nanos() as u64 % 1_000_000_007);
    let (seconds, calls) = (f64::INFINITY, u64::MAX);
    let mut options = Options { part: "all".into(), seconds, calls, seed, announce: false };
    let mut words = std::env::args().skip(1);
    while let Some(word) = words.next() {
        match word.as_str() {
            "--seconds" => options.seconds = words.next()?.parse().ok()?,
            "--calls" => options.calls = words.next()?.parse().ok()?,
            "--seed" => options.seed = words.next()?.parse().ok()?,
            "--announce" => options.announce = true,
            part => options.part = part.into(),
        }
    }
    if options.seconds == f64::INFINITY && options.calls == u64::MAX {
        options.seconds = 60.0;
    }
    let others = ["all", "selftest", "runs", "extremes", "words", "files", "numbers"];
    let mut names = others.into_iter().chain(PARTS.map(|(name, _)| name));
    let known = names.any(|name| name == options.part);
    known.then_some(options)
}

/// How many places each part goes around before the random runs of `all`.
const ROUNDS: usize = 5;

impl Driver {
    fn part(&mut self, part: Part) -> Going {
        let mut place = self.some_place()?;
        part(self, &mut place)
    }

    fn everything(&mut self) -> Going {
        for (_, part) in PARTS {
            for _ in 0..ROUNDS {
                self.part(part)?;
            }
        }
        self.files()?;
        self.some_runs()?;
        self.extremes()?;
        self.words()?;
        loop {
            self.some_runs()?;
            let (_, part) = self.rng.pick(&PARTS);
            self.part(part)?;
        }
    }

    fn some_runs(&mut self) -> Going {
        (0..200).try_for_each(|_| self.run())
    }

    fn chosen(&mut self, name: &str) -> Going {
        match name {
            "all" => return self.everything(),
            "extremes" => return self.extremes(),
            "words" => return self.words(),
            "files" => return self.files(),
            _ => (),
        }
        loop {
            match PARTS.iter().find(|(part, _)| *part == name) {
                Some((_, part)) => self.part(*part)?,
                None => self.run()?,
            }
        }
    }

    /// How many restores queued a dead segment.
    fn queued_some(&self) -> u64 {
        let times = |class: &str| self.tally.get(&("queued by it", class.into())).unwrap_or(&0);
        times("one") + times("more")
    }

    /// Prints what was met; false when `all` missed an answer, or a strange one came.
    fn print_tally(&self, all: bool) -> bool {
        let mut right = true;
        let once = ANSWERS.into_iter().map(|(entry, classes)| (entry, 1, classes));
        let rows: Vec<_> = once.chain(AFTER_DEAD).chain([PASSES]).collect();
        for &(entry, owed, classes) in &rows {
            let met: Vec<String> = (self.tally.iter().filter(|((name, _), _)| *name == entry))
                .map(|((_, class), times)| format!("{class}: {times}"))
                .collect();
            println!("  {entry:22} {}", met.join("  "));
            for class in classes.iter().filter(|_| all) {
                if *self.tally.get(&(entry, class.to_string())).unwrap_or(&0) < owed {
                    println!("  NOT MET: {entry} {class}");
                    right = false;
                }
            }
        }
        for (entry, class) in self.tally.keys() {
            let listed = |list: &[&str]| list.contains(&&class[..]);
            if !rows.iter().any(|(name, _, list)| name == entry && listed(list)) {
                println!("  STRANGE: {entry} {class}");
                right = false;
            }
        }
        right
    }
}

fn numbers_agree(driver: &mut Driver) -> bool {
    match driver.numbers() {
        Ok(compared) => println!("{compared} sizes and CRC-32 values compared, no difference"),
        Err(what) => {
            println!("DIFFERENCE\n{what}");
            return false;
        }
    }
    true
}

fn status(good: bool) -> ExitCode {
    if good { ExitCode::SUCCESS } else { ExitCode::FAILURE }
}

fn compare_part(options: &Options) -> bool {
    let mut driver = Driver::new(Side::Port, options.seed, options.seconds, options.calls);
    driver.announce = options.announce;
    let all = options.part == "all";
    if (all || options.part == "numbers") && !numbers_agree(&mut driver) {
        return false;
    }
    if options.part == "numbers" {
        return true;
    }
    let stopped = driver.chosen(&options.part);
    let seconds = driver.started.elapsed().as_secs_f64();
    let met = driver.print_tally(all);
    let (calls, told) = (driver.calls, driver.told);
    let (restores, some) = (driver.restores, driver.queued_some());
    print!("{told} of the calls made in the new numbers too, ");
    print!("{} of them passes whose sums hold; ", driver.passes);
    println!("{restores} restores under both names, {some} of them queued the dead");
    println!("seed {}, {calls} calls compared in {seconds:.1} s", options.seed);
    match stopped {
        Err(Stop::Found(report)) => {
            print_report(&report);
            false
        }
        _ => {
            println!("no difference");
            met
        }
    }
}

fn main() -> ExitCode {
    let Some(options) = options() else {
        eprintln!("edges [part] [--seconds N] [--calls N] [--seed S] [--announce]");
        return ExitCode::from(2);
    };
    println!("part {}, seed {}", options.part, options.seed);
    if options.part != "selftest" {
        return status(compare_part(&options));
    }
    match selftest(options.seed) {
        Ok(()) => status(true),
        Err(what) => {
            println!("SELF-TEST FAILED: {what}");
            status(false)
        }
    }
}
