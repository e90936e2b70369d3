//! Makes the stored cases of the program `replay`: what is lent and called, and what the oracle answers.
//!
//!     stored FILE OUTPUT
//!
//! FILE gets the cases and OUTPUT what the program writes when all agree. Nothing here calls the port. Every answer and
//! every byte that is lent comes from plain.rs; while the tables are those of a device that the Rust originals play
//! beside it, both must agree after each call, or no file is made. The form of the file is in oracle/README.md.

#[allow(dead_code)]
#[path = "plain.rs"]
mod plain;
#[path = "rng.rs"]
mod rng;

use originals::{Original, Shape};
use plain::{Answer, Geometry, Lent, Numbers, EMPTY, ENDLESS};
use rng::Rng;
use std::collections::BTreeMap;

// ---------------------------------------------------------------- the file's form

/// The lent slices, in the file's numbering and in the digest's order; the fuse stands between counts and bad.
#[derive(Clone, Copy, PartialEq, Eq, PartialOrd, Debug)]
enum Part {
    Tab,
    Used,
    Bytes,
    Marks,
    Counts,
    Bad,
    Buffer,
    Page,
    Seen,
    Order,
    Taken,
}

use Part::*;

const PARTS: [Part; 11] = [Tab, Used, Bytes, Marks, Counts, Bad, Buffer, Page, Seen, Order, Taken];
/// The room that the program has for each.
const ROOM: [usize; 11] = [2048, 512, 16384, 512, 256, 256, 4096, 512, 512, 256, 512];

/// The nine calls, in the file's numbering from 4 on, and the restore that queues the dead.
#[derive(Clone, Copy, PartialEq, Eq, Debug)]
enum Call {
    Format,
    Open,
    Read(u64, u64),
    Write(u64, u64),
    Collect,
    List(u64),
    Threshold(u64, u64),
    Encode,
    Restore,
    RestoreDead,
}

/// The nine, then the four that have new numbers, in these, then the restore that queues the dead.
const NAMES: [&str; 14] = [
    "format", "open", "read", "write", "collect", "collect_list", "collect_threshold", "encode", "restore",
    "write_told", "collect_told", "collect_list_told", "collect_threshold_told", "restore_dead",
];

impl Call {
    /// The call's place among the nine, and its two numbers.
    fn parts(self) -> (usize, u64, u64) {
        match self {
            Call::Format => (0, 0, 0),
            Call::Open => (1, 0, 0),
            Call::Read(sector, length) => (2, sector, length),
            Call::Write(sector, length) => (3, sector, length),
            Call::Collect => (4, 0, 0),
            Call::List(m) => (5, m, 0),
            Call::Threshold(threshold, m) => (6, threshold, m),
            Call::Encode => (7, 0, 0),
            Call::Restore | Call::RestoreDead => (8, 0, 0),
        }
    }

    /// The call's place in `NAMES`, by the numbers that it answers in.
    fn kind(self, numbers: Numbers) -> usize {
        match self {
            Call::RestoreDead => 13,
            Call::Write(..) | Call::Collect | Call::List(_) | Call::Threshold(..) if numbers == Numbers::New => {
                self.parts().0 + 6
            }
            _ => self.parts().0,
        }
    }

    /// What it is lent beside the buffer.
    fn lends(self) -> &'static [Part] {
        match self {
            Call::Format => &[Bytes, Marks, Counts],
            Call::Open => &[Tab, Used],
            Call::Read(..) => &[Tab, Used, Bytes, Seen],
            Call::Write(..) => &[Tab, Used, Bytes, Marks, Counts, Bad, Page, Seen],
            Call::Collect | Call::List(_) | Call::Threshold(..) => {
                &[Tab, Used, Bytes, Marks, Counts, Bad, Page, Seen, Order]
            }
            Call::Encode => &[Tab, Used, Seen],
            Call::Restore | Call::RestoreDead => &[Tab, Used, Taken],
        }
    }
}

/// Groups of seven bits, lowest first, high bit on all but the last.
fn put_number(file: &mut Vec<u8>, mut x: u64) {
    while x >= 128 {
        file.push((x % 128) as u8 + 128);
        x /= 128;
    }
    file.push(x as u8);
}

/// All cases, and how often each call gave each answer.
#[derive(Default)]
struct Book {
    file: Vec<u8>,
    cases: usize,
    calls: usize,
    /// Calls that an original made too; reading, formatting and queueing the dead, which have none, are not counted.
    beside: usize,
    answers: BTreeMap<(usize, i64), usize>,
}

// ---------------------------------------------------------------- a case

/// What is lent: each slice's room, of which the first `lens` elements are lent.
struct Case<'a> {
    book: &'a mut Book,
    geo: Geometry,
    room: Vec<Vec<u32>>,
    lens: [usize; 11],
    fuse: u64,
    /// What the calls answer in, where they have the choice.
    numbers: Numbers,
    /// The originals, while their state is that of what is lent.
    rust: Option<Original>,
}

/// The lengths that a geometry asks for, and a buffer that holds its checkpoint and a page.
fn lengths(geo: &Geometry) -> [usize; 11] {
    let (n, s, pages) = (geo.n as usize, geo.s as usize, plain::page_count(geo));
    let buffer = plain::checkpoint_bytes(geo).max(s) + 3;
    [plain::tab_words(geo), pages, pages * s, pages, n, n, buffer, s, n + geo.p as usize, n, pages]
}

fn bytes_of(words: &[u32]) -> Vec<u8> {
    words.iter().map(|&word| word as u8).collect()
}

fn words_of(bytes: &[u8]) -> Vec<u32> {
    bytes.iter().map(|&byte| byte as u32).collect()
}

impl<'a> Case<'a> {
    /// Zeroed memory of which nothing is lent.
    fn bare(book: &'a mut Book, geo: Geometry) -> Case<'a> {
        for number in [geo.n, geo.p, geo.s, geo.w, geo.e, geo.limit] {
            put_number(&mut book.file, number);
        }
        book.cases += 1;
        let room = ROOM.iter().map(|&k| vec![0; k]).collect();
        Case { book, geo, room, lens: [0; 11], fuse: ENDLESS, numbers: Numbers::Old, rust: None }
    }

    /// Zeroed memory lent with the lengths given.
    fn lent(book: &'a mut Book, geo: Geometry, lens: [usize; 11]) -> Case<'a> {
        let mut case = Case::bare(book, geo);
        PARTS.iter().zip(lens).for_each(|(&part, k)| case.length(part, k));
        case
    }

    /// Formatted flash and fresh tables; the originals beside it.
    fn fresh(book: &'a mut Book, geo: Geometry, bad: &[u8]) -> Case<'a> {
        let mut case = Case::lent(book, geo, lengths(&geo));
        case.fill(Bad, 0, bad);
        case.call(Call::Format);
        case.call(Call::Open);
        let shape = Shape {
            n: geo.n as usize,
            p: geo.p as usize,
            s: geo.s as usize,
            w: geo.w as u32,
            e: geo.e as usize,
            limit: geo.limit as u32,
        };
        case.rust = Some(Original::new(shape, bad));
        case.same_state();
        case
    }

    fn put(&mut self, numbers: &[u64]) {
        numbers.iter().for_each(|&x| put_number(&mut self.book.file, x));
    }

    fn length(&mut self, part: Part, k: usize) {
        assert!(k <= ROOM[part as usize], "{part:?} of {k} has no room");
        if self.lens[part as usize] != k {
            self.put(&[1, part as u64, k as u64]);
            self.lens[part as usize] = k;
        }
    }

    /// Sets one element. A change of the tables or the flash is not made to the originals, which then stand back.
    fn poke(&mut self, part: Part, i: usize, v: u32) {
        if self.room[part as usize][i] == v {
            return;
        }
        self.put(&[2, part as u64, i as u64, v as u64]);
        self.room[part as usize][i] = v;
        if matches!(part, Tab | Used | Bytes | Marks | Counts | Bad) {
            self.rust = None;
        }
    }

    fn fill(&mut self, part: Part, at: usize, xs: &[u8]) {
        xs.iter().enumerate().for_each(|(i, &x)| self.poke(part, at + i, x as u32));
    }

    fn set_fuse(&mut self, fuse: u64) {
        self.put(&[3, fuse]);
        self.fuse = fuse;
        if let Some(rust) = &mut self.rust {
            rust.lend_fuse(fuse);
        }
    }

    fn part(&self, part: Part) -> &[u32] {
        &self.room[part as usize][..self.lens[part as usize]]
    }

    fn bytes(&self, part: Part) -> Vec<u8> {
        bytes_of(self.part(part))
    }

    fn to_lent(&self) -> Lent {
        let buffer = self.bytes(Buffer);
        Lent {
            tab: self.part(Tab).to_vec(),
            used: self.bytes(Used),
            bytes: self.bytes(Bytes),
            marks: self.bytes(Marks),
            counts: self.part(Counts).to_vec(),
            fuse: self.fuse,
            bad: self.bytes(Bad),
            data: buffer.clone(),
            out: buffer.clone(),
            buffer: buffer.clone(),
            file: buffer,
            page: self.bytes(Page),
            seen: self.bytes(Seen),
            order: self.part(Order).to_vec(),
            taken: self.bytes(Taken),
        }
    }

    fn take_back(&mut self, lent: &Lent, buffer: &[u8]) {
        self.fuse = lent.fuse;
        let bytes = |xs: &[u8]| words_of(xs);
        let all = [
            lent.tab.clone(),
            bytes(&lent.used),
            bytes(&lent.bytes),
            bytes(&lent.marks),
            lent.counts.clone(),
            bytes(&lent.bad),
            bytes(buffer),
            bytes(&lent.page),
            bytes(&lent.seen),
            lent.order.clone(),
            bytes(&lent.taken),
        ];
        for (part, xs) in PARTS.iter().zip(all) {
            assert!(xs.len() == self.lens[*part as usize]);
            self.room[*part as usize][..xs.len()].copy_from_slice(&xs);
        }
    }

    /// The call by plain.rs. The buffer is that one of its four which the call is lent.
    fn plainly(&mut self, call: Call) -> Answer {
        let (geo, mut lent) = (self.geo, self.to_lent());
        let answer = match call {
            Call::Format => plain::format(&geo, &mut lent),
            Call::Open => plain::open(&geo, &mut lent),
            Call::Read(sector, length) => plain::read(&geo, sector, length, &mut lent),
            Call::Write(sector, length) => plain::write(&geo, sector, length, &mut lent),
            Call::Collect => plain::collect(&geo, &mut lent),
            Call::List(m) => plain::collect_list(&geo, m, &mut lent),
            Call::Threshold(threshold, m) => plain::collect_threshold(&geo, threshold, m, &mut lent),
            Call::Encode => plain::encode(&geo, &mut lent),
            Call::Restore => plain::restore(&geo, &mut lent),
            Call::RestoreDead => plain::restore_dead(&geo, &mut lent),
        };
        let buffer = match call {
            Call::Read(..) => lent.out.clone(),
            Call::Encode => lent.buffer.clone(),
            _ => lent.file.clone(),
        };
        self.take_back(&lent, &buffer);
        answer
    }

    /// "Little-endian", words and fuse too: all that is lent.
    fn digest(&self) -> u32 {
        let mut all: Vec<u8> = Vec::new();
        for part in PARTS {
            match part {
                Tab | Counts | Order => self.part(part).iter().for_each(|word| all.extend(word.to_le_bytes())),
                _ => all.extend(self.bytes(part)),
            }
            if part == Counts {
                all.extend(self.fuse.to_le_bytes());
            }
        }
        plain::crc32(&all)
    }

    /// Whether the originals can be given the call: what the Rust has no say in, wrong sizes and scratch, is not.
    fn for_the_rust(&self, call: Call) -> bool {
        let right = lengths(&self.geo);
        let fits = |&part: &Part| self.lens[part as usize] == right[part as usize];
        let clean = |&part: &Part| part < Page || self.part(part).iter().all(|&x| x == 0);
        let room = self.lens[Buffer as usize];
        let buffer = match call {
            Call::Read(_, length) | Call::Write(_, length) => length <= room as u64,
            Call::Encode => room >= plain::checkpoint_bytes(&self.geo),
            _ => true,
        };
        buffer && call.lends().iter().all(|part| fits(part) && clean(part))
    }

    /// The call by the originals, which know the old numbers only; a read's room and an encoding's are compared here.
    fn by_the_rust(&mut self, call: Call, mut before: Vec<u8>) -> i64 {
        let after = self.bytes(Buffer);
        let rust = self.rust.as_mut().expect("the originals");
        match call {
            Call::Format => rust.format(),
            Call::Open => rust.open(),
            Call::Read(sector, length) => {
                let answer = rust.read(sector as usize, length as usize, &mut before);
                assert!(before == after, "a read's bytes");
                answer
            }
            Call::Write(sector, length) => rust.write(sector as usize, length as usize, &before),
            Call::Collect => rust.collect(),
            Call::List(m) => rust.collect_list(m),
            Call::Threshold(threshold, m) => rust.collect_threshold(threshold, m),
            Call::Encode => {
                let file = rust.encode();
                before[..file.len()].copy_from_slice(&file);
                assert!(before == after, "a checkpoint's bytes");
                file.len() as i64
            }
            Call::Restore => rust.restore(&before),
            Call::RestoreDead => rust.restore_dead(&before),
        }
    }

    /// Makes the call on the oracle, and stores its answer and the digest after it.
    fn call(&mut self, call: Call) -> i64 {
        let before = self.bytes(Buffer);
        let beside = self.rust.is_some() && self.for_the_rust(call);
        let plainly = self.plainly(call);
        let (answer, old) = (plain::number(self.numbers, plainly), plain::number(Numbers::Old, plainly));
        assert!(beside || self.rust.is_none() || answer == -22, "a call that only plain.rs makes");
        if beside {
            let theirs = self.by_the_rust(call, before);
            assert!(theirs == old, "{call:?}: the Rust answers {theirs}, plain.rs {old}");
            self.same_state();
            self.book.beside += !matches!(call, Call::Read(..) | Call::Format | Call::RestoreDead) as usize;
        }
        let ((_, a, b), kind, digest) = (call.parts(), call.kind(self.numbers), self.digest());
        self.put(&[4 + kind as u64, a, b, (answer < 0) as u64, answer.unsigned_abs(), digest as u64]);
        self.book.calls += 1;
        *self.book.answers.entry((kind, answer.min(0))).or_default() += 1;
        answer
    }

    /// Everything that the originals keep is what is lent.
    fn same_state(&self) {
        let (Some(rust), geo) = (&self.rust, &self.geo) else { return };
        let (n, p) = (geo.n as usize, geo.p as usize);
        let padded = |list: &[usize], k: usize| -> Vec<u32> {
            (0..k).map(|i| list.get(i).map_or(0, |&x| x as u32)).collect()
        };
        let mut tab = rust.map().to_vec();
        tab.extend((0..n).map(|g| rust.free(g) as u32));
        tab.extend((0..n).map(|g| rust.valid(g) as u32));
        tab.extend((0..n).map(|g| rust.list(g).len() as u32));
        tab.extend(padded(rust.queue(), n));
        tab.extend((0..n).map(|g| rust.flag(g) as u32));
        tab.extend([rust.alloc() as u32, rust.queue().len() as u32]);
        (0..n).for_each(|g| tab.extend(padded(rust.list(g), p)));
        let used: Vec<u8> = (0..n * p).map(|i| rust.used(i / p, i % p) as u8).collect();
        let (flash, right) = (rust.flash(), lengths(geo));
        let ours = |part: Part| &self.room[part as usize][..right[part as usize]];
        assert!(tab == ours(Tab) && used == bytes_of(ours(Used)), "tables: the Rust and plain.rs differ");
        assert!(flash.bytes == bytes_of(ours(Bytes)) && flash.marks == bytes_of(ours(Marks)), "flash");
        assert!(flash.counts == ours(Counts) && flash.fuse == self.fuse, "counts or fuse");
    }

    fn end(mut self) {
        self.put(&[0]);
    }

    // ------------------------------------------------------------ steps made of several

    /// Writes bytes at a sector.
    fn write(&mut self, sector: u64, xs: &[u8]) -> i64 {
        self.fill(Buffer, 0, xs);
        self.call(Call::Write(sector, xs.len() as u64))
    }

    /// Writes the whole logical page with one byte throughout.
    fn page(&mut self, l: u64, x: u8) -> i64 {
        let size = self.geo.s;
        self.write(l * size, &vec![x; size as usize])
    }

    /// Writes these logical pages whole, one after the other.
    fn pages(&mut self, ls: impl IntoIterator<Item = u64>) {
        for (i, l) in ls.into_iter().enumerate() {
            self.page(l, 65 + i as u8);
        }
    }

    /// A place in the tables: the words behind the map, five for each segment, then two, then the lists.
    fn at(&self, row: u64, g: u64) -> usize {
        (self.geo.e + row * self.geo.n + g) as usize
    }

    /// The tables lent with this allocation segment; the originals too, as an opening follows.
    fn lend_alloc(&mut self, alloc: u32) {
        let rust = self.rust.take();
        self.poke(Tab, self.at(5, 0), alloc);
        self.rust = rust;
        if let Some(rust) = &mut self.rust {
            rust.lend_alloc(alloc as u64);
        }
    }

    /// The file in the buffer gets the CRC that its bytes ask for.
    fn seal(&mut self) {
        let crc = plain::seal(&self.bytes(Buffer));
        self.fill(Buffer, 40, &crc.to_le_bytes());
    }

    /// A word of the file in the buffer.
    fn file_word(&mut self, at: usize, x: u32) {
        self.fill(Buffer, at, &x.to_le_bytes());
    }

    /// The checkpoint of the tables, and a buffer just as long.
    fn save(&mut self) {
        self.length(Buffer, plain::checkpoint_bytes(&self.geo));
        self.call(Call::Encode);
    }

    /// The checkpoint of the tables, kept for a later restore.
    fn kept(&mut self) -> Vec<u8> {
        let room = self.lens[Buffer as usize];
        self.save();
        self.length(Buffer, room);
        self.bytes(Buffer)[..plain::checkpoint_bytes(&self.geo)].to_vec()
    }

    /// A kept checkpoint, by either restore.
    fn restore(&mut self, call: Call, file: &[u8]) {
        let room = self.lens[Buffer as usize];
        self.length(Buffer, file.len());
        self.fill(Buffer, 0, file);
        assert!(self.call(call) == 0, "a kept checkpoint");
        self.length(Buffer, room);
    }

    /// The segments that are queued, in their order.
    fn queue(&self) -> Vec<u32> {
        let queued = self.part(Tab)[self.at(5, 1)] as usize;
        self.part(Tab)[self.at(3, 0)..][..queued].to_vec()
    }

    /// The file in the buffer becomes one of this map and these free counts.
    fn by_hand(&mut self, map: &[u32], free: &[u32]) {
        map.iter().chain(free).enumerate().for_each(|(i, &x)| self.file_word(44 + 4 * i, x));
        self.seal();
    }

    /// The file in the buffer restored with the dead queued: just these.
    fn queues(&mut self, dead: &[u32]) {
        assert!(self.call(Call::RestoreDead) == 0 && self.queue() == dead, "queued {:?}, not {dead:?}", self.queue());
        let flagged = |g: &u32| self.part(Tab)[self.at(4, *g as u64)] == 1;
        assert!((0..self.geo.n as u32).filter(flagged).eq(dead.iter().copied()), "flags");
    }

    /// A call that erases just this segment.
    fn erases(&mut self, call: Call, g: usize) {
        let mut counts = self.part(Counts).to_vec();
        counts[g] += 1;
        assert!(self.call(call) >= 0 && self.part(Counts) == counts, "{call:?} does not take {g}");
    }

    /// A write of logical page 0 that the device refuses for its order alone, in the originals too.
    fn out_of_order(&mut self) {
        let disorders = |case: &Case| case.rust.as_ref().expect("the originals").flash().disorders;
        let before = disorders(self);
        assert!(self.page(0, 99) == -5 && disorders(self) == before + 1, "a write out of order");
    }

    /// All nine calls, of which the last four change no state that a wrong size would show in.
    fn all_nine(&mut self, rng: &mut Rng) {
        let (sector, length) = (rng.below((self.geo.e * self.geo.s).clamp(1, 64) as usize) as u64, rng.below(3) as u64);
        for call in [
            Call::Write(sector, length),
            Call::Read(sector, length),
            Call::Collect,
            Call::List(rng.below(4) as u64),
            Call::Threshold(rng.below(9) as u64, rng.below(3) as u64),
            Call::Encode,
            Call::Restore,
            Call::Format,
            Call::Open,
        ] {
            self.call(call);
        }
    }

    /// Overwrites until a segment is queued, or the device is full.
    fn churn(&mut self, rng: &mut Rng) {
        for _ in 0..self.geo.n * self.geo.p {
            let l = rng.below(self.geo.e as usize) as u64;
            if self.write(l * self.geo.s, &[rng.next() as u8]) < 0 || self.room[Tab as usize][self.at(5, 1)] > 0 {
                return;
            }
        }
    }
}

// ---------------------------------------------------------------- geometries

fn geometry(n: u64, p: u64, s: u64, w: u64, e: u64, limit: u64) -> Geometry {
    Geometry { n, p, s, w, e, limit }
}

/// 01's device A.
fn device_a() -> Geometry {
    geometry(2, 2, 4, 1, 3, 5)
}

/// Small devices of different shapes.
fn shapes() -> [Geometry; 5] {
    [
        device_a(),
        geometry(3, 2, 3, 1, 4, 7),
        geometry(3, 3, 2, 2, 5, 1000),
        geometry(4, 1, 1, 0, 3, 1),
        geometry(2, 4, 2, 16, 6, 4_294_967_295),
    ]
}

fn wrong_geometries() -> Vec<Geometry> {
    let (a, far) = (device_a(), u64::MAX);
    let mut all = Vec::new();
    all.extend([0, 65_536, far].map(|n| Geometry { n, ..a }));
    all.extend([0, 3, 1_025, far].map(|p| Geometry { p, ..a }));
    all.extend([0, 16_385, far].map(|s| Geometry { s, ..a }));
    all.extend([0, 17, 64, far].map(|w| Geometry { w, ..a }));
    all.extend([0, 5, far].map(|e| Geometry { e, ..a }));
    all.extend([1 << 32, far].map(|limit| Geometry { limit, ..a }));
    all
}

/// Right ones for which what is lent is far too short.
fn far_geometries() -> [Geometry; 3] {
    [
        geometry(65_535, 1_024, 16_384, 16, 65_535 * 1_024, 4_294_967_295),
        geometry(65_535, 1, 1, 0, 1, 0),
        geometry(1, 1_024, 16_384, 10, 1_024, 0),
    ]
}

fn random_geometry(rng: &mut Rng) -> Geometry {
    let (n, p) = (rng.range(1, 6) as u64, rng.range(1, 5) as u64);
    let least = (0..).find(|&w| p <= 1 << w).expect("a width");
    let pages = (n * p) as usize;
    let e = if rng.chance(3) { rng.range(1, pages) } else { rng.range(1, pages.div_ceil(2)) };
    let limit = rng.pick(&[0, 1, 2, 3, 1_000, 4_294_967_295]);
    geometry(n, p, rng.range(1, 6) as u64, rng.pick(&[least, least, least + 1, 16]), e as u64, limit)
}

fn random_bad(rng: &mut Rng, n: u64) -> Vec<u8> {
    let often = rng.pick(&[1_000, 1_000, 4, 2]);
    (0..n).map(|_| if rng.chance(often) { rng.pick(&[1, 2, 255]) } else { 0 }).collect()
}

// ---------------------------------------------------------------- the cases

/// 22 for each number of the geometry, and for right ones of which too little is lent.
fn geometries(book: &mut Book, rng: &mut Rng) {
    for geo in wrong_geometries().into_iter().chain(far_geometries()) {
        let mut case = Case::lent(book, geo, lengths(&device_a()));
        case.all_nine(rng);
        case.end();
    }
}

/// 22 for each lent size: one too short, one too long, none at all; then the right size again.
fn sizes(book: &mut Book, rng: &mut Rng) {
    for geo in &shapes()[..4] {
        for part in PARTS {
            let right = lengths(geo)[part as usize];
            for k in [right - 1, right + 1, 0] {
                let mut case = Case::fresh(book, *geo, &[]);
                case.page(0, 7);
                case.page(0, 9);
                case.length(part, k);
                case.all_nine(rng);
                case.length(part, right);
                case.page(1, 8);
                case.end();
            }
        }
    }
}

/// Buffers shorter than a length, and a checkpoint's that is one too short.
fn short_buffers(book: &mut Book, rng: &mut Rng) {
    for geo in shapes() {
        for k in 0..=geo.s {
            let mut case = Case::fresh(book, geo, &[]);
            case.page(0, rng.next() as u8);
            case.length(Buffer, k as usize);
            case.call(Call::Read(0, geo.s));
            case.call(Call::Write(0, geo.s));
            case.call(Call::Read(0, k));
            case.call(Call::Write(0, k));
            case.length(Buffer, plain::checkpoint_bytes(&geo) - 1);
            case.call(Call::Encode);
            case.save();
            case.end();
        }
    }
}

/// Scratch that is not zero gets 22 and stays.
fn scratch(book: &mut Book, rng: &mut Rng) {
    for geo in &shapes()[..3] {
        for part in [Page, Seen, Order, Taken] {
            let last = lengths(geo)[part as usize] - 1;
            for i in [0, last] {
                let mut case = Case::fresh(book, *geo, &[]);
                case.page(0, 1);
                case.page(0, 2);
                case.poke(part, i, rng.pick(&[1, 2, 128, 255]));
                case.all_nine(rng);
                case.poke(part, i, 0);
                case.page(0, 3);
                case.end();
            }
        }
    }
}

/// Logical pages from e on, and lengths beyond the page's end.
fn bounds(book: &mut Book, _: &mut Rng) {
    for geo in shapes() {
        let (end, far) = (geo.e * geo.s, u64::MAX);
        let mut case = Case::fresh(book, geo, &[]);
        for sector in [0, end - 1, end, end + 1, geo.s - 1, far, far - geo.s, 1 << 32] {
            case.call(Call::Write(sector, 1));
            case.call(Call::Read(sector, 1));
            case.call(Call::Write(sector, geo.s + 1));
            case.call(Call::Read(sector, geo.s));
        }
        case.end();
        let mut case = Case::fresh(book, geo, &[]);
        for offset in 0..geo.s {
            case.call(Call::Write(offset, geo.s - offset + 1));
            case.call(Call::Write(offset, geo.s - offset));
            case.call(Call::Read(offset, geo.s - offset));
            case.call(Call::Read(offset, geo.s - offset + 1));
            case.call(Call::Read(offset, far));
            case.call(Call::Read(offset, far - offset));
        }
        case.end();
    }
}

/// A call that looks at the tables first.
fn looking(rng: &mut Rng, geo: &Geometry) -> Call {
    let sector = rng.below((geo.e * geo.s) as usize) as u64;
    rng.pick(&[
        Call::Read(sector, 0),
        Call::Write(sector, 1),
        Call::Collect,
        Call::List(1),
        Call::Threshold(9, 1),
        Call::Encode,
    ])
}

/// Every word of the tables and every use mark changed alone: 117, or still sound.
fn unsound(book: &mut Book, rng: &mut Rng) {
    for geo in &shapes()[..3] {
        let marks = lengths(geo)[Used as usize];
        for i in 0..plain::tab_words(geo) + marks {
            let (part, i) = if i < marks { (Used, i) } else { (Tab, i - marks) };
            let mut case = Case::fresh(book, *geo, &[]);
            case.churn(rng);
            let right = case.part(part)[i];
            let near = [right ^ 1, right.wrapping_add(1), right.wrapping_sub(1), geo.n as u32, geo.p as u32 + 1, EMPTY];
            for v in near {
                case.poke(part, i, if part == Used { v & 255 } else { v });
                if case.part(part)[i] != right && case.call(looking(rng, geo)) != -117 {
                    break;
                }
            }
            case.end();
        }
    }
}

/// Pages that differ only together: two entries that name one page, lists that swap theirs, a queue that repeats.
fn entangled(book: &mut Book, rng: &mut Rng) {
    for geo in &shapes()[..3] {
        for (i, j) in [(0, 0), (1, 0), (2, 0), (3, 0), (4, 0), (3, 1), (6, 0)] {
            let mut case = Case::fresh(book, *geo, &[]);
            case.pages(0..geo.e);
            case.churn(rng);
            let (a, b) = if i == 6 { (0, 1) } else { (case.at(i, 0), case.at(i, 1)) };
            let (x, y) = (case.part(Tab)[a], case.part(Tab)[b]);
            case.poke(Tab, a, y);
            case.poke(Tab, b, if j == 0 { x } else { y });
            case.call(Call::Encode);
            case.call(looking(rng, geo));
            case.poke(Tab, b, y);
            case.call(looking(rng, geo));
            case.call(Call::Open);
            case.call(Call::Encode);
            case.end();
        }
    }
}

/// Opening: over any tables, with any allocation segment.
fn openings(book: &mut Book, rng: &mut Rng) {
    for geo in shapes() {
        for alloc in [0, 1, geo.n as u32, EMPTY] {
            let mut case = Case::fresh(book, geo, &[]);
            case.churn(rng);
            case.lend_alloc(alloc);
            case.call(Call::Open);
            case.page(0, 5);
            case.end();
        }
        let mut case = Case::lent(book, geo, lengths(&geo));
        for i in 0..plain::tab_words(&geo).min(24) {
            case.poke(Tab, i, rng.next() as u32);
        }
        case.fill(Used, 0, &rng.bytes(plain::page_count(&geo)));
        case.call(Call::Encode);
        case.call(Call::Open);
        case.call(Call::Encode);
        case.end();
    }
}

/// Reasons 1 to 7, each alone, and with what comes later in the order wrong as well.
fn reasons(book: &mut Book, rng: &mut Rng) {
    for geo in shapes() {
        let size = plain::checkpoint_bytes(&geo);
        let mut case = Case::fresh(book, geo, &[]);
        case.churn(rng);
        case.save();
        for k in [0, 1, 43, 44, size - 4, size - 1, size + 1, size] {
            case.length(Buffer, k);
            case.call(Call::Restore);
        }
        case.end();
        for at in (0..44).step_by(4).chain([44, size - 1]) {
            let mut case = Case::fresh(book, geo, &[]);
            case.churn(rng);
            case.save();
            let right = case.part(Buffer)[at];
            case.poke(Buffer, at, right ^ (1 << rng.below(8)));
            case.call(Call::Restore);
            case.seal();
            case.call(Call::Restore);
            case.length(Buffer, size + 1);
            case.call(Call::Restore);
            case.end();
        }
    }
}

/// Reasons 8 and 9 with the CRC right: the allocation segment, each free count; then both, then the CRC wrong too.
fn late_reasons(book: &mut Book, rng: &mut Rng) {
    for geo in shapes() {
        let (n, p, free) = (geo.n as u32, geo.p as u32, 44 + 4 * geo.e as usize);
        for g in 0..geo.n as usize {
            let mut case = Case::fresh(book, geo, &[]);
            case.churn(rng);
            case.save();
            for (at, x) in [(free + 4 * g, p), (free + 4 * g, p + 1), (8, n), (8, n - 1), (12, 1)] {
                case.file_word(at, x);
                case.seal();
                case.call(Call::Restore);
            }
            case.file_word(40, 0);
            case.call(Call::Restore);
            case.end();
        }
    }
}

/// Map words that a restore keeps or empties: repeats, pages not used, segments from n on, addresses past p.
fn crowded(book: &mut Book, rng: &mut Rng) {
    for turn in 0..40 {
        let geo = shapes()[turn % 5];
        let mut case = Case::fresh(book, geo, &[]);
        case.page(0, 3);
        case.save();
        for l in 0..geo.e as usize {
            let g = rng.below(geo.n as usize + 1) << geo.w;
            let word = if rng.chance(6) { EMPTY } else { (g + rng.below(geo.p as usize + 1)) as u32 };
            case.file_word(44 + 4 * l, word);
        }
        for g in 0..geo.n as usize {
            case.file_word(44 + 4 * (geo.e as usize + g), rng.below(geo.p as usize + 1) as u32);
        }
        case.file_word(8, rng.below(geo.n as usize) as u32);
        case.seal();
        case.call(Call::Restore);
        case.call(Call::Encode);
        case.length(Buffer, plain::checkpoint_bytes(&geo) + 3);
        case.churn(rng);
        case.call(Call::Collect);
        case.end();
    }
}

/// Every fuse from none to enough, at a formatting, a write, a collection and one from the list.
fn fuses(book: &mut Book, rng: &mut Rng) {
    for geo in shapes() {
        for fuse in 0..=geo.n.max(geo.p) + 1 {
            for call in [Call::Format, Call::Write(0, 1), Call::Collect, Call::List(2), Call::Threshold(64, 3)] {
                let mut case = Case::fresh(book, geo, &[]);
                case.churn(rng);
                case.set_fuse(fuse);
                case.call(call);
                case.call(call);
                case.set_fuse(ENDLESS);
                case.call(call);
                case.end();
            }
        }
    }
}

/// Erase counts at the limit, and pages that are marked before they are written: the device refuses.
fn worn(book: &mut Book, rng: &mut Rng) {
    for geo in shapes() {
        for g in 0..geo.n as usize {
            let mut case = Case::fresh(book, Geometry { limit: 3, ..geo }, &[]);
            case.poke(Counts, g, rng.pick(&[2, 3, 4, EMPTY]));
            case.churn(rng);
            case.call(Call::Collect);
            case.churn(rng);
            case.call(Call::List(2));
            case.call(Call::Format);
            case.end();
            let mut case = Case::fresh(book, geo, &[]);
            case.poke(Marks, g * geo.p as usize, rng.pick(&[1, 2, 255]));
            case.churn(rng);
            case.churn(rng);
            case.call(Call::Collect);
            case.end();
        }
    }
}

/// Programmings out of order: over an older checkpoint, over a page that a fuse left unmarked, over marks set from outside; by writes and by copies.
fn orders(book: &mut Book, rng: &mut Rng) {
    let mut case = Case::fresh(book, geometry(1, 2, 4, 1, 2, 5), &[]);
    let none = case.kept();
    case.save();
    case.file_word(44 + 4 * 2, 1);
    case.seal();
    case.call(Call::Restore);
    case.page(0, 1);
    case.restore(Call::Restore, &none);
    case.out_of_order();
    case.end();

    for geo in shapes().into_iter().filter(|geo| geo.n > 1 && geo.p > 1) {
        let mut case = Case::fresh(book, geo, &[]);
        let none = case.kept();
        case.page(0, 1);
        let first = case.kept();
        case.pages((1..geo.p).map(|_| 0));
        case.call(Call::Collect);
        case.restore(Call::Restore, &first);
        case.page(0, 2);
        case.restore(Call::Restore, &none);
        case.out_of_order();
        case.page(0, 3);
        case.churn(rng);
        case.call(Call::Collect);
        case.end();

        let mut case = Case::fresh(book, geo, &[]);
        let none = case.kept();
        case.set_fuse(0);
        case.page(0, 1);
        case.set_fuse(ENDLESS);
        case.page(0, 2);
        case.restore(Call::Restore, &none);
        case.out_of_order();
        case.page(0, 3);
        case.churn(rng);
        case.call(Call::List(2));
        case.end();

        for k in 0..geo.p as usize {
            let mut case = Case::fresh(book, geo, &[]);
            case.poke(Marks, k, rng.pick(&[1, 7, 255]));
            (0..=k).for_each(|_| assert!(case.page(0, 2) == -5, "a marked page, or one below it"));
            case.churn(rng);
            case.call(Call::Collect);
            case.end();
            let mut case = Case::fresh(book, geo, &[]);
            case.pages((0..geo.p).map(|_| 0));
            (1..geo.n as usize).for_each(|g| case.poke(Marks, g * geo.p as usize + k, 7));
            case.call(rng.pick(&[Call::Collect, Call::List(2), Call::Threshold(64, 3)]));
            case.page(0, 4);
            case.end();
        }
    }
}

/// Every bad list of a few devices: 14 of a write, and of a collection that finds no page for a copy.
fn bad_lists(book: &mut Book, rng: &mut Rng) {
    for geo in &shapes()[..4] {
        for bits in 0..1 << geo.n {
            let bad: Vec<u8> = (0..geo.n).map(|g| if bits >> g & 1 == 1 { rng.pick(&[1, 2, 255]) } else { 0 }).collect();
            let mut case = Case::fresh(book, *geo, &bad);
            case.churn(rng);
            case.call(Call::Collect);
            case.page(rng.below(geo.e as usize) as u64, 1);
            case.churn(rng);
            case.call(Call::List(3));
            case.end();
        }
    }
}

/// Segments of equal valid counts in the queue: the order in which they came decides.
fn ties(book: &mut Book, rng: &mut Rng) {
    for n in 3..7 {
        for turn in 0..4 {
            let geo = geometry(n, 2, 2, 1 + turn % 2, n, 9);
            let mut case = Case::fresh(book, geo, &[]);
            case.pages(0..n - 1);
            let mut order: Vec<u64> = (0..n - 1).collect();
            (1..order.len()).rev().for_each(|i| order.swap(i, rng.below(i + 1)));
            case.pages(order);
            case.call(if turn < 2 { Call::Collect } else { Call::List(turn) });
            case.call(Call::Threshold(2 * n, 1));
            case.call(Call::Collect);
            case.end();
        }
    }
}

/// Thresholds around the number of free pages, and limits around that of queued segments.
fn thresholds(book: &mut Book, rng: &mut Rng) {
    for geo in shapes() {
        for m in [0, 1, 2, 3, 100] {
            let mut case = Case::fresh(book, Geometry { limit: 50, ..geo }, &[]);
            case.churn(rng);
            let free: u32 = (0..geo.n).map(|g| case.part(Tab)[case.at(0, g)]).sum();
            for threshold in [(free as u64).saturating_sub(1), free as u64, u64::MAX] {
                case.call(Call::Threshold(threshold, m));
            }
            case.churn(rng);
            case.call(Call::List(m));
            case.end();
        }
    }
}

/// 01's marked examples E1 to E6 and E10.
fn examples(book: &mut Book, _: &mut Rng) {
    let a = device_a();
    let mut case = Case::fresh(book, a, &[]);
    case.write(0, &[]);
    case.write(1, &[1, 2, 3]);
    case.write(1, &[1, 2, 3, 4]);
    case.write(11, &[9]);
    case.write(12, &[9]);
    case.save();
    case.end();
    let mut case = Case::fresh(book, a, &[]);
    case.pages([0, 1, 2, 0]);
    case.call(Call::Collect);
    case.call(Call::Collect);
    case.call(Call::Read(4, 4));
    case.end();
    let mut case = Case::fresh(book, geometry(2, 3, 4, 2, 3, 5), &[]);
    case.pages([0, 0, 1]);
    case.call(Call::Collect);
    case.end();
}

/// 01's trace, and the restore of E8.
fn more_examples(book: &mut Book, _: &mut Rng) {
    let mut case = Case::fresh(book, geometry(3, 2, 4, 1, 3, 10), &[]);
    case.write(0, b"ab");
    case.write(1, b"c");
    case.write(4, b"wxyz");
    case.call(Call::Collect);
    case.call(Call::Read(0, 4));
    case.write(12, b"!");
    case.end();
    let mut case = Case::fresh(book, device_a(), &[]);
    case.save();
    [(44, 0), (48, 0), (52, 1), (56, 1), (60, 2)].iter().for_each(|&(at, x)| case.file_word(at, x));
    case.seal();
    case.call(Call::Restore);
    case.end();
}

/// One call of a random run.
fn random_call(case: &mut Case, rng: &mut Rng) {
    let geo = case.geo;
    let (past, over) = (rng.chance(12) as usize, rng.chance(12) as usize);
    let l = rng.below(geo.e as usize + past) as u64;
    let offset = rng.below(geo.s as usize) as u64;
    let length = rng.below((geo.s - offset) as usize + 1 + over) as u64;
    let sector = l * geo.s + offset;
    let (m, threshold) = (rng.below(4) as u64, rng.below((geo.n * geo.p) as usize + 1) as u64);
    match rng.below(20) {
        0..=8 => case.write(sector, &rng.bytes(length as usize)),
        9..=10 => case.call(Call::Read(sector, length)),
        11..=13 => case.call(Call::Collect),
        14 => case.call(Call::List(m)),
        15 => case.call(Call::Threshold(threshold, m)),
        16 => save_and_restore(case, sector),
        17 if rng.chance(3) => case.call(Call::Open),
        18 if rng.chance(3) => case.call(Call::Format),
        _ => case.page(l, rng.next() as u8),
    };
}

/// A checkpoint, an empty write, and the checkpoint restored.
fn save_and_restore(case: &mut Case, sector: u64) -> i64 {
    let room = case.lens[Buffer as usize];
    case.save();
    case.call(Call::Write(sector, 0));
    let answer = case.call(Call::Restore);
    case.length(Buffer, room);
    answer
}

/// Random runs, every third with fuses set now and then.
fn runs(book: &mut Book, rng: &mut Rng) {
    for turn in 0..240 {
        let geo = random_geometry(rng);
        let bad = random_bad(rng, geo.n);
        let mut case = Case::fresh(book, geo, &bad);
        for _ in 0..rng.range(6, 16) {
            if turn % 3 == 0 && rng.chance(3) {
                case.set_fuse(rng.pick(&[0, 1, 2, 3, 5, ENDLESS]));
            }
            random_call(&mut case, rng);
        }
        case.end();
    }
}

/// A few larger devices.
fn large(book: &mut Book, rng: &mut Rng) {
    for (n, p, s) in [(16, 16, 32), (64, 4, 64), (2, 128, 8), (255, 2, 3), (5, 7, 300)] {
        let geo = geometry(n, p, s, 8, n * p / 2, 3);
        let mut case = Case::fresh(book, geo, &[]);
        for _ in 0..8 {
            random_call(&mut case, rng);
        }
        case.end();
    }
}

// ---------------------------------------------------------------- in the new numbers

/// The first segment that is not bad is full and queued, with p - 1 pages to copy.
fn to_copy<'a>(book: &'a mut Book, geo: Geometry, bad: &[u8]) -> Case<'a> {
    let mut case = Case::fresh(book, geo, bad);
    case.numbers = Numbers::New;
    case.pages((0..geo.p).map(|k| k % (geo.p - 1)));
    case
}

/// A write and a collection without room: all segments but one are bad.
fn no_room(book: &mut Book, geo: Geometry, call: Call) {
    for good in [0, geo.n - 1] {
        let bad: Vec<u8> = (0..geo.n).map(|g| (g != good) as u8).collect();
        let mut case = to_copy(book, geo, &bad);
        assert!(case.page(0, 1) == -28 && case.call(call) == -28, "a full device");
        case.call(call);
        case.end();
    }
}

/// Copies and the erase at every fuse, copies to marked pages, an erase at the limit.
fn refused_copies(book: &mut Book, rng: &mut Rng, geo: Geometry, call: Call) {
    for fuse in 0..=geo.p {
        let mut case = to_copy(book, geo, &[]);
        case.set_fuse(fuse);
        let expected = [0, -5].get((geo.p - fuse) as usize).copied().unwrap_or(-121);
        assert!(case.call(call) == expected && case.page(0, 2) == -5, "a fuse");
        case.end();
    }
    let (mut case, k) = (to_copy(book, geo, &[]), rng.below(geo.p as usize));
    (1..geo.n as usize).for_each(|g| case.poke(Marks, g * geo.p as usize + k, 7));
    assert!(case.call(call) == -121, "a marked page, or one below it");
    case.page(0, 3);
    case.end();
    let mut case = to_copy(book, Geometry { limit: 0, ..geo }, &[]);
    assert!(case.call(call) == -5, "an erase at the limit");
    case.end();
}

/// Two segments in the queue, and one pass.
fn counted(book: &mut Book, geo: Geometry, call: Call) {
    let mut case = Case::fresh(book, geo, &[]);
    case.numbers = Numbers::New;
    case.pages((0..2 * geo.p).map(|_| 0));
    assert!(case.call(call) == i64::from(call != Call::Collect), "a pass");
    case.end();
}

/// 28 and 121, and beside them 5 of an erase and of a write, and counts; on devices of two, three and four pages.
fn told_apart(book: &mut Book, rng: &mut Rng) {
    let [_, two, three, _, four] = shapes();
    for geo in [two, three, four] {
        for call in [Call::Collect, Call::List(2), Call::Threshold(64, 3)] {
            no_room(book, geo, call);
            refused_copies(book, rng, geo, call);
        }
        for call in [Call::Collect, Call::List(1), Call::Threshold(64, 1)] {
            counted(book, geo, call);
        }
    }
}

/// The tests that come first: 22 and 117 stay.
fn told_tests(book: &mut Book, _: &mut Rng) {
    for geo in shapes() {
        let mut case = Case::fresh(book, geo, &[]);
        case.numbers = Numbers::New;
        case.page(0, 1);
        case.call(Call::Write(geo.e * geo.s, 1));
        case.call(Call::Write(0, geo.s + 1));
        let four = [Call::Write(0, 1), Call::Collect, Call::List(1), Call::Threshold(64, 1)];
        let all = |case: &mut Case, answer| assert!(four.iter().all(|&call| case.call(call) == answer), "{answer}");
        case.length(Page, geo.s as usize + 1);
        all(&mut case, -22);
        case.length(Page, geo.s as usize);
        case.poke(Tab, case.at(5, 0), geo.n as u32);
        all(&mut case, -117);
        case.length(Bad, geo.n as usize - 1);
        all(&mut case, -22);
        case.end();
    }
}

/// Random runs in old and new numbers by turns, with fuses set now and then.
fn told_runs(book: &mut Book, rng: &mut Rng) {
    for _ in 0..12 {
        let geo = random_geometry(rng);
        let bad = random_bad(rng, geo.n);
        let mut case = Case::fresh(book, geo, &bad);
        for _ in 0..rng.range(6, 16) {
            if rng.chance(3) {
                case.set_fuse(rng.pick(&[0, 1, 2, 3, 5, ENDLESS]));
            }
            case.numbers = rng.pick(&[Numbers::New, Numbers::New, Numbers::Old]);
            random_call(&mut case, rng);
        }
        case.end();
    }
}

// ---------------------------------------------------------------- with the dead queued

/// A map and free counts of a file, and the segments that are dead by it.
type Dead = (&'static [u32], &'static [u32], &'static [u32]);

/// Two segments of two pages: none, one or both are dead; one free page is enough to live, and so is a list of length 2;
/// words that are dropped (repeats, segments from n on, pages not used) count for no list.
const OF_TWO: [Dead; 15] = [
    (&[EMPTY, EMPTY, EMPTY], &[2, 2], &[]),
    (&[EMPTY, EMPTY, EMPTY], &[0, 0], &[0, 1]),
    (&[2, 3, EMPTY], &[0, 0], &[0]),
    (&[1, 0, EMPTY], &[0, 0], &[1]),
    (&[1, 3, 0], &[0, 0], &[1]),
    (&[3, 0, EMPTY], &[0, 0], &[0, 1]),
    (&[0, EMPTY, EMPTY], &[1, 0], &[1]),
    (&[0, 2, EMPTY], &[1, 1], &[]),
    (&[EMPTY, EMPTY, EMPTY], &[1, 1], &[]),
    (&[EMPTY, 2, 3], &[0, 1], &[0]),
    (&[0, 0, EMPTY], &[0, 2], &[0]),
    (&[0, 0, 1], &[0, 0], &[1]),
    (&[3, 3, 3], &[0, 0], &[0, 1]),
    (&[4, 0, 5], &[0, 2], &[0]),
    (&[EMPTY, EMPTY, EMPTY], &[2, 0], &[1]),
];

/// Three of two pages; addresses of four, so that a word may name a page past p.
const OF_THREE: [Dead; 7] = [
    (&[EMPTY, EMPTY, EMPTY, EMPTY], &[0, 0, 0], &[0, 1, 2]),
    (&[4, 5, EMPTY, EMPTY], &[0, 0, 0], &[0, 2]),
    (&[0, 1, 8, 9], &[0, 0, 0], &[1]),
    (&[0, 2, 8, 9], &[0, 2, 0], &[0]),
    (&[0, 4, 8, 3], &[0, 0, 0], &[0, 1, 2]),
    (&[0, 1, 8, 12], &[0, 1, 0], &[2]),
    (&[8, EMPTY, 9, EMPTY], &[1, 0, 0], &[1]),
];

/// Four of one page: full and unmapped is dead.
const OF_FOUR: [Dead; 4] = [
    (&[EMPTY, EMPTY, EMPTY], &[0, 0, 0, 0], &[0, 1, 2, 3]),
    (&[0, EMPTY, 3], &[0, 0, 1, 0], &[1]),
    (&[2, 0, 3], &[0, 0, 0, 0], &[1]),
    (&[1, 1, 4], &[1, 0, 0, 1], &[2]),
];

/// One segment, of two pages and of one.
const OF_ONE: [Dead; 5] = [
    (&[0, EMPTY], &[0], &[0]),
    (&[1, 0], &[0], &[]),
    (&[1, 1], &[0], &[0]),
    (&[EMPTY, EMPTY], &[0], &[0]),
    (&[0, EMPTY], &[1], &[]),
];
const OF_ONE_PAGE: [Dead; 3] = [(&[EMPTY], &[0], &[0]), (&[0], &[0], &[]), (&[EMPTY], &[1], &[])];

/// Files made by hand, each over the tables that the one before and a collection left: queue and flags are the file's alone.
/// Before every second the old restore comes, and queues nothing.
fn dead_by_hand(book: &mut Book, _: &mut Rng) {
    let all: [(Geometry, &[Dead]); 5] = [
        (device_a(), &OF_TWO),
        (geometry(3, 2, 3, 2, 4, 7), &OF_THREE),
        (geometry(4, 1, 1, 0, 3, 9), &OF_FOUR),
        (geometry(1, 2, 1, 1, 2, 9), &OF_ONE),
        (geometry(1, 1, 1, 0, 1, 9), &OF_ONE_PAGE),
    ];
    for (geo, files) in all {
        let mut case = Case::fresh(book, geo, &[]);
        case.save();
        for (i, (map, free, dead)) in files.iter().enumerate() {
            case.by_hand(map, free);
            if i % 2 == 1 {
                assert!(case.call(Call::Restore) == 0 && case.queue().is_empty(), "the old restore");
            }
            case.queues(dead);
            case.call([Call::List(2), Call::Collect, Call::Threshold(64, 1)][i % 3]);
        }
        case.end();
    }
}

/// A fresh device's file queues nothing; nor does one that is written but not full.
fn dead_of_fresh(book: &mut Book, _: &mut Rng) {
    for geo in shapes() {
        let mut case = Case::fresh(book, geo, &[]);
        case.save();
        case.queues(&[]);
        case.length(Buffer, lengths(&geo)[Buffer as usize]);
        case.pages((1..geo.p).map(|_| 0));
        case.save();
        case.queues(&[]);
        case.end();
    }
}

/// Each reason, 22 for each size and for dirty marks, over tables that have a queue: everything stays.
fn dead_refused(book: &mut Book, rng: &mut Rng) {
    for geo in shapes() {
        let (size, free) = (plain::checkpoint_bytes(&geo), 44 + 4 * geo.e as usize);
        let mut case = Case::fresh(book, geo, &[]);
        case.churn(rng);
        assert!(!case.queue().is_empty(), "a queue that must stay");
        case.save();
        let refused = |case: &mut Case, answer| assert!(case.call(Call::RestoreDead) == answer, "{answer}");
        for (k, answer) in [(0, -1), (43, -1), (44, -6), (size - 1, -6), (size + 1, -6)] {
            case.length(Buffer, k);
            refused(&mut case, answer);
        }
        case.length(Buffer, size);
        for (at, answer) in [(0, -2), (4, -3), (16, -4), (24, -4), (32, -5), (40, -7), (size - 1, -7)] {
            let right = case.part(Buffer)[at];
            case.poke(Buffer, at, right ^ 8);
            refused(&mut case, answer);
            case.poke(Buffer, at, right);
        }
        for (at, x, answer) in [(free, geo.p as u32 + 1, -9), (8, geo.n as u32, -8)] {
            case.file_word(at, x);
            case.seal();
            refused(&mut case, answer);
        }
        for part in [Tab, Used, Taken] {
            let right = case.lens[part as usize];
            for k in [right - 1, right + 1] {
                case.length(part, k);
                refused(&mut case, -22);
            }
            case.length(part, right);
        }
        case.poke(Taken, 0, 1);
        refused(&mut case, -22);
        case.end();
    }
    for geo in wrong_geometries().into_iter().step_by(3) {
        let mut case = Case::lent(book, geo, lengths(&device_a()));
        assert!(case.call(Call::RestoreDead) == -22, "a wrong geometry");
        case.end();
    }
}

/// Over tables that are no tables, over a queue in another order, over the flags of segments that live by the file: all are
/// forgotten.
fn dead_over_others(book: &mut Book, rng: &mut Rng) {
    for geo in [device_a(), geometry(3, 2, 3, 1, 4, 7)] {
        let mut case = Case::fresh(book, geo, &[]);
        case.pages([0, 1, 2, 0, 1].into_iter().take(geo.p as usize * geo.n as usize));
        case.save();
        for i in 0..plain::tab_words(&geo).min(20) {
            case.poke(Tab, i, rng.next() as u32);
        }
        case.fill(Used, 0, &rng.bytes(plain::page_count(&geo)));
        case.call(Call::RestoreDead);
        case.call(Call::Encode);
        case.call(Call::Collect);
        case.end();
    }
    let mut case = Case::fresh(book, geometry(4, 2, 1, 1, 4, 9), &[]);
    let none = case.kept();
    case.pages([0, 1, 2, 3, 0, 2]);
    assert!(case.queue() == [1, 0], "queued at the front");
    let both = case.kept();
    case.page(3, 1);
    case.restore(Call::RestoreDead, &both);
    assert!(case.queue() == [0, 1], "ascending");
    case.restore(Call::RestoreDead, &none);
    assert!(case.queue().is_empty(), "of the fresh file");
    case.restore(Call::RestoreDead, &both);
    case.save();
    case.by_hand(&[0, 1, 2, 3], &[0, 0, 2, 2]);
    case.queues(&[]);
    case.end();
}

/// After it the least valid is taken first, among equals the lowest number; the rest stays in this order.
fn dead_in_turn(book: &mut Book, _: &mut Rng) {
    let geo = geometry(5, 2, 2, 1, 6, 9);
    let (even, mixed) = ([EMPTY; 6], [0, 4, EMPTY, EMPTY, EMPTY, EMPTY]);
    for (map, order) in [(even, [0, 1, 2, 3]), (mixed, [1, 3, 0, 2])] {
        for call in [Call::Collect, Call::List(1), Call::Threshold(64, 1)] {
            let mut case = Case::fresh(book, geo, &[]);
            case.save();
            case.by_hand(&map, &[0, 0, 0, 0, 2]);
            case.queues(&[0, 1, 2, 3]);
            order.iter().for_each(|&g| case.erases(call, g));
            case.end();
        }
    }
}

/// E4: the collection is refused and its segment lost; saved and restored it is queued again. On E4's device there is still
/// no room; where a fuse refused the copy, the next collection erases it.
fn dead_again(book: &mut Book, _: &mut Rng) {
    for numbers in [Numbers::Old, Numbers::New] {
        let full = if numbers == Numbers::Old { -14 } else { -28 };
        let mut case = Case::fresh(book, device_a(), &[]);
        case.numbers = numbers;
        case.pages([0, 1, 2, 0]);
        assert!(case.call(Call::Collect) == full && case.call(Call::Collect) == 0, "E4 and E5");
        case.save();
        assert!(case.call(Call::Restore) == 0 && case.call(Call::Collect) == 0, "nothing queued");
        case.queues(&[0]);
        assert!(case.call(Call::Collect) == full && case.queue().is_empty(), "taken, without room");
        case.end();
    }
    let [_, two, three, _, four] = shapes();
    for geo in [two, three, four] {
        let mut case = to_copy(book, geo, &[]);
        case.set_fuse(0);
        assert!(case.call(Call::Collect) == -121 && case.call(Call::Collect) == 0, "the fuse, then nothing queued");
        case.set_fuse(ENDLESS);
        case.save();
        case.queues(&[0]);
        case.erases(Call::Collect, 0);
        case.end();
    }
}

/// Worn-out and bad segments are queued too. A worn one is taken first and refused, and is queued at each restore again.
fn dead_worn(book: &mut Book, _: &mut Rng) {
    let geo = geometry(3, 2, 2, 1, 3, 0);
    let mut case = Case::fresh(book, geo, &[]);
    case.pages([0, 0, 0, 0]);
    assert!(case.queue() == [1, 0] && case.call(Call::List(2)) == -5, "an erase at the limit");
    case.save();
    for _ in 0..2 {
        case.queues(&[0, 1]);
        assert!(case.call(Call::List(2)) == -5 && case.queue() == [1], "refused and off the queue");
    }
    case.end();
    let mut case = Case::fresh(book, Geometry { limit: 9, ..geo }, &[1, 0, 255]);
    case.save();
    case.by_hand(&[EMPTY, 2, EMPTY], &[0, 0, 0]);
    case.queues(&[0, 1, 2]);
    case.erases(Call::Collect, 0);
    case.erases(Call::List(1), 2);
    case.end();
}

/// Any words and free counts on small devices, and on a large one.
fn dead_crowded(book: &mut Book, rng: &mut Rng) {
    let large = geometry(255, 2, 1, 8, 20, 3);
    for (turn, geo) in shapes().into_iter().chain(shapes()).chain([large]).enumerate() {
        let mut case = Case::fresh(book, geo, &[]);
        case.save();
        let (n, p) = (geo.n as usize, geo.p as usize);
        let word = |rng: &mut Rng| ((rng.below(n + 1) << geo.w) + rng.below(p + 1)) as u32;
        let map: Vec<u32> = (0..geo.e).map(|_| if rng.chance(4) { EMPTY } else { word(rng) }).collect();
        let free: Vec<u32> = (0..n).map(|_| if rng.chance(3) { rng.below(p + 1) as u32 } else { 0 }).collect();
        case.by_hand(&map, &free);
        case.call(Call::RestoreDead);
        case.call([Call::Collect, Call::List(2)][turn % 2]);
        case.call(Call::Encode);
        case.end();
    }
}

/// Random runs that save, go on, and restore by either name.
fn dead_runs(book: &mut Book, rng: &mut Rng) {
    for _ in 0..15 {
        let geo = random_geometry(rng);
        let bad = random_bad(rng, geo.n);
        let mut case = Case::fresh(book, geo, &bad);
        case.numbers = rng.pick(&[Numbers::New, Numbers::Old]);
        for _ in 0..3 {
            case.churn(rng);
            random_call(&mut case, rng);
            let file = case.kept();
            random_call(&mut case, rng);
            case.restore(rng.pick(&[Call::RestoreDead, Call::RestoreDead, Call::Restore]), &file);
            case.call(rng.pick(&[Call::Collect, Call::List(2), Call::Threshold(64, 3)]));
        }
        case.end();
    }
}

// ---------------------------------------------------------------- the book

type Kind = (&'static str, fn(&mut Book, &mut Rng));

const KINDS: [Kind; 33] = [
    ("examples", examples),
    ("two more of them", more_examples),
    ("geometries", geometries),
    ("sizes", sizes),
    ("short buffers", short_buffers),
    ("scratch", scratch),
    ("bounds", bounds),
    ("unsound", unsound),
    ("entangled", entangled),
    ("openings", openings),
    ("reasons", reasons),
    ("late reasons", late_reasons),
    ("crowded", crowded),
    ("fuses", fuses),
    ("worn", worn),
    ("bad lists", bad_lists),
    ("ties", ties),
    ("thresholds", thresholds),
    ("runs", runs),
    ("large", large),
    ("orders", orders),
    ("told apart", told_apart),
    ("told tests", told_tests),
    ("told runs", told_runs),
    ("dead by hand", dead_by_hand),
    ("dead of fresh", dead_of_fresh),
    ("dead refused", dead_refused),
    ("dead over others", dead_over_others),
    ("dead in turn", dead_in_turn),
    ("dead again", dead_again),
    ("dead worn", dead_worn),
    ("dead crowded", dead_crowded),
    ("dead runs", dead_runs),
];

/// What each call must have answered at least so often: 0 stands for success.
const OWED: [&[i64]; 14] = [
    &[0, -22],
    &[0, -22],
    &[0, -22, -61, -117],
    &[0, -22, -117, -14, -5],
    &[0, -22, -117, -14, -5],
    &[0, -22, -117, -14, -5],
    &[0, -22, -117, -14, -5],
    &[0, -22, -117],
    &[0, -22, -1, -2, -3, -4, -5, -6, -7, -8, -9],
    &[0, -22, -117, -28, -5],
    &[0, -22, -117, -28, -121, -5],
    &[0, -22, -117, -28, -121, -5],
    &[0, -22, -117, -28, -121, -5],
    &[0, -22, -1, -2, -3, -4, -5, -6, -7, -8, -9],
];
const OFTEN: usize = 5;

/// Prints how often each answer was given; false when one that is owed is too rare.
fn tally(book: &Book) -> bool {
    let mut enough = true;
    for (kind, owed) in OWED.iter().enumerate() {
        let count = |answer: &i64| book.answers.get(&(kind, *answer)).copied().unwrap_or(0);
        let row: Vec<String> = owed.iter().map(|answer| format!("{answer}: {}", count(answer))).collect();
        println!("{:23}{}", NAMES[kind], row.join("  "));
        enough &= owed.iter().all(|answer| count(answer) >= OFTEN);
    }
    let known = |(kind, answer): &(usize, i64)| OWED[*kind].contains(answer);
    enough && book.answers.keys().all(known)
}

fn main() {
    let places: Vec<String> = std::env::args().skip(1).collect();
    let [file, output] = &places[..] else { panic!("stored FILE OUTPUT") };
    let mut book = Book::default();
    for (seed, (name, kind)) in KINDS.iter().enumerate() {
        let before = (book.cases, book.file.len());
        kind(&mut book, &mut Rng::new(seed as u64 + 1));
        println!("{name:18}{} cases, {} bytes", book.cases - before.0, book.file.len() - before.1);
    }
    assert!(tally(&book), "an answer that is owed is too rare, or one is unknown");
    let Book { cases, calls, beside, .. } = book;
    println!("{cases} cases, {calls} calls, {beside} of them made by the originals too, {} bytes", book.file.len());
    assert!(book.file.len() <= 262_144, "the file is too long");
    std::fs::write(file, &book.file).expect("the cases");
    std::fs::write(output, format!("{cases} cases, {calls} calls, 0 differences\n")).expect("the output");
}
