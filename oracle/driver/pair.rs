//! The port and the Rust side by side: each call is made on both, and everything is compared after it.
use crate::calls::{Call, Case};
use crate::port::{self, Geometry, Numbers::Old, Queueing::Empty, Unit};
use originals::{Original, Shape};

/// What is compared, in the order in which it is.
#[derive(Clone, Copy, PartialEq, Eq, Debug)]
pub enum Field {
    Answer,
    Out,
    Map,
    Free,
    Valid,
    Used,
    Lens,
    Lists,
    Queued,
    Queue,
    Flags,
    Alloc,
    Bytes,
    Marks,
    Counts,
    Fuse,
    Scratch,
    EncodeAnswer,
    Checkpoint,
    Beyond,
    /// The Rust panicked; the only one that is not compared, and not in `FIELDS`.
    Panic,
}

pub const FIELDS: [(Field, &str); 20] = [
    (Field::Answer, "answer"),
    (Field::Out, "bytes read, and those beyond the length"),
    (Field::Map, "map"),
    (Field::Free, "free count"),
    (Field::Valid, "valid count"),
    (Field::Used, "use mark"),
    (Field::Lens, "list length"),
    (Field::Lists, "list slot"),
    (Field::Queued, "queue length"),
    (Field::Queue, "queue slot"),
    (Field::Flags, "flag"),
    (Field::Alloc, "allocation segment"),
    (Field::Bytes, "flash byte"),
    (Field::Marks, "programmed mark"),
    (Field::Counts, "erase count"),
    (Field::Fuse, "fuse"),
    (Field::Scratch, "scratch (the Rust has none; 0 is owed)"),
    (Field::EncodeAnswer, "answer of the encoding after the call"),
    (Field::Checkpoint, "checkpoint byte"),
    (Field::Beyond, "buffer beyond the checkpoint"),
];

/// The first thing that is not the same.
#[derive(Debug)]
pub struct Difference {
    pub field: Field,
    pub at: usize,
    pub port: i128,
    pub rust: i128,
}

impl std::fmt::Display for Difference {
    fn fmt(&self, f: &mut std::fmt::Formatter) -> std::fmt::Result {
        match FIELDS.iter().find(|x| x.0 == self.field) {
            Some((_, name)) => write!(f, "{name} [{}]: port {}, Rust {}", self.at, self.port, self.rust),
            None => write!(f, "the Rust panicked"),
        }
    }
}

type Check = Result<(), Difference>;

fn one(field: Field, at: usize, port: impl Into<i128>, rust: impl Into<i128>) -> Check {
    let (port, rust) = (port.into(), rust.into());
    if port == rust { Ok(()) } else { Err(Difference { field, at, port, rust }) }
}

fn all<T: Copy + PartialEq + Into<i128>>(field: Field, port: &[T], rust: &[T]) -> Check {
    if port == rust {
        return Ok(());
    }
    one(field, usize::MAX, port.len() as i128, rust.len() as i128)?;
    (0..port.len()).try_for_each(|i| one(field, i, port[i], rust[i]))
}

/// Slots that hold `rust` first and zeros after it.
fn slots(field: Field, base: usize, port: &[u32], rust: &[usize]) -> Check {
    (0..port.len()).try_for_each(|i| one(field, base + i, port[i], rust.get(i).copied().unwrap_or(0) as i128))
}

/// A buffer's filling, so that a byte which stays can be told from one that is written.
const FILLING: u8 = 0xEE;
/// How many bytes a read's and an encoding's buffer have beyond what is needed.
const TAIL: usize = 3;
/// A length above this is refused before the buffer is looked at, so none is made for it.
const LONGEST: usize = 16_384 + 64;

pub struct Pair {
    pub g: Geometry,
    pub bad: Vec<u8>,
    pub unit: Unit,
    pub rust: Original,
    /// The last checkpoint, for a restore of it; empty at first.
    pub last: Vec<u8>,
    /// The checkpoint of the state as it is now.
    pub now: Vec<u8>,
    /// For the driver's own test: this field of the port is spoilt before it is compared.
    pub spoil: Option<Field>,
}

impl Pair {
    /// Formatted flash and fresh tables on both sides, compared.
    pub fn new(g: Geometry, bad: &[u8]) -> Result<Pair, Difference> {
        let shape = Shape { n: g.n, p: g.p, s: g.s, w: g.w as u32, e: g.e, limit: g.limit as u32 };
        let mut unit = Unit::new(&g);
        unit.bytes.fill(0xA5);
        unit.marks.fill(1);
        unit.counts.fill(9);
        let rust = Original::new(shape, bad);
        let mut pair = Pair { g, bad: bad.to_vec(), unit, rust, last: vec![], now: vec![], spoil: None };
        one(Field::Answer, 0, port::format(&g, &mut pair.unit), 0)?;
        one(Field::Answer, 0, port::open(&g, &mut pair.unit), 0)?;
        pair.same_state()?;
        pair.same_checkpoint()?;
        Ok(pair)
    }

    pub fn copy(&self) -> Pair {
        Pair {
            g: self.g,
            bad: self.bad.clone(),
            unit: self.unit.clone(),
            rust: self.rust.copy(),
            last: self.last.clone(),
            now: self.now.clone(),
            spoil: self.spoil,
        }
    }

    /// Makes the call on both sides and compares everything. The answer, which is the same on both.
    pub fn step(&mut self, call: &Call) -> Result<i64, Difference> {
        let whole = std::panic::AssertUnwindSafe(|| self.unguarded_step(call));
        let panicked = Difference { field: Field::Panic, at: 0, port: 0, rust: 0 };
        std::panic::catch_unwind(whole).unwrap_or(Err(panicked))
    }

    fn unguarded_step(&mut self, call: &Call) -> Result<i64, Difference> {
        let erased = self.erases();
        let mut out = (vec![], vec![]);
        let (mut ours, theirs) = self.both(call, &mut out);
        let spoilt = self.spoil.filter(|&field| self.fits(field, call, theirs, erased));
        if let Some(field) = spoilt {
            self.spoil_one(field, &mut ours, &mut out.0);
        }
        one(Field::Answer, 0, ours, theirs)?;
        all(Field::Out, &out.0, &out.1)?;
        self.same_state()?;
        self.same_checkpoint_but(spoilt)?;
        if *call == Call::Encode {
            self.last = self.now.clone();
        }
        Ok(ours)
    }

    fn both(&mut self, call: &Call, out: &mut (Vec<u8>, Vec<u8>)) -> (i64, i64) {
        let Pair { g, bad, unit, rust, last, .. } = self;
        match call {
            Call::Write { sector, len, data } => (port::write(g, Old, bad, *sector, *len, data, unit), rust.write(*sector, *len, data)),
            Call::Read { sector, length } => {
                let room = (*length).min(LONGEST) + TAIL;
                *out = (vec![FILLING; room], vec![FILLING; room]);
                (port::read(g, *sector, *length, unit, &mut out.0), rust.read(*sector, *length, &mut out.1))
            }
            Call::Collect => (port::collect(g, Old, bad, unit), rust.collect()),
            Call::List(m) => (port::collect_list(g, Old, bad, *m, unit), rust.collect_list(*m as u64)),
            Call::Threshold(t, m) => (port::collect_threshold(g, Old, bad, *t, *m, unit), rust.collect_threshold(*t, *m as u64)),
            Call::Encode => {
                *out = (vec![FILLING; g.checkpoint_bytes()], rust.encode());
                (port::encode(g, unit, &mut out.0), out.1.len() as i64)
            }
            Call::RestoreLast => (port::restore(g, Empty, last, unit), rust.restore(last)),
            Call::Restore(file) => (port::restore(g, Empty, file, unit), rust.restore(file)),
            Call::Open(alloc) => {
                if let Some(alloc) = alloc {
                    *unit.alloc_mut(g) = *alloc;
                    rust.lend_alloc(*alloc as u64);
                }
                (port::open(g, unit), rust.open())
            }
            Call::Format => (port::format(g, unit), rust.format()),
            Call::Fuse(fuse) => {
                unit.fuse = *fuse;
                rust.lend_fuse(*fuse);
                (0, 0)
            }
        }
    }

    fn same_state(&self) -> Check {
        let Pair { g, unit, rust, .. } = self;
        one(Field::Map, usize::MAX, rust.segments() as i128, g.n as i128)?;
        all(Field::Map, unit.map(g), rust.map())?;
        (0..g.n).try_for_each(|k| one(Field::Free, k, unit.free(g)[k], rust.free(k)))?;
        (0..g.n).try_for_each(|k| one(Field::Valid, k, unit.valid(g)[k], rust.valid(k)))?;
        (0..g.n * g.p).try_for_each(|i| one(Field::Used, i, unit.used[i], rust.used(i / g.p, i % g.p) as u8))?;
        (0..g.n).try_for_each(|k| one(Field::Lens, k, unit.lens(g)[k], rust.list(k).len() as i128))?;
        (0..g.n).try_for_each(|k| slots(Field::Lists, k * g.p, unit.list(g, k), rust.list(k)))?;
        one(Field::Queued, 0, unit.queued(g), rust.queue().len() as i128)?;
        slots(Field::Queue, 0, unit.queue(g), rust.queue())?;
        (0..g.n).try_for_each(|k| one(Field::Flags, k, unit.flags(g)[k], rust.flag(k) as u8))?;
        one(Field::Alloc, 0, unit.alloc(g), rust.alloc())?;
        all(Field::Bytes, &unit.bytes, &rust.flash().bytes)?;
        all(Field::Marks, &unit.marks, &rust.flash().marks)?;
        all(Field::Counts, &unit.counts, &rust.flash().counts)?;
        one(Field::Fuse, 0, unit.fuse, rust.flash().fuse)?;
        one(Field::Scratch, 0, !unit.scratch_is_zero() as u8, 0)
    }

    fn same_checkpoint(&mut self) -> Check {
        self.same_checkpoint_but(None)
    }

    /// Encodes on both sides, into a longer buffer here, and compares the bytes.
    fn same_checkpoint_but(&mut self, spoilt: Option<Field>) -> Check {
        let size = self.g.checkpoint_bytes();
        let mut buffer = std::mem::take(&mut self.now);
        buffer.clear();
        buffer.resize(size + TAIL, FILLING);
        let mut answer = port::encode(&self.g, &mut self.unit, &mut buffer);
        match spoilt {
            Some(Field::EncodeAnswer) => answer += 1,
            Some(Field::Checkpoint) => buffer[size - 1] ^= 1,
            Some(Field::Beyond) => buffer[size] ^= 1,
            _ => {}
        }
        let theirs = self.rust.encode();
        one(Field::EncodeAnswer, 0, answer, theirs.len() as i128)?;
        all(Field::Checkpoint, &buffer[..size], &theirs)?;
        all(Field::Beyond, &buffer[size..], &[FILLING; TAIL])?;
        one(Field::Scratch, 1, !self.unit.scratch_is_zero() as u8, 0)?;
        self.now = theirs;
        Ok(())
    }

    /// The Rust's `close` writes the same file as its save; the pair is used up.
    pub fn close(self) -> Check {
        let now = self.now;
        all(Field::Checkpoint, &now, &self.rust.close())
    }

    /// Everything that a later call can depend on, as bytes.
    pub fn key(&self) -> Box<[u8]> {
        let u = &self.unit;
        let mut key = Vec::with_capacity(4 * u.tab.len() + u.used.len() + u.bytes.len() + u.marks.len() + 4 * u.counts.len() + self.last.len());
        u.tab.iter().for_each(|x| key.extend_from_slice(&x.to_le_bytes()));
        u.counts.iter().for_each(|x| key.extend_from_slice(&x.to_le_bytes()));
        for part in [&u.used, &u.bytes, &u.marks, &self.last] {
            key.extend_from_slice(part);
        }
        key.into_boxed_slice()
    }

    pub fn erases(&self) -> u64 {
        self.rust.flash().counts.iter().map(|&x| x as u64).sum()
    }

    /// Programmings refused for their order alone.
    pub fn disorders(&self) -> u64 {
        self.rust.flash().disorders
    }

    /// Whether two queued segments share the least valid count.
    pub fn tied(&self) -> bool {
        let valid = |&k: &usize| self.rust.valid(k);
        let least = self.rust.queue().iter().map(valid).min();
        least.is_some_and(|least| self.rust.queue().iter().filter(|k| valid(k) == least).count() > 1)
    }

    /// The driver's own test spoils a read's bytes after a read, the rest after an erase.
    fn fits(&self, field: Field, call: &Call, answer: i64, erased: u64) -> bool {
        match field {
            Field::Out => answer >= 0 && matches!(call, Call::Read { .. }),
            _ => answer >= 0 && self.erases() > erased,
        }
    }

    fn spoil_one(&mut self, field: Field, answer: &mut i64, out: &mut [u8]) {
        let (g, u) = (self.g, &mut self.unit);
        match field {
            Field::Answer => *answer += 1,
            Field::Out => *out.last_mut().unwrap() ^= 1,
            Field::Map => u.map_mut(&g)[g.e - 1] ^= 1,
            Field::Free => u.free_mut(&g)[g.n - 1] ^= 1,
            Field::Valid => u.valid_mut(&g)[g.n - 1] ^= 1,
            Field::Used => *u.used.last_mut().unwrap() ^= 1,
            Field::Lens => u.lens_mut(&g)[g.n - 1] ^= 1,
            Field::Lists => *u.lists_mut(&g).last_mut().unwrap() ^= 1,
            Field::Queued => *u.queued_mut(&g) ^= 1,
            Field::Queue => u.queue_mut(&g)[g.n - 1] ^= 1,
            Field::Flags => u.flags_mut(&g)[g.n - 1] ^= 1,
            Field::Alloc => *u.alloc_mut(&g) ^= 1,
            Field::Bytes => *u.bytes.last_mut().unwrap() ^= 1,
            Field::Marks => *u.marks.last_mut().unwrap() ^= 1,
            Field::Counts => u.counts[g.n - 1] ^= 1,
            Field::Fuse => u.fuse ^= 1,
            Field::Scratch => u.taken[0] = 1,
            Field::EncodeAnswer | Field::Checkpoint | Field::Beyond | Field::Panic => {}
        }
    }
}

/// Where a case run from its start differs: the call's index (none: at the start or at the closing),
/// and the answers before it.
pub struct Found {
    pub at: Option<usize>,
    pub difference: Difference,
    pub answers: Vec<i64>,
}

pub fn replay(case: &Case, spoil: Option<Field>) -> Option<Found> {
    let mut answers = vec![];
    let mut pair = match Pair::new(case.g, &case.bad) {
        Ok(pair) => pair,
        Err(difference) => return Some(Found { at: None, difference, answers }),
    };
    pair.spoil = spoil;
    for (i, call) in case.calls.iter().enumerate() {
        match pair.step(call) {
            Ok(answer) => answers.push(answer),
            Err(difference) => return Some(Found { at: Some(i), difference, answers }),
        }
    }
    pair.close().err().map(|difference| Found { at: None, difference, answers })
}
