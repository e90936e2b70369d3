//! Document 01's calls as values, and a device with a list of them: what a failure prints.
use crate::port::Geometry;
use std::fmt;

#[derive(Clone, PartialEq, Eq, Debug)]
pub enum Call {
    /// `data` holds at least `len` bytes.
    Write { sector: usize, len: usize, data: Vec<u8> },
    Read { sector: usize, length: usize },
    Collect,
    List(usize),
    Threshold(u64, usize),
    /// Encodes; the file is the last checkpoint from then on.
    Encode,
    RestoreLast,
    Restore(Vec<u8>),
    /// With a number: the tables are lent with this allocation segment.
    Open(Option<u32>),
    Format,
    /// No call of the port: the device is lent with this fuse from then on.
    Fuse(u64),
}

/// Names of the kinds of calls, by [`Call::kind`].
pub const KINDS: [&str; 11] = [
    "write", "read", "collect", "collect_list", "collect_threshold", "encode", "restore last", "restore", "open", "format", "fuse",
];

impl Call {
    pub fn kind(&self) -> usize {
        match self {
            Call::Write { .. } => 0,
            Call::Read { .. } => 1,
            Call::Collect => 2,
            Call::List(_) => 3,
            Call::Threshold(..) => 4,
            Call::Encode => 5,
            Call::RestoreLast => 6,
            Call::Restore(_) => 7,
            Call::Open(_) => 8,
            Call::Format => 9,
            Call::Fuse(_) => 10,
        }
    }
}

/// Hex, with the middle left out when it is long.
fn hex(xs: &[u8]) -> String {
    let all = |xs: &[u8]| xs.iter().map(|x| format!("{x:02x}")).collect::<String>();
    if xs.len() <= 512 {
        return all(xs);
    }
    format!("{}..({} bytes)..{}", all(&xs[..64]), xs.len(), all(&xs[xs.len() - 16..]))
}

impl fmt::Display for Call {
    fn fmt(&self, f: &mut fmt::Formatter) -> fmt::Result {
        match self {
            Call::Write { sector, len, data } => {
                write!(f, "write sector {sector} length {len}, buffer of {} bytes: {}", data.len(), hex(data))
            }
            Call::Read { sector, length } => write!(f, "read sector {sector} length {length}"),
            Call::Collect => write!(f, "collect"),
            Call::List(m) => write!(f, "collect_list m {m}"),
            Call::Threshold(t, m) => write!(f, "collect_threshold threshold {t} m {m}"),
            Call::Encode => write!(f, "encode"),
            Call::RestoreLast => write!(f, "restore of the last checkpoint"),
            Call::Restore(file) => write!(f, "restore of {} bytes: {}", file.len(), hex(file)),
            Call::Open(None) => write!(f, "open"),
            Call::Open(Some(alloc)) => write!(f, "open, lent with allocation segment {alloc}"),
            Call::Format => write!(f, "format"),
            Call::Fuse(fuse) => write!(f, "(fuse set to {fuse})"),
        }
    }
}

/// A device and the calls made on it, from formatted flash and fresh tables.
#[derive(Clone)]
pub struct Case {
    pub g: Geometry,
    pub bad: Vec<u8>,
    pub calls: Vec<Call>,
}

impl Case {
    /// As text, with the answers of the calls as far as they are known.
    pub fn show(&self, answers: &[i64]) -> String {
        let Geometry { n, p, s, w, e, limit } = self.g;
        let bad: Vec<usize> = (0..n).filter(|&k| self.bad[k] != 0).collect();
        let mut text = format!("geometry: n {n}, p {p}, s {s}, w {w}, e {e}, erase limit {limit}\n");
        text += &match bad.len() {
            0 => "bad segments: none\n".to_string(),
            1..=64 => format!("bad segments: {bad:?}\n"),
            count => format!("bad segments: {count}, the first {:?}\n", &bad[..64]),
        };
        text += &format!("from formatted flash and fresh tables, {} calls:\n", self.calls.len());
        for (i, call) in self.calls.iter().enumerate() {
            let answer = answers.get(i).map_or("differs".to_string(), i64::to_string);
            text += &format!("  {} {call} -> {answer}\n", i + 1);
        }
        text
    }
}
