//! Why a call was refused.
use core::fmt;

/// A call's refusal. Restoring answers `Wrong` or `Reason`, and no other call answers `Reason`.
#[derive(Clone, Copy, Debug, PartialEq, Eq)]
#[non_exhaustive]
pub enum Refusal {
    /// 5. Write: the device refused the programming, since the page's mark or that of a higher page of its segment is set or the fuse is
    /// out, and the page found is spent. Collection: it refused the erase.
    Device,
    /// 14, in the old numbers. Write: no segment outside the bad list has a free page. Collection: a copy found none, or the device refused it.
    NoRoom,
    /// 22. Geometry or a lent size is wrong, scratch is not zero, past the last logical page, or past the page's end.
    Wrong,
    /// 28, in the new numbers. Write, and a copy of a collection: no segment outside the bad list has a free page.
    Full,
    /// 61. Read of a logical page that was never written.
    Unmapped,
    /// 117. The tables are not sound.
    Unsound,
    /// 121, in the new numbers. Collection: the device refused the programming of a copy, whose page is spent.
    CopyDevice,
    /// 1 to 9. Why a file is not restored.
    Reason(Reason),
}

/// Why a file is not restored, in the order of the tests.
#[derive(Clone, Copy, Debug, PartialEq, Eq)]
pub enum Reason {
    /// 1. Under 44 bytes.
    Short,
    /// 2. Does not begin with 0x50465443.
    Magic,
    /// 3. Not version 1.
    Version,
    /// 4. Another n or p.
    Shape,
    /// 5. Another e.
    Entries,
    /// 6. Length not exactly 44 + 4e + 4n.
    Length,
    /// 7. The checksum does not fit.
    Crc,
    /// 8. Allocation segment >= n.
    Alloc,
    /// 9. A free count above p.
    Free,
}

const REASONS: [Reason; 9] = [
    Reason::Short,
    Reason::Magic,
    Reason::Version,
    Reason::Shape,
    Reason::Entries,
    Reason::Length,
    Reason::Crc,
    Reason::Alloc,
    Reason::Free,
];

impl Refusal {
    /// The same refusal in the old numbers: 28 and 121 are read as 14.
    pub fn as_old(self) -> Refusal {
        match self {
            Refusal::Full | Refusal::CopyDevice => Refusal::NoRoom,
            other => other,
        }
    }

    /// The number, without its sign.
    pub fn number(self) -> i64 {
        match self {
            Refusal::Device => 5,
            Refusal::NoRoom => 14,
            Refusal::Wrong => 22,
            Refusal::Full => 28,
            Refusal::Unmapped => 61,
            Refusal::Unsound => 117,
            Refusal::CopyDevice => 121,
            Refusal::Reason(reason) => reason as i64 + 1,
        }
    }
}

/// A call's answer: a count, or a refusal negated. No call but restoring.
pub(crate) fn answer(a: i64) -> Result<usize, Refusal> {
    match a {
        -5 => Err(Refusal::Device),
        -14 => Err(Refusal::NoRoom),
        -22 => Err(Refusal::Wrong),
        -28 => Err(Refusal::Full),
        -61 => Err(Refusal::Unmapped),
        -117 => Err(Refusal::Unsound),
        -121 => Err(Refusal::CopyDevice),
        a if a >= 0 => Ok(a as usize),
        a => unreachable!("no answer of the library: {a}"),
    }
}

/// A restore's answer: 0, -22, or a reason negated.
pub(crate) fn restored(a: i64) -> Result<usize, Refusal> {
    match a {
        -9..=-1 => Err(Refusal::Reason(REASONS[(-a - 1) as usize])),
        a => answer(a),
    }
}

impl fmt::Display for Refusal {
    fn fmt(&self, f: &mut fmt::Formatter<'_>) -> fmt::Result {
        let text = match self {
            Refusal::Device => "the device refused",
            Refusal::NoRoom => "no room",
            Refusal::Wrong => "wrong geometry, size, sector or length",
            Refusal::Full => "full: no free page outside the bad list",
            Refusal::Unmapped => "page never written",
            Refusal::Unsound => "tables not sound",
            Refusal::CopyDevice => "the device refused a copy",
            Refusal::Reason(reason) => return write!(f, "not restored: {reason}"),
        };
        write!(f, "{text} ({})", self.number())
    }
}

impl fmt::Display for Reason {
    fn fmt(&self, f: &mut fmt::Formatter<'_>) -> fmt::Result {
        let text = match self {
            Reason::Short => "file under 44 bytes",
            Reason::Magic => "file does not begin as a checkpoint does",
            Reason::Version => "another version",
            Reason::Shape => "another number of segments or pages",
            Reason::Entries => "another number of map entries",
            Reason::Length => "wrong length",
            Reason::Crc => "checksum does not fit",
            Reason::Alloc => "allocation segment out of range",
            Reason::Free => "free count out of range",
        };
        write!(f, "{text} ({})", *self as i64 + 1)
    }
}

impl core::error::Error for Refusal {}
