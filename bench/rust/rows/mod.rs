pub mod checkpoint;
pub mod collect;
pub mod crc;
pub mod list;
pub mod others;
pub mod sound;
pub mod write;

use crate::orig::Orig;
use crate::port::Port;

/// After the same calls both sides hold the same tables and the same flash; else nothing is compared.
pub fn same(port: &Port, rust: &Orig) {
    assert!(port.tables == rust.view(), "the tables differ");
    assert!(port.marks == rust.dev.marks && port.counts == rust.dev.counts, "marks or counts differ");
    assert!(port.bytes == rust.dev.bytes, "the flash differs");
}
