//! Stand-in: CRC-32 of IEEE 802.3 in the form that page_core.rs calls: `initial` is the register,
//! and the answer has the final xor applied. The table is made from the bitwise rule.
use core::ffi::c_void;

const fn one_byte(byte: u32) -> u32 {
    let mut crc = byte;
    let mut bit = 0;
    while bit < 8 {
        crc = if crc & 1 == 1 { crc >> 1 ^ 0xEDB8_8320 } else { crc >> 1 };
        bit += 1;
    }
    crc
}

const fn table() -> [u32; 256] {
    let mut all = [0; 256];
    let mut byte = 0;
    while byte < 256 {
        all[byte] = one_byte(byte as u32);
        byte += 1;
    }
    all
}

static TABLE: [u32; 256] = table();

pub extern "C" fn crc32(buf: *const c_void, size: usize, initial: u32) -> u32 {
    let bytes = if size == 0 { &[][..] } else { unsafe { core::slice::from_raw_parts(buf as *const u8, size) } };
    !bytes.iter().fold(initial, |crc, &byte| crc >> 8 ^ TABLE[((crc ^ byte as u32) & 255) as usize])
}
