//! Stand-in: page marks (document 01, step 1, not given). One bit for each page, in 64-bit words.
pub const BITS_NOT_FOUND: u64 = u64::MAX;

pub fn set_bit(bits: &mut [u64], index: u64) {
    bits[(index / 64) as usize] |= 1 << (index % 64);
}

pub fn get_bit(bits: &[u64], index: u64) -> bool {
    bits[(index / 64) as usize] >> (index % 64) & 1 == 1
}

pub fn reset_bit(bits: &mut [u64], index: u64) {
    bits[(index / 64) as usize] &= !(1 << (index % 64));
}

/// The first clear mark from `from` up to below `size`.
pub fn find_first_zero_bit(bits: &[u64], size: u64, from: u64) -> u64 {
    (from..size).find(|&i| !get_bit(bits, i)).unwrap_or(BITS_NOT_FOUND)
}
