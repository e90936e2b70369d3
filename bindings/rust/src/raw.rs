//! The library's functions as they are linked. A slice is a pointer and its length in elements. tools/signatures holds these
//! declarations to the library's source and to include/shillingreed.h.

extern "C" {
    pub fn shr_format(
        n: usize, p: usize, s: usize, w: usize, e: usize, limit: usize,
        bytes: *mut u8, bytes_len: usize, marks: *mut u8, marks_len: usize, counts: *mut u32, counts_len: usize,
        fuse: *mut u64,
    ) -> i64;
    pub fn shr_open(
        n: usize, p: usize, s: usize, w: usize, e: usize, limit: usize,
        tab: *mut u32, tab_len: usize, used: *mut u8, used_len: usize,
    ) -> i64;
    pub fn shr_read(
        n: usize, p: usize, s: usize, w: usize, e: usize, limit: usize,
        sector: usize, length: usize,
        tab: *const u32, tab_len: usize, used: *const u8, used_len: usize, bytes: *const u8, bytes_len: usize,
        out: *mut u8, out_len: usize, seen: *mut u8, seen_len: usize,
    ) -> i64;
    pub fn shr_write(
        n: usize, p: usize, s: usize, w: usize, e: usize, limit: usize,
        sector: usize, len: usize, xs: *const u8, xs_len: usize, bad: *const u8, bad_len: usize,
        tab: *mut u32, tab_len: usize, used: *mut u8, used_len: usize,
        bytes: *mut u8, bytes_len: usize, marks: *mut u8, marks_len: usize, counts: *const u32, counts_len: usize,
        fuse: *mut u64, page: *mut u8, page_len: usize, seen: *mut u8, seen_len: usize,
    ) -> i64;
    pub fn shr_collect(
        n: usize, p: usize, s: usize, w: usize, e: usize, limit: usize,
        bad: *const u8, bad_len: usize, tab: *mut u32, tab_len: usize, used: *mut u8, used_len: usize,
        bytes: *mut u8, bytes_len: usize, marks: *mut u8, marks_len: usize, counts: *mut u32, counts_len: usize,
        fuse: *mut u64, page: *mut u8, page_len: usize, seen: *mut u8, seen_len: usize, order: *mut u32, order_len: usize,
    ) -> i64;
    pub fn shr_collect_list(
        n: usize, p: usize, s: usize, w: usize, e: usize, limit: usize, m: usize,
        bad: *const u8, bad_len: usize, tab: *mut u32, tab_len: usize, used: *mut u8, used_len: usize,
        bytes: *mut u8, bytes_len: usize, marks: *mut u8, marks_len: usize, counts: *mut u32, counts_len: usize,
        fuse: *mut u64, page: *mut u8, page_len: usize, seen: *mut u8, seen_len: usize, order: *mut u32, order_len: usize,
    ) -> i64;
    pub fn shr_collect_threshold(
        n: usize, p: usize, s: usize, w: usize, e: usize, limit: usize, threshold: u64, m: usize,
        bad: *const u8, bad_len: usize, tab: *mut u32, tab_len: usize, used: *mut u8, used_len: usize,
        bytes: *mut u8, bytes_len: usize, marks: *mut u8, marks_len: usize, counts: *mut u32, counts_len: usize,
        fuse: *mut u64, page: *mut u8, page_len: usize, seen: *mut u8, seen_len: usize, order: *mut u32, order_len: usize,
    ) -> i64;
    pub fn shr_write_told(
        n: usize, p: usize, s: usize, w: usize, e: usize, limit: usize,
        sector: usize, len: usize, xs: *const u8, xs_len: usize, bad: *const u8, bad_len: usize,
        tab: *mut u32, tab_len: usize, used: *mut u8, used_len: usize,
        bytes: *mut u8, bytes_len: usize, marks: *mut u8, marks_len: usize, counts: *const u32, counts_len: usize,
        fuse: *mut u64, page: *mut u8, page_len: usize, seen: *mut u8, seen_len: usize,
    ) -> i64;
    pub fn shr_collect_told(
        n: usize, p: usize, s: usize, w: usize, e: usize, limit: usize,
        bad: *const u8, bad_len: usize, tab: *mut u32, tab_len: usize, used: *mut u8, used_len: usize,
        bytes: *mut u8, bytes_len: usize, marks: *mut u8, marks_len: usize, counts: *mut u32, counts_len: usize,
        fuse: *mut u64, page: *mut u8, page_len: usize, seen: *mut u8, seen_len: usize, order: *mut u32, order_len: usize,
    ) -> i64;
    pub fn shr_collect_list_told(
        n: usize, p: usize, s: usize, w: usize, e: usize, limit: usize, m: usize,
        bad: *const u8, bad_len: usize, tab: *mut u32, tab_len: usize, used: *mut u8, used_len: usize,
        bytes: *mut u8, bytes_len: usize, marks: *mut u8, marks_len: usize, counts: *mut u32, counts_len: usize,
        fuse: *mut u64, page: *mut u8, page_len: usize, seen: *mut u8, seen_len: usize, order: *mut u32, order_len: usize,
    ) -> i64;
    pub fn shr_collect_threshold_told(
        n: usize, p: usize, s: usize, w: usize, e: usize, limit: usize, threshold: u64, m: usize,
        bad: *const u8, bad_len: usize, tab: *mut u32, tab_len: usize, used: *mut u8, used_len: usize,
        bytes: *mut u8, bytes_len: usize, marks: *mut u8, marks_len: usize, counts: *mut u32, counts_len: usize,
        fuse: *mut u64, page: *mut u8, page_len: usize, seen: *mut u8, seen_len: usize, order: *mut u32, order_len: usize,
    ) -> i64;
    pub fn shr_encode(
        n: usize, p: usize, s: usize, w: usize, e: usize, limit: usize,
        tab: *const u32, tab_len: usize, used: *const u8, used_len: usize,
        buffer: *mut u8, buffer_len: usize, seen: *mut u8, seen_len: usize,
    ) -> i64;
    pub fn shr_restore(
        n: usize, p: usize, s: usize, w: usize, e: usize, limit: usize,
        file: *const u8, file_len: usize, tab: *mut u32, tab_len: usize, used: *mut u8, used_len: usize,
        taken: *mut u8, taken_len: usize,
    ) -> i64;
    pub fn shr_restore_dead(
        n: usize, p: usize, s: usize, w: usize, e: usize, limit: usize,
        file: *const u8, file_len: usize, tab: *mut u32, tab_len: usize, used: *mut u8, used_len: usize,
        taken: *mut u8, taken_len: usize,
    ) -> i64;
    pub fn shr_tab_words(n: usize, p: usize, s: usize, w: usize, e: usize, limit: usize) -> usize;
    pub fn shr_used_bytes(n: usize, p: usize, s: usize, w: usize, e: usize, limit: usize) -> usize;
    pub fn shr_flash_bytes(n: usize, p: usize, s: usize, w: usize, e: usize, limit: usize) -> usize;
    pub fn shr_mark_bytes(n: usize, p: usize, s: usize, w: usize, e: usize, limit: usize) -> usize;
    pub fn shr_count_words(n: usize, p: usize, s: usize, w: usize, e: usize, limit: usize) -> usize;
    pub fn shr_bad_bytes(n: usize, p: usize, s: usize, w: usize, e: usize, limit: usize) -> usize;
    pub fn shr_page_bytes(n: usize, p: usize, s: usize, w: usize, e: usize, limit: usize) -> usize;
    pub fn shr_seen_bytes(n: usize, p: usize, s: usize, w: usize, e: usize, limit: usize) -> usize;
    pub fn shr_order_words(n: usize, p: usize, s: usize, w: usize, e: usize, limit: usize) -> usize;
    pub fn shr_taken_bytes(n: usize, p: usize, s: usize, w: usize, e: usize, limit: usize) -> usize;
    pub fn shr_checkpoint_bytes(n: usize, p: usize, s: usize, w: usize, e: usize, limit: usize) -> usize;
    pub fn shr_crc32(xs: *const u8, xs_len: usize) -> u32;
}
