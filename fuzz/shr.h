// The static library's entries, as C sees them. A slice is a pointer and its number of elements.
// A name with _told does what the name without it does and answers in the new numbers of 02's M-101. The one with _dead does what the
// name without it does and queues the dead segments of 02's M-109.
#ifndef SHR_H
#define SHR_H
#include <stddef.h>
#include <stdint.h>

#define GEO size_t n, size_t p, size_t s, size_t w, size_t e, size_t limit
#define READ8(x) const uint8_t *x, size_t x##_len
#define READ32(x) const uint32_t *x, size_t x##_len
#define LENT8(x) uint8_t *x, size_t x##_len
#define LENT32(x) uint32_t *x, size_t x##_len
#define WRITING                                                                                                        \
    size_t sector, size_t len, READ8(xs), READ8(bad), LENT32(tab), LENT8(used), LENT8(bytes), LENT8(marks),            \
        READ32(counts), uint64_t *fuse, LENT8(page), LENT8(seen)
#define COLLECTION                                                                                                     \
    READ8(bad), LENT32(tab), LENT8(used), LENT8(bytes), LENT8(marks), LENT32(counts), uint64_t *fuse, LENT8(page),     \
        LENT8(seen), LENT32(order)
#define RESTORING READ8(file), LENT32(tab), LENT8(used), LENT8(taken)

int64_t shr_format(GEO, LENT8(bytes), LENT8(marks), LENT32(counts), uint64_t *fuse);
int64_t shr_open(GEO, LENT32(tab), LENT8(used));
int64_t shr_read(GEO, size_t sector, size_t length, READ32(tab), READ8(used), READ8(bytes), LENT8(out), LENT8(seen));
int64_t shr_write(GEO, WRITING);
int64_t shr_write_told(GEO, WRITING);
int64_t shr_collect(GEO, COLLECTION);
int64_t shr_collect_told(GEO, COLLECTION);
int64_t shr_collect_list(GEO, size_t m, COLLECTION);
int64_t shr_collect_list_told(GEO, size_t m, COLLECTION);
int64_t shr_collect_threshold(GEO, uint64_t threshold, size_t m, COLLECTION);
int64_t shr_collect_threshold_told(GEO, uint64_t threshold, size_t m, COLLECTION);
int64_t shr_encode(GEO, READ32(tab), READ8(used), LENT8(buffer), LENT8(seen));
int64_t shr_restore(GEO, RESTORING);
int64_t shr_restore_dead(GEO, RESTORING);

size_t shr_tab_words(GEO);
size_t shr_used_bytes(GEO);
size_t shr_flash_bytes(GEO);
size_t shr_mark_bytes(GEO);
size_t shr_count_words(GEO);
size_t shr_bad_bytes(GEO);
size_t shr_page_bytes(GEO);
size_t shr_seen_bytes(GEO);
size_t shr_order_words(GEO);
size_t shr_taken_bytes(GEO);
size_t shr_checkpoint_bytes(GEO);
uint32_t shr_crc32(READ8(xs));

#endif
