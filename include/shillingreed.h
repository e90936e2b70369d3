/*
 * shillingreed.h: what a recorder links. For C99 and C++11, x86-64; link with libffi.a.
 *
 * Nothing is kept between calls: each call is lent the tables, the flash, the bad list and scratch, and
 * answers one signed number, a count or a refusal negated. docs/USING.md says how a unit uses them.
 *
 * Of every pointer: not null and aligned, even with length 0; what is lent to one call does not overlap.
 * These are the only things that no call can find out by itself. Everything else may be wrong and gets a refusal.
 */
#ifndef SHILLINGREED_H
#define SHILLINGREED_H

#include <stddef.h>
#include <stdint.h>

#if SIZE_MAX != UINT64_MAX
#error "shillingreed: the library has 64-bit sizes"
#endif

#ifdef __cplusplus
extern "C" {
#endif

/* A map word that names no page. */
#define SHR_EMPTY ((uint32_t)0xFFFFFFFFu)

/* A fuse without end. Any other number is how many device operations are still done. */
#define SHR_ENDLESS (~(uint64_t)0)

/* A call's refusals, negated in its answer. Old numbers are those of the names without `told`. Restoring has reasons of its own, below. */
enum shr_refusal {
    SHR_DEVICE = 5,    /* write: the device refused the programming, since the page's mark or that of a higher page of its segment is set
                          or the fuse is out, and the page found is spent; collection: it refused the erase */
    SHR_NO_ROOM = 14,  /* in the old numbers. write: no segment outside the bad list has a free page; collection: a copy found none, or the
                          device refused it */
    SHR_WRONG = 22,    /* geometry or a lent size is wrong, scratch is not zero, past the last logical page, or past the page's end */
    SHR_FULL = 28,     /* in the new numbers. write, and a copy of a collection: no segment outside the bad list has a free page */
    SHR_UNMAPPED = 61, /* read of a logical page that was never written */
    SHR_UNSOUND = 117, /* the tables are not sound */
    SHR_COPY_DEVICE = 121 /* in the new numbers. collection: the device refused the programming of a copy, whose page is spent */
};

/* Why a file is not restored, in the order of the tests, negated in the answer. Tables of wrong size get SHR_WRONG first. */
enum shr_reason {
    SHR_REASON_SHORT = 1,   /* under 44 bytes */
    SHR_REASON_MAGIC = 2,   /* does not begin with 0x50465443 */
    SHR_REASON_VERSION = 3, /* not version 1 */
    SHR_REASON_SHAPE = 4,   /* another n or p */
    SHR_REASON_ENTRIES = 5, /* another e */
    SHR_REASON_LENGTH = 6,  /* length not exactly 44 + 4e + 4n */
    SHR_REASON_CRC = 7,     /* the checksum does not fit */
    SHR_REASON_ALLOC = 8,   /* allocation segment >= n */
    SHR_REASON_FREE = 9     /* a free count above p */
};

/*
 * The raw calls. The first six numbers are the geometry: n segments (1 to 65,535), p pages in each (1 to 1,024), page size s
 * (1 to 16,384), address width w (0 to 16, p at most 2^w), e map entries (1 to n*p), erase limit (0 to 2^32-1).
 * A slice is a pointer and its length in elements. Lent sizes are exact:
 *   tab  e + 5n + 2 + n*p words: map (e), free (n), valid (n), lens (n), queue (n), flags (n), alloc, queued, lists (n*p)
 *   used n*p   bytes n*p*s   marks n*p   counts n words   bad n
 *   (take them from shr_tab_words and the others below: a later library may need more words, and answers -SHR_WRONG to a size written down)
 *   scratch, all zero before and after: page s   seen n + p   order n words   taken n*p
 * and at least: out `length`, xs `len`, buffer 44 + 4e + 4n.
 *
 * Page k of segment g lies at place g*p + k: its bytes are bytes[(g*p + k)*s] and the s - 1 after it, its mark is marks[g*p + k], its use
 * mark used[g*p + k]. Its address, by which the map names it, is another number, g * 2^w + k.
 * A sector is a byte position: logical page sector / s, offset sector mod s. A read or a write stays inside that one logical page.
 */

/* Erases every segment from 0 up as far as the fuse reaches and sets its count to 0. Answers 0. */
int64_t shr_format(size_t n, size_t p, size_t s, size_t w, size_t e, size_t limit,
                   uint8_t *bytes, size_t bytes_len, uint8_t *marks, size_t marks_len, uint32_t *counts, size_t counts_len,
                   uint64_t *fuse);

/* Empties the tables: nothing mapped, every page free. An allocation segment below n stays, another becomes 0. Answers 0. */
int64_t shr_open(size_t n, size_t p, size_t s, size_t w, size_t e, size_t limit,
                 uint32_t *tab, size_t tab_len, uint8_t *used, size_t used_len);

/* Reads `length` bytes at a sector, a byte position, inside one logical page. Answers the length. */
int64_t shr_read(size_t n, size_t p, size_t s, size_t w, size_t e, size_t limit,
                 size_t sector, size_t length,
                 const uint32_t *tab, size_t tab_len, const uint8_t *used, size_t used_len,
                 const uint8_t *bytes, size_t bytes_len, uint8_t *out, size_t out_len, uint8_t *seen, size_t seen_len);

/* This and the three collections answer in the old numbers; in the new ones, for new programs: shr_write_told, shr_collect_told, ...
 * Writes `len` bytes at a sector, a byte position, inside one logical page. The page's other bytes stay; at its first write they become
 * zero (and not 255). Spends one page. Answers the length. */
int64_t shr_write(size_t n, size_t p, size_t s, size_t w, size_t e, size_t limit,
                  size_t sector, size_t len, const uint8_t *xs, size_t xs_len, const uint8_t *bad, size_t bad_len,
                  uint32_t *tab, size_t tab_len, uint8_t *used, size_t used_len,
                  uint8_t *bytes, size_t bytes_len, uint8_t *marks, size_t marks_len, const uint32_t *counts, size_t counts_len,
                  uint64_t *fuse, uint8_t *page, size_t page_len, uint8_t *seen, size_t seen_len);

/* One collection: the queued segment with the fewest valid pages is copied out and erased. Answers 0, also with an empty queue. */
int64_t shr_collect(size_t n, size_t p, size_t s, size_t w, size_t e, size_t limit,
                    const uint8_t *bad, size_t bad_len, uint32_t *tab, size_t tab_len, uint8_t *used, size_t used_len,
                    uint8_t *bytes, size_t bytes_len, uint8_t *marks, size_t marks_len, uint32_t *counts, size_t counts_len,
                    uint64_t *fuse, uint8_t *page, size_t page_len, uint8_t *seen, size_t seen_len,
                    uint32_t *order, size_t order_len);

/* Collections until one is refused, the queue is empty, or m are counted. The one that empties the queue is not counted. */
int64_t shr_collect_list(size_t n, size_t p, size_t s, size_t w, size_t e, size_t limit, size_t m,
                         const uint8_t *bad, size_t bad_len, uint32_t *tab, size_t tab_len, uint8_t *used, size_t used_len,
                         uint8_t *bytes, size_t bytes_len, uint8_t *marks, size_t marks_len, uint32_t *counts, size_t counts_len,
                         uint64_t *fuse, uint8_t *page, size_t page_len, uint8_t *seen, size_t seen_len,
                         uint32_t *order, size_t order_len);

/* The same when the free pages of all segments are at most the threshold; above it nothing runs and the answer is 0. */
int64_t shr_collect_threshold(size_t n, size_t p, size_t s, size_t w, size_t e, size_t limit, uint64_t threshold, size_t m,
                              const uint8_t *bad, size_t bad_len, uint32_t *tab, size_t tab_len, uint8_t *used, size_t used_len,
                              uint8_t *bytes, size_t bytes_len, uint8_t *marks, size_t marks_len,
                              uint32_t *counts, size_t counts_len, uint64_t *fuse, uint8_t *page, size_t page_len,
                              uint8_t *seen, size_t seen_len, uint32_t *order, size_t order_len);

/* The same four calls in the new numbers: -SHR_FULL where a write above answers -SHR_NO_ROOM, -SHR_FULL or -SHR_COPY_DEVICE where a
 * collection does. Every other answer, and all that a call leaves, is the same. */
int64_t shr_write_told(size_t n, size_t p, size_t s, size_t w, size_t e, size_t limit,
                       size_t sector, size_t len, const uint8_t *xs, size_t xs_len, const uint8_t *bad, size_t bad_len,
                       uint32_t *tab, size_t tab_len, uint8_t *used, size_t used_len,
                       uint8_t *bytes, size_t bytes_len, uint8_t *marks, size_t marks_len, const uint32_t *counts, size_t counts_len,
                       uint64_t *fuse, uint8_t *page, size_t page_len, uint8_t *seen, size_t seen_len);
int64_t shr_collect_told(size_t n, size_t p, size_t s, size_t w, size_t e, size_t limit,
                         const uint8_t *bad, size_t bad_len, uint32_t *tab, size_t tab_len, uint8_t *used, size_t used_len,
                         uint8_t *bytes, size_t bytes_len, uint8_t *marks, size_t marks_len, uint32_t *counts, size_t counts_len,
                         uint64_t *fuse, uint8_t *page, size_t page_len, uint8_t *seen, size_t seen_len,
                         uint32_t *order, size_t order_len);
int64_t shr_collect_list_told(size_t n, size_t p, size_t s, size_t w, size_t e, size_t limit, size_t m,
                              const uint8_t *bad, size_t bad_len, uint32_t *tab, size_t tab_len, uint8_t *used, size_t used_len,
                              uint8_t *bytes, size_t bytes_len, uint8_t *marks, size_t marks_len, uint32_t *counts, size_t counts_len,
                              uint64_t *fuse, uint8_t *page, size_t page_len, uint8_t *seen, size_t seen_len,
                              uint32_t *order, size_t order_len);
int64_t shr_collect_threshold_told(size_t n, size_t p, size_t s, size_t w, size_t e, size_t limit, uint64_t threshold, size_t m,
                                   const uint8_t *bad, size_t bad_len, uint32_t *tab, size_t tab_len, uint8_t *used, size_t used_len,
                                   uint8_t *bytes, size_t bytes_len, uint8_t *marks, size_t marks_len,
                                   uint32_t *counts, size_t counts_len, uint64_t *fuse, uint8_t *page, size_t page_len,
                                   uint8_t *seen, size_t seen_len, uint32_t *order, size_t order_len);

/* Writes the checkpoint of the tables into the buffer's front. Answers its length, 44 + 4e + 4n. */
int64_t shr_encode(size_t n, size_t p, size_t s, size_t w, size_t e, size_t limit,
                   const uint32_t *tab, size_t tab_len, const uint8_t *used, size_t used_len,
                   uint8_t *buffer, size_t buffer_len, uint8_t *seen, size_t seen_len);

/* Makes the tables of a checkpoint, whatever they held; the queue is empty. Answers 0, -SHR_WRONG, or a reason negated, which changes
 * nothing. For new programs: shr_restore_dead. */
int64_t shr_restore(size_t n, size_t p, size_t s, size_t w, size_t e, size_t limit,
                    const uint8_t *file, size_t file_len, uint32_t *tab, size_t tab_len, uint8_t *used, size_t used_len,
                    uint8_t *taken, size_t taken_len);

/* The same, and each segment with free count 0 and a list shorter than p is queued, ascending, its flag set: a collection can take it. Every
 * answer, and all else that is left, is the same. */
int64_t shr_restore_dead(size_t n, size_t p, size_t s, size_t w, size_t e, size_t limit,
                         const uint8_t *file, size_t file_len, uint32_t *tab, size_t tab_len, uint8_t *used, size_t used_len,
                         uint8_t *taken, size_t taken_len);

/* The lent sizes of a geometry, in elements; 0 for a geometry that is refused. */
size_t shr_tab_words(size_t n, size_t p, size_t s, size_t w, size_t e, size_t limit);
size_t shr_used_bytes(size_t n, size_t p, size_t s, size_t w, size_t e, size_t limit);
size_t shr_flash_bytes(size_t n, size_t p, size_t s, size_t w, size_t e, size_t limit);
size_t shr_mark_bytes(size_t n, size_t p, size_t s, size_t w, size_t e, size_t limit);
size_t shr_count_words(size_t n, size_t p, size_t s, size_t w, size_t e, size_t limit);
size_t shr_bad_bytes(size_t n, size_t p, size_t s, size_t w, size_t e, size_t limit);
size_t shr_page_bytes(size_t n, size_t p, size_t s, size_t w, size_t e, size_t limit);
size_t shr_seen_bytes(size_t n, size_t p, size_t s, size_t w, size_t e, size_t limit);
size_t shr_order_words(size_t n, size_t p, size_t s, size_t w, size_t e, size_t limit);
size_t shr_taken_bytes(size_t n, size_t p, size_t s, size_t w, size_t e, size_t limit);
size_t shr_checkpoint_bytes(size_t n, size_t p, size_t s, size_t w, size_t e, size_t limit);

/* The CRC-32 of IEEE 802.3. */
uint32_t shr_crc32(const uint8_t *xs, size_t xs_len);

/*
 * From here on conveniences, in C, beside the library: a unit's memory in one struct, passed part by part.
 * They test nothing; the calls behind them test everything, the lengths in the struct too. The looks into the tables, at the end, bear
 * any geometry, words and index.
 */

struct shr_geometry {
    size_t n;     /* segments */
    size_t p;     /* pages in each */
    size_t s;     /* bytes in each page */
    size_t w;     /* address width: page k of segment g has the address g * 2^w + k, and lies at place g * p + k */
    size_t e;     /* map entries: logical pages */
    size_t limit; /* erases that a segment bears */
};

struct shr_words {
    uint32_t *at;
    size_t len;
};

struct shr_octets {
    uint8_t *at;
    size_t len;
};

/* Everything that a unit lends. */
struct shr_unit {
    /* tables: lost with the power, made again from a checkpoint */
    struct shr_words tab;
    struct shr_octets used;
    /* flash */
    struct shr_octets bytes;
    struct shr_octets marks;
    struct shr_words counts;
    uint64_t fuse;
    /* bad list: a nonzero mark for a bad segment */
    struct shr_octets bad;
    /* scratch: zero before and after each call */
    struct shr_octets page;
    struct shr_octets seen;
    struct shr_words order;
    struct shr_octets taken;
};

#define SHR_GEO_(g) (g)->n, (g)->p, (g)->s, (g)->w, (g)->e, (g)->limit
#define SHR_LEND_(x) (x).at, (x).len
#define SHR_ALL_(u) \
    SHR_LEND_((u)->bad), SHR_LEND_((u)->tab), SHR_LEND_((u)->used), SHR_LEND_((u)->bytes), SHR_LEND_((u)->marks), \
        SHR_LEND_((u)->counts), &(u)->fuse, SHR_LEND_((u)->page), SHR_LEND_((u)->seen)

static inline int64_t shr_unit_format(const struct shr_geometry *geo, struct shr_unit *u)
{
    return shr_format(SHR_GEO_(geo), SHR_LEND_(u->bytes), SHR_LEND_(u->marks), SHR_LEND_(u->counts), &u->fuse);
}

static inline int64_t shr_unit_open(const struct shr_geometry *geo, struct shr_unit *u)
{
    return shr_open(SHR_GEO_(geo), SHR_LEND_(u->tab), SHR_LEND_(u->used));
}

static inline int64_t shr_unit_read(const struct shr_geometry *geo, struct shr_unit *u, size_t sector, size_t len, uint8_t *out)
{
    return shr_read(SHR_GEO_(geo), sector, len, SHR_LEND_(u->tab), SHR_LEND_(u->used), SHR_LEND_(u->bytes), out, len,
                    SHR_LEND_(u->seen));
}

static inline int64_t shr_unit_write(const struct shr_geometry *geo, struct shr_unit *u, size_t sector, size_t len,
                                     const uint8_t *data)
{
    return shr_write(SHR_GEO_(geo), sector, len, data, len, SHR_ALL_(u));
}

static inline int64_t shr_unit_collect(const struct shr_geometry *geo, struct shr_unit *u)
{
    return shr_collect(SHR_GEO_(geo), SHR_ALL_(u), SHR_LEND_(u->order));
}

static inline int64_t shr_unit_collect_list(const struct shr_geometry *geo, struct shr_unit *u, size_t m)
{
    return shr_collect_list(SHR_GEO_(geo), m, SHR_ALL_(u), SHR_LEND_(u->order));
}

static inline int64_t shr_unit_collect_threshold(const struct shr_geometry *geo, struct shr_unit *u, uint64_t threshold, size_t m)
{
    return shr_collect_threshold(SHR_GEO_(geo), threshold, m, SHR_ALL_(u), SHR_LEND_(u->order));
}

/* The four of them in the new numbers. */
static inline int64_t shr_unit_write_told(const struct shr_geometry *geo, struct shr_unit *u, size_t sector, size_t len,
                                          const uint8_t *data)
{
    return shr_write_told(SHR_GEO_(geo), sector, len, data, len, SHR_ALL_(u));
}

static inline int64_t shr_unit_collect_told(const struct shr_geometry *geo, struct shr_unit *u)
{
    return shr_collect_told(SHR_GEO_(geo), SHR_ALL_(u), SHR_LEND_(u->order));
}

static inline int64_t shr_unit_collect_list_told(const struct shr_geometry *geo, struct shr_unit *u, size_t m)
{
    return shr_collect_list_told(SHR_GEO_(geo), m, SHR_ALL_(u), SHR_LEND_(u->order));
}

static inline int64_t shr_unit_collect_threshold_told(const struct shr_geometry *geo, struct shr_unit *u, uint64_t threshold, size_t m)
{
    return shr_collect_threshold_told(SHR_GEO_(geo), threshold, m, SHR_ALL_(u), SHR_LEND_(u->order));
}

static inline int64_t shr_unit_encode(const struct shr_geometry *geo, struct shr_unit *u, uint8_t *buffer, size_t size)
{
    return shr_encode(SHR_GEO_(geo), SHR_LEND_(u->tab), SHR_LEND_(u->used), buffer, size, SHR_LEND_(u->seen));
}

static inline int64_t shr_unit_restore(const struct shr_geometry *geo, struct shr_unit *u, const uint8_t *file, size_t size)
{
    return shr_restore(SHR_GEO_(geo), file, size, SHR_LEND_(u->tab), SHR_LEND_(u->used), SHR_LEND_(u->taken));
}

static inline int64_t shr_unit_restore_dead(const struct shr_geometry *geo, struct shr_unit *u, const uint8_t *file, size_t size)
{
    return shr_restore_dead(SHR_GEO_(geo), file, size, SHR_LEND_(u->tab), SHR_LEND_(u->used), SHR_LEND_(u->taken));
}

/* A checkpoint's length; 0 for a geometry that is refused. */
static inline size_t shr_unit_checkpoint(const struct shr_geometry *geo)
{
    return shr_checkpoint_bytes(SHR_GEO_(geo));
}

/* The flash's bytes, n*p*s; 0 for a geometry that is refused. */
static inline size_t shr_unit_flash(const struct shr_geometry *geo)
{
    return shr_flash_bytes(SHR_GEO_(geo));
}

/* The memory of a unit beside the flash's bytes: tables, marks, counts, bad list, scratch. 0 for a geometry that is refused. */
static inline size_t shr_unit_memory(const struct shr_geometry *geo)
{
    return 4 * (shr_tab_words(SHR_GEO_(geo)) + shr_count_words(SHR_GEO_(geo)) + shr_order_words(SHR_GEO_(geo))) +
           shr_used_bytes(SHR_GEO_(geo)) + shr_mark_bytes(SHR_GEO_(geo)) + shr_bad_bytes(SHR_GEO_(geo)) +
           shr_page_bytes(SHR_GEO_(geo)) + shr_seen_bytes(SHR_GEO_(geo)) + shr_taken_bytes(SHR_GEO_(geo));
}

static inline struct shr_words shr_next_words_(uint32_t **next, size_t len)
{
    struct shr_words x;
    x.at = *next;
    x.len = len;
    *next += len;
    return x;
}

static inline struct shr_octets shr_next_octets_(uint8_t **next, size_t len)
{
    struct shr_octets x;
    x.at = *next;
    x.len = len;
    *next += len;
    return x;
}

/*
 * Lays a unit out in `memory` (shr_unit_memory bytes, aligned for uint32_t) and over `flash` (shr_unit_flash bytes). All of `memory`
 * becomes zero, the fuse endless; `flash` stays. Then fill in marks, counts and bad as the part has them. Answers 0 or -SHR_WRONG.
 */
static inline int64_t shr_unit_lay(const struct shr_geometry *geo, struct shr_unit *u, void *memory, size_t size, uint8_t *flash,
                                   size_t flash_size)
{
    uint32_t *words = (uint32_t *)memory;
    uint8_t *octets = (uint8_t *)memory;
    size_t i, need = shr_unit_memory(geo);
    if (need == 0 || size < need || flash_size < shr_unit_flash(geo) || (uintptr_t)memory % sizeof *words != 0) return -SHR_WRONG;
    for (i = 0; i < need; i++) octets[i] = 0;
    u->tab = shr_next_words_(&words, shr_tab_words(SHR_GEO_(geo)));
    u->counts = shr_next_words_(&words, shr_count_words(SHR_GEO_(geo)));
    u->order = shr_next_words_(&words, shr_order_words(SHR_GEO_(geo)));
    octets = (uint8_t *)words;
    u->used = shr_next_octets_(&octets, shr_used_bytes(SHR_GEO_(geo)));
    u->marks = shr_next_octets_(&octets, shr_mark_bytes(SHR_GEO_(geo)));
    u->bad = shr_next_octets_(&octets, shr_bad_bytes(SHR_GEO_(geo)));
    u->page = shr_next_octets_(&octets, shr_page_bytes(SHR_GEO_(geo)));
    u->seen = shr_next_octets_(&octets, shr_seen_bytes(SHR_GEO_(geo)));
    u->taken = shr_next_octets_(&octets, shr_taken_bytes(SHR_GEO_(geo)));
    u->bytes.at = flash;
    u->bytes.len = shr_unit_flash(geo);
    u->fuse = SHR_ENDLESS;
    return 0;
}

/*
 * A look into the tables, whatever they hold, with any geometry and any index: no word is read outside tab, nor a mark outside bad, by the
 * lengths in the struct. What is not there (an index out of range; anything, where tab has not the geometry's size) is SHR_EMPTY where it
 * would name a page or a segment, and 0 where it would count. Lengths are at most p and n. Any other word is answered as it stands, for
 * these do not test soundness: a read, write, collection or encoding does.
 */

/* Word i of the `len` that begin at `from`, or `otherwise`. With tab of its size the geometry is good, and no sum below wraps. */
static inline uint32_t shr_word_(const struct shr_geometry *geo, const struct shr_unit *u, size_t from, size_t i, size_t len,
                                 uint32_t otherwise)
{
    return i < len && u->tab.len > 0 && u->tab.len == shr_tab_words(SHR_GEO_(geo)) ? u->tab.at[from + i] : otherwise;
}

/* The address that logical page l is mapped to, or SHR_EMPTY. */
static inline uint32_t shr_unit_map(const struct shr_geometry *geo, const struct shr_unit *u, size_t l)
{
    return shr_word_(geo, u, 0, l, geo->e, SHR_EMPTY);
}

/* The segment and the page in it that an address names: g and k of its place g*p + k. Without such a segment n, without such a page p. */
static inline size_t shr_segment_of(const struct shr_geometry *geo, uint32_t address)
{
    return geo->w <= 16 && address >> geo->w < geo->n ? address >> geo->w : geo->n;
}

static inline size_t shr_page_of(const struct shr_geometry *geo, uint32_t address)
{
    uint32_t page = geo->w <= 16 ? address & (((uint32_t)1 << geo->w) - 1) : SHR_EMPTY;
    return page < geo->p ? page : geo->p;
}

/* Free pages of segment g. */
static inline uint32_t shr_unit_free(const struct shr_geometry *geo, const struct shr_unit *u, size_t g)
{
    return shr_word_(geo, u, geo->e, g, geo->n, 0);
}

/* Valid count of segment g: its mapped pages, and pages spent by a refused programming. */
static inline uint32_t shr_unit_valid(const struct shr_geometry *geo, const struct shr_unit *u, size_t g)
{
    return shr_word_(geo, u, geo->e + geo->n, g, geo->n, 0);
}

/* How many logical pages are mapped into segment g, and the i-th of them. */
static inline uint32_t shr_unit_listed(const struct shr_geometry *geo, const struct shr_unit *u, size_t g)
{
    uint32_t len = shr_word_(geo, u, geo->e + 2 * geo->n, g, geo->n, 0);
    return len <= geo->p ? len : (uint32_t)geo->p;
}

static inline uint32_t shr_unit_list(const struct shr_geometry *geo, const struct shr_unit *u, size_t g, size_t i)
{
    return shr_word_(geo, u, geo->e + 5 * geo->n + 2 + g * geo->p, i, shr_unit_listed(geo, u, g), SHR_EMPTY);
}

/* How many segments are queued for collection, and the i-th of them. */
static inline uint32_t shr_unit_queued(const struct shr_geometry *geo, const struct shr_unit *u)
{
    uint32_t len = shr_word_(geo, u, geo->e + 5 * geo->n + 1, 0, 1, 0);
    return len <= geo->n ? len : (uint32_t)geo->n;
}

static inline uint32_t shr_unit_queue(const struct shr_geometry *geo, const struct shr_unit *u, size_t i)
{
    return shr_word_(geo, u, geo->e + 3 * geo->n, i, shr_unit_queued(geo, u), SHR_EMPTY);
}

/* The flag of segment g: queued, or taken off the queue by a collection that was refused. */
static inline uint32_t shr_unit_flag(const struct shr_geometry *geo, const struct shr_unit *u, size_t g)
{
    return shr_word_(geo, u, geo->e + 4 * geo->n, g, geo->n, 0);
}

/* The allocation segment, where the search for a free page begins. */
static inline uint32_t shr_unit_alloc(const struct shr_geometry *geo, const struct shr_unit *u)
{
    return shr_word_(geo, u, geo->e + 5 * geo->n, 0, 1, SHR_EMPTY);
}

/* The segment that the next collection takes, the first with the fewest valid pages; n when the queue is empty. Of damaged tables the
 * queued numbers from n up are passed over. */
static inline size_t shr_unit_victim(const struct shr_geometry *geo, const struct shr_unit *u)
{
    size_t i, queued = shr_unit_queued(geo, u), best = geo->n;
    for (i = 0; i < queued; i++) {
        size_t g = shr_unit_queue(geo, u, i);
        if (g < geo->n && (best == geo->n || shr_unit_valid(geo, u, g) < shr_unit_valid(geo, u, best))) best = g;
    }
    return best;
}

/* Free pages outside the bad list: what writes and copies can take. A segment past the bad list's end is not counted. */
static inline size_t shr_unit_room(const struct shr_geometry *geo, const struct shr_unit *u)
{
    size_t g, room = 0;
    for (g = 0; g < geo->n && g < u->bad.len; g++) room += u->bad.at[g] == 0 ? shr_unit_free(geo, u, g) : 0;
    return room;
}

/* A refused answer in words. Use the second for the answer of a restore. */
static inline const char *shr_refusal_text(int64_t answer)
{
    switch (answer) {
    case -SHR_DEVICE: return "the device refused";
    case -SHR_NO_ROOM: return "no room";
    case -SHR_FULL: return "full: no free page outside the bad list";
    case -SHR_COPY_DEVICE: return "the device refused a copy";
    case -SHR_WRONG: return "wrong geometry, size, sector or length";
    case -SHR_UNMAPPED: return "page never written";
    case -SHR_UNSOUND: return "tables not sound";
    default: return answer < 0 ? "no refusal of this library" : "not refused";
    }
}

static inline const char *shr_reason_text(int64_t answer)
{
    switch (answer) {
    case -SHR_REASON_SHORT: return "file under 44 bytes";
    case -SHR_REASON_MAGIC: return "file does not begin as a checkpoint does";
    case -SHR_REASON_VERSION: return "another version";
    case -SHR_REASON_SHAPE: return "another number of segments or pages";
    case -SHR_REASON_ENTRIES: return "another number of map entries";
    case -SHR_REASON_LENGTH: return "wrong length";
    case -SHR_REASON_CRC: return "checksum does not fit";
    case -SHR_REASON_ALLOC: return "allocation segment out of range";
    case -SHR_REASON_FREE: return "free count out of range";
    default: return shr_refusal_text(answer);
    }
}

#undef SHR_GEO_
#undef SHR_LEND_
#undef SHR_ALL_

#ifdef __cplusplus
}
#endif

#endif
