#include "rules.h"
#include <string.h>

// What each entry is lent, and what of it is const.
const uint8_t role[ENTRIES][SLICES] = {
    [FORMAT] = {[BYTES] = LENT, [MARKS] = LENT, [COUNTS] = LENT, [FUSE] = LENT},
    [OPEN] = {[TAB] = LENT, [USED] = LENT},
    [READ] = {[TAB] = READ_ONLY, [USED] = READ_ONLY, [BYTES] = READ_ONLY, [OUT] = LENT, [SEEN] = LENT},
    [WRITE] = {[XS] = READ_ONLY, [BAD] = READ_ONLY, [TAB] = LENT, [USED] = LENT, [BYTES] = LENT, [MARKS] = LENT,
               [COUNTS] = READ_ONLY, [FUSE] = LENT, [PAGE] = LENT, [SEEN] = LENT},
    [COLLECT] = {[BAD] = READ_ONLY, [TAB] = LENT, [USED] = LENT, [BYTES] = LENT, [MARKS] = LENT, [COUNTS] = LENT,
                 [FUSE] = LENT, [PAGE] = LENT, [SEEN] = LENT, [ORDER] = LENT},
    [COLLECT_LIST] = {[BAD] = READ_ONLY, [TAB] = LENT, [USED] = LENT, [BYTES] = LENT, [MARKS] = LENT, [COUNTS] = LENT,
                      [FUSE] = LENT, [PAGE] = LENT, [SEEN] = LENT, [ORDER] = LENT},
    [COLLECT_THRESHOLD] = {[BAD] = READ_ONLY, [TAB] = LENT, [USED] = LENT, [BYTES] = LENT, [MARKS] = LENT,
                           [COUNTS] = LENT, [FUSE] = LENT, [PAGE] = LENT, [SEEN] = LENT, [ORDER] = LENT},
    [ENCODE] = {[TAB] = READ_ONLY, [USED] = READ_ONLY, [CHECKPOINT] = LENT, [SEEN] = LENT},
    [RESTORE] = {[CHECKPOINT] = READ_ONLY, [TAB] = LENT, [USED] = LENT, [TAKEN] = LENT},
};

bool is_collection(int entry) {
    return entry == COLLECT || entry == COLLECT_LIST || entry == COLLECT_THRESHOLD;
}

// The answer that a cause gets; the choice changes only what 01 answers with 14.
int64_t refusal(int choice, int cause) {
    switch (cause) {
    case NO_ROOM:
    case COPY_NO_ROOM: return choice == NEW ? -28 : -14;
    case COPY_DEVICE: return choice == NEW ? -121 : -14;
    default: return -5;
    }
}

// 02: "free count 0 and a list shorter than p".
bool dead(const struct geo *g, const struct tables *t, size_t i) {
    return t->free[i] == 0 && t->lens[i] < g->p;
}

bool good(const struct geo *g) {
    return g->n >= 1 && g->n <= 65535 && g->p >= 1 && g->p <= 1024 && g->s >= 1 && g->s <= 16384 && g->w <= 16 &&
           g->p <= (uint64_t)1 << g->w && g->e >= 1 && g->e <= g->n * g->p && g->limit <= UINT32_MAX;
}

uint64_t checkpoint_bytes(const struct geo *g) {
    return 44 + 4 * g->e + 4 * g->n;
}

// The exact size of a slice; 0 for the buffers that only have a least one.
uint64_t right(const struct geo *g, int slice) {
    switch (slice) {
    case TAB: return g->e + 5 * g->n + 2 + g->n * g->p;
    case USED:
    case MARKS:
    case TAKEN: return g->n * g->p;
    case BYTES: return g->n * g->p * g->s;
    case COUNTS:
    case BAD:
    case ORDER: return g->n;
    case PAGE: return g->s;
    case SEEN: return g->n + g->p;
    case FUSE: return 1;
    default: return 0;
    }
}

static bool is_scratch(int slice) {
    return slice == PAGE || slice == SEEN || slice == ORDER || slice == TAKEN;
}

static bool all_zero(const struct slice *x) {
    for (size_t i = 0; i < x->len * x->elem; i++)
        if (x->before[i]) return false;
    return true;
}

static bool slice_fits(const struct call *c, int i) {
    const struct slice *x = &lent[i];
    if (i == XS || i == OUT) return x->len >= c->length;
    if (i == CHECKPOINT) return c->entry == RESTORE || x->len >= checkpoint_bytes(&c->geo);
    return x->len == right(&c->geo, i) && (!is_scratch(i) || all_zero(x));
}

// 0: geometry and sizes are right. Else which of them is wrong first, for the features.
int wrong_size(const struct call *c) {
    if (!good(&c->geo)) return 1;
    for (int i = 0; i < SLICES; i++)
        if (role[c->entry][i] && !slice_fits(c, i)) return 2 + i;
    return 0;
}

struct tables view(const struct geo *g, void *tab, uint8_t *used) {
    uint32_t *x = tab;
    struct tables t = {.map = x, .free = x + g->e, .used = used};
    t.valid = t.free + g->n;
    t.lens = t.valid + g->n;
    t.queue = t.lens + g->n;
    t.flags = t.queue + g->n;
    t.alloc = t.flags + g->n;
    t.queued = t.alloc + 1;
    t.lists = t.queued + 1;
    return t;
}

struct tables before(const struct geo *g) {
    return view(g, lent[TAB].before, lent[USED].before);
}

struct tables after(const struct geo *g) {
    return view(g, lent[TAB].at, lent[USED].at);
}

// The page that a word names, counted through all segments; NONE where there is no such page.
size_t page_of(const struct geo *g, uint32_t word) {
    uint64_t segment = word >> g->w, k = word & (((uint64_t)1 << g->w) - 1);
    return segment < g->n && k < g->p ? segment * g->p + k : NONE;
}

static bool used_first(const struct geo *g, const struct tables *t, size_t i) {
    const uint8_t *u = t->used + i * g->p;
    if (t->free[i] > g->p) return false;
    for (size_t k = 0; k < g->p; k++)
        if (u[k] != (k < g->p - t->free[i])) return false;
    return true;
}

static int unsound_segment(const struct geo *g, const struct tables *t, size_t i) {
    if (!used_first(g, t, i)) return 2;
    if (t->flags[i] > 1) return 3;
    if (t->flags[i] == 1 && t->free[i] != 0) return 4;
    if (t->lens[i] > g->p) return 5;
    if (t->valid[i] < t->lens[i] || t->valid[i] > g->p - t->free[i]) return 6;
    for (size_t k = t->lens[i]; k < g->p; k++)
        if (t->lists[i * g->p + k]) return 7;
    return 0;
}

static int unsound_map(const struct geo *g, const struct tables *t) {
    static uint8_t taken[256 * 1024];
    memset(taken, 0, g->n * g->p);
    for (size_t l = 0; l < g->e; l++) {
        if (t->map[l] == EMPTY) continue;
        size_t a = page_of(g, t->map[l]);
        if (a == NONE || !t->used[a]) return 8;
        if (taken[a]++) return SHARED;
    }
    return 0;
}

// The listed pages are mapped there, no page is listed twice, and as many are listed as are mapped.
static int unsound_lists(const struct geo *g, const struct tables *t) {
    static uint8_t listed[256 * 1024];
    size_t left = 0;
    memset(listed, 0, g->e);
    for (size_t l = 0; l < g->e; l++) left += t->map[l] != EMPTY;
    for (size_t i = 0; i < g->n; i++)
        for (size_t k = 0; k < t->lens[i]; k++) {
            uint32_t l = t->lists[i * g->p + k];
            if (l >= g->e || t->map[l] == EMPTY || t->map[l] >> g->w != i) return 10;
            if (listed[l]++) return 11;
            left--;
        }
    return left ? 12 : 0;
}

static int unsound_queue(const struct geo *g, const struct tables *t) {
    static uint8_t queued[65536];
    if (*t->queued > g->n) return 13;
    memset(queued, 0, g->n);
    for (size_t i = 0; i < g->n; i++) {
        uint32_t x = t->queue[i];
        if (i >= *t->queued) {
            if (x) return 14;
            continue;
        }
        if (x >= g->n || t->free[x] || t->flags[x] != 1) return 15;
        if (queued[x]++) return 16;
    }
    return 0;
}

// 0: sound. Else which sentence of "Sound tables" is broken, for the features.
int unsound(const struct geo *g, const struct tables *t) {
    if (*t->alloc >= g->n) return 1;
    for (size_t i = 0; i < g->n; i++) {
        int broken = unsound_segment(g, t, i);
        if (broken) return broken;
    }
    int broken = unsound_map(g, t);
    if (!broken) broken = unsound_lists(g, t);
    return broken ? broken : unsound_queue(g, t);
}

// The page that a write finds, of sound tables.
size_t find(const struct geo *g, const struct tables *t, const uint8_t *bad) {
    for (size_t i = 0; i < g->n; i++) {
        size_t x = (*t->alloc + i) % g->n;
        if (!bad[x] && t->free[x]) return x * g->p + g->p - t->free[x];
    }
    return NONE;
}

// 02: "only if no higher page of its segment has been since the erase".
bool marked_above(const struct geo *g, const uint8_t *marks, size_t a) {
    for (size_t i = a + 1; i % g->p; i++)
        if (marks[i]) return true;
    return false;
}

uint64_t total_free(const struct geo *g, const struct tables *t) {
    uint64_t sum = 0;
    for (size_t i = 0; i < g->n; i++) sum += t->free[i];
    return sum;
}

// 02: "the free pages of segments outside the bad list".
uint64_t room(const struct geo *g, const struct tables *t, const uint8_t *bad) {
    uint64_t sum = 0;
    for (size_t i = 0; i < g->n; i++) sum += bad[i] ? 0 : t->free[i];
    return sum;
}

uint32_t word_at(const uint8_t *x) {
    return x[0] | x[1] << 8 | x[2] << 16 | (uint32_t)x[3] << 24;
}

uint64_t long_at(const uint8_t *x) {
    return word_at(x) | (uint64_t)word_at(x + 4) << 32;
}

void put_word(uint8_t *x, uint32_t v) {
    for (int i = 0; i < 4; i++) x[i] = v >> 8 * i;
}

void put_long(uint8_t *x, uint64_t v) {
    put_word(x, v);
    put_word(x + 4, v >> 32);
}

// One byte's effect on the remainder, bit by bit.
static uint32_t crc_byte(uint32_t x) {
    for (int b = 0; b < 8; b++) x = x >> 1 ^ (x & 1 ? 0xEDB88320u : 0);
    return x;
}

static uint32_t crc_on(uint32_t crc, const uint8_t *x, size_t len) {
    static uint32_t effect[256];
    for (uint32_t i = 0; !effect[255] && i < 256; i++) effect[i] = crc_byte(i);
    for (size_t i = 0; i < len; i++) crc = crc >> 8 ^ effect[(uint8_t)crc ^ x[i]];
    return crc;
}

uint32_t crc32_of(const uint8_t *x, size_t len) {
    return ~crc_on(UINT32_MAX, x, len);
}

// CRC-32 of bytes 0 to 39 joined with all from 44.
uint32_t file_crc(const uint8_t *file, size_t len) {
    return ~crc_on(crc_on(UINT32_MAX, file, 40), file + 44, len - 44);
}

// The first reason against a file, 0 for none.
int reason(const struct geo *g, const uint8_t *file, size_t len) {
    if (len < 44) return 1;
    if (word_at(file) != 0x50465443) return 2;
    if (word_at(file + 4) != 1) return 3;
    if (long_at(file + 16) != g->n || long_at(file + 24) != g->p) return 4;
    if (long_at(file + 32) != g->e) return 5;
    if (len != checkpoint_bytes(g)) return 6;
    if (word_at(file + 40) != file_crc(file, len)) return 7;
    if (long_at(file + 8) >= g->n) return 8;
    for (size_t i = 0; i < g->n; i++)
        if (word_at(file + 44 + 4 * (g->e + i)) > g->p) return 9;
    return 0;
}
