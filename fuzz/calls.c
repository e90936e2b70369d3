// One call of the library with what is lent, and a coverage feature for what came of it.
#include "calls.h"
#include "damage.h"
#include "shr.h"
#include <stdio.h>

#define FEATURES 32768
__attribute__((section("__libfuzzer_extra_counters"))) static uint8_t counters[FEATURES];

void feature(uint32_t group, uint64_t value) {
    uint64_t h = (value + 1) * 0x9E3779B97F4A7C15u ^ (uint64_t)group * 0xC2B2AE3D27D4EB4Fu;
    counters[(h ^ h >> 29) >> 20 & (FEATURES - 1)] = 1;
}

#define W(x) (uint32_t *)lent[x].at, lent[x].len
#define B(x) lent[x].at, lent[x].len
#define G c->geo.n, c->geo.p, c->geo.s, c->geo.w, c->geo.e, c->geo.limit
#define FLASH B(BYTES), B(MARKS), W(COUNTS), (uint64_t *)lent[FUSE].at
#define ALL B(BAD), W(TAB), B(USED), FLASH, B(PAGE), B(SEEN), W(ORDER)

static int64_t answer_of(const struct call *c) {
    bool new = c->choice == NEW;
    switch (c->entry) {
    case FORMAT: return shr_format(G, FLASH);
    case OPEN: return shr_open(G, W(TAB), B(USED));
    case READ: return shr_read(G, c->sector, c->length, W(TAB), B(USED), B(BYTES), B(OUT), B(SEEN));
    case WRITE:
        return (new ? shr_write_told : shr_write)(G, c->sector, c->length, B(XS), B(BAD), W(TAB), B(USED), FLASH, B(PAGE), B(SEEN));
    case COLLECT: return (new ? shr_collect_told : shr_collect)(G, ALL);
    case COLLECT_LIST: return (new ? shr_collect_list_told : shr_collect_list)(G, c->m, ALL);
    case COLLECT_THRESHOLD: return (new ? shr_collect_threshold_told : shr_collect_threshold)(G, c->threshold, c->m, ALL);
    case ENCODE: return shr_encode(G, W(TAB), B(USED), B(CHECKPOINT), B(SEEN));
    default: return (new ? shr_restore_dead : shr_restore)(G, B(CHECKPOINT), W(TAB), B(USED), B(TAKEN));
    }
}

// The library's own sizes are 01's, and 0 where the geometry is refused.
static void check_sizes(const struct call *c) {
    bool ok = good(&c->geo);
    uint64_t said[] = {[TAB] = shr_tab_words(G),    [USED] = shr_used_bytes(G),   [BYTES] = shr_flash_bytes(G),
                       [MARKS] = shr_mark_bytes(G), [COUNTS] = shr_count_words(G), [BAD] = shr_bad_bytes(G),
                       [PAGE] = shr_page_bytes(G),  [SEEN] = shr_seen_bytes(G),   [ORDER] = shr_order_words(G),
                       [TAKEN] = shr_taken_bytes(G)};
    said[TAB] += damaged_size();
    for (int i = 0; i <= TAKEN; i++)
        if (i != FUSE) DEMAND(c, said[i] == (ok ? right(&c->geo, i) : 0), "a size that the library says");
    DEMAND(c, shr_checkpoint_bytes(G) == (ok ? checkpoint_bytes(&c->geo) : 0), "a size that the library says");
}

static unsigned few(uint64_t x) {
    return x < 3 ? x : x < 8 ? 3 : x == ENDLESS ? 5 : 4;
}

static uint32_t changed_slices(const struct call *c) {
    uint32_t set = 0;
    for (int i = 0; i < SLICES; i++)
        if (role[c->entry][i] == LENT && !unchanged(&lent[i])) set |= 1u << i;
    return set;
}

// Bits of the state that a call met: queue, stuck segments, room, fuse.
static uint64_t state_met(const struct call *c) {
    const struct geo *g = &c->geo;
    if (wrong_size(c) || role[c->entry][FUSE] != LENT || !role[c->entry][TAB]) return 0;
    struct tables t = before(g);
    if (unsound(g, &t)) return 1;
    uint64_t flags = 0, full = 0;
    for (size_t i = 0; i < g->n; i++) {
        flags += t.flags[i];
        full += t.free[i] == 0;
    }
    uint64_t room = find(g, &t, lent[BAD].before) != NONE;
    return 2 + few(*t.queued) * 8 + few(flags - *t.queued) * 64 + few(full) * 512 + room * 4096 +
           few(*(uint64_t *)lent[FUSE].before) * 8192;
}

// How many segments a restore queued, and how many full ones it did not.
static uint64_t queue_left(const struct call *c) {
    const struct geo *g = &c->geo;
    if (c->entry != RESTORE || c->answer || wrong_size(c)) return 0;
    struct tables a = after(g);
    uint64_t full = 0;
    for (size_t i = 0; i < g->n; i++) full += a.free[i] == 0;
    return 1 + few(*a.queued) * 8 + few(full - *a.queued) * 64;
}

static uint64_t last; // name and answer of the call before, in this input

void calls_start(void) {
    last = 0;
}

static void note(const struct call *c, const struct verdict *v) {
    uint64_t answer = c->answer < 0 ? -(uint64_t)c->answer : 200 + few(c->answer);
    uint64_t names = CHOICES * ENTRIES, name = c->choice * ENTRIES + c->entry;
    uint64_t now = answer * names + name;
    feature(1, now);
    feature(2, v->cause * names + name);
    feature(3, changed_slices(c) * names + name);
    feature(4, last << 16 | now);
    feature(5, state_met(c) << 16 | now);
    feature(6, queue_left(c) * names + name);
    last = now;
}

static uint64_t tally[CHOICES][ENTRIES][128];

static void report_name(const char *name, const uint64_t *answers) {
    fprintf(stderr, "calls  %-22s", name);
    for (int k = 0; k < 128; k++)
        if (answers[k] && k) fprintf(stderr, "  %d: %llu", -k, (unsigned long long)answers[k]);
        else if (answers[k]) fprintf(stderr, "  done: %llu", (unsigned long long)answers[k]);
    fprintf(stderr, "\n");
}

// How often each name gave each answer; every count of bytes or passes is one column.
void calls_report(void) {
    for (int k = 0; k < CHOICES; k++)
        for (int i = 0; i < ENTRIES; i++)
            if (entry_name[k][i]) report_name(entry_name[k][i], tally[k][i]);
}

static void check_crc(const struct call *c) {
    const struct slice *x = &lent[XS];
    DEMAND(c, shr_crc32(x->at, x->len) + damaged_crc() == crc32_of(x->before, x->len), "CRC-32 of the data");
}

void call(struct call *c) {
    struct verdict v = expected(c);
    c->answer = answer_of(c);
    damage(c);
    note(c, &v);
    check(c, &v);
    check_sizes(c);
    if (c->entry == WRITE) check_crc(c);
    tally[c->choice][c->entry][c->answer < 0 ? -c->answer : 0]++;
}
