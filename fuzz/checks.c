#include "checks.h"
#include "damage.h"
#include "shr.h"
#include <stdio.h>
#include <stdlib.h>
#include <string.h>

const char *const entry_name[CHOICES][ENTRIES] = {
    [OLD] = {"format", "open", "read", "write", "collect", "collect_list", "collect_threshold", "encode", "restore"},
    [NEW] = {[WRITE] = "write_told",
             [COLLECT] = "collect_told",
             [COLLECT_LIST] = "collect_list_told",
             [COLLECT_THRESHOLD] = "collect_threshold_told",
             [RESTORE] = "restore_dead"},
};

_Noreturn void failed(const struct call *c, const char *what) {
    const struct geo *g = &c->geo;
    fprintf(stderr,
            "FAILED %s: %s\n  answer %lld; n %llu p %llu s %llu w %llu e %llu limit %llu; sector %llu length %llu m %llu "
            "threshold %llu\n",
            entry_name[c->choice][c->entry], what, (long long)c->answer, (unsigned long long)g->n, (unsigned long long)g->p,
            (unsigned long long)g->s, (unsigned long long)g->w, (unsigned long long)g->e, (unsigned long long)g->limit,
            (unsigned long long)c->sector, (unsigned long long)c->length, (unsigned long long)c->m,
            (unsigned long long)c->threshold);
    abort();
}

static uint64_t fuse_before(void) {
    return *(uint64_t *)lent[FUSE].before;
}

static uint64_t fuse_after(void) {
    return *(uint64_t *)lent[FUSE].at;
}

// An endless fuse stays; another falls by the operations done.
static bool fuse_fell(uint64_t done) {
    uint64_t f = fuse_before();
    return fuse_after() == (f == ENDLESS ? f : f - done) && (f == ENDLESS || done <= f);
}

static bool same(const void *x, const void *y, size_t len) {
    return memcmp(x, y, len) == 0;
}

// Holds on every answer: nothing beside a slice is touched, const slices and scratch are as they were.
static void check_lending(const struct call *c) {
    for (int i = 0; i < SLICES; i++) {
        if (!role[c->entry][i]) continue;
        DEMAND(c, beside_kept(&lent[i]), "a byte beside a slice changed");
        if (role[c->entry][i] == READ_ONLY) DEMAND(c, unchanged(&lent[i]), "a const slice changed");
        if (i == PAGE || i == SEEN || i == ORDER || i == TAKEN) DEMAND(c, unchanged(&lent[i]), "scratch changed");
    }
}

static void check_nothing_changed(const struct call *c) {
    for (int i = 0; i < SLICES; i++)
        if (role[c->entry][i]) DEMAND(c, unchanged(&lent[i]), "a call that changes nothing changed something");
}

static void check_formatted(const struct call *c) {
    const struct geo *g = &c->geo;
    uint64_t done = fuse_before() < g->n ? fuse_before() : g->n;
    DEMAND(c, fuse_fell(done), "formatting: fuse");
    for (size_t i = 0; i < done; i++) DEMAND(c, ((uint32_t *)lent[COUNTS].at)[i] == 0, "formatting: count");
    for (size_t i = 0; i < done * g->p; i++) DEMAND(c, lent[MARKS].at[i] == 0, "formatting: mark");
    for (size_t i = 0; i < done * g->p * g->s; i++) DEMAND(c, lent[BYTES].at[i] == 255, "formatting: byte");
    size_t from = done * g->p, left = (g->n - done) * g->p;
    DEMAND(c, same(lent[MARKS].at + from, lent[MARKS].before + from, left), "formatting: skipped mark");
    DEMAND(c, same(lent[BYTES].at + from * g->s, lent[BYTES].before + from * g->s, left * g->s), "formatting: skipped byte");
    DEMAND(c, same(lent[COUNTS].at + 4 * done, lent[COUNTS].before + 4 * done, 4 * (g->n - done)), "formatting: skipped count");
}

// Tables of nothing mapped, with the allocation segment given.
static void check_opened(const struct call *c) {
    const struct geo *g = &c->geo;
    struct tables b = before(g), a = after(g);
    for (size_t i = 0; i < g->e; i++) DEMAND(c, a.map[i] == EMPTY, "opening: map");
    for (size_t i = 0; i < g->n; i++) {
        DEMAND(c, a.free[i] == g->p && !a.valid[i] && !a.lens[i], "opening: record");
        DEMAND(c, !a.queue[i] && !a.flags[i], "opening: queue or flags");
    }
    DEMAND(c, *a.queued == 0, "opening: queue length");
    DEMAND(c, *a.alloc == (*b.alloc < g->n ? *b.alloc : 0), "opening: allocation segment");
    for (size_t i = 0; i < g->n * g->p; i++) DEMAND(c, !a.lists[i] && !a.used[i], "opening: lists or marks");
}

static void check_read(const struct call *c) {
    const struct geo *g = &c->geo;
    struct tables b = before(g);
    const struct slice *out = &lent[OUT];
    size_t from = page_of(g, b.map[c->sector / g->s]) * g->s + c->sector % g->s;
    DEMAND(c, same(out->at, lent[BYTES].before + from, c->length), "reading: bytes");
    DEMAND(c, same(out->at + c->length, out->before + c->length, out->len - c->length), "reading: bytes beyond the length");
}

static void spend(const struct geo *g, struct tables *t, size_t a) {
    t->used[a] = 1;
    t->free[a / g->p]--;
    t->valid[a / g->p]++;
    *t->alloc = a / g->p;
}

static void invalidate(const struct geo *g, struct tables *t, uint32_t l) {
    size_t x = t->map[l] >> g->w, k = 0;
    uint32_t *list = t->lists + x * g->p;
    while (list[k] != l) k++;
    t->lens[x]--;
    memmove(list + k, list + k + 1, 4 * (t->lens[x] - k));
    list[t->lens[x]] = 0;
    t->valid[x]--;
    if (t->free[x] || t->flags[x]) return;
    memmove(t->queue + 1, t->queue, 4 * *t->queued);
    t->queue[0] = x;
    t->flags[x] = 1;
    ++*t->queued;
}

// The tables that a write into page a leaves, made from those at entry.
static struct tables wanted(const struct call *c, size_t a, bool refused) {
    static uint32_t words[512 * 1024];
    static uint8_t used[256 * 1024];
    const struct geo *g = &c->geo;
    uint32_t l = c->sector / g->s;
    memcpy(words, lent[TAB].before, 4 * lent[TAB].len);
    memcpy(used, lent[USED].before, lent[USED].len);
    struct tables t = view(g, words, used);
    spend(g, &t, a);
    if (refused) return t;
    if (t.map[l] != EMPTY) invalidate(g, &t, l);
    size_t x = a / g->p;
    t.lists[x * g->p + t.lens[x]++] = l;
    t.map[l] = (uint32_t)((x << g->w) + a % g->p);
    return t;
}

static void check_programmed(const struct call *c, size_t a) {
    static uint8_t page[16384];
    const struct geo *g = &c->geo;
    struct tables b = before(g);
    const struct slice *bytes = &lent[BYTES], *marks = &lent[MARKS];
    uint32_t old = b.map[c->sector / g->s];
    if (old == EMPTY) memset(page, 0, g->s);
    else memcpy(page, bytes->before + page_of(g, old) * g->s, g->s);
    memcpy(page + c->sector % g->s, lent[XS].before, c->length);
    DEMAND(c, same(bytes->at + a * g->s, page, g->s), "writing: bytes of the page");
    DEMAND(c, marks->at[a] == 1, "writing: mark of the page");
    DEMAND(c, same(bytes->at, bytes->before, a * g->s) &&
                  same(bytes->at + (a + 1) * g->s, bytes->before + (a + 1) * g->s, bytes->len - (a + 1) * g->s),
           "writing: another page's bytes");
    DEMAND(c, same(marks->at, marks->before, a) && same(marks->at + a + 1, marks->before + a + 1, marks->len - a - 1),
           "writing: another page's mark");
    DEMAND(c, fuse_fell(1), "writing: fuse");
}

static void check_written(const struct call *c) {
    const struct geo *g = &c->geo;
    struct tables b = before(g);
    size_t a = find(g, &b, lent[BAD].before);
    bool refused = c->answer < 0;
    struct tables want = wanted(c, a, refused);
    const char *what = refused ? "a refused programming left more than the spent page" : "writing: tables";
    DEMAND(c, same(want.map, lent[TAB].at, 4 * lent[TAB].len) && same(want.used, lent[USED].at, lent[USED].len), what);
    if (!refused) {
        check_programmed(c, a);
        return;
    }
    DEMAND(c, unchanged(&lent[BYTES]) && unchanged(&lent[MARKS]) && unchanged(&lent[FUSE]),
           "a refused programming changed the flash");
}

static void check_encoded(const struct call *c) {
    const struct geo *g = &c->geo;
    struct tables b = before(g);
    const struct slice *x = &lent[CHECKPOINT];
    uint64_t len = checkpoint_bytes(g), head[4] = {*b.alloc, g->n, g->p, g->e};
    DEMAND(c, word_at(x->at) == 0x50465443 && word_at(x->at + 4) == 1, "encoding: magic or version");
    for (int i = 0; i < 4; i++) DEMAND(c, long_at(x->at + 8 + 8 * i) == head[i], "encoding: head");
    for (size_t i = 0; i < g->e + g->n; i++) DEMAND(c, word_at(x->at + 44 + 4 * i) == b.map[i], "encoding: map or free counts");
    DEMAND(c, word_at(x->at + 40) == file_crc(x->at, len), "encoding: CRC");
    DEMAND(c, same(x->at + len, x->before + len, x->len - len), "encoding: bytes beyond the length");
}

// Which words of a file's map a restore keeps: the first of each used page.
static void check_restored_map(const struct call *c, const uint8_t *words) {
    static uint8_t taken[256 * 1024];
    const struct geo *g = &c->geo;
    struct tables a = after(g);
    memset(taken, 0, g->n * g->p);
    for (size_t l = 0; l < g->e; l++) {
        uint32_t word = word_at(words + 4 * l);
        size_t x = page_of(g, word);
        bool keep = x != NONE && a.used[x] && !taken[x];
        if (keep) taken[x] = 1;
        DEMAND(c, a.map[l] == (keep ? word : EMPTY), "restoring: map");
    }
}

// The old name queues nothing, the new one the dead segments, ascending; those that are queued have the flag, and no others.
static void check_requeued(const struct call *c) {
    const struct geo *g = &c->geo;
    struct tables a = after(g);
    size_t queued = 0;
    for (size_t i = 0; c->choice == NEW && i < g->n; i++)
        if (dead(g, &a, i)) DEMAND(c, queued < *a.queued && a.queue[queued++] == i, "restoring: queue");
    DEMAND(c, *a.queued == queued, "restoring: queue");
    for (size_t i = 0; i < g->n; i++)
        DEMAND(c, a.flags[i] == (c->choice == NEW && dead(g, &a, i)), "restoring: flag");
}

// Called with tables known to be sound, so used marks, lists' content and empty slots need no second look.
static void check_restored(const struct call *c) {
    const struct geo *g = &c->geo;
    struct tables a = after(g);
    const uint8_t *file = lent[CHECKPOINT].before;
    DEMAND(c, *a.alloc == long_at(file + 8), "restoring: allocation segment");
    check_restored_map(c, file + 44);
    for (size_t i = 0; i < g->n; i++) {
        DEMAND(c, a.free[i] == word_at(file + 44 + 4 * (g->e + i)), "restoring: free count");
        DEMAND(c, a.valid[i] == a.lens[i], "restoring: valid count");
        for (size_t k = 1; k < a.lens[i]; k++)
            DEMAND(c, a.lists[i * g->p + k - 1] < a.lists[i * g->p + k], "restoring: list not ascending");
    }
    check_requeued(c);
}

static bool changes_tables(int entry) {
    return entry != FORMAT && entry != READ && entry != ENCODE;
}

// Sound by our reading of 01 and by the library's own: an encoding is not refused.
static void check_sound(const struct call *c) {
    static uint8_t buffer[1024 * 1024], seen[65535 + 1024];
    const struct geo *g = &c->geo;
    struct tables a = after(g);
    int broken = unsound(g, &a);
    DEMAND(c, broken != SHARED, "two map entries share an address");
    DEMAND(c, !broken, "the tables left are not sound");
    damage_probe(seen);
    int64_t next = shr_encode(g->n, g->p, g->s, g->w, g->e, g->limit, (uint32_t *)lent[TAB].at, lent[TAB].len,
                              lent[USED].at, lent[USED].len, buffer, sizeof buffer, seen, g->n + g->p);
    DEMAND(c, next == (int64_t)checkpoint_bytes(g), "an encoding after it is refused");
}

static void check_left(const struct call *c, const struct verdict *v) {
    bool writes_page = c->entry == WRITE && (c->answer == -5 || c->answer >= 0);
    if (v->idle || (v->answer < 0 && v->answer != OPEN_ANSWER && !writes_page)) {
        check_nothing_changed(c);
        return;
    }
    if (changes_tables(c->entry)) check_sound(c);
    switch (c->entry) {
    case FORMAT: check_formatted(c); return;
    case OPEN: check_opened(c); return;
    case READ: check_read(c); return;
    case WRITE: check_written(c); return;
    case ENCODE: check_encoded(c); return;
    case RESTORE: check_restored(c); return;
    default: check_collection(c);
    }
}

// A count, or one of the refusals that a collection has when it runs.
static bool is_collections_answer(const struct call *c) {
    for (int cause = COPY_NO_ROOM; cause <= ERASE; cause++)
        if (c->answer == refusal(c->choice, cause)) return true;
    return c->answer >= 0;
}

void check(const struct call *c, const struct verdict *v) {
    if (v->answer == OPEN_ANSWER) DEMAND(c, is_collections_answer(c), "not a collection's answer");
    else DEMAND(c, c->answer == v->answer, "not the answer that 01 and 02 give");
    check_lending(c);
    check_left(c, v);
}
