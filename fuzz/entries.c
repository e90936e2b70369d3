// The target: an input's bytes become a geometry, what is lent, and calls over all nine entries, by either name where there are two.
#include "blocks.h"
#include "calls.h"
#include "input.h"
#include <stdlib.h>
#include <string.h>

#define MOST_CALLS 300
#define MOST_LENT (6u << 20) // bytes lent by one input's calls

struct undo { uint8_t *place; uint32_t elem; uint64_t old; };

static struct geo geo;
static size_t odd_len[SLICES]; // a length for the next call alone, NONE: the right one
static struct geo odd_geo;     // a geometry for the next call alone
static struct undo undo[8];    // content changed for the next call alone
static size_t undos;
static uint64_t lent_bytes;
static uint8_t filler;

static uint64_t least(uint64_t x, uint64_t y) {
    return x < y ? x : y;
}

static size_t capacity(int i) {
    return lent[i].cap / lent[i].elem;
}

static uint64_t width(uint64_t p) {
    uint64_t w = 0;
    while (w < 16 && (uint64_t)1 << w < p) w++;
    return w;
}

static uint64_t erase_limit(void) {
    uint8_t x = byte();
    return x < 128 ? UINT32_MAX : x < 250 ? x % 5 : number(UINT32_MAX);
}

static void small_geometry(uint64_t most) {
    geo.n = 1 + within(most);
    geo.p = 1 + within(most);
    geo.s = 1 + within(2 * most);
    geo.w = width(geo.p) + within(3) % 3;
    geo.e = 1 + within(geo.n * geo.p - 1);
    geo.limit = erase_limit();
}

// Many segments, many pages or long pages: long enough for the library's wide loops. Few logical pages in many segments make a long queue.
static void long_geometry(void) {
    static const uint8_t ns[] = {47, 3, 3}, ps[] = {1, 70, 3};
    uint8_t shape = byte() % 3;
    geo.n = 1 + within(ns[shape]);
    geo.p = 1 + within(ps[shape]);
    geo.s = 1 + within(shape == 2 ? 600 : 7);
    geo.w = width(geo.p);
    geo.e = 1 + within(least(geo.n * geo.p - 1, shape ? 500 : 7));
    geo.limit = erase_limit();
}

// Numbers at the ends of their ranges, as far as the memory allows.
static void edge_geometry(void) {
    static const uint64_t ns[] = {1, 2, 300, 65534, 65535}, ps[] = {1, 2, 1023, 1024}, ss[] = {1, 2, 255, 16384};
    geo.n = ns[within(4)];
    geo.p = geo.n > 300 ? 1 : geo.n > 2 ? ps[within(1)] : ps[within(3)];
    geo.s = geo.n * geo.p > 600 ? 1 + within(1) : ss[within(3)];
    geo.w = width(geo.p) + within(16 - width(geo.p));
    geo.e = byte() & 1 ? geo.n * geo.p : 1 + within(geo.n * geo.p - 1);
    geo.limit = erase_limit();
}

static uint64_t *geo_number(struct geo *g, unsigned i) {
    uint64_t *all[] = {&g->n, &g->p, &g->s, &g->w, &g->e, &g->limit};
    return all[i % 6];
}

static void odd_number(struct geo *g) {
    uint64_t *x = geo_number(g, byte());
    *x = number(*x);
}

static void pick_geometry(void) {
    uint8_t kind = byte() % 64;
    if (kind < 46) small_geometry(5);
    else if (kind < 50) small_geometry(15);
    else if (kind < 59) long_geometry();
    else if (kind < 60) edge_geometry();
    else if (kind < 62) small_geometry(5), odd_number(&geo);
    else
        for (int i = 0; i < 6; i++) *geo_number(&geo, i) = number(3);
}

static void start_slices(void) {
    filler = byte();
    for (int i = 0; i < SLICES; i++) {
        lent[i].size = least(right(&geo, i), capacity(i));
        bool scratch = i == PAGE || i == SEEN || i == ORDER || i == TAKEN || i == BAD;
        memset(lent[i].before, scratch ? 0 : filler, lent[i].size * lent[i].elem);
        odd_len[i] = NONE;
    }
    memset(lent[FUSE].before, 255, 8);
    lent_bytes = undos = 0;
    odd_geo = geo;
}

static void fill(int i, size_t from, size_t to, uint8_t seed, uint8_t step) {
    for (size_t k = from; k < to; k++) lent[i].before[k] = seed += step;
}

// Buffers have at least what the call needs, often exactly; sometimes less.
static size_t buffer_len(int i, uint64_t need) {
    static const uint8_t more[] = {0, 0, 0, 0, 0, 1, 2, 64};
    uint8_t x = byte();
    uint64_t len = x == 255 ? within(64) : x >= 248 ? need - 1 : need + more[x % 8];
    return len <= capacity(i) ? len : within(64);
}

static void set_lengths(const struct call *c) {
    for (int i = 0; i < SLICES; i++) {
        struct slice *x = &lent[i];
        if (!role[c->entry][i]) continue;
        x->len = odd_len[i] == NONE ? x->size : odd_len[i];
        if (x->len > x->size) memset(x->before + x->size * x->elem, filler, (x->len - x->size) * x->elem);
        lent_bytes += x->len * x->elem;
    }
}

static void put_back(void) {
    while (undos) {
        struct undo *u = &undo[--undos];
        memcpy(u->place, &u->old, u->elem);
    }
}

// The byte says where the slices lie: all at a guard page above them, all below, or mixed.
static void run(struct call *c, uint8_t place) {
    c->geo = odd_geo;
    set_lengths(c);
    for (int i = 0; i < SLICES; i++)
        if (role[c->entry][i]) lend(&lent[i], place < 112 ? false : place < 192 ? true : place * 40503u >> (i + 2) & 1);
    call(c);
    for (int i = 0; i < SLICES; i++) {
        if (role[c->entry][i] == LENT && lent[i].len == lent[i].size) take_back(&lent[i]);
        odd_len[i] = NONE;
    }
    if (c->answer < 0) put_back();
    undos = 0;
    odd_geo = geo;
}

static void transfer(int entry, int choice) {
    struct call c = {.entry = entry, .choice = choice};
    int buffer = entry == READ ? OUT : XS;
    uint64_t offset;
    c.sector = number(geo.e - 1) * geo.s;
    offset = number(geo.s - 1);
    c.sector += offset;
    c.length = number(geo.s - offset);
    lent[buffer].size = buffer_len(buffer, c.length);
    fill(buffer, 0, lent[buffer].size, byte(), 37);
    run(&c, byte());
}

// Whole pages written one after another, to fill segments and the queue with few bytes of input: until a refusal, or as a careful
// caller does, until a segment's worth of pages is left.
static void burst(int choice) {
    uint64_t e = geo.e ? geo.e : 1, s = least(geo.s, 1024), l = within(e - 1), count = 1 + within(95);
    uint8_t seed = byte();
    for (uint64_t i = 0; i < count && lent_bytes < MOST_LENT; i++) {
        struct call c = {.entry = WRITE, .choice = choice, .sector = (l + i) % e * geo.s, .length = s};
        lent[XS].size = s;
        fill(XS, 0, s, seed + i, 91);
        run(&c, seed + i);
        if (c.answer < 0) return;
        struct tables t = before(&geo);
        if (seed & 1 && total_free(&geo, &t) <= geo.p) return;
    }
}

static void collection(int entry, int choice) {
    struct call c = {.entry = entry, .choice = choice};
    if (entry == COLLECT_THRESHOLD) c.threshold = number(geo.n * geo.p);
    if (entry != COLLECT) c.m = number(geo.n);
    run(&c, byte());
}

// An accepted encoding becomes the file that restores read.
static void encoding(void) {
    struct call c = {.entry = ENCODE};
    struct slice *x = &lent[CHECKPOINT];
    size_t kept = x->size;
    x->size = buffer_len(CHECKPOINT, checkpoint_bytes(&geo));
    if (x->size > kept) fill(CHECKPOINT, kept, x->size, 90, 3);
    run(&c, byte());
    x->size = c.answer >= 0 ? (size_t)c.answer : kept;
}

static void plain(int entry, int choice) {
    struct call c = {.entry = entry, .choice = choice};
    run(&c, byte());
}

static void keep_old(uint8_t *place, uint32_t elem) {
    if (undos == 8) return;
    struct undo *u = &undo[undos++];
    *u = (struct undo){.place = place, .elem = elem};
    memcpy(&u->old, place, elem);
}

// One element of a slice changed, for the next call alone or for good.
static void poke(int i, size_t at, uint64_t value, bool stays) {
    struct slice *x = &lent[i];
    if (at >= x->size) return;
    uint8_t *place = x->before + at * x->elem;
    if (!stays) keep_old(place, x->elem);
    memcpy(place, &value, x->elem);
}

static void poke_anything(void) {
    uint8_t kind = byte();
    int i = kind % SLICES;
    size_t at = within(lent[i].size ? lent[i].size - 1 : 0);
    poke(i, at, kind & 16 ? lent[i].before[at * lent[i].elem] + 1 : number(255), kind > 240);
}

// Scratch that is not all zero.
static void poke_scratch(void) {
    static const uint8_t scratch[] = {PAGE, SEEN, ORDER, TAKEN};
    uint8_t kind = byte();
    struct slice *x = &lent[scratch[kind % 4]];
    if (x->size) poke(scratch[kind % 4], within(x->size - 1), 1u << kind / 32, false);
}

// One word of one table.
static void poke_table(void) {
    if (!good(&geo) || lent[TAB].size != right(&geo, TAB)) return;
    uint64_t n = geo.n, e = geo.e, lens[] = {e, n, n, n, n, n, 1, 1, n * geo.p}, from = 0;
    uint8_t kind = byte();
    unsigned which = kind % 9;
    for (unsigned i = 0; i < which; i++) from += lens[i];
    size_t at = from + within(lens[which] - 1);
    uint32_t old = ((uint32_t *)lent[TAB].before)[at];
    uint64_t value = kind < 90 ? old + 1 : kind < 180 ? old - 1 : number(which ? geo.p : (n - 1) << geo.w);
    poke(TAB, at, value, kind % 16 == 15);
}

// Changes that soundness allows: valid counts, flags of full segments, marks, counts.
static void poke_soundly(void) {
    if (!good(&geo) || lent[TAB].size != right(&geo, TAB)) return;
    struct tables t = before(&geo);
    uint8_t kind = byte();
    size_t x = within(geo.n - 1);
    if (kind < 64 && t.free[x] <= geo.p) t.valid[x] = least(t.valid[x] + 1, geo.p - t.free[x]);
    else if (kind < 96 && t.free[x] == 0) t.flags[x] = 1;
    else if (kind < 128) *t.alloc = x;
    else if (kind < 160) poke(COUNTS, x, number(geo.limit), true);
    else poke(MARKS, x * geo.p + within(geo.p - 1), kind % 3 * 3, true);
}

static void odd_length(void) {
    int i = byte() % SLICES;
    if (i == FUSE) return; // lent as one number, without a length
    odd_len[i] = least(number(lent[i].size), capacity(i));
}

static void set_fuse(void) {
    uint8_t x = byte();
    poke(FUSE, 0, x < 64 ? ENDLESS : x < 240 ? x % 12 : number(ENDLESS), true);
}

static void set_bad(void) {
    uint8_t x = byte();
    poke(BAD, within(lent[BAD].size ? lent[BAD].size - 1 : 0), x & 1 ? x : 0, true);
}

// A file with a right head for this geometry, nothing mapped, and the same free count for every segment.
static void plain_file(uint32_t free) {
    struct slice *x = &lent[CHECKPOINT];
    if (!good(&geo) || checkpoint_bytes(&geo) > x->cap) return;
    x->size = checkpoint_bytes(&geo);
    uint64_t head[] = {0, geo.n, geo.p, geo.e};
    put_word(x->before, 0x50465443);
    put_word(x->before + 4, 1);
    for (int i = 0; i < 4; i++) put_long(x->before + 8 + 8 * i, head[i]);
    for (size_t i = 0; i < geo.e + geo.n; i++) put_word(x->before + 44 + 4 * i, i < geo.e ? EMPTY : free);
    put_word(x->before + 40, file_crc(x->before, x->size));
}

// Map words and free counts of the input's choice.
static void rewrite_file(uint8_t *body, size_t words) {
    size_t count = 1 + within(7), at = within(words - 1);
    for (size_t i = 0; i < count && at + i < words; i++)
        put_word(body + 4 * (at + i), number(at + i < geo.e ? least(geo.n << geo.w, EMPTY) : geo.p));
}

static void damage_head(uint8_t *file) {
    uint8_t field = byte() % 7;
    if (field < 2) put_word(file + 4 * field, number(1));
    else if (field == 6) put_word(file + 40, number(EMPTY));
    else put_long(file + 8 * (field - 1), number(geo.n));
}

static void change_length(struct slice *x) {
    size_t old = x->size;
    x->size = least(number(old), x->cap);
    if (x->size > old) memset(x->before + old, filler, x->size - old);
}

// Kind 95 begins with a file of full segments: most are dead, a long queue.
static void damage_file(void) {
    struct slice *x = &lent[CHECKPOINT];
    uint8_t kind = byte();
    if (x->size < 44 || kind % 32 == 31) plain_file(kind == 95 ? 0 : geo.p);
    if (x->size < 48) return;
    switch (kind % 8) {
    case 0: x->before[within(x->size - 1)] ^= 1 << byte() % 8; break;
    case 1: damage_head(x->before); break;
    case 2: change_length(x); break;
    default: rewrite_file(x->before + 44, (x->size - 44) / 4);
    }
    if (kind < 224 && x->size >= 44) put_word(x->before + 40, file_crc(x->before, x->size));
}

static void change(uint8_t kind) {
    if (kind < 2) set_fuse();
    else if (kind < 3) set_bad();
    else if (kind < 4) poke_anything();
    else if (kind < 6) poke_table();
    else if (kind < 9) poke_soundly();
    else if (kind < 10) odd_length();
    else if (kind < 11) odd_number(&odd_geo);
    else if (kind < 12) poke_scratch();
    else damage_file();
}

// Six bits of the byte say what is done, the highest one by which of two names a write, a collection or a restore is called.
static void step(void) {
    uint8_t x = byte(), kind = x % 64;
    int choice = x < 128 ? OLD : NEW;
    if (kind < 15) transfer(WRITE, choice);
    else if (kind < 18) burst(choice);
    else if (kind < 23) transfer(READ, OLD);
    else if (kind < 29) collection(COLLECT, choice);
    else if (kind < 34) collection(COLLECT_LIST, choice);
    else if (kind < 38) collection(COLLECT_THRESHOLD, choice);
    else if (kind < 42) encoding();
    else if (kind < 47) plain(RESTORE, choice);
    else if (kind < 49) plain(OPEN, OLD);
    else if (kind < 50) plain(FORMAT, OLD);
    else change(kind - 50);
}

static void report(void) {
    calls_report();
    blocks_report();
}

int LLVMFuzzerInitialize(int *argc, char ***argv) {
    (void)argc, (void)argv;
    lent_setup();
    blocks_setup();
    atexit(report);
    return 0;
}

int LLVMFuzzerTestOneInput(const uint8_t *data, size_t size) {
    input_start(data, size);
    calls_start();
    pick_geometry();
    start_slices();
    uint8_t start = byte();
    if (start & 7) plain_file(geo.p);
    if (start < 240) {
        plain(FORMAT, OLD);
        plain(OPEN, OLD);
    }
    for (int i = 0; i < MOST_CALLS && !input_ended() && lent_bytes < MOST_LENT; i++) step();
    return 0;
}
