// The comment after a case is what the fuzzer must report; fuzz/selftest reads it from here.
#include "damage.h"
#include <string.h>

#ifndef BREAK
#define BREAK 0
#endif

static int broken(void) {
    return BREAK;
}

static bool done_well(const struct call *c, int entry) {
    return c->entry == entry && c->answer >= 0;
}

static bool collected(const struct call *c) {
    return is_collection(c->entry) && !unchanged(&lent[TAB]);
}

static void flip(int slice, size_t at) {
    lent[slice].at[at] ^= 1;
}

// A write that is refused for its order alone.
static bool out_of_order(const struct call *c) {
    struct tables b = before(&c->geo);
    size_t a = find(&c->geo, &b, lent[BAD].before);
    bool lit = *(uint64_t *)lent[FUSE].before != 0;
    return lit && !lent[MARKS].before[a] && marked_above(&c->geo, lent[MARKS].before, a);
}

static void damage_answer(struct call *c) {
    switch (broken()) {
    case 1: // not the answer that 01 and 02 give
        if (done_well(c, WRITE)) c->answer++;
        break;
    case 2: // not the answer that 01 and 02 give
        if (c->answer == -22) c->answer = -117;
        break;
    case 3: // not the answer that 01 and 02 give
        if (c->entry == RESTORE && c->answer == -8) c->answer = -9;
        break;
    case 4: // not a collection's answer
        if (collected(c)) c->answer = -61;
        break;
    case 5: // not the answer that a collection gives
        if (collected(c) && c->answer >= 0) c->answer++;
        break;
    case 67: // not the answer that 01 and 02 give
        if (c->entry == WRITE && c->answer == -5 && out_of_order(c)) c->answer = (int64_t)c->length;
        break;
    }
}

// One name's answer turned into another.
static void turn(struct call *c, int choice, int entry, int64_t from, int64_t to) {
    if (c->choice == choice && c->entry == entry && c->answer == from) c->answer = to;
}

// No room, answered in the other choice's number or as if the device had refused.
static void damage_room(struct call *c) {
    switch (broken()) {
    case 69: // write: not the answer that 01 and 02 give
        turn(c, OLD, WRITE, -14, -28);
        break;
    case 70: // write_told: not the answer that 01 and 02 give
        turn(c, NEW, WRITE, -28, -14);
        break;
    case 71: // collect: not a collection's answer
        turn(c, OLD, COLLECT, -14, -28);
        break;
    case 72: // collect_told: not a collection's answer
        turn(c, NEW, COLLECT, -28, -14);
        break;
    case 73: // collect_told: not the number of the refusal's cause
        turn(c, NEW, COLLECT, -28, -121);
        break;
    case 74: // collect_list_told: not the number of the refusal's cause
        turn(c, NEW, COLLECT_LIST, -28, -121);
        break;
    case 75: // collect_threshold_told: not the number of the refusal's cause
        turn(c, NEW, COLLECT_THRESHOLD, -28, -121);
        break;
    }
}

// The device's refusal, answered in the other choice's number, as if room were missing, or an erase's as if it were a copy's.
static void damage_device(struct call *c) {
    switch (broken()) {
    case 76: // write_told: not the answer that 01 and 02 give
        turn(c, NEW, WRITE, -5, -121);
        break;
    case 77: // collect_list: not a collection's answer
        turn(c, OLD, COLLECT_LIST, -14, -121);
        break;
    case 78: // collect_list_told: not a collection's answer
        turn(c, NEW, COLLECT_LIST, -121, -14);
        break;
    case 79: // collect_told: not the number of the refusal's cause
        turn(c, NEW, COLLECT, -121, -28);
        break;
    case 80: // collect_list_told: not the number of the refusal's cause
        turn(c, NEW, COLLECT_LIST, -121, -28);
        break;
    case 81: // collect_threshold_told: not the number of the refusal's cause
        turn(c, NEW, COLLECT_THRESHOLD, -121, -28);
        break;
    case 82: // collect_told: not the number of the refusal's cause
        turn(c, NEW, COLLECT, -5, -121);
        break;
    case 83: // collect_threshold_told: not the number of the refusal's cause
        turn(c, NEW, COLLECT_THRESHOLD, -5, -121);
        break;
    }
}

// What is queued changes no answer.
static void damage_restored(struct call *c) {
    switch (broken()) {
    case 95: // restore_dead: not the answer that 01 and 02 give
        if (done_well(c, RESTORE) && c->choice == NEW) c->answer = *after(&c->geo).queued;
        break;
    case 96: // restore_dead: not the answer that 01 and 02 give
        turn(c, NEW, RESTORE, -9, 0);
        break;
    }
}

static void damage_lending(const struct call *c) {
    const struct slice *x = &lent[c->entry == FORMAT ? MARKS : TAB];
    const volatile uint8_t *end = x->at + x->len * x->elem;
    switch (broken()) {
    case 6: // a call that changes nothing changed something
        if (c->answer == -117 && c->entry == WRITE) flip(TAB, 0);
        break;
    case 7: // a call that changes nothing changed something
        if (c->answer == -14 && c->entry == WRITE) flip(FUSE, 0);
        break;
    case 84: // write_told: a call that changes nothing changed something
        if (c->answer == -28 && c->entry == WRITE) flip(FUSE, 0);
        break;
    case 8: // a call that changes nothing changed something
        if (c->answer == -61 && lent[OUT].len) flip(OUT, 0);
        break;
    case 97: // restore_dead: a call that changes nothing changed something
        if (c->entry == RESTORE && c->choice == NEW && c->answer < 0 && c->answer != -22) flip(TAB, 0);
        break;
    case 9: // scratch changed
        if (done_well(c, ENCODE)) flip(SEEN, 0);
        break;
    case 10: // a const slice changed
        if (done_well(c, WRITE)) flip(BAD, 0);
        break;
    case 11: // a byte beside a slice changed
        x->at[x->at_begin ? (ptrdiff_t)(x->len * x->elem) : -1]++;
        break;
    case 12: // SEGV
        if (!x->at_begin) (void)*end;
        break;
    case 13: // SEGV
        if (x->at_begin) (void)*((const volatile uint8_t *)x->at - 1);
        break;
    }
}

static void damage_read_and_file(const struct call *c) {
    const struct slice *out = &lent[OUT], *file = &lent[CHECKPOINT];
    switch (broken()) {
    case 14: // reading: bytes
        if (done_well(c, READ) && c->length) flip(OUT, c->length - 1);
        break;
    case 15: // reading: bytes beyond the length
        if (done_well(c, READ) && out->len > c->length) flip(OUT, c->length);
        break;
    case 16: // encoding: head
        if (done_well(c, ENCODE)) flip(CHECKPOINT, 16);
        break;
    case 17: // encoding: map or free counts
        if (done_well(c, ENCODE)) flip(CHECKPOINT, 44);
        break;
    case 18: // encoding: CRC
        if (done_well(c, ENCODE)) flip(CHECKPOINT, 40);
        break;
    case 19: // encoding: bytes beyond the length
        if (done_well(c, ENCODE) && file->len > (size_t)c->answer) flip(CHECKPOINT, c->answer);
        break;
    case 20: // encoding: magic or version
        if (done_well(c, ENCODE)) flip(CHECKPOINT, 0);
        break;
    }
}

static void damage_format_and_open(const struct call *c) {
    uint64_t done = *(uint64_t *)lent[FUSE].before;
    struct tables a = after(&c->geo);
    switch (broken()) {
    case 21: // formatting: fuse
        if (done_well(c, FORMAT)) flip(FUSE, 0);
        break;
    case 22: // formatting: count
        if (done_well(c, FORMAT)) flip(COUNTS, 0);
        break;
    case 23: // formatting: mark
        if (done_well(c, FORMAT)) flip(MARKS, 0);
        break;
    case 24: // formatting: byte
        if (done_well(c, FORMAT)) flip(BYTES, 0);
        break;
    case 25: // formatting: skipped
        if (done_well(c, FORMAT) && done < c->geo.n) flip(MARKS, lent[MARKS].len - 1);
        break;
    case 26: // opening: allocation segment
        if (done_well(c, OPEN) && c->geo.n > 1) *a.alloc = (*a.alloc + 1) % c->geo.n;
        break;
    case 27: // a size that the library says
    case 28: // an encoding after it is refused
    case 29: // CRC-32 of the data
        break; // damaged_size, damage_probe and damaged_crc do these
    }
}

size_t damaged_size(void) {
    return broken() == 27;
}

uint32_t damaged_crc(void) {
    return broken() == 29;
}

void damage_probe(uint8_t *seen) {
    seen[0] = broken() == 28;
}

static void damage_write(const struct call *c) {
    const struct geo *g = &c->geo;
    if (c->entry != WRITE || (c->answer < 0 && c->answer != -5)) return;
    struct tables b = before(g), a = after(g);
    size_t page = find(g, &b, lent[BAD].before), other = (page + 1) % (g->n * g->p);
    bool refused = c->answer == -5;
    switch (broken()) {
    case 30: // a refused programming left more than the spent page
        if (refused && g->n > 1) *a.alloc = (*a.alloc + 1) % g->n;
        break;
    case 31: // a refused programming changed the flash
        if (refused) flip(MARKS, other);
        break;
    case 32: // writing: tables
        if (!refused && g->n > 1) *a.alloc = (*a.alloc + 1) % g->n;
        break;
    case 33: // writing: bytes of the page
        if (!refused) flip(BYTES, page * g->s);
        break;
    case 34: // writing: another page's bytes
        if (!refused && other != page) flip(BYTES, other * g->s);
        break;
    case 35: // writing: mark of the page
        if (!refused) lent[MARKS].at[page] = 7;
        break;
    case 36: // writing: another page's mark
        if (!refused && other != page) flip(MARKS, other);
        break;
    case 37: // writing: fuse
        if (!refused) flip(FUSE, 0);
        break;
    }
}

// The last logical page of some list, and the tables without it; still sound.
static bool drop_one(const struct geo *g, struct tables *t) {
    for (size_t i = 0; i < g->n; i++) {
        if (!t->lens[i]) continue;
        uint32_t *slot = &t->lists[i * g->p + --t->lens[i]];
        t->map[*slot] = EMPTY;
        *slot = 0;
        return true;
    }
    return false;
}

static void damage_restore(const struct call *c) {
    const struct geo *g = &c->geo;
    struct tables a = after(g);
    if (!done_well(c, RESTORE)) return;
    switch (broken()) {
    case 38: // restoring: allocation segment
        if (g->n > 1) *a.alloc = (*a.alloc + 1) % g->n;
        break;
    case 39: // restoring: map
        drop_one(g, &a);
        break;
    case 40: // restoring: valid count
        if (a.valid[0] < g->p - a.free[0]) a.valid[0]++;
        break;
    case 41: // restoring: list not ascending
        if (a.lens[0] > 1) {
            uint32_t first = a.lists[0];
            a.lists[0] = a.lists[1];
            a.lists[1] = first;
        }
        break;
    case 42: // the tables left are not sound
        a.flags[0] = 2;
        break;
    case 43: // restoring: free count
        if (a.free[0]) a.used[g->p - a.free[0]--] = 1;
        break;
    case 44: // restore: restoring: queue
        if (c->choice == OLD && !a.free[0]) a.flags[0] = 1, *a.queued = 1;
        break;
    }
}

// Which segments a restore with that break takes for dead.
static bool taken_for_dead(const struct geo *g, const struct tables *t, size_t i) {
    switch (broken()) {
    case 87: // restore_dead: restoring: queue
        return t->free[i] == 0; // a full live one
    case 88: // restore_dead: the tables left are not sound
        return t->free[i] <= 1 && t->lens[i] < g->p; // one with a free page
    case 89: // restore_dead: restoring: queue
        return dead(g, t, i) && t->lens[i] == 0; // none with something live
    case 90: // restore_dead: restoring: queue
        return dead(g, t, i) && t->lens[i] != 0; // none with nothing live
    case 91: // restore_dead: restoring: queue
        return dead(g, t, i) && i + 1 < g->n; // not the last segment
    case 92: // restore_dead: restoring: queue
        return false; // none
    default: return dead(g, t, i);
    }
}

static void queue_again(const struct geo *g, struct tables *t) {
    memset(t->queue, 0, 4 * g->n);
    memset(t->flags, 0, 4 * g->n);
    *t->queued = 0;
    for (size_t i = 0; i < g->n; i++) {
        if (!taken_for_dead(g, t, i)) continue;
        t->queue[(*t->queued)++] = i;
        t->flags[i] = 1;
    }
}

static void turn_round(uint32_t *x, size_t len) {
    for (size_t i = 0; i < len / 2; i++) {
        uint32_t early = x[i];
        x[i] = x[len - 1 - i];
        x[len - 1 - i] = early;
    }
}

// What a restore queues, by the new name, and in 93 by the old one.
static void damage_queue(const struct call *c) {
    const struct geo *g = &c->geo;
    struct tables a = after(g);
    if (!done_well(c, RESTORE) || c->choice != (broken() == 93 ? OLD : NEW)) return;
    switch (broken()) {
    case 85: // restore_dead: restoring: queue
        turn_round(a.queue, *a.queued);
        break;
    case 86: // restore_dead: the tables left are not sound
        if (*a.queued) a.flags[a.queue[0]] = 0;
        break;
    case 87 ... 92:
    case 93: // restore: restoring: queue
        queue_again(g, &a);
        break;
    case 94: // restore_dead: restoring: flag
        for (size_t i = 0; i < g->n; i++)
            if (!a.free[i]) a.flags[i] = 1;
        break;
    }
}

static size_t mapped(const struct geo *g, const struct tables *t, size_t from) {
    while (from < g->e && t->map[from] == EMPTY) from++;
    return from;
}

static void damage_contents(const struct call *c) {
    const struct geo *g = &c->geo;
    if (!collected(c)) return;
    struct tables a = after(g);
    size_t l = mapped(g, &a, 0), k = mapped(g, &a, l + 1);
    switch (broken()) {
    case 45: // a collection changed a logical page's content
        if (l < g->e) flip(BYTES, page_of(g, a.map[l]) * g->s);
        break;
    case 46: // a collection mapped or unmapped a page
        drop_one(g, &a);
        break;
    case 47: // two map entries share an address
        if (k < g->e) a.map[k] = a.map[l];
        break;
    case 48: // a collection took no victim or too many
        for (int i = 0; i < SLICES; i++)
            if (role[c->entry][i] == LENT) memcpy(lent[i].at, lent[i].before, lent[i].len * lent[i].elem);
        break;
    case 49: // the rest of the queue is not the sorted rest
        if (*a.queued > 1) {
            uint32_t first = a.queue[0];
            a.queue[0] = a.queue[1];
            a.queue[1] = first;
        }
        break;
    }
}

// A segment with free count above 0, from i on.
static size_t free_segment(const struct geo *g, const struct tables *t, size_t i) {
    while (i < g->n && !t->free[i]) i++;
    return i;
}

static void spend_one(const struct geo *g, struct tables *t, size_t i) {
    t->used[i * g->p + g->p - t->free[i]--] = 1;
}

static void damage_passes(struct call *c) {
    const struct geo *g = &c->geo;
    if (!collected(c)) return;
    struct tables b = before(g), a = after(g);
    uint32_t *counts = (uint32_t *)lent[COUNTS].at, *old = (uint32_t *)lent[COUNTS].before;
    size_t i = free_segment(g, &a, 0), victim = 0;
    while (victim < g->n && counts[victim] == old[victim]) victim++;
    switch (broken()) {
    case 50: // a collection stopped early
        if (c->answer >= 0 && c->m < *b.queued) c->m++;
        break;
    case 51: // a collection spent other pages than its copies
        while (i < g->n && counts[i] != old[i]) i = free_segment(g, &a, i + 1);
        if (i < g->n && c->entry != COLLECT) spend_one(g, &a, i);
        break;
    case 52: // a collection's fuse
        flip(FUSE, 0);
        break;
    case 53: // a collection's erase counts
        counts[0]++;
        break;
    case 54: // an erase above the limit
        if (victim < g->n) c->geo.limit = old[victim];
        break;
    case 55: // the victim's record is not reset
        if (c->entry == COLLECT && victim < g->n) spend_one(g, &a, victim);
        break;
    case 56: // a collection's flags
        for (size_t k = 0; k < g->n; k++)
            if (!a.free[k] && !a.flags[k]) a.flags[k] = 1;
        break;
    }
}

// A page with or without mark, in a segment that is erased or not, that no entry names.
static size_t unnamed_page(const struct geo *g, bool marked, bool erased) {
    struct tables a = after(g);
    uint32_t *counts = (uint32_t *)lent[COUNTS].at, *old = (uint32_t *)lent[COUNTS].before;
    for (size_t i = 0; i < g->n * g->p; i++) {
        bool named = false;
        for (size_t l = 0; l < g->e; l++) named |= a.map[l] != EMPTY && page_of(g, a.map[l]) == i;
        bool was_erased = counts[i / g->p] != old[i / g->p];
        bool was_marked = lent[MARKS].before[i] && lent[MARKS].at[i];
        if (!named && was_erased == erased && (marked ? was_marked : !lent[MARKS].at[i])) return i;
    }
    return NONE;
}

// An unmarked page with a marked one above it, in a segment that is not erased.
static size_t page_below_a_mark(const struct geo *g) {
    uint32_t *counts = (uint32_t *)lent[COUNTS].at, *old = (uint32_t *)lent[COUNTS].before;
    for (size_t i = 0; i < g->n * g->p; i++)
        if (counts[i / g->p] == old[i / g->p] && !lent[MARKS].at[i] && marked_above(g, lent[MARKS].before, i)) return i;
    return NONE;
}

static void damage_flash(const struct call *c) {
    const struct geo *g = &c->geo;
    if (!collected(c)) return;
    size_t page = broken() == 68 ? page_below_a_mark(g) : unnamed_page(g, broken() == 59, broken() == 60);
    if (page == NONE) return;
    switch (broken()) {
    case 57: // a collection's programmed marks
        lent[MARKS].at[page] = 7;
        break;
    case 58: // a collection changed a page that it did not program
    case 59: // a collection programmed a marked page
    case 60: // an erased page's bytes
        flip(BYTES, page * g->s);
        break;
    case 68: // a collection programmed below a marked page
        lent[MARKS].at[page] = 1;
        break;
    }
}

static void lend_endless(void) {
    memset(lent[FUSE].before, 255, 8);
    memset(lent[FUSE].at, 255, 8);
}

static void mark_all(uint8_t bad) {
    memset(lent[BAD].before, bad, lent[BAD].len);
    memset(lent[BAD].at, bad, lent[BAD].len);
}

static void damage_refused(struct call *c) {
    if (!collected(c) || c->answer >= 0) return;
    struct tables b = before(&c->geo), a = after(&c->geo);
    switch (broken()) {
    case 61: // a refused victim's valid count
        for (size_t i = 0; i < c->geo.n; i++)
            if (a.flags[i] && a.valid[i] < c->geo.p) a.valid[i]++;
        break;
    case 62: // not the number of the refusal's cause
        c->answer = refusal(c->choice, ERASE);
        break;
    case 63: // not the number of the refusal's cause
        if (c->answer == -5) c->answer = refusal(c->choice, COPY_NO_ROOM);
        break;
    case 64: // an erase is refused without cause
        if (c->answer == -5) c->geo.limit = UINT32_MAX, lend_endless();
        break;
    case 65: // a copy finds no room, and there is room
        if (c->entry != COLLECT) mark_all(0);
        break;
    case 66: // a copy is refused at the device without cause
        if (c->answer != -5 && total_free(&c->geo, &b) > total_free(&c->geo, &a)) lend_endless();
        break;
    }
}

// Of the segments with the least valid count the first in the queue.
static uint32_t first_victim(const struct tables *t) {
    uint32_t x = t->queue[0];
    for (size_t i = 1; i < *t->queued; i++)
        if (t->valid[t->queue[i]] < t->valid[x]) x = t->queue[i];
    return x;
}

static void mark_one(size_t i, uint8_t bad) {
    lent[BAD].before[i] = lent[BAD].at[i] = bad;
}

// Every segment that took a copy, marked bad: the copies went where no room is.
static void mark_targets(const struct geo *g, const struct tables *b, const struct tables *a) {
    for (size_t i = 0; i < g->n; i++)
        if (a->free[i] < b->free[i]) mark_one(i, 1);
}

// The room at entry, had the segments that took a copy been bad.
static uint64_t other_room(const struct geo *g, const struct tables *b, const struct tables *a) {
    uint64_t sum = room(g, b, lent[BAD].before);
    for (size_t i = 0; i < g->n; i++) sum -= a->free[i] < b->free[i] ? b->free[i] : 0;
    return sum;
}

// The copy that the device refused, told as one without room: its page is not spent.
static void tell_as_room(struct call *c, struct tables *a) {
    size_t i = *a->alloc;
    a->used[i * c->geo.p + c->geo.p - ++a->free[i]] = 0;
    a->valid[i]--;
    c->answer = refusal(c->choice, COPY_NO_ROOM);
}

// One collection that ran, by the new name for odd breaks, by the old one for even ones.
static bool one_pass(const struct call *c) {
    return c->entry == COLLECT && collected(c) && c->choice == (broken() % 2 ? NEW : OLD);
}

static void damage_finished_sums(const struct call *c) {
    const struct geo *g = &c->geo;
    if (!one_pass(c) || c->answer) return;
    struct tables b = before(g), a = after(g);
    uint32_t victim = first_victim(&b), v = b.lens[victim];
    size_t i = free_segment(g, &a, 0);
    if (i == victim) i = free_segment(g, &a, i + 1);
    switch (broken()) {
    case 98: // collect: a finished pass does not gain p - v
        if (i < g->n) spend_one(g, &a, i);
        break;
    case 99: // collect_told: a finished pass does not spend v pages of the room
        if (v && other_room(g, &b, &a) >= v) mark_targets(g, &b, &a);
        break;
    case 100: // collect: a pass short of room is not refused for room
        if (v) mark_all(1);
        break;
    }
}

static void damage_refused_sums(struct call *c) {
    const struct geo *g = &c->geo;
    if (!one_pass(c) || c->answer >= 0) return;
    struct tables b = before(g), a = after(g);
    uint32_t victim = first_victim(&b);
    uint64_t v = b.lens[victim], listed = a.lens[victim], total = total_free(g, &b), left = total_free(g, &a);
    bool at_device = listed && total - left != v - listed;
    size_t i = free_segment(g, &a, 0);
    switch (broken()) {
    case 101: // collect_told: a pass is refused for room, and there is room for v pages
        if (at_device && room(g, &b, lent[BAD].before) >= v) tell_as_room(c, &a);
        break;
    case 102: // collect: a pass is refused for room, and room is left
        if (at_device && b.free[*a.alloc] < v) tell_as_room(c, &a), mark_all(1), mark_one(*a.alloc, 0);
        break;
    case 103: // collect_told: a pass refused for room does not spend the room
        if (at_device && v > listed) tell_as_room(c, &a);
        if (listed && v > listed) mark_all(1);
        break;
    case 104: // collect: a refused erase does not cost v pages
        if (!listed && i < g->n) spend_one(g, &a, i);
        break;
    case 105: // collect_told: a pass short of room is not refused for room
        if (!listed && v) mark_all(1);
        break;
    case 106: // collect: a copy refused at the device costs no page or more than v
        if (at_device && total > v)
            for (; i < g->n; i = free_segment(g, &a, i)) spend_one(g, &a, i);
        break;
    }
}

void damage(struct call *c) {
    damage_answer(c);
    damage_room(c);
    damage_device(c);
    damage_restored(c);
    damage_lending(c);
    if (broken() < 14 || wrong_size(c)) return;
    damage_read_and_file(c);
    damage_format_and_open(c);
    damage_write(c);
    damage_restore(c);
    damage_queue(c);
    damage_contents(c);
    damage_passes(c);
    damage_flash(c);
    damage_refused(c);
    damage_finished_sums(c);
    damage_refused_sums(c);
}
