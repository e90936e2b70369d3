/*
 * What a collection gains, planned before the call by the header's names and held to what the call did. With v the victim's listed pages
 * and room the free pages outside the bad list: finished, the free pages of all segments are p - v more; refused for room, room was below v
 * and is used up; and it is refused so whenever room is below v, unless the device refuses a copy before that.
 */
#include <stdio.h>
#include <stdlib.h>
#include <string.h>

#include "shillingreed.h"

#define CHECK(x) ((x) ? (void)0 : (fprintf(stderr, "gains: line %d, at \"%s\": %s\n", __LINE__, where, #x), exit(1)))
#define COUNT(xs) (sizeof(xs) / sizeof *(xs))

static const uint8_t page[4] = {7, 7, 7, 7};
static const char *where; /* the steps of a row, or a kind of end */

/* A unit and its last checkpoint. */
struct whole {
    struct shr_unit unit;
    uint32_t memory[256];
    uint8_t flash[128], file[256];
};

/* What a planner knows before a collection. */
struct plan {
    size_t victim;   /* n: none is queued */
    uint32_t listed; /* v, the pages to be copied: not the valid count, which a spent page raises */
    size_t room, total;
};

static struct plan plan_of(const struct shr_geometry *geo, const struct shr_unit *u)
{
    struct plan x = {shr_unit_victim(geo, u), 0, shr_unit_room(geo, u), 0};
    size_t g;
    x.listed = shr_unit_listed(geo, u, x.victim);
    for (g = 0; g < geo->n; g++) x.total += shr_unit_free(geo, u, g);
    return x;
}

/* ---- one collection */

/* How often a collection ended so; one can be of several kinds. */
enum { EMPTY, NO_COPY, COPIED, NO_GAIN, BAD, SPENT, EXACT, ONE_SHORT, BAD_FREE, DEVICE, DEVICE_SHORT, ERASE, ENDS };
static const char *const kinds[] = {"0, nothing queued", "0, v = 0", "0, 0 < v < p", "0, v = p", "0, v > 0, bad victim", "0, valid > v",
                                    "0, room = v > 0", "-28, room = v - 1", "-28, total >= v", "-121, room >= v", "-121, room < v", "-5"};
static unsigned long ends[ENDS];

static void tally(size_t p, const struct plan *was, uint32_t valid, int bad, int64_t answer)
{
    size_t v = was->listed;
    int done = answer == 0, full = answer == -SHR_FULL, device = answer == -SHR_COPY_DEVICE;
    ends[NO_COPY] += done && v == 0;
    ends[COPIED] += done && 0 < v && v < p;
    ends[NO_GAIN] += done && v == p;
    ends[BAD] += done && v > 0 && bad;
    ends[SPENT] += done && valid > v;
    ends[EXACT] += done && v > 0 && was->room == v;
    ends[ONE_SHORT] += full && was->room + 1 == v;
    ends[BAD_FREE] += full && was->total >= v;
    ends[DEVICE] += device && was->room >= v;
    ends[DEVICE_SHORT] += device && was->room < v;
    ends[ERASE] += answer == -SHR_DEVICE;
}

/* What the call took and gave, by the numbers before and after it. */
static void holds(size_t p, const struct plan *was, const struct plan *now, int bad, int64_t answer)
{
    size_t v = was->listed, spent = was->total - now->total;
    size_t room = answer != 0 ? was->room - spent : bad ? was->room - v : was->room + (p - v);
    CHECK(now->room == room);
    if (answer == 0) CHECK(was->room >= v && now->total == was->total + (p - v));
    else if (answer == -SHR_FULL) CHECK(was->room < v && spent == was->room); /* all the room is used up */
    else if (answer == -SHR_COPY_DEVICE) CHECK(0 < spent && spent <= v && spent <= was->room); /* the page of the refused copy too */
    else CHECK(answer == -SHR_DEVICE && was->room >= v && spent == v); /* all is copied, nothing erased */
}

/* The device can refuse none of v copies: the fuse lasts for them, and no free page outside the bad list is marked. */
static int clear(const struct shr_geometry *geo, const struct shr_unit *u, size_t v)
{
    size_t g, k;
    for (g = 0; g < geo->n; g++)
        for (k = geo->p - shr_unit_free(geo, u, g); k < geo->p; k++)
            if (u->bad.at[g] == 0 && u->marks.at[g * geo->p + k] != 0) return 0;
    return u->fuse >= v;
}

/* One collection, held to its plan. In service and with an endless fuse it is not looked at whether the device can refuse a copy. */
static int64_t collects(const struct shr_geometry *geo, struct whole *x, int service)
{
    static struct whole before;
    struct plan was = plan_of(geo, &x->unit), now;
    uint32_t valid = shr_unit_valid(geo, &x->unit, was.victim);
    int bad = was.victim < geo->n && x->unit.bad.at[was.victim] != 0, sure = service || clear(geo, &x->unit, was.listed);
    int64_t answer;
    memcpy(&before, x, sizeof before);
    answer = shr_unit_collect_told(geo, &x->unit);
    now = plan_of(geo, &x->unit);
    if (was.victim == geo->n) {
        CHECK(answer == 0 && memcmp(&before, x, sizeof before) == 0);
        ends[EMPTY]++;
    } else {
        holds(geo->p, &was, &now, bad, answer);
        if (sure) CHECK(answer != -SHR_COPY_DEVICE && (answer == -SHR_FULL) == (was.room < was.listed));
        tally(geo->p, &was, valid, bad, answer);
    }
    return answer;
}

/* ---- states */

static void begin(const struct shr_geometry *geo, struct whole *x)
{
    memset(x, 0, sizeof *x);
    CHECK(shr_unit_lay(geo, &x->unit, x->memory, sizeof x->memory, x->flash, sizeof x->flash) == 0);
    CHECK(shr_unit_format(geo, &x->unit) == 0 && shr_unit_open(geo, &x->unit) == 0);
}

static void save(const struct shr_geometry *geo, struct whole *x)
{
    CHECK(shr_unit_encode(geo, &x->unit, x->file, sizeof x->file) == (int64_t)shr_unit_checkpoint(geo));
}

static void restore(const struct shr_geometry *geo, struct whole *x)
{
    CHECK(shr_unit_restore_dead(geo, &x->unit, x->file, shr_unit_checkpoint(geo)) == 0);
}

/* Queues a full segment by hand. The tables stay sound, and it can have all its pages listed, as none that a call queues. */
static void queue(const struct shr_geometry *geo, struct shr_unit *u, size_t g)
{
    uint32_t *slots = u->tab.at + geo->e + 3 * geo->n, *flags = slots + geo->n, *queued = flags + geo->n + 1;
    if (shr_unit_free(geo, u, g) > 0 || flags[g] != 0) return;
    slots[(*queued)++] = (uint32_t)g;
    flags[g] = 1;
}

/* ---- directed */

/* A digit writes that whole page; after x with the fuse out, after m with the first clear mark set, so that a page is spent. q queues
 * segment 0 by hand, r saves and restores, c collects. */
static void go(const struct shr_geometry *geo, struct whole *x, const char *steps)
{
    int64_t moved = 4;
    for (; *steps; steps++) {
        if (*steps == 'x') x->unit.fuse = 0, moved = -SHR_DEVICE;
        if (*steps == 'm') *(uint8_t *)memchr(x->unit.marks.at, 0, x->unit.marks.len) = 1, moved = -SHR_DEVICE;
        if (*steps == 'q') queue(geo, &x->unit, 0);
        if (*steps == 'r') save(geo, x), restore(geo, x);
        if (*steps == 'c') (void)collects(geo, x, 0);
        if (*steps < '0' || *steps > '9') continue;
        CHECK(shr_unit_write_told(geo, &x->unit, (size_t)(*steps - '0') * 4, 4, page) == moved);
        x->unit.fuse = SHR_ENDLESS;
        moved = 4;
    }
}

/* After these steps, with these bad segments and this fuse: the victim's pages, room and total; the answer; room and total then. */
static void row(const struct shr_geometry *geo, const char *steps, const char *bad, uint64_t fuse, uint32_t valid, uint32_t listed,
                size_t room, size_t total, int64_t answer, size_t room_then, size_t total_then)
{
    static struct whole x;
    struct plan plan;
    where = steps;
    begin(geo, &x);
    go(geo, &x, steps);
    for (; *bad; bad++) x.unit.bad.at[*bad - '0'] = 1;
    x.unit.fuse = fuse;
    plan = plan_of(geo, &x.unit);
    CHECK(shr_unit_valid(geo, &x.unit, plan.victim) == valid && plan.listed == listed && plan.room == room && plan.total == total);
    CHECK(collects(geo, &x, 0) == answer);
    plan = plan_of(geo, &x.unit);
    CHECK(plan.room == room_then && plan.total == total_then);
}

static void directed(void)
{
    static const struct shr_geometry four = {4, 2, 4, 1, 3, 5}, a = {2, 2, 4, 1, 3, 5}, b = {2, 3, 4, 2, 4, 5}, nine = {3, 3, 4, 2, 5, 5},
                                     eight = {2, 4, 4, 2, 6, 5}, thin = {3, 1, 4, 0, 2, 5}, pair = {2, 1, 4, 0, 2, 5},
                                     one = {1, 2, 4, 1, 2, 5}, worn = {3, 2, 4, 1, 3, 0};
    const uint64_t endless = SHR_ENDLESS;
    row(&four, "0101", "", endless, 0, 0, 4, 4, 0, 6, 6);
    row(&four, "010", "", endless, 1, 1, 5, 5, 0, 6, 6);
    row(&b, "x0100", "", endless, 2, 1, 2, 2, 0, 4, 4); /* a page of the victim is spent: valid, not listed */
    row(&b, "m0100", "", endless, 2, 1, 2, 2, 0, 4, 4);
    row(&b, "x01002", "", endless, 2, 1, 1, 1, 0, 3, 3); /* room for the listed, not for the valid */
    row(&b, "012q", "", endless, 3, 3, 3, 3, 0, 3, 3);   /* v = p */
    row(&b, "0123q", "", endless, 3, 3, 2, 2, -SHR_FULL, 0, 0);
    row(&thin, "010", "", endless, 0, 0, 0, 0, 0, 1, 1); /* p = 1 */
    row(&thin, "0q", "", endless, 1, 1, 2, 2, 0, 2, 2);
    row(&pair, "01q", "", endless, 1, 1, 0, 0, -SHR_FULL, 0, 0);
    row(&one, "00", "", endless, 1, 1, 0, 0, -SHR_FULL, 0, 0); /* n = 1 */
    row(&one, "x0x0r", "", endless, 0, 0, 0, 0, 0, 2, 2);
    row(&four, "0101", "0123", endless, 0, 0, 0, 4, 0, 0, 6); /* all bad */
    row(&four, "010", "0123", endless, 1, 1, 0, 5, -SHR_FULL, 0, 5);
    row(&four, "010", "0", endless, 1, 1, 5, 5, 0, 4, 6);             /* a bad victim: its pages are no room */
    row(&nine, "0120", "2", endless, 2, 2, 2, 5, 0, 3, 6);            /* room = v */
    row(&nine, "01203", "2", endless, 2, 2, 1, 4, -SHR_FULL, 0, 3);   /* room = v - 1, and free pages enough in a bad segment */
    row(&eight, "012304", "", endless, 3, 3, 2, 2, -SHR_FULL, 0, 0);  /* room < v */
    row(&eight, "012304", "", 2, 3, 3, 2, 2, -SHR_FULL, 0, 0);        /* the fuse ends with the room: the device is not asked again */
    row(&eight, "012304", "", 1, 3, 3, 2, 2, -SHR_COPY_DEVICE, 0, 0); /* before it */
    row(&eight, "012304", "", 0, 3, 3, 2, 2, -SHR_COPY_DEVICE, 1, 1);
    row(&eight, "012304m", "", endless, 3, 3, 2, 2, -SHR_COPY_DEVICE, 1, 1);
    row(&worn, "0101", "", endless, 0, 0, 2, 2, -SHR_DEVICE, 2, 2); /* the erase refused */
    row(&worn, "010", "", endless, 1, 1, 3, 3, -SHR_DEVICE, 2, 2);
    row(&worn, "010", "12", endless, 1, 1, 0, 3, -SHR_FULL, 0, 3); /* not reached */
    row(&four, "010", "", 1, 1, 1, 5, 5, -SHR_DEVICE, 4, 4);
    row(&four, "01", "", 0, 0, 0, 6, 6, 0, 6, 6);       /* nothing queued */
    row(&a, "0120c", "", endless, 0, 0, 0, 0, 0, 0, 0); /* a refused collection took it off */
}

/* ---- from many states */

static uint64_t seed;

static uint32_t any(size_t below)
{
    seed ^= seed << 13;
    seed ^= seed >> 7;
    seed ^= seed << 17;
    return (uint32_t)(seed >> 16) % (uint32_t)below;
}

/* One call. In service no mark is set, nothing queued by hand and nothing restored, and collections have an endless fuse. */
static void any_call(const struct shr_geometry *geo, struct whole *x, int service)
{
    struct shr_unit *u = &x->unit;
    size_t g = any(geo->n), len = any(5);
    int write = any(shr_unit_queued(geo, u) > 0 ? 3 : 20) > 0;
    if (any(8) == 0) u->bad.at[g] = any(4) == 0 ? (uint8_t)(1 + any(255)) : 0;
    if (!service && any(30) == 0) u->marks.at[any(u->marks.len)] = 1;
    if (!service && any(12) == 0) queue(geo, u, any(geo->n));
    if (!service && any(20) == 0) save(geo, x);
    if (!service && any(20) == 0) restore(geo, x);
    u->fuse = (write || !service) && any(6) == 0 ? any(geo->p + 1) : SHR_ENDLESS;
    if (write) (void)shr_unit_write_told(geo, u, any(geo->e) * 4, len, page);
    else (void)collects(geo, x, service);
}

static void many_states(const char *which, uint64_t from, int service)
{
    static const struct shr_geometry shapes[] = {{1, 3, 4, 2, 2, 0}, {2, 1, 4, 0, 1, 0},  {4, 1, 4, 3, 3, 0},   {2, 2, 4, 1, 3, 0},
                                                 {3, 3, 4, 2, 6, 0}, {4, 4, 4, 2, 12, 0}, {6, 3, 4, 16, 12, 0}, {3, 5, 4, 3, 9, 0}};
    static struct whole x;
    int i, k;
    where = which;
    memset(ends, 0, sizeof ends);
    for (seed = from, i = 0; i < 4000; i++) {
        struct shr_geometry geo = shapes[any(COUNT(shapes))];
        geo.limit = any(3) == 0 ? any(3) : 99;
        begin(&geo, &x);
        save(&geo, &x);
        for (k = 0; k < 50; k++) any_call(&geo, &x, service);
    }
    for (i = 0; i < ENDS; i++) {
        where = kinds[i];
        CHECK(service && (i == NO_GAIN || i == DEVICE || i == DEVICE_SHORT) ? ends[i] == 0 : ends[i] >= 100);
    }
}

int main(void)
{
    directed();
    many_states("any state", 88172645463325252u, 0);
    many_states("in service", 2463534242u, 1);
    return 0;
}
