/*
 * The restore that queues the dead beside the old one: each full segment with a list shorter than p is queued, ascending, its flag set, and
 * nothing else differs; a refused file leaves everything; what it queues is collected, and a refused collection is made good by it.
 */
#include <stdio.h>
#include <stdlib.h>
#include <string.h>

#include "shillingreed.h"

#define CHECK(x) ((x) ? (void)0 : (fprintf(stderr, "dead: line %d, after \"%s\": %s\n", __LINE__, done, #x), exit(1)))
#define COUNT(xs) (sizeof(xs) / sizeof *(xs))

static const struct shr_geometry four = {4, 2, 4, 1, 3, 5}, three = {3, 2, 4, 1, 3, 5}, a = {2, 2, 4, 1, 3, 5}, b = {2, 3, 4, 2, 4, 5},
                                 thin = {3, 1, 4, 0, 2, 5}, one = {1, 2, 4, 1, 2, 5}, worn = {3, 2, 4, 1, 3, 0};
static const uint8_t page[4] = {7, 7, 7, 7};
static const char *done = ""; /* the steps that the unit began with */

/* A unit and its checkpoint's file, with room for one byte more. */
struct whole {
    struct shr_unit unit;
    uint32_t memory[256];
    uint8_t flash[96];
    uint8_t file[256];
    size_t len;
};

/* ---- units and files */

/* Steps: a digit writes that whole page, c collects. */
static void go(const struct shr_geometry *geo, struct whole *x, const char *steps)
{
    for (; *steps; steps++) {
        if (*steps == 'c') CHECK(shr_unit_collect_told(geo, &x->unit) == 0);
        else CHECK(shr_unit_write_told(geo, &x->unit, (size_t)(*steps - '0') * 4, 4, page) == 4);
    }
}

static void save(const struct shr_geometry *geo, struct whole *x)
{
    int64_t len = shr_unit_encode(geo, &x->unit, x->file, sizeof x->file);
    CHECK(len == (int64_t)shr_unit_checkpoint(geo));
    x->len = (size_t)len;
}

static void begin(const struct shr_geometry *geo, struct whole *x, const char *steps)
{
    done = steps;
    memset(x, 0, sizeof *x);
    CHECK(shr_unit_lay(geo, &x->unit, x->memory, sizeof x->memory, x->flash, sizeof x->flash) == 0);
    CHECK(shr_unit_format(geo, &x->unit) == 0 && shr_unit_open(geo, &x->unit) == 0);
    go(geo, x, steps);
    save(geo, x);
}

static void put(struct whole *x, size_t at, uint32_t word)
{
    int i;
    for (i = 0; i < 4; i++) x->file[at + i] = (uint8_t)(word >> 8 * i);
}

/* The checksum of a changed file put right: over bytes 0 to 39 joined with all from 44. */
static void seal(struct whole *x)
{
    uint8_t covered[256];
    memcpy(covered, x->file, 40);
    memcpy(covered + 40, x->file + 44, x->len - 44);
    put(x, 40, shr_crc32(covered, x->len - 4));
}

/* What a power cut leaves of the tables. */
static void forget(struct whole *x, uint32_t word)
{
    size_t i;
    for (i = 0; i < x->unit.tab.len; i++) x->unit.tab.at[i] = word;
    memset(x->unit.used.at, (int)(word & 255), x->unit.used.len);
}

/* Where the queue, the flags and the queue's length stand in the tables. */
static uint32_t *queue_of(const struct shr_geometry *geo, const struct whole *x)
{
    return x->unit.tab.at + geo->e + 3 * geo->n;
}

static uint32_t *flags_of(const struct shr_geometry *geo, const struct whole *x)
{
    return queue_of(geo, x) + geo->n;
}

static uint32_t *queued_of(const struct shr_geometry *geo, const struct whole *x)
{
    return flags_of(geo, x) + geo->n + 1;
}

/* ---- the two restores beside each other */

/* The queue is exactly these segments, a digit each, every slot behind them 0, and the flags are exactly theirs. */
static int holds(const struct shr_geometry *geo, const struct whole *x, const char *queue)
{
    size_t g, len = strlen(queue);
    if (*queued_of(geo, x) != len) return 0;
    for (g = 0; g < geo->n; g++) {
        uint32_t flag = strchr(queue, '0' + (int)g) != NULL;
        if (queue_of(geo, x)[g] != (g < len ? (uint32_t)(queue[g] - '0') : 0) || flags_of(geo, x)[g] != flag) return 0;
    }
    return 1;
}

/* Every dead segment of restored tables, ascending, by the definition. */
static void dead_of(const struct shr_geometry *geo, const struct whole *x, char *out)
{
    size_t g;
    for (g = 0; g < geo->n; g++)
        if (shr_unit_free(geo, &x->unit, g) == 0 && shr_unit_listed(geo, &x->unit, g) < geo->p) *out++ = (char)('0' + g);
    *out = 0;
}

static void copy(const struct shr_geometry *geo, struct whole *to, const struct whole *from)
{
    CHECK(shr_unit_lay(geo, &to->unit, to->memory, sizeof to->memory, to->flash, sizeof to->flash) == 0);
    memcpy(to->memory, from->memory, sizeof to->memory);
    memcpy(to->flash, from->flash, sizeof to->flash);
    memcpy(to->file, from->file, sizeof to->file);
    to->len = from->len;
    to->unit.fuse = from->unit.fuse;
}

/* Restores x's file over lost tables by both names. The old leaves queue and flags empty, the new queues the dead; all else is the same to
 * the last byte, scratch and flash too, and both encode the same file. Leaves x as the new one does, `queue` queued. */
static void beside(const struct shr_geometry *geo, struct whole *x, const char *queue)
{
    static struct whole y, z;
    copy(geo, &y, x);
    copy(geo, &z, x);
    forget(&y, 0xA5A5A5A5u);
    forget(&z, 0xDEADBEEFu);
    CHECK(shr_unit_restore(geo, &y.unit, y.file, y.len) == 0 && holds(geo, &y, ""));
    CHECK(shr_unit_restore_dead(geo, &z.unit, z.file, z.len) == 0 && holds(geo, &z, queue));
    copy(geo, x, &z);
    save(geo, &y);
    save(geo, &z);
    CHECK(memcmp(y.file, z.file, sizeof y.file) == 0);
    memset(queue_of(geo, &z), 0, 2 * geo->n * sizeof(uint32_t));
    *queued_of(geo, &z) = 0;
    CHECK(memcmp(y.memory, z.memory, sizeof y.memory) == 0 && memcmp(y.flash, z.flash, sizeof y.flash) == 0);
}

/* The same of a unit after these steps. */
static void after(const struct shr_geometry *geo, const char *steps, const char *queue)
{
    static struct whole x;
    begin(geo, &x, steps);
    beside(geo, &x, queue);
}

static void small_devices(void)
{
    after(&four, "000000", "012");
    after(&three, "0012", "0"); /* segment 1 is full and live */
    after(&three, "01", "");
    after(&b, "00", ""); /* one free page */
    after(&b, "000", "0");
    after(&b, "001", "0"); /* dead before it was full: no write queues it */
    after(&b, "012", "");
    after(&thin, "0", "");
    after(&thin, "01", "");
    after(&thin, "00", "0"); /* p 1: full and unmapped */
    after(&thin, "010", "0");
    after(&one, "", "");
    after(&one, "0", "");
    after(&one, "01", "");
    after(&one, "00", "0");
}

/* Files whose words were changed: what counts is the list that is left. */
static void changed_files(void)
{
    static const uint32_t words[] = {0, 2, 8, SHR_EMPTY}; /* taken already, a page not used, a segment >= n, none */
    static struct whole x;
    size_t l, g;
    for (l = 0; l < COUNT(words); l++) {
        begin(&four, &x, "01");
        put(&x, 44 + 4, words[l]);
        seal(&x);
        beside(&four, &x, "0");
    }
    begin(&four, &x, "");
    for (g = 0; g < 4; g++) put(&x, 44 + 4 * four.e + 4 * g, 0);
    seal(&x);
    beside(&four, &x, "0123"); /* every slot taken */
    put(&x, 44 + 4 * four.e + 4, 1);
    seal(&x);
    beside(&four, &x, "023");
}

/* ---- refusals */

/* Both names answer this and leave everything. */
static void refused(const struct shr_geometry *geo, struct whole *x, int64_t why)
{
    static struct whole was;
    memcpy(&was, x, sizeof was);
    CHECK(shr_unit_restore(geo, &x->unit, x->file, x->len) == why && memcmp(x, &was, sizeof was) == 0);
    CHECK(shr_unit_restore_dead(geo, &x->unit, x->file, x->len) == why && memcmp(x, &was, sizeof was) == 0);
}

/* A unit with queue 2 1, which an accepted restore would make 1 2, and its file with a byte changed, the checksum put right or not. */
static void changed(size_t at, uint8_t byte, int sealed, int64_t why)
{
    static struct whole x;
    begin(&three, &x, "0120c21");
    CHECK(holds(&three, &x, "21") && x.file[at] != byte);
    x.file[at] = byte;
    if (sealed) seal(&x);
    refused(&three, &x, why);
}

static void refused_files(void)
{
    static struct whole x;
    int sealed;
    begin(&three, &x, "0120c21");
    x.len--;
    refused(&three, &x, -SHR_REASON_LENGTH);
    x.len += 2;
    refused(&three, &x, -SHR_REASON_LENGTH);
    x.len = 43;
    refused(&three, &x, -SHR_REASON_SHORT);
    x.len = 0;
    refused(&three, &x, -SHR_REASON_SHORT);
    for (sealed = 0; sealed < 2; sealed++) {
        changed(0, 0, sealed, -SHR_REASON_MAGIC);
        changed(4, 2, sealed, -SHR_REASON_VERSION);
        changed(16, 4, sealed, -SHR_REASON_SHAPE);
        changed(24, 1, sealed, -SHR_REASON_SHAPE);
        changed(32, 4, sealed, -SHR_REASON_ENTRIES);
        changed(8, 3, sealed, sealed ? -SHR_REASON_ALLOC : -SHR_REASON_CRC);
        changed(44 + 12 + 4, 3, sealed, sealed ? -SHR_REASON_FREE : -SHR_REASON_CRC);
    }
    changed(40, 0, 0, -SHR_REASON_CRC);
}

static void wrong_sizes(void)
{
    static struct whole x;
    struct shr_geometry other = three;
    size_t *lens[3];
    int i, k;
    begin(&three, &x, "0120c21");
    lens[0] = &x.unit.tab.len;
    lens[1] = &x.unit.used.len;
    lens[2] = &x.unit.taken.len;
    for (i = 0; i < 3; i++) {
        for (k = -1; k <= 1; k += 2) {
            *lens[i] += (size_t)k;
            refused(&three, &x, -SHR_WRONG);
            *lens[i] -= (size_t)k;
        }
    }
    x.unit.taken.at[5] = 1;
    refused(&three, &x, -SHR_WRONG);
    x.unit.taken.at[5] = 0;
    other.p = 0;
    refused(&other, &x, -SHR_WRONG);
    x.len = 0; /* the size is tested first */
    x.unit.tab.len--;
    refused(&three, &x, -SHR_WRONG);
}

/* ---- what comes after it */

/* One collection answers this; accepted, segment g and no other was erased. */
static void collects(const struct shr_geometry *geo, struct whole *x, int64_t answer, size_t g)
{
    uint32_t counts[8];
    size_t i;
    memcpy(counts, x->unit.counts.at, geo->n * sizeof *counts);
    CHECK(shr_unit_victim(geo, &x->unit) == g);
    CHECK(shr_unit_collect_told(geo, &x->unit) == answer);
    for (i = 0; i < geo->n; i++) CHECK(x->unit.counts.at[i] == counts[i] + (answer == 0 && i == g));
}

/* Among equals the lowest is taken, whatever the queue's order was. */
static void lowest_of_equals(void)
{
    static struct whole x;
    begin(&three, &x, "0120c21");
    CHECK(holds(&three, &x, "21") && shr_unit_valid(&three, &x.unit, 1) == 1 && shr_unit_valid(&three, &x.unit, 2) == 1);
    CHECK(shr_unit_victim(&three, &x.unit) == 2);
    beside(&three, &x, "12");
    collects(&three, &x, 0, 1);
    begin(&four, &x, "000000");
    beside(&four, &x, "012");
    collects(&four, &x, 0, 0);
    collects(&four, &x, 0, 1);
    collects(&four, &x, 0, 2);
    CHECK(holds(&four, &x, "") && shr_unit_room(&four, &x.unit) == 7);
    begin(&four, &x, "012220"); /* valid 1, 0, 2: the fewest first, and segment 2 is full and live */
    beside(&four, &x, "01");
    collects(&four, &x, 0, 1);
}

/* A collection of segment 0 is refused: it is off the queue, its flag set, and a collection finds nothing. Saved and restored it is queued. */
static void refused_then_restored(const struct shr_geometry *geo, struct whole *x, uint64_t fuse, int64_t why)
{
    CHECK(shr_unit_queued(geo, &x->unit) == 1);
    x->unit.fuse = fuse;
    collects(geo, x, why, 0);
    x->unit.fuse = SHR_ENDLESS;
    CHECK(shr_unit_queued(geo, &x->unit) == 0 && shr_unit_flag(geo, &x->unit, 0) == 1 && shr_unit_free(geo, &x->unit, 0) == 0);
    CHECK(shr_unit_collect_told(geo, &x->unit) == 0 && shr_unit_free(geo, &x->unit, 0) == 0);
    save(geo, x);
    beside(geo, x, "0");
}

static void recovery(void)
{
    static struct whole x, y;
    begin(&a, &x, "0120"); /* no room, and none after it */
    refused_then_restored(&a, &x, SHR_ENDLESS, -SHR_FULL);
    collects(&a, &x, -SHR_FULL, 0);
    begin(&b, &x, "010"); /* the first copy */
    refused_then_restored(&b, &x, 0, -SHR_COPY_DEVICE);
    collects(&b, &x, 0, 0);
    CHECK(shr_unit_room(&b, &x.unit) == 3);
    begin(&three, &x, "0101"); /* the erase of a segment without pages: by the old restore no call brings it back */
    refused_then_restored(&three, &x, 0, -SHR_DEVICE);
    copy(&three, &y, &x);
    CHECK(shr_unit_restore(&three, &y.unit, y.file, y.len) == 0);
    go(&three, &y, "c01c");
    CHECK(shr_unit_free(&three, &y.unit, 0) == 0 && shr_unit_room(&three, &y.unit) == 2);
    collects(&three, &x, 0, 0);
    CHECK(shr_unit_room(&three, &x.unit) == 4);
    go(&three, &x, "01c");
    CHECK(shr_unit_room(&three, &x.unit) == 4);
}

/* A segment whose erase is refused for good is queued at every restart, comes first, and stops the list; off the queue again, it lets the
 * others be taken. One at its limit that still holds a page costs a free page first. */
static void worn_out(void)
{
    static struct whole x;
    int i;
    begin(&four, &x, "01010");
    x.unit.counts.at[0] = (uint32_t)four.limit;
    for (i = 0; i < 3; i++) {
        beside(&four, &x, i == 0 ? "01" : "0");
        CHECK(shr_unit_victim(&four, &x.unit) == 0);
        CHECK(shr_unit_collect_list_told(&four, &x.unit, 9) == -SHR_DEVICE);
        CHECK(shr_unit_queued(&four, &x.unit) == (i == 0) && shr_unit_flag(&four, &x.unit, 0) == 1);
        CHECK(shr_unit_collect_list_told(&four, &x.unit, 9) == 0 && x.unit.counts.at[1] == 1);
        save(&four, &x);
    }
    begin(&four, &x, "0120");
    x.unit.counts.at[0] = (uint32_t)four.limit;
    beside(&four, &x, "0");
    CHECK(shr_unit_listed(&four, &x.unit, 0) == 1 && shr_unit_room(&four, &x.unit) == 4);
    collects(&four, &x, -SHR_DEVICE, 0);
    CHECK(shr_unit_listed(&four, &x.unit, 0) == 0 && shr_unit_room(&four, &x.unit) == 3);
}

/* A bad segment is queued too, and is not refused: its pages move out, it is erased, and gives no room; then it is queued no more. */
static void bad(void)
{
    static struct whole x;
    begin(&four, &x, "0120");
    x.unit.bad.at[0] = 1;
    beside(&four, &x, "0");
    CHECK(shr_unit_room(&four, &x.unit) == 4);
    collects(&four, &x, 0, 0);
    CHECK(shr_unit_free(&four, &x.unit, 0) == 2 && shr_unit_room(&four, &x.unit) == 3);
    save(&four, &x);
    beside(&four, &x, "");
}

/* ---- from many states */

static uint32_t any(uint32_t below)
{
    static uint64_t seed = 88172645463325252u;
    seed ^= seed << 13;
    seed ^= seed >> 7;
    seed ^= seed << 17;
    return (uint32_t)(seed >> 16) % below;
}

static void any_call(const struct shr_geometry *geo, struct whole *x)
{
    x->unit.fuse = any(4) == 0 ? any(3) : SHR_ENDLESS;
    if (any(9) == 0) x->unit.marks.at[any((uint32_t)x->unit.marks.len)] = 1;
    if (any(5) == 0) (void)shr_unit_collect_told(geo, &x->unit);
    else (void)shr_unit_write_told(geo, &x->unit, any((uint32_t)geo->e) * 4, any(2) * 4, page);
    x->unit.fuse = SHR_ENDLESS;
}

/* The queue is that of the definition, by the looks, and a state with it goes on as a sound one. */
static void many_states(void)
{
    static const struct shr_geometry *shapes[] = {&four, &three, &a, &b, &thin, &one, &worn};
    static struct whole x, y;
    unsigned long queued = 0, none = 0;
    char dead[16];
    int i, k;
    for (i = 0; i < 3000; i++) {
        const struct shr_geometry *geo = shapes[any((uint32_t)COUNT(shapes))];
        begin(geo, &x, "");
        x.unit.bad.at[any((uint32_t)geo->n)] = (uint8_t)any(2);
        for (k = (int)any(40); k > 0; k--) any_call(geo, &x);
        save(geo, &x);
        copy(geo, &y, &x);
        CHECK(shr_unit_restore(geo, &y.unit, y.file, y.len) == 0);
        dead_of(geo, &y, dead);
        beside(geo, &x, dead);
        *(dead[0] ? &queued : &none) += 1;
        for (k = 0; k < 5; k++) any_call(geo, &x);
        save(geo, &x);
    }
    CHECK(queued > 500 && none > 500);
}

int main(void)
{
    small_devices();
    changed_files();
    refused_files();
    wrong_sizes();
    lowest_of_equals();
    recovery();
    worn_out();
    bad();
    many_states();
    return 0;
}
