/*
 * A recorder of methane peaks over Shillingreed, with the power cut at random device operations.
 *
 * Each peak is 8 bytes, written by a short write into the pages of its sensor: minute (4), methane in hundredths of a percent (2),
 * sensor (1), check (1). The oldest peaks of a sensor make room for the newest.
 *
 *   recorder [seed=N] [cuts=N] [span=N] [limit=N] [dir=PATH] [sync=0] [states=1] [careless=1] [winter=1]
 *
 * A cut comes within `span` device operations; `limit` is how many erases a segment bears; the checkpoint's file is in `dir`, and sync=0
 * does not wait until it is on the disk; states=1 writes a collection's two states for tools/segments; careless=1 leaves out the checkpoint
 * before an erase, and loses peaks; winter=1 cuts nothing, refuses every second erase, and records the same peaks twice, once with each
 * restore.
 *
 * The order of calls is that of docs/USING.md. Every library call here does at most one device operation, and the recorder carries it
 * out on the part at once: a write programs the page that the map then names, a collection of a drained segment erases it.
 */
#define _POSIX_C_SOURCE 200809L
#include <stdio.h>
#include <stdlib.h>
#include <string.h>
#include <time.h>
#include <unistd.h>

#include "shillingreed.h"

enum {
    SEGMENTS = 16,
    PAGES = 8,
    PAGE = 64,
    WIDTH = 3,
    ENTRIES = 72,
    SENSORS = 4,
    PEAK = 8,
    PER_PAGE = PAGE / PEAK,
    RING = ENTRIES / SENSORS * PER_PAGE, /* peaks of one sensor */
    FLASH = SEGMENTS * PAGES * PAGE,
    RESERVE = 2 * PAGES, /* free pages kept for moving pages out of a segment, and for those that a restart spends */
    EVERY = 16,          /* peaks between checkpoints */
    WINTER = 2000        /* peaks of a winter */
};

/* The flash part and what is kept beside it: all that outlives the power, with the checkpoint's file. */
struct part {
    uint8_t bytes[FLASH];
    uint8_t marks[SEGMENTS * PAGES];
    uint32_t counts[SEGMENTS];
    uint8_t bad[SEGMENTS];
};

struct tally {
    unsigned long peaks, checkpoints, collected, moved, full, device, worn, refused;
};

struct recorder {
    struct shr_geometry geo;
    struct shr_unit unit;
    struct part *part;
    uint32_t memory[4096];
    uint8_t mirror[FLASH];
    uint32_t newest[SENSORS]; /* minute of the newest peak, 0 for none */
    size_t next[SENSORS];     /* place of the next peak in the sensor's ring */
    uint32_t minute;
    uint8_t covered[ENTRIES][PAGE]; /* what the last checkpoint covers: a notebook for this demonstration, no unit has it */
    int64_t held[ENTRIES];
    unsigned long since; /* peaks since then */
    uint8_t offered[ENTRIES * PAGE]; /* a second notebook: the newest peaks of each sensor, whatever the unit did with them */
    size_t erasing; /* segment that a collection is about to erase, or SEGMENTS */
    int states;     /* a collection's two states are still to be written */
    int careless, sync, winter, old; /* old: restores by the old choice, which leaves the queue empty */
    unsigned long erases;            /* erases tried in the winter */
    const char *dir;
    struct tally tally;
};

static uint64_t seed;

static uint64_t any(uint64_t below)
{
    seed ^= seed >> 12;
    seed ^= seed << 25;
    seed ^= seed >> 27;
    return (seed * 2685821657736338717u >> 16) % below;
}

static void stop(const char *what, const char *why)
{
    fprintf(stderr, "recorder: %s: %s\n", what, why);
    exit(1);
}

/* ---- the part: what a driver of a real one does */

/* A page is programmed once between two erases, and before the higher pages of its segment. */
static int part_refuses(const struct recorder *r, size_t at)
{
    size_t end = (at / PAGES + 1) * PAGES;
    for (; at < end; at++)
        if (r->part->marks[at]) return 1;
    return 0;
}

static void part_program(struct recorder *r, uint32_t address)
{
    size_t at = shr_segment_of(&r->geo, address) * PAGES + shr_page_of(&r->geo, address);
    if (part_refuses(r, at)) stop("part", "a page programmed twice, or out of order");
    memcpy(r->part->bytes + at * PAGE, r->unit.bytes.at + at * PAGE, PAGE);
    r->part->marks[at] = 1;
}

static void part_erase(struct recorder *r, size_t g)
{
    memset(r->part->bytes + g * PAGES * PAGE, 255, PAGES * PAGE);
    memset(r->part->marks + g * PAGES, 0, PAGES);
    r->part->counts[g]++;
}

/* What a cut leaves of the operation under way: a page with any bytes, or a segment with any bytes and marks. */
static const char *part_torn(struct recorder *r)
{
    size_t at, i, g = r->erasing, a = shr_unit_alloc(&r->geo, &r->unit);
    for (i = 0; g < SEGMENTS && i < PAGES * PAGE; i++) r->part->bytes[g * PAGES * PAGE + i] = (uint8_t)any(256);
    for (i = 0; g < SEGMENTS && i < PAGES; i++) r->part->marks[g * PAGES + i] = (uint8_t)any(2);
    if (g < SEGMENTS) return "a segment torn while it was erased";
    if (shr_unit_free(&r->geo, &r->unit, a) >= PAGES) return "nothing under way";
    at = a * PAGES + PAGES - 1 - shr_unit_free(&r->geo, &r->unit, a); /* the allocation segment's last used page: the write that was cut spent it */
    if (part_refuses(r, at)) return "nothing under way";
    for (i = 0; i < PAGE; i++) r->part->bytes[at * PAGE + i] = (uint8_t)any(256);
    r->part->marks[at] = 1;
    return "a page torn while it was programmed";
}

/* ---- the checkpoint's file: written beside the old one, which it replaces only when it is whole */

static void path(const struct recorder *r, const char *name, char *out, size_t size)
{
    if (snprintf(out, size, "%s/%s", r->dir, name) >= (int)size) stop(name, "path too long");
}

static void store(const struct recorder *r, const uint8_t *file, size_t len)
{
    char fresh[512], name[512];
    FILE *f;
    path(r, "checkpoint.new", fresh, sizeof fresh);
    path(r, "checkpoint", name, sizeof name);
    f = fopen(fresh, "wb");
    if (!f) stop(fresh, "cannot be written");
    if (fwrite(file, 1, len, f) != len || fflush(f) != 0) stop(fresh, "cannot be written");
    if (r->sync && fsync(fileno(f)) != 0) stop(fresh, "cannot be written");
    if (fclose(f) != 0 || rename(fresh, name) != 0) stop(name, "cannot be replaced");
}

static size_t load(const struct recorder *r, uint8_t *file, size_t size)
{
    char name[512];
    size_t len;
    FILE *f;
    path(r, "checkpoint", name, sizeof name);
    f = fopen(name, "rb");
    if (!f) return 0;
    len = fread(file, 1, size, f);
    fclose(f);
    return len;
}

static void note(struct recorder *r)
{
    size_t l;
    for (l = 0; l < ENTRIES; l++) r->held[l] = shr_unit_read(&r->geo, &r->unit, l * PAGE, PAGE, r->covered[l]);
}

static void checkpoint(struct recorder *r)
{
    uint8_t file[1024];
    int64_t len = shr_unit_encode(&r->geo, &r->unit, file, sizeof file);
    if (len < 0) stop("checkpoint", shr_refusal_text(len));
    store(r, file, (size_t)len);
    note(r);
    r->since = 0;
    r->tally.checkpoints++;
}

/* ---- a state written down for tools/segments: a line for each segment, a word for each page */

static void segment_line(const struct recorder *r, FILE *f, size_t g)
{
    size_t k, l;
    fprintf(f, "segment %zu free %u valid %u flag %u erased %u pages", g, shr_unit_free(&r->geo, &r->unit, g),
            shr_unit_valid(&r->geo, &r->unit, g), shr_unit_flag(&r->geo, &r->unit, g), r->unit.counts.at[g]);
    for (k = 0; k < PAGES; k++) {
        for (l = 0; l < ENTRIES && shr_unit_map(&r->geo, &r->unit, l) != (g << WIDTH) + k; l++) continue;
        if (l < ENTRIES) fprintf(f, " %zu", l);
        else fprintf(f, " %s", r->unit.used.at[g * PAGES + k] ? "x" : ".");
    }
    fputc('\n', f);
}

static void write_state(const struct recorder *r, const char *name, const char *title)
{
    char file[512];
    size_t i;
    FILE *f;
    path(r, name, file, sizeof file);
    f = fopen(file, "w");
    if (!f) stop(file, "cannot be written");
    fprintf(f, "title %s\ngeometry %d %d %d %d %d\nalloc %u\nqueue", title, SEGMENTS, PAGES, PAGE, WIDTH, ENTRIES,
            shr_unit_alloc(&r->geo, &r->unit));
    for (i = 0; i < shr_unit_queued(&r->geo, &r->unit); i++) fprintf(f, " %u", shr_unit_queue(&r->geo, &r->unit, i));
    fprintf(f, "\nbad");
    for (i = 0; i < SEGMENTS; i++)
        if (r->unit.bad.at[i]) fprintf(f, " %zu", i);
    fputc('\n', f);
    for (i = 0; i < SEGMENTS; i++) segment_line(r, f, i);
    fclose(f);
}

/* ---- writing and collecting */

static int power_gone(const struct recorder *r, int64_t answer)
{
    return answer == -SHR_DEVICE && r->unit.fuse == 0;
}

/* A write that goes on after a 5: the page it found is spent, nothing else has changed, and the next write finds another. */
static int64_t put(struct recorder *r, size_t sector, size_t len, const uint8_t *data)
{
    for (;;) {
        int64_t answer = shr_unit_write_told(&r->geo, &r->unit, sector, len, data);
        if (answer >= 0) part_program(r, shr_unit_map(&r->geo, &r->unit, sector / PAGE));
        if (answer != -SHR_DEVICE || r->unit.fuse == 0) return answer;
        r->tally.device++;
    }
}

/* Makes the tables of the stored checkpoint and, but for the old choice, queues every full segment with a dead page. Those whose erase was
 * refused for good are among them: each comes before all that hold a page, is refused once (5) and is off the queue again. None is taken
 * off by hand: the tables change by calls alone, and the stored checkpoint stays good. Bad segment 5 is never among them, since its pages
 * are free. */
static void restore(struct recorder *r)
{
    uint8_t file[1024];
    size_t len = load(r, file, sizeof file);
    int64_t answer = r->old ? shr_unit_restore(&r->geo, &r->unit, file, len) : shr_unit_restore_dead(&r->geo, &r->unit, file, len);
    if (answer < 0) stop("restore", shr_reason_text(answer));
}

/* Whether a segment that can still be erased is full and has a dead page: without one there is no room to gain. */
static int collectable(const struct recorder *r)
{
    size_t g;
    for (g = 0; g < SEGMENTS; g++) {
        if (r->unit.bad.at[g] || r->unit.counts.at[g] >= r->geo.limit) continue;
        if (shr_unit_free(&r->geo, &r->unit, g) == 0 && shr_unit_listed(&r->geo, &r->unit, g) < PAGES) return 1;
    }
    return 0;
}

/* Queues what is not queued while the unit runs: a segment whose pages died before it was full, and one whose collection was refused. The
 * state is stored and made again, as by a restart; map, free counts and allocation segment come back as they were. */
static void queue_again(struct recorder *r)
{
    checkpoint(r);
    restore(r);
}

static int is_queued(const struct recorder *r, size_t g)
{
    size_t i;
    for (i = 0; i < shr_unit_queued(&r->geo, &r->unit); i++)
        if (shr_unit_queue(&r->geo, &r->unit, i) == g) return 1;
    return 0;
}

/* After a refused erase of a segment that is not worn out. It is full, holds no page, is off the queue, and its flag is set: no write
 * queues it again. Stored and made again it is queued, and the next collection can take it; the old choice leaves it out for good. */
static void recover(struct recorder *r, size_t g)
{
    if (is_queued(r, g) || !shr_unit_flag(&r->geo, &r->unit, g)) stop("collection", "a refused segment is not off the queue, flag set");
    queue_again(r);
    if (is_queued(r, g) == r->old) stop("restore", r->old ? "the old choice queued a segment" : "a refused segment is not queued again");
    r->tally.refused++;
}

/* The collection of a drained segment, an erase and nothing else. In the winter the supply dips at every second one: the device refuses it. */
static int64_t erase_drained(struct recorder *r)
{
    uint64_t fuse = r->unit.fuse;
    int dips = r->winter && r->erases++ % 2 == 0;
    int64_t answer;
    if (dips) r->unit.fuse = 0;
    answer = shr_unit_collect_told(&r->geo, &r->unit);
    if (dips) r->unit.fuse = fuse;
    return answer;
}

/* The collection of the queue's victim g, in the order that keeps every stored checkpoint good: it is drained by writes of no bytes, a
 * checkpoint that names none of its pages is stored, and only then is it erased. Answers 0, or what refused. */
static int64_t make_room(struct recorder *r, size_t g)
{
    static const uint8_t nothing[1];
    int64_t answer;
    int draw = r->states && shr_unit_listed(&r->geo, &r->unit, g) >= 3;
    if (draw) write_state(r, "before.state", "Before the collection");
    while (shr_unit_listed(&r->geo, &r->unit, g) > 0) {
        size_t l = shr_unit_list(&r->geo, &r->unit, g, shr_unit_listed(&r->geo, &r->unit, g) - 1);
        answer = put(r, l * PAGE, 0, nothing);
        if (answer < 0) return answer;
        r->tally.moved++;
    }
    if (!r->careless) checkpoint(r);
    r->erasing = g;
    answer = erase_drained(r);
    if (power_gone(r, answer)) return answer;
    r->erasing = SEGMENTS;
    if (answer < 0) return answer;
    part_erase(r, g);
    r->tally.collected++;
    if (draw) write_state(r, "after.state", "After the collection");
    if (draw) r->states = 0;
    return 0;
}

/* Collects until the reserve is there or nothing is left to collect. A refused erase (5) leaves its segment off the queue, full and empty of
 * peaks: worn out, it is out of use, and the next one is tried; else it is made good. */
static int64_t keep_reserve(struct recorder *r)
{
    while (shr_unit_room(&r->geo, &r->unit) <= RESERVE) {
        size_t g;
        int64_t answer;
        if (shr_unit_queued(&r->geo, &r->unit) == 0 && collectable(r)) queue_again(r);
        if (shr_unit_queued(&r->geo, &r->unit) == 0) return 0;
        g = shr_unit_victim(&r->geo, &r->unit);
        answer = make_room(r, g);
        if (power_gone(r, answer)) return answer;
        if (answer == -SHR_FULL) return 0;
        if (answer < 0 && answer != -SHR_DEVICE) stop("collection", shr_refusal_text(answer));
        if (answer < 0 && r->unit.counts.at[g] < r->geo.limit) recover(r, g);
        else if (answer < 0) r->tally.worn++;
    }
    return 0;
}

/* ---- peaks */

static void to_bytes(uint8_t out[PEAK], uint32_t minute, unsigned methane, unsigned sensor)
{
    int i;
    for (i = 0; i < 4; i++) out[i] = (uint8_t)(minute >> 8 * i);
    out[4] = (uint8_t)methane;
    out[5] = (uint8_t)(methane >> 8);
    out[6] = (uint8_t)sensor;
    out[7] = (uint8_t)shr_crc32(out, PEAK - 1);
}

/* The minute of a peak, 0 where none is. */
static uint32_t minute_of(const uint8_t *in, unsigned sensor)
{
    if (in[6] != sensor || in[7] != (uint8_t)shr_crc32(in, PEAK - 1)) return 0;
    return (uint32_t)in[0] | (uint32_t)in[1] << 8 | (uint32_t)in[2] << 16 | (uint32_t)in[3] << 24;
}

static size_t sector_of(unsigned sensor, size_t place)
{
    return (sensor - 1) * (RING * PEAK) + place * PEAK;
}

/* Stores one peak. Answers its length, or the refusal that ends this life: no power, or no room left to collect. */
static int64_t record(struct recorder *r)
{
    unsigned sensor = 1 + (unsigned)any(SENSORS), methane = 100 + (unsigned)any(150);
    uint8_t peak[PEAK];
    size_t sector = sector_of(sensor, r->next[sensor - 1]);
    int64_t answer = keep_reserve(r);
    if (answer < 0) return answer;
    r->minute += 1 + (uint32_t)any(9);
    to_bytes(peak, r->minute, methane, sensor);
    memcpy(r->offered + sector, peak, PEAK);
    answer = put(r, sector, PEAK, peak);
    if (answer == -SHR_FULL) r->tally.full++;
    if (answer < 0) return answer;
    r->newest[sensor - 1] = r->minute;
    r->next[sensor - 1] = (r->next[sensor - 1] + 1) % RING;
    r->tally.peaks++;
    if (++r->since >= EVERY) checkpoint(r);
    return answer;
}

/* Finds each sensor's newest peak, and so the place of the next. Answers how many peaks are there. */
static unsigned long find_newest(struct recorder *r)
{
    unsigned long peaks = 0;
    unsigned sensor;
    size_t i;
    r->minute = 0;
    for (sensor = 1; sensor <= SENSORS; sensor++) {
        r->newest[sensor - 1] = 0;
        r->next[sensor - 1] = 0;
        for (i = 0; i < RING; i++) {
            uint8_t peak[PEAK];
            int64_t got = shr_unit_read(&r->geo, &r->unit, sector_of(sensor, i), PEAK, peak);
            uint32_t minute = got == PEAK ? minute_of(peak, sensor) : 0;
            if (got < 0 && got != -SHR_UNMAPPED) stop("read", shr_refusal_text(got));
            peaks += minute > 0;
            if (minute <= r->newest[sensor - 1]) continue;
            r->newest[sensor - 1] = minute;
            r->next[sensor - 1] = (i + 1) % RING;
        }
        if (r->newest[sensor - 1] > r->minute) r->minute = r->newest[sensor - 1];
    }
    return peaks;
}

/* ---- a unit's life */

/* Lays the unit's memory out afresh and reads the part into it. */
static void power_up(struct recorder *r, uint64_t fuse)
{
    memset(r->memory, 0xA5, sizeof r->memory);
    if (shr_unit_lay(&r->geo, &r->unit, r->memory, sizeof r->memory, r->mirror, FLASH) < 0) stop("unit", "geometry or memory wrong");
    memcpy(r->unit.bytes.at, r->part->bytes, FLASH);
    memcpy(r->unit.marks.at, r->part->marks, sizeof r->part->marks);
    memcpy(r->unit.counts.at, r->part->counts, sizeof r->part->counts);
    memcpy(r->unit.bad.at, r->part->bad, sizeof r->part->bad);
    r->unit.fuse = fuse;
    r->erasing = SEGMENTS;
}

/* Once in a unit's life: formats the part, empties the tables, stores the first checkpoint. */
static void first_time(struct recorder *r)
{
    size_t g;
    power_up(r, SHR_ENDLESS);
    if (shr_unit_format(&r->geo, &r->unit) < 0 || shr_unit_open(&r->geo, &r->unit) < 0) stop("unit", "cannot be formatted");
    for (g = 0; g < SEGMENTS; g++) part_erase(r, g);
    memset(r->part->counts, 0, sizeof r->part->counts);
    memset(r->offered, 0, sizeof r->offered);
    checkpoint(r);
    find_newest(r);
}

/* How many peaks of the notebook are not where they were. */
static unsigned long lost_peaks(struct recorder *r, unsigned long *covered)
{
    unsigned long lost = 0;
    size_t l, i;
    *covered = 0;
    for (l = 0; l < ENTRIES; l++) {
        uint8_t now[PAGE];
        unsigned sensor = 1 + (unsigned)(l / (ENTRIES / SENSORS));
        int64_t got = shr_unit_read(&r->geo, &r->unit, l * PAGE, PAGE, now);
        if (got != r->held[l]) lost++;
        for (i = 0; r->held[l] > 0 && i < PAGE; i += PEAK) {
            if (minute_of(r->covered[l] + i, sensor) == 0) continue;
            ++*covered;
            lost += got < 0 || memcmp(now + i, r->covered[l] + i, PEAK) != 0;
        }
    }
    return lost;
}

/* After a cut: the tables are made again from the checkpoint, over the part as it stands. Answers the peaks lost. */
static unsigned long come_up(struct recorder *r, uint64_t fuse)
{
    unsigned long lost, covered, found;
    power_up(r, fuse);
    restore(r);
    lost = lost_peaks(r, &covered);
    found = find_newest(r);
    printf("up    %lu peaks covered by the checkpoint, %lu of them lost; %lu recorded since then are gone\n", covered, lost, r->since);
    note(r);
    r->since = 0;
    return lost + (found != covered);
}

/* Records until the power goes or nothing more fits. */
static int64_t live(struct recorder *r, unsigned life, unsigned long most)
{
    struct tally *t = &r->tally;
    int64_t answer = 0;
    memset(t, 0, sizeof *t);
    while (answer >= 0 && t->peaks < most) answer = record(r);
    if (answer < 0 && answer != -SHR_DEVICE && answer != -SHR_FULL) stop("record", shr_refusal_text(answer));
    if (life == 1 && t->device > 0) stop("record", "a programming refused with power left, before any cut");
    printf("life %u: %lu peaks, %lu checkpoints, %lu segments collected, %lu pages moved, %lu refused as worn out; refused 28: %lu, 5: %lu\n",
           life, t->peaks, t->checkpoints, t->collected, t->moved, t->worn, t->full, t->device);
    return answer;
}

/* The end: the part holds what the mirror holds, and each sensor's newest peak is there to be read. */
static void show_part(struct recorder *r)
{
    uint32_t newest[SENSORS];
    unsigned long peaks;
    size_t at;
    for (at = 0; at < SEGMENTS * PAGES; at++) {
        if (!r->part->marks[at] != !r->unit.marks.at[at]) stop("part", "a mark is not the mirror's");
        if (memcmp(r->part->bytes + at * PAGE, r->mirror + at * PAGE, PAGE) != 0) stop("part", "a page is not the mirror's");
    }
    memcpy(newest, r->newest, sizeof newest);
    peaks = find_newest(r);
    if (memcmp(newest, r->newest, sizeof newest) != 0) stop("read", "a newest peak is not there");
    printf("part  %lu peaks readable, the newest of minute %u\n", peaks, r->minute);
}

/* ---- a winter: every second erase refused, with each restore */

/* How many of the newest peaks offered are not there to be read. */
static unsigned long missed(struct recorder *r)
{
    unsigned long count = 0;
    size_t sector;
    for (sector = 0; sector < ENTRIES * PAGE; sector += PEAK) {
        unsigned sensor = 1 + (unsigned)(sector / (RING * PEAK));
        uint8_t peak[PEAK];
        if (minute_of(r->offered + sector, sensor) == 0) continue;
        count += shr_unit_read(&r->geo, &r->unit, sector, PEAK, peak) != PEAK || memcmp(peak, r->offered + sector, PEAK) != 0;
    }
    return count;
}

/* How many segments are full, hold no page and are off the queue: no write gives them back. */
static unsigned long out_of_use(const struct recorder *r)
{
    unsigned long count = 0;
    size_t g;
    for (g = 0; g < SEGMENTS; g++)
        count += shr_unit_free(&r->geo, &r->unit, g) == 0 && shr_unit_listed(&r->geo, &r->unit, g) == 0 && !is_queued(r, g);
    return count;
}

/* Records a winter's peaks on a new part, or as many as it has room for. Answers how many of the newest offered are not there. */
static unsigned long pass_winter(struct recorder *r, int old)
{
    unsigned long gone;
    r->old = old;
    r->erases = 0;
    first_time(r);
    live(r, 1, WINTER);
    show_part(r);
    gone = missed(r);
    printf("%s  %lu collections refused, %lu segments out of use, room for %zu pages, %lu peaks missed\n", old ? "old " : "dead",
           r->tally.refused, out_of_use(r), shr_unit_room(&r->geo, &r->unit), gone);
    return gone;
}

/* The same winter with each restore: by restore_dead every refused segment comes back and is collected, and no peak is missed; by the old
 * restore each of them is lost, until a peak finds no room. Answers 0 when it went so. */
static int winters(struct recorder *r)
{
    const struct tally *t = &r->tally;
    uint64_t start = seed;
    unsigned long gone = pass_winter(r, 0), peaks = t->peaks;
    int good = gone == 0 && peaks == WINTER && out_of_use(r) == 0 && t->refused > SEGMENTS && t->collected >= t->refused;
    seed = start;
    gone = pass_winter(r, 1);
    good = good && gone == 1 && t->full == 1 && t->refused > 0 && out_of_use(r) >= t->refused;
    printf("%s: %lu peaks of %d recorded; by the old restore %lu, and no room for the next\n", good ? "ok" : "failed", peaks, WINTER, t->peaks);
    return good ? 0 : 1;
}

static unsigned long option(int argc, char **argv, const char *name, unsigned long otherwise)
{
    int i;
    size_t len = strlen(name);
    for (i = 1; i < argc; i++)
        if (strncmp(argv[i], name, len) == 0 && argv[i][len] == '=') return strtoul(argv[i] + len + 1, NULL, 10);
    return otherwise;
}

int main(int argc, char **argv)
{
    static struct part part;
    static struct recorder r;
    unsigned long lost = 0, cuts = option(argc, argv, "cuts", 3), cut = 0, span = option(argc, argv, "span", 1500);
    unsigned long start = option(argc, argv, "seed", (unsigned long)time(NULL) % 100000);
    int i;
    r.geo = (struct shr_geometry){SEGMENTS, PAGES, PAGE, WIDTH, ENTRIES, option(argc, argv, "limit", 100000)};
    r.part = &part;
    r.states = option(argc, argv, "states", 0) != 0;
    r.careless = option(argc, argv, "careless", 0) != 0;
    r.sync = option(argc, argv, "sync", 1) != 0;
    r.winter = option(argc, argv, "winter", 0) != 0;
    r.dir = ".";
    for (i = 1; i < argc; i++)
        if (strncmp(argv[i], "dir=", 4) == 0) r.dir = argv[i] + 4;
    part.bad[5] = 1; /* as it came from the factory */
    seed = start + 88172645463325252u;
    printf("seed %lu\n", start);
    printf("unit: %d segments of %d pages of %d bytes, segment 5 bad; room for %d peaks of %d bytes; %zu bytes of memory beside the flash\n",
           SEGMENTS, PAGES, PAGE, SENSORS * RING, PEAK, shr_unit_memory(&r.geo));
    if (r.winter) return winters(&r);
    first_time(&r);
    while (cut < cuts) {
        r.unit.fuse = any(span);
        if (live(&r, (unsigned)++cut, 100000) == -SHR_FULL) break;
        printf("cut   %s\n", part_torn(&r));
        lost += come_up(&r, SHR_ENDLESS);
    }
    if (cut == cuts) live(&r, (unsigned)cut + 1, 400);
    if (shr_unit_room(&r.geo, &r.unit) == 0) printf("full  nothing is left to collect: the part is worn out\n");
    show_part(&r);
    printf("%s: %lu covered peaks lost\n", lost == 0 ? "ok" : "failed", lost);
    return lost == 0 ? 0 : 1;
}
