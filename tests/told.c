/*
 * The header's told calls beside the others: made on units that are the same, both leave the same, and the answers are equal after 28 and
 * 121 are read as 14.
 */
#include <stdio.h>
#include <stdlib.h>
#include <string.h>

#include "shillingreed.h"

#define CHECK(x) ((x) ? (void)0 : (fprintf(stderr, "told: line %d: %s\n", __LINE__, #x), exit(1)))

static const struct shr_geometry a = {2, 2, 4, 1, 3, 5}, worn = {2, 2, 4, 1, 3, 0}, three = {3, 2, 4, 1, 3, 5}, b = {2, 3, 4, 2, 4, 5};
/* The calls; a threshold collection with a threshold above all free pages, with 0, which they are above, and with 1, which they equal. */
enum { WRITE, COLLECT, LIST, THRESHOLD, THRESHOLD_0, THRESHOLD_1 };
static const uint8_t page[4] = {7, 7, 7, 7};

struct whole {
    struct shr_unit unit;
    uint32_t memory[128];
    uint8_t flash[24];
};

/* A unit after these steps: a digit writes that whole page, c collects. `mark` is set on its last page before that. */
static void begin(const struct shr_geometry *geo, struct whole *x, uint8_t mark, const char *steps)
{
    CHECK(shr_unit_lay(geo, &x->unit, x->memory, sizeof x->memory, x->flash, sizeof x->flash) == 0);
    CHECK(shr_unit_format(geo, &x->unit) == 0 && shr_unit_open(geo, &x->unit) == 0);
    x->unit.marks.at[geo->n * geo->p - 1] = mark;
    for (; *steps; steps++) {
        if (*steps == 'c') CHECK(shr_unit_collect_told(geo, &x->unit) == 0);
        else CHECK(shr_unit_write_told(geo, &x->unit, (size_t)(*steps - '0') * 4, 4, page) == 4);
    }
}

static int64_t call(const struct shr_geometry *geo, struct shr_unit *u, int which, int told)
{
    uint64_t threshold = which == THRESHOLD ? 9 : which == THRESHOLD_1 ? 1 : 0;
    switch (which) {
    case WRITE: return told ? shr_unit_write_told(geo, u, 0, 1, page) : shr_unit_write(geo, u, 0, 1, page);
    case COLLECT: return told ? shr_unit_collect_told(geo, u) : shr_unit_collect(geo, u);
    case LIST: return told ? shr_unit_collect_list_told(geo, u, 4) : shr_unit_collect_list(geo, u, 4);
    default: return told ? shr_unit_collect_threshold_told(geo, u, threshold, 4) : shr_unit_collect_threshold(geo, u, threshold, 4);
    }
}

/* What is lent wrongly: nothing, scratch that is not zero, tables that are not sound. */
static void spoil(struct shr_unit *u, int how)
{
    if (how == 22) u->page.at[0] = 1;
    if (how == 117) u->tab.at[0] = 9;
}

/* The told answer, held to the other's. */
static int64_t beside(const struct shr_geometry *geo, uint8_t mark, const char *steps, uint64_t fuse, int how, int which)
{
    static struct whole x, y;
    int64_t was, is;
    begin(geo, &x, mark, steps);
    begin(geo, &y, mark, steps);
    x.unit.fuse = y.unit.fuse = fuse;
    spoil(&x.unit, how);
    spoil(&y.unit, how);
    was = call(geo, &x.unit, which, 0);
    is = call(geo, &y.unit, which, 1);
    CHECK(memcmp(x.memory, y.memory, sizeof x.memory) == 0 && memcmp(x.flash, y.flash, sizeof x.flash) == 0);
    CHECK(x.unit.fuse == y.unit.fuse);
    CHECK(was == (is == -SHR_FULL || is == -SHR_COPY_DEVICE ? -SHR_NO_ROOM : is));
    return is;
}

int main(void)
{
    int which;
    for (which = WRITE; which <= THRESHOLD; which++) {
        CHECK(beside(&a, 0, "0120", SHR_ENDLESS, 0, which) == -SHR_FULL);
        CHECK(beside(&a, 0, "0120", SHR_ENDLESS, 22, which) == -SHR_WRONG);
        CHECK(beside(&a, 0, "0120", SHR_ENDLESS, 117, which) == -SHR_UNSOUND);
    }
    for (which = COLLECT; which <= THRESHOLD; which++) {
        CHECK(beside(&b, 2, "010", SHR_ENDLESS, 0, which) == -SHR_COPY_DEVICE);
        CHECK(beside(&b, 0, "010", 0, 0, which) == -SHR_COPY_DEVICE);
        CHECK(beside(&worn, 0, "00", SHR_ENDLESS, 0, which) == -SHR_DEVICE);
        CHECK(beside(&three, 0, "0120c21", SHR_ENDLESS, 0, which) == (which == COLLECT ? 0 : 1));
    }
    CHECK(beside(&three, 0, "0120c21", SHR_ENDLESS, 0, THRESHOLD_0) == 0);
    CHECK(beside(&three, 0, "0120c21", SHR_ENDLESS, 0, THRESHOLD_1) == 1);
    CHECK(beside(&b, 0, "010", 0, 0, WRITE) == -SHR_DEVICE);
    CHECK(beside(&b, 0, "010", SHR_ENDLESS, 0, WRITE) == 1);
    CHECK(strcmp(shr_refusal_text(-SHR_FULL), "full: no free page outside the bad list") == 0);
    CHECK(strcmp(shr_refusal_text(-SHR_COPY_DEVICE), "the device refused a copy") == 0);
    return 0;
}
