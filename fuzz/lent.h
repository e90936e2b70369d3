// Slices as they are lent to a call: each lies against an inaccessible page, at its end or at its beginning.
#ifndef LENT_H
#define LENT_H
#include <stdbool.h>
#include <stddef.h>
#include <stdint.h>

enum { TAB, USED, BYTES, MARKS, COUNTS, FUSE, BAD, XS, OUT, PAGE, SEEN, ORDER, TAKEN, CHECKPOINT, SLICES };

struct slice {
    const char *name;
    size_t elem;    // bytes of an element
    size_t cap;     // bytes that it may have
    size_t size;    // elements that it keeps from call to call
    size_t len;     // elements lent to this call
    uint8_t *before; // its content at entry
    uint8_t *low, *high; // the accessible memory between two guard pages
    uint8_t *at;    // where it lies in this call
    bool at_begin;  // against the guard page below it, else the one above
};

extern struct slice lent[SLICES];

void lent_setup(void);
void lend(struct slice *x, bool at_begin);
bool beside_kept(const struct slice *x);
bool unchanged(const struct slice *x);
void take_back(struct slice *x);

#endif
