#include "lent.h"
#include <stdio.h>
#include <stdlib.h>
#include <string.h>
#include <sys/mman.h>

#define GUARD 4096u
#define BESIDE 64u
#define MARK 0xC9u
#define KIB 1024u

struct slice lent[SLICES] = {
    [TAB] = {.name = "tab", .elem = 4, .cap = 2048 * KIB},
    [USED] = {.name = "used", .elem = 1, .cap = 256 * KIB},
    [BYTES] = {.name = "bytes", .elem = 1, .cap = 256 * KIB},
    [MARKS] = {.name = "marks", .elem = 1, .cap = 256 * KIB},
    [COUNTS] = {.name = "counts", .elem = 4, .cap = 512 * KIB},
    [FUSE] = {.name = "fuse", .elem = 8, .cap = 4 * KIB},
    [BAD] = {.name = "bad", .elem = 1, .cap = 128 * KIB},
    [XS] = {.name = "xs", .elem = 1, .cap = 64 * KIB},
    [OUT] = {.name = "out", .elem = 1, .cap = 64 * KIB},
    [PAGE] = {.name = "page", .elem = 1, .cap = 64 * KIB},
    [SEEN] = {.name = "seen", .elem = 1, .cap = 128 * KIB},
    [ORDER] = {.name = "order", .elem = 4, .cap = 512 * KIB},
    [TAKEN] = {.name = "taken", .elem = 1, .cap = 256 * KIB},
    [CHECKPOINT] = {.name = "checkpoint", .elem = 1, .cap = 1024 * KIB},
};

static void give_memory(struct slice *x) {
    size_t room = x->cap + GUARD; // one page more, so that something can lie beside a full slice
    uint8_t *base = mmap(NULL, room + 2 * GUARD, PROT_NONE, MAP_PRIVATE | MAP_ANONYMOUS | MAP_NORESERVE, -1, 0);
    x->before = calloc(1, x->cap);
    if (base == MAP_FAILED || !x->before || mprotect(base + GUARD, room, PROT_READ | PROT_WRITE)) {
        perror("fuzz: memory for the slices");
        exit(2);
    }
    x->at = x->low = base + GUARD;
    x->high = x->low + room;
}

void lent_setup(void) {
    for (int i = 0; i < SLICES; i++) give_memory(&lent[i]);
}

// The bytes on the side without a guard page.
static uint8_t *beside(const struct slice *x) {
    return x->at_begin ? x->at + x->len * x->elem : x->at - BESIDE;
}

void lend(struct slice *x, bool at_begin) {
    x->at_begin = at_begin;
    x->at = at_begin ? x->low : x->high - x->len * x->elem;
    memcpy(x->at, x->before, x->len * x->elem);
    memset(beside(x), MARK, BESIDE);
}

bool beside_kept(const struct slice *x) {
    const uint8_t *b = beside(x);
    for (size_t i = 0; i < BESIDE; i++)
        if (b[i] != MARK) return false;
    return true;
}

bool unchanged(const struct slice *x) {
    return memcmp(x->at, x->before, x->len * x->elem) == 0;
}

// The content at exit is the next call's content at entry; what was lent beyond the kept size is dropped.
void take_back(struct slice *x) {
    size_t kept = x->len < x->size ? x->len : x->size;
    memcpy(x->before, x->at, kept * x->elem);
}
