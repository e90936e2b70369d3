// The rules of 01 and 02 that the checks need, written from their sentences and apart from the library.
#ifndef RULES_H
#define RULES_H
#include "lent.h"

#define EMPTY UINT32_MAX
#define ENDLESS UINT64_MAX
#define NONE SIZE_MAX
#define SHARED 9 // of unsound: mapped addresses do not differ

enum { FORMAT, OPEN, READ, WRITE, COLLECT, COLLECT_LIST, COLLECT_THRESHOLD, ENCODE, RESTORE, ENTRIES };
enum { NOT_LENT, READ_ONLY, LENT };
enum { OLD, NEW, CHOICES }; // numbers of a write or a collection: 01's, or 02's M-101's; a restore's queue: empty, or M-109's
enum { NO_ROOM, DEVICE, COPY_NO_ROOM, COPY_DEVICE, ERASE }; // why a write, and why a collection is refused when it runs

struct geo { uint64_t n, p, s, w, e, limit; };

struct call {
    int entry;
    int choice; // OLD where the entry has one name
    struct geo geo;
    uint64_t sector, length, m, threshold;
    int64_t answer;
};

// The tables as they lie in the lent words.
struct tables {
    uint32_t *map, *free, *valid, *lens, *queue, *flags, *alloc, *queued, *lists;
    uint8_t *used;
};

extern const uint8_t role[ENTRIES][SLICES];

bool is_collection(int entry);
int64_t refusal(int choice, int cause);
bool dead(const struct geo *g, const struct tables *t, size_t i);
bool good(const struct geo *g);
uint64_t right(const struct geo *g, int slice);
uint64_t checkpoint_bytes(const struct geo *g);
int wrong_size(const struct call *c);
struct tables view(const struct geo *g, void *tab, uint8_t *used);
struct tables before(const struct geo *g);
struct tables after(const struct geo *g);
int unsound(const struct geo *g, const struct tables *t);
size_t page_of(const struct geo *g, uint32_t word);
size_t find(const struct geo *g, const struct tables *t, const uint8_t *bad);
bool marked_above(const struct geo *g, const uint8_t *marks, size_t a);
uint64_t total_free(const struct geo *g, const struct tables *t);
uint64_t room(const struct geo *g, const struct tables *t, const uint8_t *bad);
uint32_t word_at(const uint8_t *x);
uint64_t long_at(const uint8_t *x);
void put_word(uint8_t *x, uint32_t v);
void put_long(uint8_t *x, uint64_t v);
uint32_t crc32_of(const uint8_t *x, size_t len);
uint32_t file_crc(const uint8_t *file, size_t len);
int reason(const struct geo *g, const uint8_t *file, size_t len);

#endif
