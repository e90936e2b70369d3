// What is checked after a call: the answer, what a refusal leaves, what a success leaves.
#ifndef CHECKS_H
#define CHECKS_H
#include "rules.h"

// An answer that the rules settle only with the end content: that of a collection that runs.
#define OPEN_ANSWER INT64_MIN

struct verdict {
    int64_t answer; // what the rules expect, or OPEN_ANSWER
    int cause;      // why, for the features
    bool idle;      // a collection that runs nothing
};

struct verdict expected(const struct call *c);
void check(const struct call *c, const struct verdict *v);
void check_collection(const struct call *c);
_Noreturn void failed(const struct call *c, const char *what);

#define DEMAND(c, ok, what)                                                                                            \
    do {                                                                                                               \
        if (!(ok)) failed(c, what);                                                                                    \
    } while (0)

extern const char *const entry_name[CHOICES][ENTRIES]; // no name: the entry has no such choice

#endif
