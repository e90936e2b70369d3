// The answer that 01 and 02 give for an entry and everything lent to it.
#include "checks.h"

static struct verdict says(int64_t answer, int cause) {
    return (struct verdict){.answer = answer, .cause = cause};
}

static struct verdict expected_transfer(const struct call *c, const struct tables *t) {
    const struct geo *g = &c->geo;
    uint64_t l = c->sector / g->s;
    if (l >= g->e) return says(-22, 40);
    if (c->sector % g->s + c->length > g->s) return says(-22, 41);
    if (c->entry == READ) return t->map[l] == EMPTY ? says(-61, 42) : says((int64_t)c->length, 43);
    size_t a = find(g, t, lent[BAD].before);
    int64_t device = refusal(c->choice, DEVICE);
    if (a == NONE) return says(refusal(c->choice, NO_ROOM), 44);
    if (*(uint64_t *)lent[FUSE].before == 0) return says(device, 45);
    if (lent[MARKS].before[a]) return says(device, 46);
    if (marked_above(g, lent[MARKS].before, a)) return says(device, 49);
    return says((int64_t)c->length, t->map[l] == EMPTY ? 47 : 48);
}

static struct verdict expected_collection(const struct call *c, const struct tables *t) {
    struct verdict v = says(OPEN_ANSWER, 50);
    bool above = c->entry == COLLECT_THRESHOLD && total_free(&c->geo, t) > c->threshold;
    bool none = c->entry != COLLECT && c->m == 0;
    if (above || none || *t->queued == 0) {
        v.answer = 0;
        v.idle = true;
        v.cause = above ? 51 : none ? 52 : 53;
    }
    return v;
}

struct verdict expected(const struct call *c) {
    int wrong = wrong_size(c);
    if (wrong) return says(-22, wrong);
    if (c->entry == FORMAT || c->entry == OPEN) return says(0, 0);
    if (c->entry == RESTORE) {
        int why = reason(&c->geo, lent[CHECKPOINT].before, lent[CHECKPOINT].len);
        return says(-why, 54 + why);
    }
    struct tables t = before(&c->geo);
    int broken = unsound(&c->geo, &t);
    if (broken) return says(-117, 20 + broken);
    if (is_collection(c->entry)) return expected_collection(c, &t);
    if (c->entry == ENCODE) return says((int64_t)checkpoint_bytes(&c->geo), 0);
    return expected_transfer(c, &t);
}
