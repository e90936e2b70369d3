/*
 * The header's looks into the tables: on tables that hold anything, with any geometry, length and index, nothing is read outside a slice
 * (the address sanitizer sees it, for every slice is a block of its own), and every answer has its bounds; on sound tables the victim is
 * the segment that the next collection takes.
 */
#include <stdio.h>
#include <stdlib.h>
#include <string.h>

#include "shillingreed.h"

#define CHECK(x) ((x) ? (void)0 : (fprintf(stderr, "damaged: line %d: %s\n", __LINE__, #x), exit(1)))
#define COUNT(xs) (sizeof(xs) / sizeof *(xs))

static const struct shr_geometry shapes[] = {{1, 1, 1, 0, 1, 9}, {5, 1, 4, 16, 3, 9}, {4, 3, 4, 2, 6, 9}, {6, 4, 8, 2, 24, 9}};

static uint32_t any(void)
{
    static uint64_t seed = 88172645463325252u;
    seed ^= seed << 13;
    seed ^= seed >> 7;
    seed ^= seed << 17;
    return (uint32_t)(seed >> 16);
}

static void *block(size_t size)
{
    void *x = malloc(size > 0 ? size : 1);
    CHECK(x != NULL);
    return x;
}

/* ---- looks */

/* The victim by its definition, of the words themselves; n without one. */
static size_t victim_of(const struct shr_geometry *geo, const uint32_t *tab)
{
    const uint32_t *valid = tab + geo->e + geo->n, *queue = tab + geo->e + 3 * geo->n;
    size_t i, len = tab[geo->e + 5 * geo->n + 1], best = geo->n;
    for (i = len < geo->n ? len : geo->n; i-- > 0;)
        if (queue[i] < geo->n && (best == geo->n || valid[queue[i]] <= valid[best])) best = queue[i];
    return best;
}

/* Index i of everything: inside `n` and `e` any word, outside nothing. */
static void look_at(const struct shr_geometry *geo, const struct shr_unit *u, size_t n, size_t e, size_t i)
{
    size_t k, listed = shr_unit_listed(geo, u, i);
    uint32_t word = shr_unit_map(geo, u, i);
    CHECK(i < e || word == SHR_EMPTY);
    CHECK(shr_segment_of(geo, word) <= geo->n && shr_page_of(geo, word) <= geo->p);
    CHECK(shr_segment_of(geo, (uint32_t)i) <= geo->n && shr_page_of(geo, (uint32_t)i) <= geo->p);
    CHECK(i < n || (shr_unit_free(geo, u, i) | shr_unit_valid(geo, u, i) | shr_unit_flag(geo, u, i)) == 0);
    CHECK(listed <= (i < n ? geo->p : 0));
    for (k = 0; k < listed; k++) CHECK(shr_unit_list(geo, u, i, k) == u->tab.at[e + 5 * n + 2 + i * geo->p + k]);
    CHECK(shr_unit_list(geo, u, i, listed) == SHR_EMPTY && shr_unit_list(geo, u, i, SIZE_MAX) == SHR_EMPTY);
    CHECK(i < geo->p || shr_unit_list(geo, u, 0, i) == SHR_EMPTY);
    CHECK(i < shr_unit_queued(geo, u) || shr_unit_queue(geo, u, i) == SHR_EMPTY);
    if (i < shr_unit_queued(geo, u)) CHECK(shr_unit_queue(geo, u, i) == u->tab.at[e + 3 * n + i]);
}

/* Every helper with every index. Where tab has not its size there is nothing. */
static void look(const struct shr_geometry *geo, const struct shr_unit *u)
{
    static const size_t far[] = {65535, 65536, 0x7FFFFFFF, SHR_EMPTY, SHR_EMPTY + (size_t)1, SIZE_MAX / 4, SIZE_MAX - 1, SIZE_MAX};
    int laid = u->tab.len > 0 && u->tab.len == shr_tab_words(geo->n, geo->p, geo->s, geo->w, geo->e, geo->limit);
    size_t i, n = laid ? geo->n : 0, e = laid ? geo->e : 0;
    CHECK(shr_unit_queued(geo, u) <= n);
    CHECK(shr_unit_victim(geo, u) == (laid ? victim_of(geo, u->tab.at) : geo->n));
    CHECK(shr_unit_alloc(geo, u) == (laid ? u->tab.at[e + 5 * n] : SHR_EMPTY));
    CHECK(shr_unit_room(geo, u) <= (size_t)SHR_EMPTY * n);
    for (i = 0; i < u->tab.len + 3; i++) look_at(geo, u, n, e, i);
    for (i = 0; i < COUNT(far); i++) look_at(geo, u, n, e, far[i]);
}

/* ---- damage */

static void fill(struct shr_unit *u, uint32_t word)
{
    size_t i;
    for (i = 0; i < u->tab.len; i++) u->tab.at[i] = word;
}

static void other_words(const struct shr_geometry *geo, struct shr_unit *u, const uint32_t *sound)
{
    const uint32_t n = (uint32_t)geo->n, p = (uint32_t)geo->p;
    const uint32_t words[] = {0, 1, p, p + 1, n - 1, n, n + 1, (uint32_t)geo->e, 0x7FFFFFFF, SHR_EMPTY};
    uint32_t *queue = u->tab.at + geo->e + 3 * geo->n, *queued = queue + 2 * geo->n + 1, mask;
    size_t i, k;
    for (i = 0; i < u->tab.len; i++) {
        for (k = 0; k < COUNT(words); k++) {
            memcpy(u->tab.at, sound, u->tab.len * sizeof *sound);
            u->tab.at[i] = words[k];
            look(geo, u);
        }
    }
    for (k = 0; k < COUNT(words); k++) {
        fill(u, words[k]);
        look(geo, u);
        *queued = 0x7FFFFFFF;
        look(geo, u);
    }
    CHECK(shr_unit_victim(geo, u) == geo->n && shr_unit_queued(geo, u) == geo->n && shr_unit_listed(geo, u, 0) == geo->p);
    for (i = 0; i < geo->n; i++) queue[i] = n;
    CHECK(shr_unit_victim(geo, u) == geo->n);
    queue[n - 1] = n - 1;
    CHECK(shr_unit_victim(geo, u) == geo->n - 1);
    for (k = 0; k < 300; k++) {
        mask = SHR_EMPTY >> any() % 32;
        for (i = 0; i < u->tab.len; i++) u->tab.at[i] = any() & mask;
        look(geo, u);
    }
}

/* Blocks of other lengths, with the words of sound tables or none. */
static void other_lengths(const struct shr_geometry *geo, const struct shr_unit *u, const uint32_t *sound)
{
    struct shr_unit v = *u;
    for (v.tab.len = 0; v.tab.len < u->tab.len + 3; v.tab.len++) {
        v.tab.at = (uint32_t *)block(v.tab.len * sizeof *sound);
        fill(&v, 0);
        look(geo, &v);
        memcpy(v.tab.at, sound, (v.tab.len < u->tab.len ? v.tab.len : u->tab.len) * sizeof *sound);
        look(geo, &v);
        free(v.tab.at);
    }
    v.tab = u->tab;
    for (v.bad.len = 0; v.bad.len < geo->n + 2; v.bad.len++) {
        v.bad.at = (uint8_t *)block(v.bad.len);
        memset(v.bad.at, 0, v.bad.len);
        CHECK(shr_unit_room(geo, &v) <= shr_unit_room(geo, u));
        look(geo, &v);
        free(v.bad.at);
    }
}

static void other_geometries(const struct shr_geometry *geo, const struct shr_unit *u)
{
    static const struct shr_unit none; /* not laid out */
    static const size_t numbers[] = {0, 1, 2, 7, 16, 17, 31, 32, 63, 64, 65, 1025, 65536, (size_t)1 << 32, SIZE_MAX / 5, SIZE_MAX};
    size_t i, k;
    for (i = 0; i < COUNT(numbers); i++) {
        for (k = 1; k < 64; k++) {
            struct shr_geometry other = *geo;
            if (k & 1) other.n = numbers[i];
            if (k & 2) other.p = numbers[i];
            if (k & 4) other.s = numbers[i];
            if (k & 8) other.w = numbers[i];
            if (k & 16) other.e = numbers[i];
            if (k & 32) other.limit = numbers[i];
            look(&other, u);
            look(&other, &none);
        }
    }
}

/* ---- sound tables */

static int is_queued(const struct shr_geometry *geo, const struct shr_unit *u, size_t g)
{
    size_t i;
    for (i = 0; i < shr_unit_queued(geo, u); i++)
        if (shr_unit_queue(geo, u, i) == g) return 1;
    return 0;
}

/* One collection takes the victim, and no other segment: accepted, its count alone rises; refused, it alone is off the queue. */
static void collect(const struct shr_geometry *geo, struct shr_unit *u, unsigned long taken[2])
{
    size_t g, victim = shr_unit_victim(geo, u), queued = shr_unit_queued(geo, u);
    uint32_t counts[8];
    int64_t answer;
    memcpy(counts, u->counts.at, geo->n * sizeof *counts);
    answer = shr_unit_collect(geo, u);
    CHECK(answer == 0 || (victim < geo->n && (answer == -SHR_NO_ROOM || answer == -SHR_DEVICE)));
    for (g = 0; g < geo->n; g++) CHECK(u->counts.at[g] == counts[g] + (answer == 0 && g == victim));
    CHECK(shr_unit_queued(geo, u) == queued - (victim < geo->n) && !is_queued(geo, u, victim));
    CHECK(shr_unit_flag(geo, u, victim) == (answer < 0));
    if (victim < geo->n) taken[answer < 0]++;
}

static void sound_tables(const struct shr_geometry *geo, struct shr_unit *u, unsigned long taken[2])
{
    static const uint8_t peak[1] = {7};
    int i, k;
    for (i = 0; i < 200; i++) {
        CHECK(shr_unit_format(geo, u) == 0 && shr_unit_open(geo, u) == 0);
        for (k = 0; k < 40; k++) {
            size_t sector = any() % geo->e * geo->s;
            if (any() % 4 == 0) collect(geo, u, taken);
            else (void)shr_unit_write(geo, u, sector, any() % 2, peak);
            if (any() % 9 == 0) u->marks.at[any() % u->marks.len] = 1; /* a page that refuses */
            CHECK(shr_unit_victim(geo, u) == victim_of(geo, u->tab.at));
        }
        look(geo, u);
    }
}

int main(void)
{
    unsigned long taken[2] = {0, 0};
    size_t i;
    for (i = 0; i < COUNT(shapes); i++) {
        const struct shr_geometry *geo = &shapes[i];
        size_t size = shr_unit_memory(geo), flash_size = shr_unit_flash(geo);
        void *memory = block(size);
        uint8_t *flash = (uint8_t *)block(flash_size);
        struct shr_unit u;
        uint32_t *sound;
        CHECK(shr_unit_lay(geo, &u, memory, size, flash, flash_size) == 0);
        u.tab.at = (uint32_t *)block(u.tab.len * sizeof *u.tab.at);
        u.bad.at = (uint8_t *)block(u.bad.len);
        memset(u.tab.at, 0, u.tab.len * sizeof *u.tab.at);
        memset(u.bad.at, 0, u.bad.len);
        sound_tables(geo, &u, taken);
        sound = (uint32_t *)block(u.tab.len * sizeof *sound);
        memcpy(sound, u.tab.at, u.tab.len * sizeof *sound);
        other_geometries(geo, &u);
        other_lengths(geo, &u, sound);
        other_words(geo, &u, sound);
        free(sound);
        free(u.bad.at);
        free(u.tab.at);
        free(flash);
        free(memory);
    }
    CHECK(taken[0] > 100 && taken[1] > 100);
    CHECK(strcmp(shr_refusal_text(INT64_MIN), "no refusal of this library") == 0);
    CHECK(strcmp(shr_reason_text(-SHR_REASON_CRC), "checksum does not fit") == 0);
    printf("damaged: ok, %lu segments taken, %lu refused\n", taken[0], taken[1]);
    return 0;
}
