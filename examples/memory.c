/*
 * The memory that a geometry takes, from the library's own sizes: rows of a table in docs/USING.md.
 *
 *   memory            the three parts of docs/USING.md
 *   memory n p s w e  another
 */
#include <stdio.h>
#include <stdlib.h>

#include "shillingreed.h"

/* A number with its thousands apart. */
static const char *apart(size_t x, char *out)
{
    char digits[32];
    int len = snprintf(digits, sizeof digits, "%zu", x), i, at = 0;
    for (i = 0; i < len; i++) {
        if (i > 0 && (len - i) % 3 == 0) out[at++] = ',';
        out[at++] = digits[i];
    }
    out[at] = 0;
    return out;
}

static void row(const char *name, const struct shr_geometry *g)
{
    char a[48], b[48], c[48], d[48], e[48];
    size_t tables = 4 * shr_tab_words(g->n, g->p, g->s, g->w, g->e, g->limit) + shr_used_bytes(g->n, g->p, g->s, g->w, g->e, g->limit);
    size_t scratch = shr_page_bytes(g->n, g->p, g->s, g->w, g->e, g->limit) + shr_seen_bytes(g->n, g->p, g->s, g->w, g->e, g->limit) +
                     4 * shr_order_words(g->n, g->p, g->s, g->w, g->e, g->limit) + shr_taken_bytes(g->n, g->p, g->s, g->w, g->e, g->limit);
    if (tables == 0) {
        printf("| %s | refused: 22 |\n", name);
        exit(1);
    }
    printf("| %s | %s | %s | %s | %s | %s |\n", name, apart(tables, a), apart(scratch, b), apart(shr_unit_memory(g), c),
           apart(shr_unit_checkpoint(g), d), apart(shr_unit_flash(g), e));
}

int main(int argc, char **argv)
{
    static const struct shr_geometry nor = {2048, 16, 256, 4, 28672, 100000};
    static const struct shr_geometry slc = {1024, 64, 2048, 6, 57344, 100000};
    static const struct shr_geometry large = {4096, 64, 4096, 6, 229376, 100000};
    if (argc == 6) {
        struct shr_geometry own = {0, 0, 0, 0, 0, 0};
        own.n = strtoull(argv[1], NULL, 10);
        own.p = strtoull(argv[2], NULL, 10);
        own.s = strtoull(argv[3], NULL, 10);
        own.w = strtoull(argv[4], NULL, 10);
        own.e = strtoull(argv[5], NULL, 10);
        row("own", &own);
        return 0;
    }
    row("SPI NOR, 8 MiB", &nor);
    row("SLC NAND, 128 MiB", &slc);
    row("SLC NAND, 1 GiB", &large);
    return 0;
}
