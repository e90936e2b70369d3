// Coverage of a library that has no instrumentation: a trap at each basic block, taken out when it is first reached.
#define _GNU_SOURCE
#include "blocks.h"
#include "shr.h"
#include <signal.h>
#include <stdio.h>
#include <stdlib.h>
#include <string.h>
#include <sys/mman.h>
#include <ucontext.h>
#include <unistd.h>

#define MOST 8192
#define TRAP 0xCC
__attribute__((section("__libfuzzer_extra_counters"))) static uint8_t counters[MOST];

static struct block { uint8_t *at, old; char in[64]; bool reached; } blocks[MOST];
static size_t count;

static struct block *block_at(const uint8_t *at) {
    for (size_t i = 0; i < count; i++)
        if (blocks[i].at == at) return &blocks[i];
    return NULL;
}

static void reached(int signal, siginfo_t *info, void *context) {
    (void)signal, (void)info;
    greg_t *registers = ((ucontext_t *)context)->uc_mcontext.gregs;
    struct block *b = block_at((uint8_t *)registers[REG_RIP] - 1);
    if (!b) abort();
    *b->at = b->old;
    b->reached = true;
    counters[b - blocks] = 1;
    registers[REG_RIP]--;
}

static void plant(struct block *b) {
    uintptr_t page = (uintptr_t)b->at & ~(uintptr_t)4095;
    if (mprotect((void *)page, 4096, PROT_READ | PROT_WRITE | PROT_EXEC)) {
        perror("fuzz: traps");
        exit(2);
    }
    b->old = *b->at;
    *b->at = TRAP;
}

// The list stands beside the program; without it there are no traps.
void blocks_setup(void) {
    char path[4096] = {0};
    long offset;
    ssize_t len = readlink("/proc/self/exe", path, sizeof path - 8);
    FILE *list = len > 0 ? fopen(strcat(path, ".blocks"), "r") : NULL;
    if (!list) return;
    struct sigaction act = {.sa_sigaction = reached, .sa_flags = SA_SIGINFO};
    sigaction(SIGTRAP, &act, NULL);
    while (count < MOST && fscanf(list, "%ld %63[^\n]", &offset, blocks[count].in) == 2)
        blocks[count++].at = (uint8_t *)shr_write + offset;
    fclose(list);
    for (size_t i = 0; i < count; i++) plant(&blocks[i]);
}

// How many blocks of each function were reached.
void blocks_report(void) {
    for (size_t i = 0; i < count;) {
        size_t all = 0, some = 0, from = i;
        for (; i < count && strcmp(blocks[i].in, blocks[from].in) == 0; i++, all++) some += blocks[i].reached;
        fprintf(stderr, "blocks %4zu of %4zu  %s\n", some, all, blocks[from].in);
    }
    for (size_t i = 0; i < count && getenv("FUZZ_MISSED"); i++)
        if (!blocks[i].reached) fprintf(stderr, "missed %s %+td\n", blocks[i].in, blocks[i].at - (uint8_t *)shr_write);
}
