#include "input.h"

static const uint8_t *next, *end;

void input_start(const uint8_t *data, size_t size) {
    next = data;
    end = data + size;
}

bool input_ended(void) {
    return next == end;
}

uint8_t byte(void) {
    return next == end ? 0 : *next++;
}

static uint64_t bytes(int count) {
    uint64_t x = 0;
    for (int i = 0; i < count; i++) x |= (uint64_t)byte() << 8 * i;
    return x;
}

// A number from 0 to most.
uint64_t within(uint64_t most) {
    uint64_t x = bytes(most < 256 ? 1 : most < 65536 ? 2 : 4);
    return most == UINT64_MAX ? x : x % (most + 1);
}

// Any number: often from 0 to most, sometimes beside most, sometimes an edge, sometimes 64 arbitrary bits.
uint64_t number(uint64_t most) {
    static const uint64_t edges[16] = {
        0,          1,          255,        256,        1024,           1025,           16384,          65535,
        65536,      INT32_MAX,  UINT32_MAX, 1ull << 32, INT64_MAX,      1ull << 63,     UINT64_MAX - 1, UINT64_MAX};
    uint8_t kind = byte();
    if (kind < 200) return most < 200 ? kind % (most + 1) : within(most);
    if (kind < 228) return most + kind % 5 - 2;
    if (kind < 244) return edges[kind % 16];
    return bytes(8);
}
