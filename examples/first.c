/* The fewest lines: a unit is formatted, written, saved, forgotten, restored and read. C99 and C++11. */
#include <stdio.h>

#include "shillingreed.h"

int main(void)
{
    static const struct shr_geometry geo = {4, 8, 16, 3, 20, 1000}; /* n, p, s, w, e, erase limit */
    static const uint8_t peak[4] = {'1', '.', '3', '2'};
    static uint32_t memory[256];
    static uint8_t flash[4 * 8 * 16], file[256], out[4];
    struct shr_unit unit;
    int64_t len, answer = shr_unit_lay(&geo, &unit, memory, sizeof memory, flash, sizeof flash);
    size_t i;

    if (answer == 0) answer = shr_unit_format(&geo, &unit);
    if (answer == 0) answer = shr_unit_open(&geo, &unit);
    if (answer == 0) answer = shr_unit_write_told(&geo, &unit, 5, sizeof peak, peak);
    len = answer < 0 ? answer : shr_unit_encode(&geo, &unit, file, sizeof file);
    if (len < 0) {
        printf("refused: %s\n", shr_refusal_text(len));
        return 1;
    }
    for (i = 0; i < unit.tab.len; i++) unit.tab.at[i] = 0xDEADBEEFu; /* what a power cut does to the tables */
    answer = shr_unit_restore_dead(&geo, &unit, file, (size_t)len);
    if (answer < 0) {
        printf("not restored: %s\n", shr_reason_text(answer));
        return 1;
    }
    answer = shr_unit_read(&geo, &unit, 5, sizeof out, out);
    printf("%.4s %%, from a checkpoint of %d bytes\n", answer < 0 ? "?" : (const char *)out, (int)len);
    return answer == 4 ? 0 : 1;
}
