// Numbers drawn from the input's bytes; past its end every byte is 0.
#ifndef INPUT_H
#define INPUT_H
#include <stdbool.h>
#include <stddef.h>
#include <stdint.h>

void input_start(const uint8_t *data, size_t size);
bool input_ended(void);
uint8_t byte(void);
uint64_t number(uint64_t most);
uint64_t within(uint64_t most);

#endif
