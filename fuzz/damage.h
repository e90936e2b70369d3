// Breaks one thing after a call, where the build asks for it by -DBREAK=k: the checks must report it.
#ifndef DAMAGE_H
#define DAMAGE_H
#include "rules.h"

void damage(struct call *c);
void damage_probe(uint8_t *seen);
size_t damaged_size(void);
uint32_t damaged_crc(void);

#endif
