#ifndef CALLS_H
#define CALLS_H
#include "checks.h"

void calls_start(void);
void call(struct call *c);
void calls_report(void);
void feature(uint32_t group, uint64_t value);

#endif
