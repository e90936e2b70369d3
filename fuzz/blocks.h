#ifndef BLOCKS_H
#define BLOCKS_H
#include <stdbool.h>
#include <stdint.h>

void blocks_setup(void);
void blocks_report(void);

#endif
