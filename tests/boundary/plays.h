/* Each call over many inputs, to be run on a measured stack. */
#ifndef PLAYS_H
#define PLAYS_H

#include "boundary.h"

/* A call: its play; its result and arguments by value, and the header's figure, in bytes. */
typedef struct {
    const tally *numbers;
    void (*play)(void);
    size_t by_value, header;
} measured;

enum { CALLS = 9 };
extern const measured calls[CALLS];
extern unsigned met; /* a bit for each number answered */

void make_inputs(void);
void use_engine(bool real); /* otherwise functions with the same arguments that do nothing */

#endif
