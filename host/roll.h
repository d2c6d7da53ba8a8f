/* A take as a piano roll in the terminal. */
#ifndef ROLL_H
#define ROLL_H

#include "pieces.h"

#include <stdio.h>

struct RollStyle {
    uint32_t columns; /* that a line may have */
    uint32_t wide;    /* columns of a beat; 0: as many as fit */
    bool ascii;
};

/* Prints the take: a row for each lane, beat lines, as many lines of beats as it needs. */
void roll_print(FILE *out, const struct View *view, struct RollStyle style);

/* Prints what the signs mean. */
void roll_legend(FILE *out, bool ascii);

#endif
