/* A take as an SVG picture. */
#ifndef PICTURE_H
#define PICTURE_H

#include "pieces.h"

#include <stdio.h>

/* Prints the picture: integers only, so that it is the same on every machine. */
void picture_print(FILE *out, const struct View *view, const char *title);

#endif
