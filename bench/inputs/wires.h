/* Sheets with wires, as a draughtsman's program draws them. */
#ifndef WIRES_H
#define WIRES_H

#include "sheets.h"

/* The sheet with a wire between any two boxes: each input leads to a wire of its own. The boxes keep their places, and the wires
 * stand behind them, as far as a sheet has room. */
void put_wires(struct drawn *d);

/* A hold of a channel, with so many wires in a row between them. The boxes come first. */
void draw_wires(uint32_t wires, struct drawn *d);

#endif
