/* The worst cases: stores in which rows must be looked at very deep, or of which there is nothing to share. */
#ifndef WORST_H
#define WORST_H

#include "sheets.h"

/* So many rows: holds one on another, and a channel at the end. Root first. */
void build_deep(uint32_t rows, uint32_t *store);

/* So many rows: a loop of holds in which one row is a scale by some setting. */
void build_loop(uint32_t rows, uint32_t setting, uint32_t *store);

/* So many rows: holds one on another, half of them, and the last leads into such a loop. It leads past the scale, as the loop has
 * a hold before each of its other rows already. */
void build_above_loop(uint32_t rows, uint32_t *store);

/* So many smoothing stages in series, of four rows each, and the channel that is smoothed. A stage sums its scaled input and its
 * own value, held and scaled: a loop. All stages have the same settings. Last stage first. */
void build_stages(uint32_t stages, uint32_t *store);

/* So many rows: negated, more by channel 0, less by channel 1 and so on, each of the row behind it, and the two channels at the
 * end. No loop and no hold, so that every tick goes through all of them. Root first. */
void build_straight(uint32_t rows, uint32_t *store);

/* So many rows: a loop of sums, each of the next row and of itself, in which one row is a difference. */
void build_ring(uint32_t rows, uint32_t *store);

/* So many different channels, their settings from a number on. */
void build_channels(uint32_t rows, uint32_t from, uint32_t *store);

/* So many rows: holds one on another, and at the end a channel that deep stores have not. Root first. */
void draw_deep_beside(uint32_t rows, struct drawn *d);

/* Tiny sheets of one to three rows for a deep store: its channel, or one or two of its holds, and now and then a constant that it
 * has not. */
void draw_tiny(struct chance *c, struct drawn *d);

/* Orders in which rows can be put. */
void same_order(uint16_t *order, uint32_t rows);
void turned_order(uint16_t *order, uint32_t rows);

#endif
