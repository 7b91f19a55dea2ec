/* Stores of so many rows that are long to mend. Root first: each row is above the one behind it. */
#ifndef SPOILED_H
#define SPOILED_H

#include "sheets.h"

/* Holds one on another, and a row of five inputs at the end: a round that looks at the rows in order drops one of them. */
void build_above_spoiled(uint32_t rows, uint32_t *store);

/* A loop of holds and nothing else: all rows have one tree. */
void build_one_tree(uint32_t rows, uint32_t *store);

/* Wires one on another, and a channel at the end. */
void build_wires(uint32_t rows, uint32_t *store);

/* Wires round in a loop. */
void build_wire_loop(uint32_t rows, uint32_t *store);

#endif
