/* The shape of a store: all of sound but that no two rows have the same tree. */
#ifndef SHAPE_H
#define SHAPE_H

#include "layout.h"

/* Rows for which a run of words has room. */
uint32_t capacity_of(size_t words);

/* 0, or the number of the refusal (1 or 2). */
uint32_t shape_of(const uint32_t *store, size_t words);

#endif
