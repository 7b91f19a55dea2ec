/* Sorting the rows of a view: rows of the same tree get the same class, and a class is the lowest row of it. */
#ifndef SORT_H
#define SORT_H

#include "view.h"

typedef void sorter(const struct view *v, uint16_t *classes);

sorter sort_by_rounds;
sorter sort_by_hopcroft;

/* How many rounds the last sort by rounds took: it tells how deep rows had to be looked at. */
uint32_t rounds_taken(void);

#endif
