/* Chains as sites draw them: 5 to 60 rows on a sheet, 10 to 30 deep (a smaller sheet is as deep as it has rows), with small
 * loops through holds. Settings are few, as a site's channels and constants are.
 * A site draws every sheet anew, or copies: then every other sheet, by chance, is the one before it with one channel or
 * constant changed, as for the next hood. Such chains agree down to that row, so that many more rounds are needed. */
#ifndef SHALLOW_H
#define SHALLOW_H

#include "sheets.h"

struct site {
    struct chance chance;
    int copies;
    struct drawn last;
};

/* A site that has drawn nothing yet. The same seed draws the same sheets. */
void open_site(struct site *s, uint64_t seed, int copies);

/* The next sheet of a site, of at most so many rows (60 at the most). */
void draw_chain(struct site *s, uint32_t most, struct drawn *d);

/* One input in eight leads past the row that it led to, to that row's first input, so that chains drawn alike differ. No hold is
 * passed by, so that every loop keeps one. */
void lead_past(struct chance *c, struct drawn *d);

/* One input in eight names some row of a store of so many rows instead, as in old sheets, which cannot be reordered. */
void lead_into_store(struct chance *c, uint32_t stored, struct drawn *d);

/* The rows in some other order. */
void draw_again(struct chance *c, struct drawn *d);

/* Settings of channels brought to 0 to 7, as a trace has them. */
void read_eight_channels(struct drawn *d);

/* A store of exactly so many rows, from sheet after sheet. */
void build_shallow(struct site *s, uint32_t rows, uint32_t *store);

#endif
