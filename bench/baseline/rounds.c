/* Sorting by rounds alone, over class arrays, until a round moves no row: a round for each row of a deep chain.
 * In a round a row stays with the lowest row of its class if both have the same signature. Otherwise it joins the first row
 * found in its bucket that left the same class with the same signature, or becomes such a row itself. */
#include <string.h>

#include "sort.h"

enum { BUCKETS = 2048 };

/* The classes of the inputs side by side (16 bits each, zero for those that a row has not), label and input count. */
struct signature {
    uint64_t inputs;
    uint32_t label;
    uint32_t count;
};

struct round {
    struct view view;
    const uint16_t *old;
    uint16_t *new;
    uint16_t *next;  /* the next row of a bucket; row 0 never leaves its class, so 0 is none */
    uint16_t *start; /* the first row of each bucket; one that is its own old class is of a round before, and the bucket is empty */
};

static uint32_t taken;

static inline const uint8_t *bytes_of(const struct round *r, uint32_t u)
{
    return r->view.sheet + r->view.places[u - r->view.stored];
}

/* All four at once: an input that a row has not is zero in the store, and the class of row 0 is 0. */
static inline uint64_t classes_in_words(const struct round *r, const uint32_t *words)
{
    const uint16_t *old = r->old;
    return (uint64_t)old[words[2]] | (uint64_t)old[words[3]] << 16 | (uint64_t)old[words[4]] << 32
           | (uint64_t)old[words[5]] << 48;
}

static inline uint64_t classes_in_bytes(const struct round *r, const uint8_t *bytes)
{
    uint64_t classes = 0;
    for (uint32_t j = 0; j < bytes[4]; j++) {
        uint32_t input = r->view.stored + two(bytes + ROW_HEAD + 2 * j);
        classes |= (uint64_t)r->old[input] << 16 * j;
    }
    return classes;
}

static inline struct signature signature_of(const struct round *r, uint32_t u)
{
    struct signature s;
    if (u < r->view.stored) {
        const uint32_t *words = row_words(r->view.store, u);
        s = (struct signature){classes_in_words(r, words), words[0], words[1]};
    } else {
        const uint8_t *bytes = bytes_of(r, u);
        s = (struct signature){classes_in_bytes(r, bytes), four(bytes), bytes[4]};
    }
    return s;
}

/* Whether row h has the signature. Its inputs are looked at only where label and count are right. */
static inline int has(const struct round *r, uint32_t h, struct signature s)
{
    if (h < r->view.stored) {
        const uint32_t *words = row_words(r->view.store, h);
        return words[0] == s.label && words[1] == s.count && classes_in_words(r, words) == s.inputs;
    }
    const uint8_t *bytes = bytes_of(r, h);
    return four(bytes) == s.label && bytes[4] == s.count && classes_in_bytes(r, bytes) == s.inputs;
}

static inline uint32_t bucket_of(struct signature s)
{
    uint64_t mixed = (s.inputs ^ ((uint64_t)s.label << 3 | s.count)) * 0x9e3779b97f4a7c15u;
    return (uint32_t)(mixed >> 53);
}

/* Row u leaves its class: the row that it joins. */
static inline uint32_t leave(const struct round *r, uint32_t u, uint32_t class, struct signature s)
{
    uint32_t bucket = bucket_of(s), first = r->start[bucket];
    if (r->old[first] == first)
        first = 0;
    uint32_t h = first;
    while (h != 0 && !(r->old[h] == class && has(r, h, s)))
        h = r->next[h];
    if (h != 0)
        return h;
    r->next[u] = (uint16_t)first;
    r->start[bucket] = (uint16_t)u;
    return u;
}

static inline uint32_t place_row(const struct round *r, uint32_t u, uint32_t class)
{
    if (class == u)
        return u;
    struct signature s = signature_of(r, u);
    return has(r, class, s) ? class : leave(r, u, class, s);
}

/* Whether a row moved. The round is taken by value, so that the compiler may keep its parts at hand. */
static int run_round(const struct round *round)
{
    const struct round r = *round;
    uint32_t moved = 0;
    for (uint32_t u = 0; u < r.view.rows; u++) {
        uint32_t class = r.old[u];
        uint32_t to = place_row(&r, u, class);
        r.new[u] = (uint16_t)to;
        moved |= to ^ class;
    }
    return moved != 0;
}

void sort_by_rounds(const struct view *v, uint16_t *classes)
{
    uint16_t new[VIEW_ROWS], next[VIEW_ROWS], start[BUCKETS];
    struct round r = {*v, classes, new, next, start};
    size_t bytes = v->rows * sizeof *classes;
    memset(classes, 0, bytes);
    memset(start, 0, sizeof start);
    taken = 1;
    while (run_round(&r)) {
        memcpy(classes, new, bytes);
        taken++;
    }
}

uint32_t rounds_taken(void)
{
    return taken;
}
