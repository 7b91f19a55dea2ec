/* Mending in its worst cases: 1,024 rows of which none is kept, or one, or all, in the order of the drawing and turned round. The
 * baselines have no mender; that it gives back the counts that it should is looked at first. */
#include <chain_register.h>
#include <stdio.h>
#include <stdlib.h>
#include <string.h>

#include "../inputs/spoiled.h"
#include "../inputs/worst.h"
#include "cases.h"

static uint32_t drawn[STORE_WORDS], store[STORE_WORDS], list[SHEET_ROWS];

/* What is kept, dropped, a wire and merged. */
struct kinds_of_rows {
    uint32_t kept, dropped, wires, merged;
};

static struct kinds_of_rows mend_once(void)
{
    struct kinds_of_rows k;
    uint32_t cleared;
    memcpy(store, drawn, sizeof store);
    if (chain_mend(store, STORE_WORDS, list, SHEET_ROWS, &k.dropped, &k.wires, &k.merged, &cleared) != CHAIN_DONE)
        k.dropped = UINT32_MAX;
    k.kept = store[0];
    return k;
}

/* The rows turned round, the last first. `renumber` would read a spoiled row's inputs, so it is done word by word. */
static void turn_rows(void)
{
    static uint32_t turned[STORE_WORDS];
    memcpy(turned, drawn, sizeof turned);
    for (uint32_t n = 0; n < STORE_ROWS; n++) {
        uint32_t *words = drawn + 1 + (STORE_ROWS - 1 - n) * ROW_WORDS;
        memcpy(words, turned + 1 + n * ROW_WORDS, ROW_WORDS * sizeof *words);
        if (words[1] == 1)
            words[2] = STORE_ROWS - 1 - words[2];
    }
}

/* A call to be timed. The store is laid anew for each, which is as nothing. */
static void mend_timed(int kind)
{
    (void)kind;
    mend_once();
}

static void measure_one(const struct pace *p, const char *name, struct kinds_of_rows wanted, struct worst_mend *worst)
{
    struct kinds_of_rows got = mend_once();
    if (memcmp(&got, &wanted, sizeof got) != 0) {
        fprintf(stderr, "bench: results differ: %s: kept %u, dropped %u, wires %u, merged %u\n", name, got.kept, got.dropped,
                got.wires, got.merged);
        exit(1);
    }
    double seconds;
    time_works(p, mend_timed, 1, &seconds);
    printf("%-46s %5u %12.1f\n", name, STORE_ROWS, 1e6 * seconds);
    fflush(stdout);
    if (seconds > worst->seconds) {
        worst->seconds = seconds;
        snprintf(worst->where, sizeof worst->where, "%s", name);
    }
}

static const struct mend_case {
    const char *name;
    void (*build)(uint32_t rows, uint32_t *store);
    struct kinds_of_rows wanted;
} mend_cases[] = {
    {"1,023 rows above a spoiled one", build_above_spoiled, {0, STORE_ROWS, 0, 0}},
    {"all rows one tree", build_one_tree, {1, 0, 0, STORE_ROWS - 1}},
    {"1,023 wires in a row", build_wires, {1, 0, STORE_ROWS - 1, 0}},
    {"a loop of wires", build_wire_loop, {0, STORE_ROWS, 0, 0}},
    {"a deep chain, sound", build_deep, {STORE_ROWS, 0, 0, 0}},
};

struct worst_mend measure_mend(const struct pace *pace)
{
    struct worst_mend worst = {0, ""};
    char name[64];
    printf("\n%-46s %5s %12s\n%-46s %5s %12s\n", "Mending", "rows", "library", "", "", "us a call");
    for (size_t i = 0; i < sizeof mend_cases / sizeof mend_cases[0]; i++) {
        const struct mend_case *c = &mend_cases[i];
        memset(drawn, 0, sizeof drawn);
        c->build(STORE_ROWS, drawn);
        measure_one(pace, c->name, c->wanted, &worst);
        turn_rows();
        snprintf(name, sizeof name, "%s, turned round", c->name);
        measure_one(pace, name, c->wanted, &worst);
    }
    return worst;
}
