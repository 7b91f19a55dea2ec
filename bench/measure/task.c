#include "task.h"

#include <stdio.h>
#include <stdlib.h>
#include <string.h>

#include "../baseline/sort.h"

void lend(const struct task *t, struct lent *l)
{
    memset(l, 0x5a, sizeof *l);
    memcpy(l->store, t->store, sizeof l->store);
}

static void run_insert(const struct task *t, const struct calls *calls, struct lent *l, uint32_t i)
{
    const uint32_t *place = t->sheets.place + i;
    uint32_t added;
    if (!t->keeps)
        l->store[0] = t->store[0]; /* words past the used rows may hold anything */
    l->number = calls->insert(l->store, STORE_WORDS, t->sheets.bytes + place[0], place[1] - place[0], l->answers, SHEET_ROWS,
                              &added);
    l->value = added;
}

static void run_compare(const struct task *t, const struct calls *calls, struct lent *l, uint32_t i)
{
    uint32_t yes;
    l->number = calls->compare(l->store, STORE_WORDS, t->row[i], t->second, STORE_WORDS, t->other[i], &yes);
    l->value = yes;
}

void run_call(const struct task *t, const struct calls *calls, struct lent *l, uint32_t i)
{
    switch (t->kind) {
    case CHECK:
        l->number = calls->check(l->store, STORE_WORDS);
        break;
    case INSERT:
        run_insert(t, calls, l, i);
        break;
    case WRITE_KEY:
        l->number = calls->write_key(l->store, STORE_WORDS, t->row[i], l->key, sizeof l->key, &l->value);
        break;
    case COMPARE:
        run_compare(t, calls, l, i);
        break;
    }
}

void run_calls(const struct task *t, const struct calls *calls, struct lent *l)
{
    if (t->keeps)
        l->store[0] = t->store[0];
    for (uint32_t i = 0; i < t->calls; i++)
        run_call(t, calls, l, i);
}

double rows_of(const struct task *t)
{
    double rows = 0;
    if (t->kind != INSERT)
        return t->store[0];
    for (uint32_t i = 0; i < t->calls; i++)
        rows += two(t->sheets.bytes + t->sheets.place[i] + 5);
    return t->store[0] + rows / t->calls;
}

static const char *const names[MOST_KINDS] = {"it", "rounds in C", "Hopcroft's in C", "the library before"};

static void compare_lent(const struct task *t, uint32_t i, const struct lent *library, const struct lent *other, const char *name)
{
    if (memcmp(library, other, sizeof *library) == 0)
        return;
    fprintf(stderr, "bench: results differ: %s, call %u: the library gave %u (%zu), %s gave %u (%zu)\n", t->name, i + 1,
            library->number, library->value, name, other->number, other->value);
    exit(1);
}

static void compare_number(const struct task *t, uint32_t i, const struct lent *library)
{
    if (t->number == ANY || library->number == (uint32_t)t->number)
        return;
    fprintf(stderr, "bench: %s, call %u: the number is %u, and should be %d\n", t->name, i + 1, library->number, t->number);
    exit(1);
}

/* Call i by every kind. */
static void compare_call(const struct task *t, struct lent *lent, uint32_t i)
{
    for (int kind = 0; kind < kinds; kind++) {
        run_call(t, &calls_of[kind], &lent[kind], i);
        compare_lent(t, i, &lent[LIBRARY], &lent[kind], names[kind]);
    }
    compare_number(t, i, &lent[LIBRARY]);
}

void compare_strict(const struct task *t)
{
    static struct lent lent[BOTH];
    lend(t, &lent[PLAIN]);
    lend(t, &lent[STRICT]);
    for (uint32_t i = 0; i < t->calls; i++) {
        run_call(t, &inserts_of[PLAIN], &lent[PLAIN], i);
        run_call(t, &inserts_of[STRICT], &lent[STRICT], i);
        compare_lent(t, i, &lent[PLAIN], &lent[STRICT], "its strict insert");
        compare_number(t, i, &lent[STRICT]);
    }
}

uint32_t compare_results(const struct task *t)
{
    static struct lent lent[MOST_KINDS];
    uint32_t rounds = 0;
    for (int kind = 0; kind < kinds; kind++)
        lend(t, &lent[kind]);
    for (uint32_t i = 0; i < t->calls; i++) {
        compare_call(t, lent, i);
        rounds = rounds_taken() > rounds ? rounds_taken() : rounds;
    }
    return rounds;
}
