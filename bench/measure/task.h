/* A task: calls of one operation over prepared inputs, the same for every kind of calls. */
#ifndef TASK_H
#define TASK_H

#include "../inputs/sheets.h"
#include "calls.h"

enum operation_kind { CHECK, INSERT, WRITE_KEY, COMPARE };

enum { MOST_CALLS = 16, ANY = -1 };

struct task {
    char name[64];
    enum operation_kind kind;
    uint32_t store[STORE_WORDS];
    uint32_t second[STORE_WORDS];             /* the other store, for COMPARE */
    struct bundle sheets;                     /* a call for each, for INSERT */
    uint32_t row[MOST_CALLS], other[MOST_CALLS]; /* for WRITE_KEY and COMPARE */
    uint32_t calls;
    int number; /* what each call must give back, so that no refusal is measured for an insert; or ANY */
    int keeps;  /* an insert leaves its rows for the next, instead of starting from the same store */
};

/* What a call is lent, and what it gives back. */
struct lent {
    uint32_t store[STORE_WORDS];
    uint32_t answers[SHEET_ROWS];
    uint8_t key[SHEET_BYTES];
    uint32_t number;
    size_t value;
};

/* Lent memory as the first call finds it. */
void lend(const struct task *t, struct lent *l);

/* Call i of the task. */
void run_call(const struct task *t, const struct calls *calls, struct lent *l, uint32_t i);

/* All calls of the task, from the first. */
void run_calls(const struct task *t, const struct calls *calls, struct lent *l);

/* Rows that a call sorts, store and sheet together, on the average. */
double rows_of(const struct task *t);

/* Every call by every kind, and all that it gives back compared. A difference ends the program with status 1.
 * The most rounds that the rounds in C took for a call. */
uint32_t compare_results(const struct task *t);

/* The strict insert beside the plain one, for a task of inserts that it does not refuse. */
void compare_strict(const struct task *t);

#endif
