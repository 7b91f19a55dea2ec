/* Calls on a few rows, where a call's own costs weigh most: a check of the rows, and an insert of them into an empty store. */
#include <stdio.h>

#include "../inputs/shallow.h"
#include "cases.h"

static struct task task;
static struct drawn drawn;

static void measure_as(struct results *r, enum operation_kind kind, const char *what, uint32_t rows)
{
    snprintf(task.name, sizeof task.name, "%s of %u rows", what, rows);
    task.kind = kind;
    task.calls = 1;
    print_result(measure(r, &task, 0));
}

static void measure_rows(struct results *r, uint32_t rows)
{
    static struct site site;
    open_site(&site, 23, 0);
    build_shallow(&site, rows, task.store);
    draw_store(task.store, &drawn);
    task.sheets.sheets = 0;
    add_sheet(&task.sheets, &drawn, MOST_BUNDLE);
    measure_as(r, CHECK, "check", rows);
    task.store[0] = 0;
    measure_as(r, INSERT, "insert", rows);
}

void measure_few(struct results *r)
{
    print_head("Calls on a few rows");
    measure_rows(r, 0);
    measure_rows(r, 5);
    measure_rows(r, 10);
}
