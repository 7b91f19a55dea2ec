/* Hopcroft's sorting, n log n (the paper's algorithm 2.6): classes are split by the rows whose input j leads into a class.
 * The smaller part of a split class gets the next number, so the agenda is the numbers in order: a class that is split before
 * its turn has both parts ahead, one that has had its turn only the smaller. Memory is kept between sorts, and what must be
 * zero at the start of a sort is left zero by the one before. */
#include <string.h>

#include "sort.h"

enum { KINDS = 2 * VIEW_ROWS, EDGES = ROOM * VIEW_ROWS };

/* The rows, each class as one run, its marked rows at the run's front. */
static struct {
    uint16_t order[VIEW_ROWS]; /* the rows, run after run */
    uint16_t place[VIEW_ROWS]; /* where a row stands in the order */
    uint16_t class[VIEW_ROWS];
    uint16_t first[VIEW_ROWS];
    uint16_t past[VIEW_ROWS];
    uint16_t marked[VIEW_ROWS]; /* zero between splits */
    uint32_t classes;
} runs;

/* The first sorting: rows of the same label and input count. */
static struct {
    uint16_t kind[KINDS]; /* by hash: a class and one more, or 0 */
    uint32_t label[VIEW_ROWS];
    uint8_t counts[VIEW_ROWS];
} kinds;

/* The inputs turned round: for each position and row, the rows that have the row as that input. */
static struct {
    uint16_t inputs[VIEW_ROWS][ROOM];
    uint16_t start[EDGES + 1];
    uint16_t from[EDGES];
    uint32_t positions; /* the most inputs that a row has */
} edges;

static uint16_t touched[VIEW_ROWS], found[VIEW_ROWS];

static uint32_t hash_of(uint32_t label, uint32_t count, uint32_t mask)
{
    return (uint32_t)(((uint64_t)label << 3 | count) * 0x9e3779b97f4a7c15u >> 40) & mask;
}

/* The class of a label and an input count, a new one if it is the first. */
static uint32_t kind_of(uint32_t label, uint32_t count, uint32_t mask)
{
    uint32_t at = hash_of(label, count, mask);
    while (kinds.kind[at] != 0) {
        uint32_t k = kinds.kind[at] - 1u;
        if (kinds.label[k] == label && kinds.counts[k] == count)
            return k;
        at = (at + 1) & mask;
    }
    kinds.label[runs.classes] = label;
    kinds.counts[runs.classes] = (uint8_t)count;
    runs.past[runs.classes] = 0;
    kinds.kind[at] = (uint16_t)++runs.classes;
    return runs.classes - 1;
}

/* Room for the counts of positions that no row before had. */
static void widen(uint32_t rows, uint32_t count)
{
    if (edges.positions >= count)
        return;
    memset(edges.start + edges.positions * rows, 0, (count - edges.positions) * rows * sizeof *edges.start);
    edges.positions = count;
}

/* Row u's inputs kept, and counted by where they lead. */
static void count_inputs(uint32_t rows, uint32_t u, const struct row *row)
{
    widen(rows, row->count);
    for (uint32_t j = 0; j < row->count; j++) {
        edges.inputs[u][j] = (uint16_t)row->inputs[j];
        edges.start[j * rows + row->inputs[j]]++;
    }
}

/* Every row read once: its first class, how many rows each class has, and its inputs counted. */
static void read_rows(const struct view *v)
{
    uint32_t size = 16;
    while (size < 2 * v->rows)
        size *= 2;
    memset(kinds.kind, 0, size * sizeof *kinds.kind);
    runs.classes = 0;
    edges.positions = 0;
    for (uint32_t u = 0; u < v->rows; u++) {
        struct row row = read_row(v, u);
        uint32_t k = kind_of(row.label, row.count, size - 1);
        runs.class[u] = (uint16_t)k;
        runs.past[k]++;
        count_inputs(v->rows, u, &row);
    }
}

/* The runs of the first classes, from their sizes. */
static void lay_runs(void)
{
    uint32_t at = 0;
    for (uint32_t k = 0; k < runs.classes; k++) {
        uint32_t size = runs.past[k];
        runs.first[k] = (uint16_t)at;
        runs.past[k] = (uint16_t)at;
        at += size;
    }
}

static void fill_runs(uint32_t rows)
{
    for (uint32_t u = 0; u < rows; u++) {
        uint32_t at = runs.past[runs.class[u]]++;
        runs.order[at] = (uint16_t)u;
        runs.place[u] = (uint16_t)at;
    }
}

/* Counts made into the places past each part. */
static void lay_edges(uint32_t rows)
{
    uint32_t sum = 0, parts = edges.positions * rows;
    for (uint32_t i = 0; i < parts; i++) {
        sum += edges.start[i];
        edges.start[i] = (uint16_t)sum;
    }
    edges.start[parts] = (uint16_t)sum;
}

static void fill_edges(uint32_t rows)
{
    for (uint32_t u = rows; u-- > 0;) {
        uint32_t count = kinds.counts[runs.class[u]];
        for (uint32_t j = 0; j < count; j++)
            edges.from[--edges.start[j * rows + edges.inputs[u][j]]] = (uint16_t)u;
    }
}

static uint32_t size_of(uint32_t k)
{
    return (uint32_t)(runs.past[k] - runs.first[k]);
}

/* The rows whose input j leads into class k. A class of one row cannot be split, so its row is left out. */
static uint32_t find_rows(uint32_t rows, uint32_t k, uint32_t j)
{
    const uint16_t *start = edges.start + j * rows;
    uint32_t many = 0;
    for (uint32_t i = runs.first[k]; i < runs.past[k]; i++) {
        uint32_t v = runs.order[i];
        for (uint32_t e = start[v]; e < start[v + 1]; e++)
            if (size_of(runs.class[edges.from[e]]) > 1)
                found[many++] = edges.from[e];
    }
    return many;
}

static void stand_at(uint32_t u, uint32_t at)
{
    runs.order[at] = (uint16_t)u;
    runs.place[u] = (uint16_t)at;
}

/* The found rows marked: each changes places with the first unmarked row of its class. */
static uint32_t mark_rows(uint32_t many)
{
    uint32_t classes = 0;
    for (uint32_t i = 0; i < many; i++) {
        uint32_t u = found[i], k = runs.class[u];
        uint32_t at = (uint32_t)runs.first[k] + runs.marked[k];
        if (runs.marked[k]++ == 0)
            touched[classes++] = (uint16_t)k;
        uint32_t place = runs.place[u];
        stand_at(runs.order[at], place);
        stand_at(u, at);
    }
    return classes;
}

/* The rows from one place to another become the next class. */
static void new_class(uint32_t from, uint32_t to)
{
    uint32_t k = runs.classes++;
    runs.first[k] = (uint16_t)from;
    runs.past[k] = (uint16_t)to;
    for (uint32_t i = from; i < to; i++)
        runs.class[runs.order[i]] = (uint16_t)k;
}

/* Class k split into marked and unmarked rows: the smaller part becomes a new class. */
static void split(uint32_t k)
{
    uint32_t marked = runs.marked[k], size = size_of(k);
    uint32_t first = runs.first[k], middle = first + marked;
    runs.marked[k] = 0;
    if (marked == size)
        return;
    if (2 * marked <= size) {
        runs.first[k] = (uint16_t)middle;
        new_class(first, middle);
    } else {
        uint32_t past = runs.past[k];
        runs.past[k] = (uint16_t)middle;
        new_class(middle, past);
    }
}

static void split_by(uint32_t rows, uint32_t k, uint32_t j)
{
    uint32_t classes = mark_rows(find_rows(rows, k, j));
    for (uint32_t i = 0; i < classes; i++)
        split(touched[i]);
}

static uint32_t largest_class(void)
{
    uint32_t largest = 0;
    for (uint32_t k = 1; k < runs.classes; k++)
        if (size_of(k) > size_of(largest))
            largest = k;
    return largest;
}

/* The agenda, without the largest of the first classes: to split by all the others is to split by it too.
 * When every row is its own class, nothing is left to split. */
static void split_all(uint32_t rows)
{
    uint32_t largest = largest_class();
    for (uint32_t k = 0; k < runs.classes && runs.classes < rows; k++) {
        if (k == largest)
            continue;
        for (uint32_t j = 0; j < edges.positions; j++)
            split_by(rows, k, j);
    }
}

/* Each class by its lowest row. */
static void name_classes(uint32_t rows, uint16_t *classes)
{
    uint16_t *lowest = touched;
    for (uint32_t u = rows; u-- > 0;)
        lowest[runs.class[u]] = (uint16_t)u;
    for (uint32_t u = 0; u < rows; u++)
        classes[u] = lowest[runs.class[u]];
}

void sort_by_hopcroft(const struct view *v, uint16_t *classes)
{
    read_rows(v);
    if (runs.classes < v->rows) {
        lay_runs();
        fill_runs(v->rows);
        lay_edges(v->rows);
        fill_edges(v->rows);
        split_all(v->rows);
    }
    name_classes(v->rows, classes);
}
