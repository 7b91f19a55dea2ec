/* One run: the table, growth, the stack, the programs, and the goals with the figures of this run. */
#include <stdio.h>
#include <string.h>

#include "cases.h"
#include "program_cases.h"
#include "stack.h"

static struct results results;

static const struct pace whole_pace = {0.010, 7, 0.2, 3, 1.0, 8.0};
static const struct pace quick_pace = {0.002, 3, 0.02, 1, 0.2, 4.0};

static void print_goal(const char *goal, double limit, double measured, const char *where)
{
    printf("%-54s %8.2f %8.2f  %-8s %s\n", goal, limit, measured, measured <= limit ? "met" : "NOT MET", where);
}

static void print_case_goal(const char *goal, double limit, unsigned counts, int kind)
{
    const struct result *worst = worst_of(&results, counts, kind);
    print_goal(goal, limit, ratio(worst, kind), worst->name);
}

/* Beside an older library: what shallow chains may lose. */
static void print_before_goals(void)
{
    print_case_goal("shallow, 500 rows and more, over the library before", 1.05, FOR_MANY, BEFORE);
    print_case_goal("shallow, 100 rows, over the library before", 1.10, FOR_FEW, BEFORE);
}

static void print_goals(struct program_ratios programs, const struct worst_ratio *strict, const struct worst_mend *mend,
                        const struct worst_ratio *converts, const struct worst_ratio *run, size_t stack)
{
    printf("\n%-54s %8s %8s  %-8s %s\n", "Goals, each by its worst case", "at most", "here", "", "where");
    print_case_goal("check or key, shallow, over Hopcroft", 2.5, FOR_CHECK, HOPCROFT);
    print_case_goal("public insert of 5 to 60 rows, over Hopcroft", 3, FOR_INSERT, HOPCROFT);
    print_goal("program, a bundle of shallow chains, over Hopcroft", 2, programs.shallow, "");
    print_case_goal("deep chains, loops, stages, over Hopcroft", 4, FOR_DEEP, HOPCROFT);
    print_goal("program, a deep chain, then tiny sheets, over Hopcroft", 6, programs.deep, "");
    print_case_goal("sorting shallow chains, over rounds in C", 1.5, FOR_SORT, ROUNDS);
    print_goal("strict insert over plain insert, shallow", 1.5, strict->worst, strict->where);
    print_goal("mending 1,024 rows, ms", 50, 1e3 * mend->seconds, mend->where);
    print_goal("converting an old sheet, over the same in C", 2.5, converts->worst, converts->where);
    print_goal("a run of counts, over the same loop in C", 2, run->worst, run->where);
    print_goal("working memory of an insert, KiB of stack", 24, (double)stack / 1024, "");
    if (kinds > BEFORE)
        print_before_goals();
    printf("Deep chains, loops, stages over Hopcroft, the middle of the cases: %.2f (the aim is 2.0 for each)\n",
           middle_of(&results, FOR_DEEP, HOPCROFT));
    printf("Sorting shallow chains over rounds in C, the middle of the cases: %.2f (the aim is 1.0)\n",
           middle_of(&results, FOR_SORT, ROUNDS));
}

/* Words: quick or whole, a folder, the register's program, the baseline's, then words that stand before a program, if any. */
int main(int argc, char **argv)
{
    if (argc < 5) {
        fprintf(stderr, "bench: this client is started by bench/run\n");
        return 2;
    }
    int quick = strcmp(argv[1], "quick") == 0;
    struct programs programs = {argv + 5, argv[3], argv[4], argv[2], quick ? 3 : 5};
    results.pace = quick ? quick_pace : whole_pace;
    measure_shallow(&results);
    struct worst_ratio strict = measure_strict(&results.pace);
    measure_wires(&results.pace);
    measure_few(&results);
    double tiny_insert = measure_worst(&results);
    struct worst_mend mend = measure_mend(&results.pace);
    struct worst_ratio converts = measure_converts(&results.pace);
    struct worst_ratio run = measure_runs(&results.pace);
    measure_growth(&results);
    size_t stack = measure_stack();
    print_goals(measure_programs(&programs, &results.pace, tiny_insert), &strict, &mend, &converts, &run, stack);
    return 0;
}
