/* The programs: the register's and the baseline's, as processes of the same kind over the same bundle. */
#ifndef PROGRAMS_H
#define PROGRAMS_H

#include "timing.h"

struct programs {
    char **prefix;        /* words before the program, up to NULL */
    const char *register_program;
    const char *baseline_program;
    const char *folder;   /* for bundles and what is printed */
    int repeats;
};

/* CPU seconds of each program over a bundle less those over an empty one, medians; the outputs are compared. */
struct program_times {
    double register_time;
    double baseline_time;
};

struct program_times time_programs(const struct programs *p, const struct bundle *bundle);

#endif
