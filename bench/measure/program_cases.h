/* The programs on bundles of shallow chains, and on deep chains followed by tiny sheets. */
#ifndef PROGRAM_CASES_H
#define PROGRAM_CASES_H

#include "programs.h"

/* The worse ratio on a bundle of shallow chains, and on a deep chain and tiny sheets. */
struct program_ratios {
    double shallow;
    double deep;
};

/* The library's CPU seconds for a tiny sheet tell how many of them there is time for. */
struct program_ratios measure_programs(const struct programs *p, const struct pace *pace, double tiny_insert);

#endif
