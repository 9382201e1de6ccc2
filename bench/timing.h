/* How the benchmarks of the search measure: the lines that they print, and their main. One includes this, sets TURNS, the calls
   that it makes of a case, and defines the five functions that are declared here alone. */
#ifndef TIMING_H
#define TIMING_H

#include <stdio.h>
#include <stdlib.h>
#include "cases.h"
#include "clock.h"

static void fill(const struct one *c); /* the tables of a case */
static void again(void); /* as fill has left them */
static size_t call(int turn, size_t page);
static void check(const struct one *c, int turn, size_t result); /* ends the program if the call did anything else */
static void measure(const struct one *cases, double wanted);

/* A case, and the nanoseconds of each side behind it. */
static void print(const struct one *c, const double *nanoseconds, int sides, int digits)
{
    printf("%s\t%zu\t%s", c->by, c->distance, c->side);
    for (int side = 0; side < sides; side++)
        printf("\t%.*f", digits, nanoseconds[side]);
    printf("\n");
}

/* Each call of each case once, for callgrind to count, a file for each. */
static void count(const struct one *cases)
{
    fill(cases);
    for (int turn = 0; turn < TURNS; turn++) { /* so that no first call of a library function is counted */
        again();
        check(cases, turn, call(turn, cases->page));
    }
    for (int n = 0; n < CASES; n++) {
        fill(&cases[n]);
        for (int turn = 0; turn < TURNS; turn++) {
            again();
            callgrind(START);
            size_t result = call(turn, cases[n].page);
            callgrind(STOP);
            callgrind(DUMP);
            check(&cases[n], turn, result);
        }
        print(&cases[n], NULL, 0, 0);
    }
}

int main(int words, char **word)
{
    static struct one cases[CASES];
    list(cases);
    if (words > 1)
        measure(cases, atof(word[1]));
    else
        count(cases);
    return 0;
}

#endif
