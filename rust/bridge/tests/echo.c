/* States between C and the proved library.
 *
 * 'echo layout' prints the size of every struct of the header, and of every field its place, the
 * width of an entry and the number of entries. 'echo state' reads a number for every entry of a state
 * in that order, has the library echo the state and prints what comes back, field by field. */

#include "cup.h"
#include <inttypes.h>
#include <stdio.h>
#include <stdlib.h>
#include <string.h>

/* The path of every field, as ONE(path) or MANY(path). */
#define FIELDS(ONE, MANY) \
    ONE(plan.horizon) \
    ONE(plan.counts.n) ONE(plan.counts.m) ONE(plan.counts.k) ONE(plan.counts.links) \
    ONE(plan.counts.commands) \
    MANY(plan.integrators.starts) MANY(plan.integrators.quanta) \
    MANY(plan.inputs.firsts) \
    MANY(plan.nodes.kinds) MANY(plan.nodes.a) MANY(plan.nodes.b) MANY(plan.nodes.lows) \
    MANY(plan.nodes.highs) \
    MANY(plan.links.targets) MANY(plan.links.sources) MANY(plan.links.coefficients) \
    MANY(plan.commands.ticks) MANY(plan.commands.inputs) MANY(plan.commands.values) \
    MANY(run.x) MANY(run.q) MANY(run.s) MANY(run.l) MANY(run.d) MANY(run.inputs) \
    ONE(run.clocks.clock) ONE(run.clocks.next) ONE(run.clocks.instants) ONE(run.clocks.updates)

#define COUNT(array) (sizeof(array) / sizeof(array)[0])

static CupState state;

static void print_layout(void)
{
#define SIZE(type) printf("%s %zu\n", #type, sizeof(type));
#define INNER(type, field) printf("%s.%s %zu\n", #type, #field, offsetof(type, field));
    SIZE(CupPlan) SIZE(CupRunning) SIZE(CupState) SIZE(CupLoaded) SIZE(CupWritten) SIZE(CupRan)
    SIZE(CupPositioned) SIZE(CupTables)
    INNER(CupLoaded, number) INNER(CupLoaded, entry) INNER(CupLoaded, state)
    INNER(CupWritten, number) INNER(CupWritten, length) INNER(CupWritten, state)
    INNER(CupRan, number) INNER(CupRan, status) INNER(CupRan, integrator) INNER(CupRan, written)
    INNER(CupRan, state)
    INNER(CupPositioned, number) INNER(CupPositioned, value) INNER(CupPositioned, state)
    INNER(CupTables, ranges) INNER(CupTables, reach) INNER(CupTables, values)
#define PLACE_ONE(path) \
    printf("%s %zu %zu 1\n", #path, offsetof(CupState, path), sizeof state.path);
#define PLACE_MANY(path) \
    printf("%s %zu %zu %zu\n", #path, offsetof(CupState, path), sizeof state.path[0], \
           COUNT(state.path));
    FIELDS(PLACE_ONE, PLACE_MANY)
}

static uint64_t number(void)
{
    uint64_t read = 0;
    if (scanf("%" SCNu64, &read) != 1) {
        fprintf(stderr, "too few numbers\n");
        exit(1);
    }
    return read;
}

static void echo_state(void)
{
#define FILL_ONE(path) state.path = number();
#define FILL_MANY(path) \
    for (size_t entry = 0; entry < COUNT(state.path); entry++) \
        state.path[entry] = number();
    FIELDS(FILL_ONE, FILL_MANY)
    state = cup_echo(state);
#define PRINT_ONE(path) printf("%s %" PRIu64 "\n", #path, (uint64_t)state.path);
#define PRINT_MANY(path) \
    printf("%s", #path); \
    for (size_t entry = 0; entry < COUNT(state.path); entry++) \
        printf(" %" PRIu64, (uint64_t)state.path[entry]); \
    printf("\n");
    FIELDS(PRINT_ONE, PRINT_MANY)
}

int main(int argc, char **argv)
{
    if (argc == 2 && strcmp(argv[1], "layout") == 0)
        print_layout();
    else if (argc == 2 && strcmp(argv[1], "state") == 0)
        echo_state();
    else {
        fprintf(stderr, "usage: echo layout | echo state\n");
        return 2;
    }
    return 0;
}
