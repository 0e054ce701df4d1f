/* Lists a plan file by runs of budget 64: 'list FILE'.
 *
 * Prints what document 01's listing program prints, in the words that the second simulator's has: the
 * events and the end of the lazy runs. Beside them the eager runs go their own way from the same start,
 * and after each call both have to have written the same events and to be at the same status, clock and
 * positions. On the way it views the sections, asks that every state is sound, that calls which have to
 * be declined are, and that the plan is written back as it was. */

#include "cup.h"
#include <inttypes.h>
#include <stdio.h>
#include <stdlib.h>
#include <string.h>

#define BUDGET 64

/* Longer than any accepted file, so that a longer one is refused as it should be. */
static uint8_t file[CUP_LONGEST_FILE + 1], copy[CUP_LONGEST_FILE];
static uint8_t events[CUP_RUN_BYTES(BUDGET)], others[CUP_RUN_BYTES(BUDGET)];
static uint8_t none[1];

static void demand(int kept, const char *what)
{
    if (!kept) {
        fprintf(stderr, "%s\n", what);
        exit(1);
    }
}

static size_t read_file(const char *name)
{
    FILE *opened = fopen(name, "rb");
    demand(opened != NULL, "no such file");
    size_t length = fread(file, 1, sizeof file, opened);
    fclose(opened);
    return length;
}

static uint32_t word(const uint8_t *bytes)
{
    return bytes[0] | (uint32_t)bytes[1] << 8 | (uint32_t)bytes[2] << 16 | (uint32_t)bytes[3] << 24;
}

static void print_events(size_t written)
{
    for (size_t at = 0; at < written; at += CUP_EVENT_BYTES)
        printf("%" PRIu32 " %" PRIu32 " %" PRId32 "\n", word(events + at), word(events + at + 4),
               (int32_t)word(events + at + 8));
}

/* The sections have as many entries as the state says and stand one behind the other, empty ones too;
 * the first integrator starts where it is. */
static void check_sections(size_t length, const CupState *state)
{
    const CupCounts *counts = &state->plan.counts;
    const size_t entries[] = { counts->n, counts->m, counts->k, counts->links, counts->commands };
    const size_t bytes[] = { CUP_INTEGRATOR_BYTES, CUP_INPUT_BYTES, CUP_NODE_BYTES, CUP_LINK_BYTES,
                             CUP_COMMAND_BYTES };
    size_t offset, next = CUP_HEADER_BYTES;
    for (size_t section = 0; section < CUP_SECTIONS; section++) {
        demand(cup_section(file, length, section, &offset) == entries[section] * bytes[section],
               "a section has another length");
        demand(offset == next, "a section starts elsewhere");
        next += entries[section] * bytes[section];
    }
    demand(next == length, "the last section ends elsewhere");
    demand(cup_section(file, length, CUP_SECTIONS, &offset) == 0 && offset == 0,
           "there is a sixth section");
    demand(cup_section(file, length, 0, &offset) > 0 &&
               (int32_t)word(file + offset) == state->plan.integrators.starts[0],
           "the first integrator starts elsewhere");
}

/* Every field; the bytes that fill a struct up between two fields are nobody's. */
static int is_same(const CupState *one, const CupState *other)
{
    size_t counts = offsetof(CupPlan, counts), clocks = offsetof(CupRunning, clocks);
    const CupClocks *first = &one->run.clocks, *second = &other->run.clocks;
    return one->plan.horizon == other->plan.horizon &&
           memcmp((const uint8_t *)&one->plan + counts, (const uint8_t *)&other->plan + counts,
                  sizeof one->plan - counts) == 0 &&
           memcmp(&one->run, &other->run, clocks) == 0 && first->clock == second->clock &&
           first->next == second->next && first->instants == second->instants &&
           first->updates == second->updates;
}

/* Both states have every integrator at the same place, and no call has one more. */
static void check_positions(const CupState *lazy, const CupState *eager)
{
    size_t n = lazy->plan.counts.n;
    for (size_t i = 0; i < n; i++) {
        CupPositioned one = cup_position(*lazy, i), other = cup_position(*eager, i);
        demand(one.number == CUP_ACCEPTED && other.number == CUP_ACCEPTED, "a position is declined");
        demand(one.value == other.value, "the engines have other positions");
        demand(is_same(&one.state, lazy) && is_same(&other.state, eager),
               "a position call answers another state");
        /* An eager run has moved every integrator at the clock, if it has moved any. */
        if (eager->run.clocks.instants > 0)
            demand(other.value == eager->run.x[i], "the eager run has not moved all");
    }
    demand(cup_position(*lazy, n).number == CUP_REFUSED_INTEGRATOR_NUMBER &&
               cup_position(*lazy, n).value == 0 &&
               cup_position(*eager, SIZE_MAX).number == CUP_REFUSED_INTEGRATOR_NUMBER,
           "there are more positions than integrators");
}

static int is_declined(CupRan ran, size_t number, const CupState *state)
{
    return ran.number == number && ran.status == 0 && ran.integrator == 0 && ran.written == 0 &&
           is_same(&ran.state, state);
}

/* Declined for the budget, for the buffer and as not sound, with the state handed back and no byte
 * written. */
static void check_declines(const CupState *state)
{
    size_t needed = (state->plan.counts.n + state->plan.counts.m) * CUP_EVENT_BYTES;
    memset(others, 0xa5, sizeof others);
    demand(is_declined(cup_run_lazy(*state, CUP_LARGEST_BUDGET + 1, others, sizeof others),
                       CUP_REFUSED_BUDGET, state) &&
               is_declined(cup_run_eager(*state, UINT64_MAX, none, 0), CUP_REFUSED_BUDGET, state),
           "a budget above 1,024 is not declined");
    demand(is_declined(cup_run_lazy(*state, 1, others, needed - 1), CUP_REFUSED_RUN_BUFFER, state) &&
               is_declined(cup_run_eager(*state, BUDGET, others, BUDGET * needed - 1),
                           CUP_REFUSED_RUN_BUFFER, state),
           "a short buffer is not declined");
    CupState unsound = *state;
    unsound.run.clocks.updates = unsound.run.clocks.instants * unsound.plan.counts.n + 1;
    demand(is_declined(cup_run_lazy(unsound, 1, others, needed), CUP_REFUSED_UNSOUND, &unsound) &&
               is_declined(cup_run_eager(unsound, CUP_LARGEST_BUDGET + 1, none, 0), CUP_REFUSED_UNSOUND,
                           &unsound) &&
               cup_position(unsound, 0).number == CUP_REFUSED_UNSOUND &&
               cup_position(unsound, SIZE_MAX).number == CUP_REFUSED_UNSOUND,
           "an unsound state is not declined");
    for (size_t at = 0; at < sizeof others; at++)
        demand(others[at] == 0xa5, "a declined call writes");
}

/* A call of each engine, each from its own state. */
static void check_call(CupRan *lazy, CupRan *eager)
{
    *lazy = cup_run_lazy(lazy->state, BUDGET, events, sizeof events);
    *eager = cup_run_eager(eager->state, BUDGET, others, sizeof others);
    demand(lazy->number == CUP_ACCEPTED && eager->number == CUP_ACCEPTED, "a run is declined");
    demand(cup_sound(lazy->state) && cup_sound(eager->state), "a run leaves an unsound state");
    demand(lazy->written == eager->written && memcmp(events, others, lazy->written) == 0,
           "the engines write other events");
    const CupClocks *moved = &eager->state.run.clocks;
    demand(lazy->status == eager->status && lazy->integrator == eager->integrator &&
               lazy->state.run.clocks.clock == moved->clock &&
               lazy->state.run.clocks.instants == moved->instants,
           "the engines come to other moments");
    demand(moved->updates == moved->instants * eager->state.plan.counts.n,
           "the eager run counts other updates");
    check_positions(&lazy->state, &eager->state);
}

int main(int argc, char **argv)
{
    demand(argc == 2, "usage: list FILE");
    size_t length = read_file(argv[1]);
    CupLoaded loaded = cup_load(file, length);
    if (loaded.number != CUP_ACCEPTED) {
        printf("refused %zu %zu\n", loaded.number, loaded.entry);
        return 0;
    }
    check_sections(length, &loaded.state);
    CupRan lazy = { .state = loaded.state }, eager = { .state = loaded.state };
    do {
        check_declines(&lazy.state);
        check_call(&lazy, &eager);
        print_events(lazy.written);
    } while (lazy.status == CUP_PAUSED);
    const CupState *end = &lazy.state;
    CupTables tables = cup_tables(*end);
    demand(tables.ranges[end->plan.counts.n] == end->plan.counts.links, "the tables have other links");
    CupWritten written = cup_write(*end, copy, sizeof copy);
    demand(written.number == CUP_ACCEPTED && written.length == length &&
               memcmp(file, copy, length) == 0,
           "the plan is written otherwise");
    demand(is_same(&written.state, end), "another state comes back");
    const CupClocks *clocks = &end->run.clocks;
    printf("end %zu %" PRIu32 " %" PRIu64 " %" PRIu64 "\n", lazy.status, clocks->clock,
           clocks->instants, clocks->updates);
    return 0;
}
