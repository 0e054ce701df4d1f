/* Prints how many bytes of stack each call takes on a plan file: 'stack FILE'.
 *
 * Each call is made by a thread of its own, whose stack is filled with one byte before; the lowest byte
 * that has changed tells how deep it went. A thread that calls nothing is taken off. What remains is the
 * state that is handed over, the answer, and what the call itself takes. */

#define _XOPEN_SOURCE 700

#include "cup.h"
#include <pthread.h>
#include <stdio.h>
#include <stdlib.h>
#include <string.h>

#define STACK_BYTES (1024 * 1024)
#define FILLED 0xa5

static uint8_t file[CUP_LONGEST_FILE + 1], buffer[CUP_RUN_BYTES(CUP_LARGEST_BUDGET)];
static size_t file_length, word, read_number, rewrite_number, section_length;
static bool is_sound;
static CupLoaded loaded;
static CupWritten written;
static CupRan lazy, eager;
static CupPositioned positioned;
static CupState echoed;
static CupTables tables;

/* A thread that makes one call. */
#define CALL(name, made)                                                                                     \
    static void *name(void *nothing)                                                                         \
    {                                                                                                        \
        made;                                                                                                \
        return nothing;                                                                                      \
    }

CALL(call_nothing, (void)0)
CALL(call_load, loaded = cup_load(file, file_length))
CALL(call_read, read_number = cup_read(file, file_length, &word))
CALL(call_section, section_length = cup_section(file, file_length, CUP_SECTION_LINKS, &word))
CALL(call_rewrite, rewrite_number = cup_rewrite(file, file_length, buffer, sizeof buffer, &word))
CALL(call_write, written = cup_write(loaded.state, buffer, sizeof buffer))
CALL(call_sound, is_sound = cup_sound(loaded.state))
CALL(call_echo, echoed = cup_echo(loaded.state))
CALL(call_tables, tables = cup_tables(loaded.state))
CALL(call_run_lazy, lazy = cup_run_lazy(loaded.state, CUP_LARGEST_BUDGET, buffer, sizeof buffer))
CALL(call_run_eager, eager = cup_run_eager(loaded.state, CUP_LARGEST_BUDGET, buffer, sizeof buffer))
CALL(call_position, positioned = cup_position(loaded.state, 0))

/* The first one makes the state for the others. */
static const struct {
    const char *name;
    void *(*call)(void *);
} CALLS[] = {
    { "cup_load", call_load },         { "cup_read", call_read },
    { "cup_section", call_section },   { "cup_rewrite", call_rewrite },
    { "cup_write", call_write },       { "cup_sound", call_sound },
    { "cup_echo", call_echo },         { "cup_tables", call_tables },
    { "cup_run_lazy", call_run_lazy }, { "cup_run_eager", call_run_eager },
    { "cup_position", call_position },
};

/* A call that is declined does not do all of its work. */
static bool all_accepted(void)
{
    return loaded.number == CUP_ACCEPTED && read_number == CUP_ACCEPTED && section_length > 0 &&
           rewrite_number == CUP_ACCEPTED && written.number == CUP_ACCEPTED && is_sound &&
           lazy.number == CUP_ACCEPTED && eager.number == CUP_ACCEPTED && positioned.number == CUP_ACCEPTED;
}

static void demand(int kept, const char *what)
{
    if (!kept) {
        fprintf(stderr, "%s\n", what);
        exit(1);
    }
}

/* The bytes of its stack that a thread has touched. */
static size_t touched_by(void *(*call)(void *))
{
    uint8_t *stack;
    pthread_attr_t attributes;
    pthread_t thread;
    demand(posix_memalign((void **)&stack, 4096, STACK_BYTES) == 0, "no memory");
    memset(stack, FILLED, STACK_BYTES);
    demand(pthread_attr_init(&attributes) == 0, "no attributes");
    demand(pthread_attr_setstack(&attributes, stack, STACK_BYTES) == 0, "no such stack");
    demand(pthread_create(&thread, &attributes, call, NULL) == 0, "no thread");
    demand(pthread_join(thread, NULL) == 0, "the thread does not end");
    size_t lowest = 0;
    while (lowest < STACK_BYTES && stack[lowest] == FILLED)
        lowest++;
    free(stack);
    return STACK_BYTES - lowest;
}

int main(int argc, char **argv)
{
    demand(argc == 2, "usage: stack FILE");
    FILE *opened = fopen(argv[1], "rb");
    demand(opened != NULL, "no such file");
    file_length = fread(file, 1, sizeof file, opened);
    fclose(opened);
    size_t alone = touched_by(call_nothing);
    for (size_t i = 0; i < sizeof CALLS / sizeof CALLS[0]; i++)
        printf("%s %zu\n", CALLS[i].name, touched_by(CALLS[i].call) - alone);
    demand(all_accepted(), "a call was declined, so that not all of it was measured");
    return 0;
}
