#include "cup.h"
#include <stdio.h>

static uint8_t file[CUP_LONGEST_FILE + 1], events[CUP_RUN_BYTES(64)];

int main(void)
{
    CupLoaded loaded = cup_load(file, fread(file, 1, sizeof file, stdin));
    printf("load %zu, entry %zu\n", loaded.number, loaded.entry);
    if (loaded.number != CUP_ACCEPTED)
        return 1;
    CupRan run = cup_run_lazy(loaded.state, 64, events, sizeof events);
    printf("run %zu, status %zu, %zu bytes\n", run.number, run.status, run.written);
    CupPositioned at = cup_position(run.state, 0);
    printf("position %zu, %lld grains\n", at.number, (long long)at.value);
}
