/* Size of every struct of the header, and of every field where it starts and how many bytes it has, as
 * numbers: a program that was compiled with an older header goes on linking with a newer library. What
 * is not as it says here does not compile. */

#include "cup.h"

#define SIZE(type, bytes) _Static_assert(sizeof(type) == (bytes), "size of " #type)
#define FIELD(type, path, start, bytes) \
    _Static_assert(offsetof(type, path) == (start), "start of " #type "." #path); \
    _Static_assert(sizeof((type *)0)->path == (bytes), "bytes of " #type "." #path)

SIZE(CupPlan, 8688);
FIELD(CupPlan, horizon, 0, 4);
FIELD(CupPlan, counts, 8, 40);
FIELD(CupPlan, counts.n, 8, 8);
FIELD(CupPlan, counts.m, 16, 8);
FIELD(CupPlan, counts.k, 24, 8);
FIELD(CupPlan, counts.links, 32, 8);
FIELD(CupPlan, counts.commands, 40, 8);
FIELD(CupPlan, integrators, 48, 512);
FIELD(CupPlan, integrators.starts, 48, 256);
FIELD(CupPlan, integrators.quanta, 304, 256);
FIELD(CupPlan, inputs, 560, 64);
FIELD(CupPlan, inputs.firsts, 560, 64);
FIELD(CupPlan, nodes, 624, 640);
FIELD(CupPlan, nodes.kinds, 624, 128);
FIELD(CupPlan, nodes.a, 752, 128);
FIELD(CupPlan, nodes.b, 880, 128);
FIELD(CupPlan, nodes.lows, 1008, 128);
FIELD(CupPlan, nodes.highs, 1136, 128);
FIELD(CupPlan, links, 1264, 6144);
FIELD(CupPlan, links.targets, 1264, 2048);
FIELD(CupPlan, links.sources, 3312, 2048);
FIELD(CupPlan, links.coefficients, 5360, 2048);
FIELD(CupPlan, commands, 7408, 1280);
FIELD(CupPlan, commands.ticks, 7408, 256);
FIELD(CupPlan, commands.inputs, 7664, 512);
FIELD(CupPlan, commands.values, 8176, 512);

SIZE(CupRunning, 1120);
FIELD(CupRunning, x, 0, 256);
FIELD(CupRunning, q, 256, 256);
FIELD(CupRunning, s, 512, 256);
FIELD(CupRunning, l, 768, 128);
FIELD(CupRunning, d, 896, 128);
FIELD(CupRunning, inputs, 1024, 64);
FIELD(CupRunning, clocks, 1088, 32);
FIELD(CupRunning, clocks.clock, 1088, 4);
FIELD(CupRunning, clocks.next, 1096, 8);
FIELD(CupRunning, clocks.instants, 1104, 8);
FIELD(CupRunning, clocks.updates, 1112, 8);

SIZE(CupState, 9808);
FIELD(CupState, plan, 0, 8688);
FIELD(CupState, run, 8688, 1120);

SIZE(CupLoaded, 9824);
FIELD(CupLoaded, number, 0, 8);
FIELD(CupLoaded, entry, 8, 8);
FIELD(CupLoaded, state, 16, 9808);

SIZE(CupWritten, 9824);
FIELD(CupWritten, number, 0, 8);
FIELD(CupWritten, length, 8, 8);
FIELD(CupWritten, state, 16, 9808);

SIZE(CupRan, 9840);
FIELD(CupRan, number, 0, 8);
FIELD(CupRan, status, 8, 8);
FIELD(CupRan, integrator, 16, 8);
FIELD(CupRan, written, 24, 8);
FIELD(CupRan, state, 32, 9808);

SIZE(CupPositioned, 9824);
FIELD(CupPositioned, number, 0, 8);
FIELD(CupPositioned, value, 8, 8);
FIELD(CupPositioned, state, 16, 9808);

SIZE(CupTables, 1288);
FIELD(CupTables, ranges, 0, 264);
FIELD(CupTables, reach, 264, 512);
FIELD(CupTables, values, 776, 512);

int main(void)
{
    return 0;
}
