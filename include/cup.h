/* The cup simulator: plan files, states, lazy and eager runs, positions, proved against document 01.
 *
 * The functions are in target/staticlib/libcup.a, made by 'tools/build cup', for x86-64.
 *
 * They keep nothing between calls and always return. No pointer may be null, also where a length is
 * 0. The file must be readable, the buffer writable, and so must be the size_t that the last argument of
 * cup_read, cup_section and cup_rewrite points to. Neither the buffer nor that size_t may overlap
 * anything else that the call is given. A state is 9,808 bytes and goes by value, so a call takes up to
 * 94 KB of stack: give a thread that makes these calls 128 KB or more. docs/API.md has each call in C,
 * Rust and Rattle, and docs/FORMAT.md the plan file and the events. */

#ifndef CUP_H
#define CUP_H

#include <stdbool.h>
#include <stddef.h>
#include <stdint.h>

#ifdef __cplusplus
extern "C" {
#endif

/* The numbers that the functions answer. Of several that a file or a call meets, the lowest is answered. */

/* accepted */
#define CUP_ACCEPTED 0
/* the file is shorter than 44 bytes */
#define CUP_REFUSED_SHORT 1
/* a pair breaks the offset rule, or the file does not end with its last section */
#define CUP_REFUSED_OFFSETS 2
/* a section is no whole number of entries, or has too few or too many */
#define CUP_REFUSED_SIZES 3
/* the horizon is outside its limits */
#define CUP_REFUSED_HORIZON 4
/* an integrator's start or quantum is outside its limits */
#define CUP_REFUSED_INTEGRATOR 5
/* an input's first value is outside its limits */
#define CUP_REFUSED_INPUT 6
/* a node has a kind above 3, names a source that is not below it, or breaks its kind's rule for B, lo
 * and hi */
#define CUP_REFUSED_NODE 7
/* a link's target, source or coefficient is outside its limits, or it does not stand above its
 * predecessor */
#define CUP_REFUSED_LINK 8
/* a command's tick, input or value is outside its limits, or it does not stand above its predecessor */
#define CUP_REFUSED_COMMAND 9
/* the state is not sound */
#define CUP_REFUSED_UNSOUND 10
/* a run's budget is above 1,024 */
#define CUP_REFUSED_BUDGET 11
/* a run's buffer is shorter than budget × (n + m) × 12 bytes */
#define CUP_REFUSED_RUN_BUFFER 12
/* the plan writer's buffer is shorter than the file */
#define CUP_REFUSED_WRITE_BUFFER 13
/* the position call's integrator number is n or more */
#define CUP_REFUSED_INTEGRATOR_NUMBER 14

/* The status of a state: the next instant can be taken, there is none up to the horizon, or it is barred
 * because an output would leave ±M. */
#define CUP_PAUSED 0
#define CUP_FINISHED 1
#define CUP_RANGE 2

/* M: the bound of starts, quanta, input values, node limits and outputs, in grains of 1/65,536 ml. */
#define CUP_M 1073741824

/* The due tick of an integrator that is never due. */
#define CUP_NEVER UINT32_MAX

/* The largest horizon, and the largest size of a link's coefficient. */
#define CUP_LARGEST_HORIZON 2000000000
#define CUP_LARGEST_COEFFICIENT 16777216

/* The sections of a plan file, by the number that cup_section takes, and how many they are. */
#define CUP_SECTION_INTEGRATORS 0
#define CUP_SECTION_INPUTS 1
#define CUP_SECTION_NODES 2
#define CUP_SECTION_LINKS 3
#define CUP_SECTION_COMMANDS 4
#define CUP_SECTIONS 5

/* The kinds of a node, with a and b the values of A and B: a - b; a * b / 65,536, rounded towards minus
 * infinity; a limited to lo..hi; and hi if a >= b, else lo. The first two are clipped to M in size. */
#define CUP_KIND_DIFFERENCE 0
#define CUP_KIND_PRODUCT 1
#define CUP_KIND_LIMIT 2
#define CUP_KIND_COMPARISON 3

/* The bytes of a plan file's header, and of an entry of each section. */
#define CUP_HEADER_BYTES 44
#define CUP_INTEGRATOR_BYTES 8
#define CUP_INPUT_BYTES 4
#define CUP_NODE_BYTES 20
#define CUP_LINK_BYTES 12
#define CUP_COMMAND_BYTES 12

/* The longest file that is accepted, and so the longest that cup_rewrite and cup_write write. */
#define CUP_LONGEST_FILE 4492

/* The most integrators, inputs, nodes, links and commands of a plan. */
#define CUP_INTEGRATORS 32
#define CUP_INPUTS 8
#define CUP_NODES 16
#define CUP_LINKS 256
#define CUP_COMMANDS 64

/* The entries of a table by source number: integrators from 0, inputs from n, nodes from n + m. A
 * plan has at most 56 sources. */
#define CUP_SOURCES 64

/* The bytes of an event: tick, source and signed value, little-endian, 32 bits each. */
#define CUP_EVENT_BYTES 12

/* The largest budget of a run, and the longest buffer that a run with a budget can ask for. */
#define CUP_LARGEST_BUDGET 1024
#define CUP_RUN_BYTES(budget) ((budget) * (CUP_INTEGRATORS + CUP_INPUTS) * CUP_EVENT_BYTES)

/* How many integrators, inputs, nodes, links and commands a plan has. */
typedef struct {
    size_t n, m, k, links, commands;
} CupCounts;

/* The sections of a plan, each a column for every word of its entries. Entries from the section's count
 * on are 0. */
typedef struct {
    int64_t starts[CUP_INTEGRATORS], quanta[CUP_INTEGRATORS];
} CupIntegrators;

typedef struct {
    int64_t firsts[CUP_INPUTS];
} CupInputs;

/* Kind, A, B, lo and hi; a and b are source numbers. */
typedef struct {
    size_t kinds[CUP_NODES], a[CUP_NODES], b[CUP_NODES];
    int64_t lows[CUP_NODES], highs[CUP_NODES];
} CupNodes;

typedef struct {
    size_t targets[CUP_LINKS], sources[CUP_LINKS];
    int64_t coefficients[CUP_LINKS];
} CupLinks;

typedef struct {
    uint32_t ticks[CUP_COMMANDS];
    size_t inputs[CUP_COMMANDS];
    int64_t values[CUP_COMMANDS];
} CupCommands;

/* A plan: what the plan file says, number for number. */
typedef struct {
    uint32_t horizon;
    CupCounts counts;
    CupIntegrators integrators;
    CupInputs inputs;
    CupNodes nodes;
    CupLinks links;
    CupCommands commands;
} CupPlan;

/* The clock, the number of the next command, instants and updates. */
typedef struct {
    uint32_t clock;
    size_t next;
    uint64_t instants, updates;
} CupClocks;

/* How far a plan has run: for each integrator position, output, slope, last-moved tick and due tick;
 * the values of the inputs; the clocks. Unused entries are 0, unused due ticks too. */
typedef struct {
    int64_t x[CUP_INTEGRATORS], q[CUP_INTEGRATORS], s[CUP_INTEGRATORS];
    uint32_t l[CUP_INTEGRATORS], d[CUP_INTEGRATORS];
    int64_t inputs[CUP_INPUTS];
    CupClocks clocks;
} CupRunning;

/* A state. It may be filled by hand: the functions ask nothing of it, whatever its fields hold, and
 * decline a state that is not sound. */
typedef struct {
    CupPlan plan;
    CupRunning run;
} CupState;

/* What cup_load answers. */
typedef struct {
    size_t number, entry;
    CupState state;
} CupLoaded;

/* What cup_write answers. */
typedef struct {
    size_t number, length;
    CupState state;
} CupWritten;

/* What cup_run_lazy and cup_run_eager answer. */
typedef struct {
    size_t number, status, integrator, written;
    CupState state;
} CupRan;

/* What cup_position answers. */
typedef struct {
    size_t number;
    int64_t value;
    CupState state;
} CupPositioned;

/* What cup_tables answers. */
typedef struct {
    size_t ranges[CUP_INTEGRATORS + 1];
    uint64_t reach[CUP_SOURCES];
    int64_t values[CUP_SOURCES];
} CupTables;

/* Reads a plan file: returns CUP_ACCEPTED, or one of CUP_REFUSED_SHORT to CUP_REFUSED_COMMAND. *entry
 * becomes the lowest faulty entry of the section, counted from 0, and 0 up to CUP_REFUSED_HORIZON. */
size_t cup_read(const uint8_t *file, size_t file_length, size_t *entry);

/* The section view: returns the length of a part of the file, and *offset becomes where in the file
 * it starts. The number is one of CUP_SECTION_INTEGRATORS to CUP_SECTION_COMMANDS. A section that has no
 * entry is empty and starts where the one before it ends. If the file would be refused or the number is
 * above those, length and offset are 0. */
size_t cup_section(const uint8_t *file, size_t file_length, size_t number, size_t *offset);

/* Reads a plan file and writes its plan from the buffer's start: returns CUP_ACCEPTED, and *length
 * becomes the number of bytes written; bytes behind them keep their value. If the file is refused it
 * returns what cup_read returns, else CUP_REFUSED_WRITE_BUFFER if the buffer is shorter than the file;
 * then *length becomes 0 and no byte of the buffer changes. */
size_t cup_rewrite(const uint8_t *file, size_t file_length, uint8_t *buffer, size_t buffer_length,
                   size_t *length);

/* Loads a plan file: answers the number and the entry that cup_read answers, and the state that the
 * plan starts with; the idle state if the file is refused. */
CupLoaded cup_load(const uint8_t *file, size_t file_length);

/* The plan writer: writes the state's plan from the buffer's start and answers CUP_ACCEPTED, the number
 * of bytes written and the state handed in; bytes behind them keep their value. If the state is not sound
 * it answers CUP_REFUSED_UNSOUND, else CUP_REFUSED_WRITE_BUFFER if the buffer is shorter than the file;
 * then the length is 0 and no byte of the buffer changes. */
CupWritten cup_write(CupState state, uint8_t *buffer, size_t buffer_length);

/* Whether the state is sound. */
bool cup_sound(CupState state);

/* Hands the state back, sound or not. */
CupState cup_echo(CupState state);

/* The tables that a run starts with. This call is for tests: its contract is that these are the
 * tables that the run itself works with; what follows describes their entries.
 *
 * ranges[i] is the first link whose target is i or above, or the number of links if there is none,
 * for i up to n: the links of integrator i are those from ranges[i] to before ranges[i + 1]. Entries
 * above n are 0.
 *
 * reach[source] says what a change of that source reaches: bit i for each integrator i with a link
 * that names the source or a node that depends on it, bit 32 + j for each node j that depends on it,
 * and of a node its own bit too. values[source] is the source's value. Both are 0 from n + m + k on.
 *
 * If the state is not sound all entries are 0. */
CupTables cup_tables(CupState state);

/* The lazy run and the eager run. Each takes as many instants as the budget says, or fewer if the
 * status is first CUP_FINISHED or CUP_RANGE, writes their events from the buffer's start and answers
 * CUP_ACCEPTED, the status of the state that it answers, the integrator that bars the next instant (0
 * unless the status is CUP_RANGE), the number of bytes written and the state; bytes behind them keep
 * their value. If the state is not sound they answer CUP_REFUSED_UNSOUND, else CUP_REFUSED_BUDGET if the
 * budget is above 1,024, else CUP_REFUSED_RUN_BUFFER if the buffer is shorter than budget × (n + m) × 12
 * bytes; then the other figures are 0, the state is the one handed in and no byte of the buffer changes.
 *
 * Both write the same events and lead to the same status, clock and positions, in any mix of calls. The
 * lazy run moves those integrators that an instant concerns, the eager run all; updates count them. */
CupRan cup_run_lazy(CupState state, uint64_t budget, uint8_t *buffer, size_t buffer_length);
CupRan cup_run_eager(CupState state, uint64_t budget, uint8_t *buffer, size_t buffer_length);

/* The position call: answers CUP_ACCEPTED, where the integrator is at the state's clock, and the state
 * handed in. If the state is not sound it answers CUP_REFUSED_UNSOUND, else
 * CUP_REFUSED_INTEGRATOR_NUMBER if the integrator's number is n or more; then the value is 0. */
CupPositioned cup_position(CupState state, size_t integrator);

#ifdef __cplusplus
}
#endif

#endif
