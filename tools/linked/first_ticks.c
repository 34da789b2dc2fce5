/* Steps through the first ticks of many boxes, one instruction at a time, and counts the instructions and those among them that divide or multiply
   by 1,000,000; status 1 if any does. The arguments are the number of boxes and the distance from air_box_tick to the archive's initial_sample_time,
   which is stepped through first: at a time that no tick is accepted at it has to divide, so that the counting is seen to count. */
#define _GNU_SOURCE
#include <signal.h>
#include <stdio.h>
#include <stdlib.h>
#include <string.h>
#include <ucontext.h>
#include "air_box.h"

enum { TRAP_FLAG = 0x100, SCALAR = 0xf2, PACKED = 0x66, REX = 0x40, MULTIPLY = 0x59, DIVIDE = 0x5e };
static const int GENERAL[16] = {REG_RAX, REG_RCX, REG_RDX, REG_RBX, REG_RSP, REG_RBP, REG_RSI, REG_RDI,
                                REG_R8,  REG_R9,  REG_R10, REG_R11, REG_R12, REG_R13, REG_R14, REG_R15};

typedef struct { unsigned long instructions, divisions, multiplications; } Counts;
static Counts counted;
static uintptr_t entry, back;
static bool inside;

/* The address of an operand in memory, by the ModRM byte at `form` and what follows it. */
static const void *operand_in_memory(const uint8_t *form, unsigned rex, const greg_t *general) {
    unsigned mode = form[0] >> 6, base = form[0] & 7;
    const uint8_t *rest = form + 1;
    greg_t address = 0;
    if (base == 4) {
        unsigned index = (rest[0] >> 3 & 7) | (rex & 2) << 2;
        if (index != 4) address = general[GENERAL[index]] << (rest[0] >> 6);
        base = *rest++ & 7;
    } else if (mode == 0 && base == 5) {
        address = (greg_t)(rest + 4);
    }
    bool without_base = mode == 0 && base == 5;
    if (!without_base) address += general[GENERAL[base | (rex & 1) << 3]];
    int32_t far = 0;
    if (mode == 2 || without_base) memcpy(&far, rest, sizeof far);
    return (const void *)(address + (mode == 1 ? (int8_t)rest[0] : far));
}

static bool has_a_million(const double *numbers, int count) {
    return numbers[0] == 1e6 || (count == 2 && numbers[1] == 1e6);
}

/* Counts the instruction at `code` if it is a division by 1,000,000 or a multiplication by it, of one double or of two. The archive has no other kinds of
   division, and no AVX: the scripts beside this file see to that. */
static void look_at(const uint8_t *code, const mcontext_t *machine) {
    unsigned prefix = 0, rex = 0;
    while (*code == SCALAR || *code == PACKED) prefix = *code++;
    if ((*code & 0xf0) == REX) rex = *code++;
    if (prefix == 0 || code[0] != 0x0f || (code[1] != MULTIPLY && code[1] != DIVIDE)) return;
    const uint8_t *form = code + 2;
    int count = prefix == PACKED ? 2 : 1;
    double left[2], right[2];
    memcpy(left, &machine->fpregs->_xmm[(form[0] >> 3 & 7) | (rex & 4) << 1], sizeof left);
    const void *from = form[0] >> 6 == 3 ? (const void *)&machine->fpregs->_xmm[(form[0] & 7) | (rex & 1) << 3]
                                         : operand_in_memory(form, rex, machine->gregs);
    memcpy(right, from, (size_t)count * sizeof right[0]);
    if (code[1] == DIVIDE) counted.divisions += has_a_million(right, count);
    else counted.multiplications += has_a_million(left, count) || has_a_million(right, count);
}

/* From the breakpoint on every instruction traps; those from the entry of the function to its return are counted. */
static void on_trap(int number, siginfo_t *info, void *context) {
    (void)number, (void)info;
    mcontext_t *machine = &((ucontext_t *)context)->uc_mcontext;
    uintptr_t at = (uintptr_t)machine->gregs[REG_RIP];
    machine->gregs[REG_EFL] |= TRAP_FLAG;
    if (at == entry) {
        inside = true;
        memcpy(&back, (const void *)machine->gregs[REG_RSP], sizeof back);
    } else if (inside && at == back) {
        inside = false;
        machine->gregs[REG_EFL] &= ~(greg_t)TRAP_FLAG;
    }
    if (!inside) return;
    counted.instructions++;
    look_at((const uint8_t *)at, machine);
}

/* The call that follows is stepped through, if it is one of the function at `function`. */
static inline void step_through(uintptr_t function) {
    counted = (Counts){0, 0, 0};
    entry = function;
    __asm__ volatile("int3" ::: "memory");
}

/* The next bits of a xorshift generator. */
static uint64_t bits(void) {
    static uint64_t state = 20260501;
    state ^= state << 13;
    state ^= state >> 7;
    return state ^= state << 17;
}

static double between(double low, double high) { return low + (high - low) * (double)(bits() >> 11) / 9007199254740992.0; }

/* The time of the nth box's first tick: the ends, both zeros and what lies around multiples of 120, then whole seconds of any size in range.
   From 120,000,000 on, for two minutes, 1,000,000 is the number of periods that is multiplied by 120; those are left out. */
static double first_time(unsigned long n) {
    static const double times[] = {0.0, -0.0, 1, 60, 119, 120, 121, 239, 240, 2147483519, 2147483520, 2147483640, 2147483647, 2147483648};
    if (n < sizeof times / sizeof times[0]) return times[n];
    uint64_t time = bits() >> (33 + bits() % 31);
    return (double)(time / 120 == 1000000 ? time + 120 : time);
}

/* Readings in range, modes and overrides from 0 to 7, any flags. */
static AirBoxTick first_tick(unsigned long n) {
    uint64_t choices = bits();
    return (AirBoxTick){first_time(n), {between(150, 450), between(150, 450), between(150, 450), choices & 1, choices & 2, (int64_t)(choices >> 8 & 7),
                                        between(0, 10000), between(0, 10000), between(150, 450), between(150, 450), between(-10, 10),
                                        (int64_t)(choices >> 16 & 7), (int64_t)(choices >> 24 & 7), choices & 4}};
}

/* The nth box: every other one has a quiet start, of each start every other one a size of its own, and of those every other one the second reading. Whether
   it was built. */
static bool built(unsigned long n, AirBox *box) {
    *box = air_box_fresh(n & 1);
    if ((n & 2) == 0) return true;
    double maximum = between(0.1, 10);
    AirBoxChoices choices = {n & 1, between(0, maximum), maximum, n & 4};
    return air_box_build(box, choices) == AIR_BOX_BUILT;
}

static int failed(const char *what) {
    fprintf(stderr, "first ticks: %s\n", what);
    return 1;
}

/* Whether the counting sees the division and the multiplication that a start at -1 comes to in the function at `initial_sample_time`. */
static bool counts_what_is_there(uintptr_t initial_sample_time) {
    step_through(initial_sample_time);
    double start = ((double (*)(double, double))initial_sample_time)(-1, 120);
    return start == -120 && counted.divisions == 1 && counted.multiplications == 1;
}

/* Steps through the first ticks of that many boxes and writes what was counted. */
static int first_ticks(unsigned long boxes) {
    Counts all = {0, 0, 0};
    unsigned long least = ~0ul, most = 0;
    for (unsigned long n = 0; n < boxes; n++) {
        AirBox box;
        if (!built(n, &box)) return failed("a box was not built");
        AirBoxOutput output;
        AirBoxTick tick = first_tick(n);
        step_through((uintptr_t)air_box_tick);
        if (air_box_tick(&box, &tick, &output) != AIR_BOX_ACCEPTED) return failed("a first tick was refused");
        if (counted.instructions == 0) return failed("a tick was not stepped through");
        all.instructions += counted.instructions;
        all.divisions += counted.divisions;
        all.multiplications += counted.multiplications;
        if (counted.instructions < least) least = counted.instructions;
        if (counted.instructions > most) most = counted.instructions;
    }
    printf("first ticks: %lu boxes, %lu instructions each on average, from %lu to %lu; by 1,000,000 %lu divisions and %lu multiplications\n", boxes,
           all.instructions / boxes, least, most, all.divisions, all.multiplications);
    return fflush(stdout) != 0 || all.divisions + all.multiplications != 0;
}

int main(int count, char **arguments) {
    unsigned long boxes = count == 3 ? strtoul(arguments[1], NULL, 10) : 0;
    if (boxes == 0) return failed("the arguments are the number of boxes and a distance");
    struct sigaction action;
    memset(&action, 0, sizeof action);
    action.sa_sigaction = on_trap;
    action.sa_flags = SA_SIGINFO;
    if (sigaction(SIGTRAP, &action, NULL) != 0) return failed("no handler for the steps");
    if (!counts_what_is_there((uintptr_t)air_box_tick + (uintptr_t)strtoll(arguments[2], NULL, 0))) return failed("the division that is there was not counted");
    return first_ticks(boxes);
}
