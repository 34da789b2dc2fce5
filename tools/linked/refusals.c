/* Runs the ticks and buildings on standard input and looks at every byte around each refused one: box and output are the same before and after,
   and the same number is given where the box may only be read, in a building not even that, and the output neither. All eight numbers must come up. */
#define _DEFAULT_SOURCE
#include <sys/mman.h>
#include <unistd.h>
#include "tick_line.h"

static AirBox *box;
static AirBoxOutput *output;
static size_t page;

static void *new_page(int fill) {
    void *at = mmap(NULL, page, PROT_READ | PROT_WRITE, MAP_PRIVATE | MAP_ANONYMOUS, -1, 0);
    return at == MAP_FAILED ? NULL : memset(at, fill, page);
}

/* The number that a tick or a building gives. */
static uint8_t number_of(const Line *line) {
    return line->kind == A_TICK ? air_box_tick(box, &line->tick, output) : air_box_build(box, line->choices);
}

/* Whether the line, which was refused with `number`, is refused so again, now with both pages protected: a write would end the program, and of a building a
   read of the box too. */
static bool refused_unwritten(const Line *line, uint8_t number) {
    int at_most = line->kind == A_TICK ? PROT_READ : PROT_NONE;
    if (mprotect(box, page, at_most) != 0 || mprotect(output, page, PROT_NONE) != 0) return false;
    uint8_t again = number_of(line);
    if (mprotect(box, page, PROT_READ | PROT_WRITE) != 0 || mprotect(output, page, PROT_READ | PROT_WRITE) != 0) return false;
    return again == number;
}

static int failed(const char *what) {
    fprintf(stderr, "refusals: %s\n", what);
    return 1;
}

/* Whether a building in room that holds no box gives the same number, and where that is a refusal leaves the room as it was. */
static bool same_over_no_box(AirBoxChoices choices, uint8_t number) {
    unsigned char room[sizeof *box];
    memset(room, 0xa7, sizeof room);
    AirBox other;
    memcpy(&other, room, sizeof other);
    if (air_box_build(&other, choices) != number) return false;
    return number == AIR_BOX_BUILT || memcmp(&other, room, sizeof other) == 0;
}

/* Runs a line and counts its number, unless a box was built; what is wrong with it, or NULL. */
static const char *take(const Line *line, unsigned long seen[9]) {
    unsigned char box_before[sizeof *box], output_before[sizeof *output];
    memcpy(box_before, box, sizeof *box);
    memcpy(output_before, output, sizeof *output);
    uint8_t number = number_of(line);
    bool building = line->kind == A_BUILDING;
    if (building ? number != AIR_BOX_BUILT && number != AIR_BOX_DESIGN_FLOWS_OUT_OF_RANGE : number > 7) return "a number that is none";
    if (building && !same_over_no_box(line->choices, number)) return "a building over no box was answered otherwise, or its refusal wrote";
    if ((building || number != 0) && memcmp(output_before, output, sizeof *output) != 0) return "a building or a refused tick wrote the output";
    if (!building || number != 0) seen[number]++;
    if (number == 0) return NULL;
    if (memcmp(box_before, box, sizeof *box) != 0) return "a refused line wrote the box";
    return refused_unwritten(line, number) ? NULL : "a refused line was answered otherwise the second time";
}

int main(void) {
    page = (size_t)sysconf(_SC_PAGESIZE);
    box = new_page(0x5a);
    output = new_page(0xa5);
    if (box == NULL || output == NULL) return failed("no memory");
    *box = air_box_fresh(false);
    unsigned long seen[9] = {0};
    Line line;
    while (next_line(box, &line) != END_OF_INPUT) {
        if (line.kind == READ_FAILED) return failed("cannot read the ticks");
        const char *wrong = line.kind == MALFORMED ? NULL : take(&line, seen);
        if (wrong != NULL) return failed(wrong);
    }
    unsigned long refused = 0;
    for (int number = 1; number <= 8; number++) {
        if (seen[number] == 0) return failed("a number did not come up");
        refused += seen[number];
    }
    if (seen[AIR_BOX_ACCEPTED] == 0) return failed("no tick was accepted");
    return printf("refusals: %lu ticks and buildings refused, no byte written\n", refused) < 0 || fflush(stdout) != 0;
}
