/* How many bytes of stack a tick and a building take, seen on a painted stack over the lines on standard input.
   The most that a tick and that a building may take are the arguments; more ends with status 1. */
#define _DEFAULT_SOURCE
#include "painted_stack.h"
#include "tick_line.h"

static AirBox box;
static Line line;
static AirBoxOutput output;

static void one_tick(void) { air_box_tick(&box, &line.tick, &output); }
static void one_building(void) { air_box_build(&box, line.choices); }

static int failed(const char *what) {
    fprintf(stderr, "stack: %s\n", what);
    return 1;
}

int main(int count, char **arguments) {
    if (count != 3) return failed("the arguments are the most bytes of a tick and of a building");
    size_t ticks = 0, buildings = 0;
    box = air_box_fresh(false);
    while (next_line(&box, &line) != END_OF_INPUT && line.kind != READ_FAILED) {
        if (line.kind == A_TICK) ticks = larger(ticks, one_tick);
        if (line.kind == A_BUILDING) buildings = larger(buildings, one_building);
    }
    if (line.kind == READ_FAILED) return failed("cannot read the lines");
    if (ticks == 0 || buildings == 0) return failed("the lines have no tick or no building");
    if (printf("stack: %zu bytes seen of a tick, %zu of a building\n", ticks, buildings) < 0 || fflush(stdout) != 0) return 1;
    bool too_much = ticks > strtoul(arguments[1], NULL, 10) || buildings > strtoul(arguments[2], NULL, 10);
    return too_much ? failed("more than the arguments allow") : 0;
}
