/* Runs the ticks and buildings on standard input, in the line format of the program `ticks`, and answers each line as that program does.
   Build: tools/build_archive && gcc -O2 -Iinclude examples/night.c target/staticlib/libair_box_c.a -o target/night
   Run:   target/night < crates/ticks/stdin */
#define _POSIX_C_SOURCE 200809L
#include <inttypes.h>
#include "tick_line.h"
#include "output.h"

static bool put_output(const AirBoxOutput *o) {
    uint64_t w[5];
    memcpy(w, o, sizeof w);
    for (int k = 0; k < 5; k++)
        if (!put("%016" PRIx64 " ", w[k])) return false;
    return put("%" PRId64 " %" PRId64 " %" PRId64 " %" PRId64 " %" PRId64 "\n", o->zone_temperature_reset_request,
               o->zone_pressure_reset_request, o->low_airflow_alarm, o->airflow_sensor_alarm, o->leaking_damper_alarm);
}

static bool put_answer(uint8_t number, const AirBoxOutput *o) {
    return number == AIR_BOX_ACCEPTED ? put_output(o) : put("refused %d\n", number);
}

static bool put_built(uint8_t number) {
    return number == AIR_BOX_BUILT ? put("built\n") : put("refused %d\n", number);
}

/* Lets the box take a line that was read, and answers it. */
static bool take(AirBox *box, const Line *line) {
    if (line->kind == MALFORMED) return put("malformed\n");
    if (line->kind == A_BUILDING) return put_built(air_box_build(box, line->choices));
    AirBoxOutput output = {0};
    uint8_t number = air_box_tick(box, &line->tick, &output);
    return put_answer(number, &output);
}

int main(void) {
    AirBox box = air_box_fresh(false);
    Line line;
    while (next_line(&box, &line) != END_OF_INPUT) {
        if (line.kind == READ_FAILED) return cannot("night", "read the ticks");
        if (!take(&box, &line)) return cannot("night", "write the answers");
    }
    return close_output() ? 0 : cannot("night", "write the answers");
}
