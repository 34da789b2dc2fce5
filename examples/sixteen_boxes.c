/* Sixteen boxes for an hour, with nothing but air_box.h and the archive: what firmware does with a refusal, and what a start shows.
   Three boxes are in trouble. The damper of box 11 is told to close and leaks; the duct of box 5 is blocked; the zone sensor of box 3 fails for ten minutes.
   All power up occupied, with the fan on and their dampers closed, so the others show low airflow too until theirs have opened: from minute 5 with the
   quiet start, at once with the plain one. Box 5 alone keeps it. Box 3 shows it once more after it was built afresh.
   Build: gcc -O2 -Iinclude examples/sixteen_boxes.c target/staticlib/libair_box_c.a -o target/sixteen_boxes
   Run:   target/sixteen_boxes          or, to see the other start: target/sixteen_boxes plain */
#include <errno.h>
#include <math.h>
#include <stdarg.h>
#include <stdio.h>
#include <string.h>
#include "air_box.h"

enum { BOXES = 16, STEP = 60, HOUR = 3600, FAILING = 3, BLOCKED = 5, LEAKING = 11 };

/* What the firmware keeps of a box. The output is its own: no tick that is refused touches it. */
typedef struct Unit {
    AirBox box;
    AirBoxOutput output;
    uint8_t number; /* of the last tick */
    int lost;       /* refusals 3 and 4 in a row */
    int code;       /* of the last accepted tick */
} Unit;

static const char *meaning(int code) {
    switch (code) {
    case AIR_BOX_DESK_LEAKING_DAMPER: return "flow with the damper closed: look at the damper";
    case AIR_BOX_DESK_LOW_BELOW_HALF: return "low airflow, below half of the setpoint";
    case AIR_BOX_DESK_LOW_BELOW_SEVENTY: return "low airflow, below 70 percent of the setpoint";
    case AIR_BOX_DESK_AIRFLOW_SENSOR: return "flow with the fan off: look at the airflow sensor";
    default: return "no alarm";
    }
}

/* The building: what the sensors of box i read at second t while its damper stands at `damper`. */
static AirBoxTick readings(int i, int t, double damper) {
    AirBoxTick tick = {0};
    tick.t = t;
    tick.input.zone_temperature = i == FAILING && t >= 1200 && t < 1800 ? NAN : 297.5;
    tick.input.cooling_setpoint = 297.0;
    tick.input.heating_setpoint = 293.0;
    tick.input.window_status = AIR_BOX_WINDOWS_CLOSED;
    tick.input.occupancy_status = true;
    tick.input.operating_mode = AIR_BOX_MODE_OCCUPIED;
    tick.input.co2_setpoint = 900.0;
    tick.input.co2_concentration = 600.0;
    tick.input.discharge_air_temperature = 287.0;
    tick.input.supply_air_temperature = 286.0;
    tick.input.discharge_airflow = i == LEAKING ? 0.3 : (i == BLOCKED ? 0.2 : 1.5) * damper;
    tick.input.airflow_override_index = i == LEAKING ? AIR_BOX_AIRFLOW_OVERRIDE_ZERO : AIR_BOX_AIRFLOW_OVERRIDE_NONE;
    tick.input.damper_override_index = i == LEAKING ? AIR_BOX_DAMPER_OVERRIDE_CLOSED : AIR_BOX_DAMPER_OVERRIDE_NONE;
    tick.input.supply_fan_status = true;
    return tick;
}

/* One tick of a box. A box that its clock has lost, to the past or by more than 240 seconds, is built afresh with the choices that it has, and takes
   this tick as its first: not at once, since one false time far ahead would then put it out of reach of the right ones. Whether it was. */
static bool ticked_afresh(Unit *unit, const AirBoxTick *tick) {
    unit->number = air_box_tick(&unit->box, tick, &unit->output);
    bool lost = unit->number == AIR_BOX_BEFORE_LAST || unit->number == AIR_BOX_TOO_LONG_AFTER_LAST;
    unit->lost = lost ? unit->lost + 1 : 0;
    if (unit->lost < 3) return false;
    unit->lost = 0;
    air_box_build(&unit->box, unit->box.last.choices);
    unit->number = air_box_tick(&unit->box, tick, &unit->output);
    return true;
}

/* A line of the log, of box i at second t; whether it was written. */
static bool put_line(int t, int i, const char *format, ...) {
    va_list rest;
    va_start(rest, format);
    bool written = printf("%02d:%02d  box %2d  ", t / 60, t % 60, i) >= 0 && vprintf(format, rest) >= 0 && putchar('\n') != EOF;
    va_end(rest);
    return written;
}

/* What is logged of a number that is not that of the tick before. */
static bool put_number(int t, int i, const Unit *unit) {
    if (unit->number == AIR_BOX_ACCEPTED) return put_line(t, i, "accepted again");
    return put_line(t, i, "refused %d, the damper stays at %.2f", unit->number, unit->output.damper_command);
}

/* One tick of box i at second t, and the log of what changed. Whether all was written. */
static bool run(Unit *unit, int i, int t) {
    AirBoxTick tick = readings(i, t, unit->output.damper_command);
    uint8_t last = unit->number;
    if (ticked_afresh(unit, &tick) && !put_line(t, i, "built afresh")) return false;
    if (unit->number != last && !put_number(t, i, unit)) return false;
    if (unit->number != AIR_BOX_ACCEPTED) return true;
    const AirBoxOutput *o = &unit->output;
    int code = air_box_desk_code(o->low_airflow_alarm, o->airflow_sensor_alarm, o->leaking_damper_alarm);
    if (code == unit->code) return true;
    unit->code = code;
    return put_line(t, i, "code %2d  %s", code, meaning(code));
}

static int cannot_write(void) {
    fprintf(stderr, "sixteen_boxes: cannot write: %s\n", strerror(errno));
    return 1;
}

int main(int count, char **arguments) {
    bool quiet = !(count == 2 && strcmp(arguments[1], "plain") == 0);
    if (count > 2 || (count == 2 && quiet)) {
        fputs("sixteen_boxes: the only argument is plain\n", stderr);
        return 2;
    }
    static Unit units[BOXES];
    for (int i = 0; i < BOXES; i++) units[i].box = air_box_fresh(quiet);
    for (int t = 0; t <= HOUR; t += STEP)
        for (int i = 0; i < BOXES; i++)
            if (!run(&units[i], i, t)) return cannot_write();
    return fclose(stdout) == 0 ? 0 : cannot_write();
}
