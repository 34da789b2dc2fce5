/* What the dispatcher reads: runs the ticks and buildings on standard input, in the line format of the program `ticks`, and prints the time of a tick, the
   desk code, its meaning, and for the sensor alarm and the leak alarm the reason why it does not stand: at the first accepted tick of a box, whenever the code
   changes, whenever one of the two begins or ceases to be held, that is, to wait out its 600 seconds, and whenever memory begins or ceases to have a say in one
   that is held. So an alarm is seen to come before it stands, and it is seen where it does not come. Other changes of a reason have no line.
   The leak alarm's `fan off` is left out where the line says it already: the sensor alarm stands, is held or lacks the flow with the fan off alone.
   A refused tick or building has a line with dashes for the time, the number of the refusal and its meaning; a line that is neither has one too. */
#define _POSIX_C_SOURCE 200809L
#include <inttypes.h>
#include "tick_line.h"
#include "output.h"

static const char *meaning(int code) {
    switch (code) {
    case AIR_BOX_DESK_LEAKING_DAMPER: return "leaking damper: flow with the damper closed";
    case AIR_BOX_DESK_LOW_BELOW_HALF: return "low airflow, below half of the setpoint";
    case AIR_BOX_DESK_LOW_BELOW_SEVENTY: return "low airflow, below 70 percent of the setpoint";
    case AIR_BOX_DESK_AIRFLOW_SENSOR: return "airflow sensor: flow with the fan off";
    default: return "no alarm";
    }
}

static const char *refusal(int number) {
    switch (number) {
    case AIR_BOX_NOT_WHOLE_SECONDS: return "the time is no whole number of seconds";
    case AIR_BOX_TIME_OUT_OF_RANGE: return "the time is out of range";
    case AIR_BOX_BEFORE_LAST: return "the time is before the last one";
    case AIR_BOX_TOO_LONG_AFTER_LAST: return "more than 240 seconds after the last one: start the box afresh";
    case AIR_BOX_TEMPERATURE_OUT_OF_RANGE: return "a temperature is out of range";
    case AIR_BOX_CO2_OUT_OF_RANGE: return "a CO2 value is out of range";
    case AIR_BOX_AIRFLOW_OUT_OF_RANGE: return "the airflow is out of range";
    default: return "the design flows are out of range: the box is not built";
    }
}

/* An alarm's reason why it does not stand, or that it stands, and whether memory decided of the flow and of the damper. */
typedef struct { const char *alarm; uint8_t reason; unsigned seconds_lacking; bool flow_by_memory, damper_by_memory; } Why;

/* What a line shows after a tick. */
enum { SENSOR, LEAK, ALARMS };
typedef struct { int code; Why why[ALARMS]; } Shown;

static Shown shown_after(const AirBox *box, const AirBoxOutput *o) {
    AirBoxSensorReason sensor = air_box_sensor_reason(box);
    AirBoxLeakReason leak = air_box_leak_reason(box);
    int code = air_box_desk_code(o->low_airflow_alarm, o->airflow_sensor_alarm, o->leaking_damper_alarm);
    return (Shown){code, {{"sensor alarm", sensor.reason, sensor.seconds_lacking, sensor.flow_by_memory, false},
                          {"leak alarm", leak.reason, leak.seconds_lacking, leak.flow_by_memory, leak.damper_by_memory}}};
}

static const char *words(uint8_t reason) {
    switch (reason) {
    case AIR_BOX_NOT_OCCUPIED: return "mode not 1";
    case AIR_BOX_FAN_ON: return "fan on";
    case AIR_BOX_FAN_OFF: return "fan off";
    case AIR_BOX_DAMPER_NOT_CLOSED: return "damper not closed";
    default: return "flow not high";
    }
}

/* What memory decided, of the dead band that is the reason, and of an alarm that is held or stands. */
static bool put_memory(const Why *why) {
    bool of_damper = why->reason == AIR_BOX_DAMPER_NOT_CLOSED, of_flow = why->reason == AIR_BOX_FLOW_NOT_HIGH;
    if ((of_damper && why->damper_by_memory) || (of_flow && why->flow_by_memory)) return put(" by memory");
    if (why->reason != AIR_BOX_HELD && why->reason != AIR_BOX_ALARM_STANDS) return true;
    if (why->damper_by_memory && !put(", damper closed by memory")) return false;
    return !why->flow_by_memory || put(", flow high by memory");
}

static bool put_why(const Why *why) {
    bool held = why->reason == AIR_BOX_HELD;
    bool written = held ? put("%s held, %u s lacking", why->alarm, why->seconds_lacking) : put("%s: %s", why->alarm, words(why->reason));
    return written && put_memory(why);
}

/* Whether the line tells the reason already: that the fan is off, by the sensor alarm or its reason. */
static bool is_told(const Shown *shown, uint8_t reason) {
    return reason == AIR_BOX_FAN_OFF && shown->why[SENSOR].reason != AIR_BOX_NOT_OCCUPIED;
}

/* The line of an accepted tick. */
static bool put_shown(double t, const Shown *shown) {
    int64_t seconds = (int64_t)t;
    int code = shown->code;
    const char *before = code == AIR_BOX_DESK_NO_ALARM ? ": " : "; ";
    if (!put("%02" PRId64 ":%02" PRId64 ":%02" PRId64 "  %2d  %s", seconds / 3600, seconds / 60 % 60, seconds % 60, code, meaning(code))) return false;
    for (int n = 0; n < ALARMS; n++) {
        const Why *why = &shown->why[n];
        if (why->reason == AIR_BOX_ALARM_STANDS && !put_memory(why)) return false;
    }
    for (int n = 0; n < ALARMS; n++) {
        const Why *why = &shown->why[n];
        if (why->reason == AIR_BOX_ALARM_STANDS || is_told(shown, why->reason)) continue;
        if (!put("%s", before) || !put_why(why)) return false;
        before = "; ";
    }
    return put("\n");
}

/* Whether nothing has happened that the reader has to know. */
static bool is_same(const Shown *one, const Shown *other) {
    bool same = one->code == other->code;
    for (int n = 0; n < ALARMS; n++) {
        const Why *a = &one->why[n], *b = &other->why[n];
        bool held = a->reason == AIR_BOX_HELD;
        same = same && held == (b->reason == AIR_BOX_HELD);
        same = same && (!held || (a->flow_by_memory == b->flow_by_memory && a->damper_by_memory == b->damper_by_memory));
    }
    return same;
}

static bool put_refusal(uint8_t number) {
    return put("--:--:--  refused %d: %s\n", number, refusal(number));
}

/* Runs one tick, and writes its line if the reader has to know: of a refusal always, else at a box's first and where it is not as the last line shows it. */
static bool put_tick(AirBox *box, const AirBoxTick *tick, Shown *last) {
    AirBoxOutput o = {0};
    bool first = air_box_sensor_reason(box).reason == AIR_BOX_NO_TICK;
    uint8_t number = air_box_tick(box, tick, &o);
    if (number != AIR_BOX_ACCEPTED) return put_refusal(number);
    Shown shown = shown_after(box, &o);
    if (!first && is_same(&shown, last)) return true;
    *last = shown;
    return put_shown(tick->t, &shown);
}

/* Lets the box take a line that was read. A box that is built has no line of its own. */
static bool take(AirBox *box, const Line *line, Shown *last) {
    if (line->kind == MALFORMED) return put("--:--:--      this line is no tick and builds no box\n");
    if (line->kind == A_TICK) return put_tick(box, &line->tick, last);
    uint8_t number = air_box_build(box, line->choices);
    return number == AIR_BOX_BUILT || put_refusal(number);
}

int main(void) {
    AirBox box = air_box_fresh(false);
    Line line;
    Shown last = {-1, {{0}, {0}}};
    while (next_line(&box, &line) != END_OF_INPUT) {
        if (line.kind == READ_FAILED) return cannot("desk", "read the ticks");
        if (!take(&box, &line, &last)) return cannot("desk", "write the night");
    }
    return close_output() ? 0 : cannot("desk", "write the night");
}
