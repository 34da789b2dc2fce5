/* The reasons why there is no alarm, on long hostile nights of boxes: both starts, both readings, several sizes. Before the first tick and after every one,
   accepted or refused, the reasons that the archive gives are compared with those that are reckoned from the words of document 02 (N3) over a list of the
   accepted ticks: what each carried, and of its answer the damper command and the alarms. No field of a box is read.
   The first difference is written to standard error, and ends the program with status 1. Status 1 too where a reason, one of its flags or one of the cases
   below was not met: how often each was is written. The arguments are the ticks to be accepted and, to see that it is told, the name of a wrong
   reckoning (WRONG_NAMES). Then how often the archive differs from that is written, and the status is 2 if it does so of every alarm and reading. */
#include <stdlib.h>
#include "../hostile.h"
#include "output.h"

enum { STRETCHES = 8, LONG_STRETCH = 900, SHORT_STRETCH = 60, DELAY = 600, SENSOR_STANDS = 3, LEAK_STANDS = 4, TOLD = 2 };

/* ---- the list of accepted ticks */

enum { FLOW, DAMPER, BANDS };

/* A dead-band comparison at a tick: its answer with the memory off and with it on, and whether it is on there, by its rule over the list. */
typedef struct { bool turns_on, keeps_on, on; } Band;

/* An accepted tick: what it carried and what its answer was. `after_refused`: a refused tick stands between it and the one before. */
typedef struct {
    double t;
    int64_t mode, sensor_alarm, leak_alarm;
    bool fan, after_refused;
    Band bands[BANDS];
} Accepted;

/* A box with the accepted ticks that it has had. `refused`: its last tick was a refused one. */
typedef struct {
    AirBox box;
    AirBoxChoices choices;
    bool refused;
    size_t count;
    Accepted ticks[STRETCHES * LONG_STRETCH];
} Night;

static const Accepted *last_of(const Night *night) { return night->count == 0 ? NULL : &night->ticks[night->count - 1]; }

/* Whether the dead band is on at the last tick: it turned on there or at an earlier tick, and kept on at every tick from that one to the last. */
static bool is_on(const Night *night, int band) {
    for (size_t n = night->count; n-- > 0;) {
        const Band *at = &night->ticks[n].bands[band];
        if (at->turns_on) return true;
        if (!at->keeps_on) return false;
    }
    return false;
}

/* ---- the reckoning */

/* The alarms of which the reason is asked: a box has one of the first two, by its reading, and the third. */
typedef enum { SENSOR_FIRST, SENSOR_SECOND, LEAK, ALARMS } Alarm;
static const char *const ALARM_NAMES[ALARMS] = {"sensor alarm, first reading", "sensor alarm, second reading", "leak alarm"};

typedef struct { unsigned number, seconds; bool by_memory[BANDS]; } Reason;

/* Wrong reckonings: 600 less the time since the rise of the condition without the fan, or with the mode; ticks counted as if each were a minute; the seconds since the last
   tick; the flag of the other dead band; a refused tick that is a fall, or that clears the reason; the reason of the tick before; a first tick that counts as
   a rise in the plain start and not in the quiet one; 0.15 for 0.1 * 1.5. */
typedef enum {
    NOT_WRONG, FAN_LEFT_OUT, MODE_IN_THE_RISE, TICKS_COUNTED, SINCE_THE_LAST_TICK, OTHER_DEAD_BAND, REFUSED_TICK_FALLS, REFUSED_TICK_CLEARS, TICK_BEFORE,
    STARTS_SWAPPED, LIMIT_WRITTEN_OUT, WRONGS
} Wrong;
static const char *const WRONG_NAMES[WRONGS] = {"", "fan-left-out", "mode-in-the-rise", "ticks-counted", "since-the-last-tick", "other-dead-band",
                                                "refused-tick-falls", "refused-tick-clears", "tick-before", "starts-swapped", "limit-written-out"};
static Wrong reckoning;

/* Flow is high above H, a tenth of the cooling maximum, and stays so above H less 0.01. The damper is closed below 0.01, and stays so below half as much
   more. */
static void append(Night *night, const AirBoxTick *tick, const AirBoxOutput *output) {
    double maximum = night->choices.design_cooling_maximum_flow, limit = 0.1 * maximum;
    double flow = tick->input.discharge_airflow, command = output->damper_command;
    if (reckoning == LIMIT_WRITTEN_OUT && maximum == 1.5) limit = 0.15;
    Accepted *at = &night->ticks[night->count++];
    *at = (Accepted){tick->t, tick->input.operating_mode, output->airflow_sensor_alarm, output->leaking_damper_alarm, tick->input.supply_fan_status,
                     night->refused, {{flow > limit, flow > limit - 0.01, false}, {command < 0.01, command < 0.01 + 0.5 * 0.01, false}}};
    for (int band = 0; band < BANDS; band++) at->bands[band].on = is_on(night, band);
    night->refused = false;
}

/* What the alarm's 600 seconds run on. */
static bool condition(const Accepted *at, Alarm alarm) {
    bool fan = reckoning == FAN_LEFT_OUT || at->fan == (alarm == LEAK);
    if (reckoning == MODE_IN_THE_RISE && at->mode != 1) return false;
    if (alarm == SENSOR_SECOND) return fan;
    return fan && at->bands[FLOW].on && (alarm != LEAK || at->bands[DAMPER].on);
}

/* The seconds since the condition, which is true at the last of so many ticks, last rose. Infinity where it has been true since the very first tick and that
   counts as long ago. */
static double since_rise(const Night *night, size_t count, Alarm alarm) {
    const Accepted *ticks = night->ticks;
    size_t last = count - 1, rise = last;
    while (rise > 0 && condition(&ticks[rise - 1], alarm) && !(reckoning == REFUSED_TICK_FALLS && ticks[rise].after_refused)) rise--;
    if (rise == 0 && night->choices.quiet == (reckoning == STARTS_SWAPPED)) return INFINITY;
    if (reckoning == TICKS_COUNTED) return 60.0 * (double)(last - rise);
    if (reckoning == SINCE_THE_LAST_TICK && rise < last) rise = last - 1;
    return ticks[last].t - ticks[rise].t;
}

/* The first that is true of the tick, AIR_BOX_HELD if no other is. */
static unsigned first_true(const Accepted *at, Alarm alarm) {
    if (alarm == LEAK) {
        if (!at->fan) return AIR_BOX_FAN_OFF;
        if (!at->bands[DAMPER].on) return AIR_BOX_DAMPER_NOT_CLOSED;
    } else {
        if (at->mode != 1) return AIR_BOX_NOT_OCCUPIED;
        if (at->fan) return AIR_BOX_FAN_ON;
    }
    return at->bands[FLOW].on ? AIR_BOX_HELD : AIR_BOX_FLOW_NOT_HIGH;
}

/* Whether with the other memory the comparison would have given another answer. */
static bool by_memory(const Accepted *at, int band) {
    const Band *here = &at->bands[reckoning == OTHER_DEAD_BAND ? 1 - band : band];
    return here->turns_on != here->keeps_on;
}

/* The reason by the words, after all ticks of the list. */
static Reason reckoned(const Night *night, Alarm alarm) {
    size_t count = night->count;
    if (reckoning == TICK_BEFORE && count > 1) count--;
    if (count == 0 || (reckoning == REFUSED_TICK_CLEARS && night->refused)) return (Reason){AIR_BOX_NO_TICK, 0, {false, false}};
    const Accepted *at = &night->ticks[count - 1];
    Reason reason = {first_true(at, alarm), 0, {by_memory(at, FLOW), alarm == LEAK && by_memory(at, DAMPER)}};
    if (reason.number == AIR_BOX_HELD) {
        double since = since_rise(night, count, alarm);
        if (since >= DELAY) reason.number = AIR_BOX_ALARM_STANDS;
        else reason.seconds = (unsigned)(DELAY - since);
    }
    return reason;
}

/* ---- what is compared and counted */

enum { NUMBERS = AIR_BOX_HELD + 1 };
static const char *const NUMBER_NAMES[NUMBERS] = {
    [AIR_BOX_ALARM_STANDS] = "the alarm stands", [AIR_BOX_NO_TICK] = "no tick", [AIR_BOX_NOT_OCCUPIED] = "mode not 1", [AIR_BOX_FAN_ON] = "fan on",
    [AIR_BOX_FAN_OFF] = "fan off", [AIR_BOX_DAMPER_NOT_CLOSED] = "damper not closed", [AIR_BOX_FLOW_NOT_HIGH] = "flow not high", [AIR_BOX_HELD] = "held"};

/* How often a reason was met of a box with no tick or after an accepted one, and how often with each flag. */
typedef struct { unsigned long times, by_memory[BANDS]; } Met;

/* Cases that have to be met too, of each alarm. */
enum { SAME_SECOND, MINUS_ZERO, REFUSED, ONE_SECOND, ALL_SECONDS, JUST_STANDS, OTHER_MODE_HELD, OTHER_MODE_STANDS, FIRST_HELD, FIRST_STANDS, CASES };
static const char *const CASE_NAMES[CASES] = {
    "held, at a second tick in one second", "held, at -0.0 after 0.0", "held, around a refused tick with the fan turned round", "held, 1 second lacking",
    "held, 600 seconds lacking", "stands, 600 seconds after the rise", "held, just after another mode; the leak in it",
    "stands, just after another mode for 600 seconds; the leak in it", "held, at the first tick of a quiet start",
    "stands, at the first tick of a plain start"};

static Met met[ALARMS][NUMBERS];
static unsigned long cases[ALARMS][CASES], differences[ALARMS], accepted, refused, boxes;
static bool seconds_met[ALARMS][DELAY + 1];

static void failed(const char *what) {
    fprintf(stderr, "reasons: %s\n", what);
    exit(EXIT_FAILURE);
}

static Reason given(const AirBox *box, Alarm alarm) {
    if (alarm == LEAK) {
        AirBoxLeakReason leak = air_box_leak_reason(box);
        return (Reason){leak.reason, leak.seconds_lacking, {leak.flow_by_memory, leak.damper_by_memory}};
    }
    AirBoxSensorReason sensor = air_box_sensor_reason(box);
    return (Reason){sensor.reason, sensor.seconds_lacking, {sensor.flow_by_memory, false}};
}

static bool same(const Reason *one, const Reason *other) {
    return one->number == other->number && one->seconds == other->seconds && one->by_memory[FLOW] == other->by_memory[FLOW] &&
           one->by_memory[DAMPER] == other->by_memory[DAMPER];
}

static void write_reason(const char *whose, const Reason *reason) {
    fprintf(stderr, "  %s %u with %u s, flow by memory %d, damper by memory %d\n", whose, reason->number, reason->seconds, reason->by_memory[FLOW],
            reason->by_memory[DAMPER]);
}

/* Writes a difference and ends the program; of a wrong reckoning counts it. */
static void differs(const Night *night, Alarm alarm, const char *what, const Reason *archive, const Reason *words) {
    differences[alarm]++;
    if (reckoning != NOT_WRONG) return;
    const AirBoxChoices *choices = &night->choices;
    const Accepted *at = last_of(night);
    fprintf(stderr, "reasons: %s: %s, after %zu accepted ticks%s\n", ALARM_NAMES[alarm], what, night->count, night->refused ? " and a refused one" : "");
    write_reason("the archive", archive);
    write_reason("here", words);
    fprintf(stderr, "  box: quiet %d, minimum %.17g, maximum %.17g\n", choices->quiet, choices->design_minimum_flow, choices->design_cooling_maximum_flow);
    if (at != NULL)
        fprintf(stderr, "  last tick: t %.17g, mode %lld, fan %d, flow high %d, damper closed %d, alarms %lld and %lld\n", at->t, (long long)at->mode, at->fan,
                at->bands[FLOW].on, at->bands[DAMPER].on, (long long)at->sensor_alarm, (long long)at->leak_alarm);
    exit(EXIT_FAILURE);
}

/* Compares the reason with what the words say, and with the alarm in the last answer: it stands exactly if that is the alarm's number. */
static Reason compare(const Night *night, Alarm alarm) {
    AirBox before;
    memcpy(&before, &night->box, sizeof before);
    const Accepted *at = last_of(night);
    Reason archive = given(&night->box, alarm), words = reckoned(night, alarm);
    bool answered = at != NULL && (alarm == LEAK ? at->leak_alarm == LEAK_STANDS : at->sensor_alarm == SENSOR_STANDS);
    if (!same(&archive, &words)) differs(night, alarm, "not what the words say", &archive, &words);
    if ((archive.number == AIR_BOX_ALARM_STANDS) != answered) differs(night, alarm, "not what the alarm in the answer says", &archive, &words);
    if (memcmp(&before, &night->box, sizeof before) != 0) failed("a box was changed by being asked for its reasons");
    return archive;
}

static Alarm sensor_of(const Night *night) { return night->choices.second_reading ? SENSOR_SECOND : SENSOR_FIRST; }

/* The seconds for which, at the ticks before the last, the mode has been other than 1; with a tick of mode 1 just before, none. */
static double other_mode_for(const Night *night) {
    size_t last = night->count - 1, n = last;
    while (n > 0 && night->ticks[n - 1].mode != 1) n--;
    return n == last ? 0.0 : night->ticks[last].t - night->ticks[n].t;
}

/* Counts the cases that an accepted tick is one of. */
static void count_cases(const Night *night, Alarm alarm, const Reason *reason) {
    const Accepted *at = last_of(night), *before = night->count > 1 ? at - 1 : NULL;
    unsigned long *count = cases[alarm];
    bool held = reason->number == AIR_BOX_HELD, stands = reason->number == AIR_BOX_ALARM_STANDS;
    bool other_mode = before != NULL && (alarm == LEAK ? at->mode : before->mode) != 1;
    if (held) seconds_met[alarm][reason->seconds <= DELAY ? reason->seconds : 0] = true;
    count[ONE_SECOND] += held && reason->seconds == 1;
    count[ALL_SECONDS] += held && reason->seconds == DELAY;
    count[JUST_STANDS] += stands && since_rise(night, night->count, alarm) == DELAY;
    count[FIRST_HELD] += held && before == NULL && night->choices.quiet;
    count[FIRST_STANDS] += stands && before == NULL && !night->choices.quiet;
    count[SAME_SECOND] += held && before != NULL && at->t == before->t;
    count[MINUS_ZERO] += held && before != NULL && at->t == 0.0 && signbit(at->t) && !signbit(before->t);
    count[OTHER_MODE_HELD] += held && other_mode && reason->seconds < DELAY;
    count[OTHER_MODE_STANDS] += stands && other_mode && other_mode_for(night) >= DELAY;
}

/* Looks at a reason of a box that has had no tick, or has just accepted one. */
static void look_at(const Night *night, Alarm alarm) {
    Reason reason = compare(night, alarm);
    if (reason.number >= NUMBERS) return;
    Met *one = &met[alarm][reason.number];
    one->times++;
    for (int band = 0; band < BANDS; band++) one->by_memory[band] += reason.by_memory[band];
    if (night->count > 0) count_cases(night, alarm, &reason);
}

static void look(const Night *night) {
    look_at(night, sensor_of(night));
    look_at(night, LEAK);
}

/* ---- ticks */

static void good_tick(Night *night, const AirBoxTick *tick) {
    AirBoxOutput output;
    if (air_box_tick(&night->box, tick, &output) != AIR_BOX_ACCEPTED) failed("a tick within every range was refused");
    append(night, tick, &output);
    accepted++;
    look(night);
}

/* A tick that has to be refused: the reasons are what they were. */
static void bad_tick(Night *night, AirBoxTick tick) {
    const Alarm alarms[] = {sensor_of(night), LEAK};
    const Accepted *last = last_of(night);
    Reason before[2];
    AirBoxOutput output;
    for (int n = 0; n < 2; n++) before[n] = given(&night->box, alarms[n]);
    spoil(&tick, last != NULL, last != NULL ? last->t : 0.0);
    if (air_box_tick(&night->box, &tick, &output) == AIR_BOX_ACCEPTED) failed("a tick out of range was accepted");
    refused++;
    night->refused = true;
    for (int n = 0; n < 2; n++) {
        Reason after = compare(night, alarms[n]);
        if (!same(&before[n], &after)) differs(night, alarms[n], "not what it was before the refused tick", &after, &before[n]);
        cases[alarms[n]][REFUSED] += after.number == AIR_BOX_HELD && tick.input.supply_fan_status != last->fan;
    }
}

/* ---- nights */

/* How a reading goes along a stretch, between what it usually is and another value. */
typedef enum { STEADY, FIRST_OTHER, SELDOM_OTHER, IN_TURN, BY_CHANCE } Way;
typedef struct { Way way; int64_t values[2]; } Numbers;
typedef struct { Way way; double values[2]; } Flows;
typedef struct { Numbers step, mode, fan, airflow_override, damper_override; Flows flow; unsigned long ticks; } Stretch;

#define COUNT_OF(list) (sizeof(list) / sizeof(list)[0])
#define ANY_OF(list) (list)[below(COUNT_OF(list))]

static Way any_way(void) {
    static const Way ways[] = {STEADY, STEADY, STEADY, FIRST_OTHER, FIRST_OTHER, SELDOM_OTHER, IN_TURN, BY_CHANCE};
    return ANY_OF(ways);
}

static bool other(Way way, unsigned long n) {
    switch (way) {
    case STEADY: return false;
    case FIRST_OTHER: return n == 0;
    case SELDOM_OTHER: return below(12) == 0;
    case IN_TURN: return n & 1;
    default: return below(2) == 0;
    }
}

static int64_t number(const Numbers *course, unsigned long n) { return course->values[other(course->way, n)]; }

static Numbers any_course(const int64_t *from, size_t count) {
    Numbers course = {any_way(), {0, 0}};
    for (int n = 0; n < 2; n++) course.values[n] = from[below(count)];
    return course;
}

/* A flow at an end of its dead band or just beside it, within it, well above or below it, or a design flow. */
static double any_flow(const AirBoxChoices *choices) {
    double limit = 0.1 * choices->design_cooling_maximum_flow, low = limit - 0.01;
    const double flows[] = {limit, nextafter(limit, INFINITY), limit - 0.005, between(low, limit), low, nextafter(low, INFINITY), nextafter(low, -INFINITY),
                            limit + 0.01, limit + 0.01, limit + 0.1, 0.0, -0.0, -10.0, 10.0, choices->design_minimum_flow,
                            choices->design_cooling_maximum_flow};
    return ANY_OF(flows);
}

/* The flow is what is asked for, so the damper keeps where it is: with the fan just on, within its dead band. */
static void balance(Stretch *stretch, const AirBoxChoices *choices) {
    bool minimum = below(4) != 0;
    double asked = minimum ? choices->design_minimum_flow : choices->design_cooling_maximum_flow;
    stretch->airflow_override = (Numbers){STEADY, {minimum ? 3 : 2, 0}};
    stretch->damper_override = (Numbers){STEADY, {0, 0}};
    stretch->fan = (Numbers){STEADY, {1, 1}};
    stretch->flow.way = below(2) == 0 ? STEADY : FIRST_OTHER;
    stretch->flow.values[0] = asked;
    stretch->flow.values[1] = fmin(asked + between(-0.001, 0.01), 10.0);
}

static Stretch any_stretch(const Night *night) {
    static const int64_t modes[] = {1, 1, 1, 1, 1, 1, 1, 1, 2, 2, 3, 7, 257, INT64_MIN}, fans[] = {0, 1};
    static const int64_t steps[] = {0, 0, 1, 1, 59, 60, 60, 60, 119, 120, 239, 240}, airflow_overrides[] = {0, 1, 2, 3};
    static const int64_t damper_overrides[] = {0, 0, 1, 1, 1, 2};
    Stretch stretch;
    stretch.step = any_course(steps, COUNT_OF(steps));
    stretch.mode = any_course(modes, COUNT_OF(modes));
    stretch.fan = any_course(fans, COUNT_OF(fans));
    stretch.airflow_override = any_course(airflow_overrides, COUNT_OF(airflow_overrides));
    stretch.damper_override = any_course(damper_overrides, COUNT_OF(damper_overrides));
    stretch.flow.way = any_way();
    for (int n = 0; n < 2; n++) stretch.flow.values[n] = any_flow(&night->choices);
    stretch.ticks = 1 + below(below(6) == 0 ? LONG_STRETCH : SHORT_STRETCH);
    if (below(6) == 0) balance(&stretch, &night->choices);
    return stretch;
}

/* The seconds to the next tick: those of the stretch, or any, or up to the end of what an alarm that is held still lacks or to a second beside it. */
static double step_of(const Night *night, const Stretch *stretch, unsigned long n) {
    double step = (double)number(&stretch->step, n);
    uint64_t choice = below(16);
    if (choice == 0) return (double)below(MOST_STEP + 1);
    if (choice > 2) return step;
    Reason reason = given(&night->box, choice == 1 ? LEAK : sensor_of(night));
    double aim = (double)reason.seconds + (double)below(3) - 1.0;
    return reason.number == AIR_BOX_HELD && aim >= 0 && aim <= MOST_STEP ? aim : step;
}

/* The time of the next tick. At 0, of either sign, there are some more. */
static double next_time(const Night *night, const Stretch *stretch, unsigned long n, double first) {
    const Accepted *last = last_of(night);
    double time = last == NULL ? first : last->t + step_of(night, stretch, n);
    bool stays = last != NULL && last->t == 0.0 && below(4) != 0;
    if (time == 0.0 || stays) return below(2) == 0 ? 0.0 : -0.0;
    return time > LAST_TIME ? LAST_TIME : time;
}

static AirBoxTick nth_tick(const Night *night, const Stretch *stretch, unsigned long n, double first) {
    AirBoxInput input = {296.5, 297.0, 293.0, true, true, 0, 894.0, 500.0, 288.0, 287.0, 0.0, 0, 0, false};
    input.operating_mode = number(&stretch->mode, n);
    input.discharge_airflow = stretch->flow.values[other(stretch->flow.way, n)];
    input.airflow_override_index = number(&stretch->airflow_override, n);
    input.damper_override_index = number(&stretch->damper_override, n);
    input.supply_fan_status = number(&stretch->fan, n) != 0;
    return (AirBoxTick){next_time(night, stretch, n, first), input};
}

/* The tick with the fan, the mode or the flow turned round, for one that is to be refused. */
static AirBoxTick turned(const Night *night, AirBoxTick tick) {
    if (below(2) == 0) tick.input.supply_fan_status = !tick.input.supply_fan_status;
    if (below(2) == 0) tick.input.operating_mode = tick.input.operating_mode == 1 ? 2 : 1;
    if (below(2) == 0) tick.input.discharge_airflow = any_flow(&night->choices);
    return tick;
}

static AirBoxChoices any_choices(void) {
    static const double maxima[] = {1.5, 1.5, 1.5, 0.1, 10.0, 0.6};
    double maximum = below(4) == 0 ? between(0.1, 10.0) : ANY_OF(maxima), limit = 0.1 * maximum, within = between(limit - 0.01, limit);
    const double minima[] = {maximum / 3.0, 0.0, maximum, limit, within, within, nextafter(limit, INFINITY)};
    AirBoxChoices choices = {below(2) == 0, 0.0, maximum, false};
    choices.design_minimum_flow = fmax(ANY_OF(minima), 0.0);
    choices.second_reading = below(2) == 0;
    return choices;
}

static void build(Night *night) {
    bool fresh = below(8) == 0;
    night->choices = fresh ? (AirBoxChoices){below(2) == 0, 0.5, 1.5, false} : any_choices();
    if (fresh) night->box = air_box_fresh(night->choices.quiet);
    else if (air_box_build(&night->box, night->choices) != AIR_BOX_BUILT) failed("a box was not built");
    night->count = 0;
    night->refused = false;
    boxes++;
    look(night);
}

/* One night: some stretches, in which one tick in eight is preceded by one that is refused. */
static void one_night(Night *night) {
    const double any = (double)below(2147483649), late = LAST_TIME - (double)below(20000), firsts[] = {0.0, -0.0, 1.0, 119.0, any, late};
    const double first = ANY_OF(firsts);
    build(night);
    for (uint64_t stretches = 1 + below(STRETCHES); stretches > 0; stretches--) {
        Stretch stretch = any_stretch(night);
        for (unsigned long n = 0; n < stretch.ticks; n++) {
            AirBoxTick tick = nth_tick(night, &stretch, n, first);
            if (below(8) == 0) bad_tick(night, turned(night, tick));
            good_tick(night, &tick);
        }
    }
}

/* ---- what is written */

enum { CANNOT_BE = -1 };

/* A row of counts, one for each alarm; whether none of them is 0. */
static bool put_row(const char *what, const long counts[ALARMS]) {
    bool all = true, written = put("  %-66s", what);
    for (int alarm = 0; alarm < ALARMS; alarm++) {
        written = written && (counts[alarm] == CANNOT_BE ? put("%16s", "-") : put("%16ld", counts[alarm]));
        all = all && counts[alarm] != 0;
    }
    if (!written || !put("\n")) exit(cannot("reasons", "write"));
    return all;
}

/* Whether the reason can be one of the alarm. */
static bool can_be(Alarm alarm, unsigned number) {
    if (number == AIR_BOX_NOT_OCCUPIED || number == AIR_BOX_FAN_ON) return alarm != LEAK;
    return alarm == LEAK || (number != AIR_BOX_FAN_OFF && number != AIR_BOX_DAMPER_NOT_CLOSED);
}

/* How often the reason was met, and with each flag; whether each was that can be. */
static bool put_reason(unsigned number) {
    long times[ALARMS], flow[ALARMS], damper[ALARMS];
    for (int alarm = 0; alarm < ALARMS; alarm++) {
        const Met *one = &met[alarm][number];
        bool can = can_be((Alarm)alarm, number);
        times[alarm] = can ? (long)one->times : CANNOT_BE;
        flow[alarm] = can ? (long)one->by_memory[FLOW] : CANNOT_BE;
        damper[alarm] = alarm == LEAK && can ? (long)one->by_memory[DAMPER] : CANNOT_BE;
    }
    bool all = put_row(NUMBER_NAMES[number], times);
    if (number == AIR_BOX_NO_TICK) return all;
    all = put_row("    flow by memory", flow) && all;
    return (!can_be(LEAK, number) || put_row("    damper by memory", damper)) && all;
}

/* Everything that was met; whether that is all that has to be. */
static bool put_all(void) {
    bool all = true;
    if (!put("reasons: %-57s%16s%16s%16s\n", "how often each was met", "first reading", "second reading", "leak alarm")) exit(cannot("reasons", "write"));
    for (unsigned number = 0; number < NUMBERS; number++) {
        if (NUMBER_NAMES[number] != NULL) all = put_reason(number) && all;
    }
    for (int n = 0; n < CASES; n++) {
        const long counts[ALARMS] = {(long)cases[SENSOR_FIRST][n], (long)cases[SENSOR_SECOND][n], (long)cases[LEAK][n]};
        all = put_row(CASE_NAMES[n], counts) && all;
    }
    long seconds[ALARMS] = {0, 0, 0};
    for (int alarm = 0; alarm < ALARMS; alarm++) {
        for (int n = 1; n <= DELAY; n++) seconds[alarm] += seconds_met[alarm][n];
    }
    return put_row("seconds lacking, of the 600 numbers", seconds) && all;
}

/* Writes how often the archive differs from a wrong reckoning; whether it does so of every alarm. */
static bool told_of_all(void) {
    if (!put("reasons: %s is told %lu, %lu and %lu times\n", WRONG_NAMES[reckoning], differences[SENSOR_FIRST], differences[SENSOR_SECOND], differences[LEAK]))
        exit(cannot("reasons", "write"));
    return differences[SENSOR_FIRST] > 0 && differences[SENSOR_SECOND] > 0 && differences[LEAK] > 0;
}

int main(int count, char **arguments) {
    static Night night;
    unsigned long ticks = count > 1 ? strtoul(arguments[1], NULL, 10) : 0;
    for (int n = 1; count == 3 && n < WRONGS; n++) {
        if (strcmp(arguments[2], WRONG_NAMES[n]) == 0) reckoning = (Wrong)n;
    }
    if (ticks == 0 || count > 3 || (count == 3 && reckoning == NOT_WRONG)) failed("the arguments are the ticks and, if any, the name of a wrong reckoning");
    while (accepted < ticks) one_night(&night);
    if (reckoning != NOT_WRONG) return told_of_all() && close_output() ? TOLD : EXIT_SUCCESS;
    bool all = put_all();
    if (!put("  %lu ticks accepted, %lu refused, of %lu boxes\n", accepted, refused, boxes)) return cannot("reasons", "write");
    if (!close_output()) return cannot("reasons", "write");
    if (!all) failed("a reason, a flag or a case was not met");
    return EXIT_SUCCESS;
}
