/* The air box for C and C++: the controller of one cooling-only variable-volume air box.
   Link with libair_box_c.a, which `tools/build_archive` writes to target/staticlib. This header, the archive and C's memset are all that a program needs.
   docs/RULES.md has the rules in full: every threshold, dead band and delay.

   A box is a record of the caller's. A tick hands it a time and the readings of that time, and gets ten outputs or the number of a refusal:

       AirBox box = air_box_fresh(true);                     // once, at power-up; true: a quiet start
       AirBoxOutput output = {0};                            // one for each box: what its last accepted tick gave
       int lost = 0;                                         // refusals 3 and 4 in a row

       uint8_t number = air_box_tick(&box, &tick, &output);  // every minute
       if (number != AIR_BOX_BEFORE_LAST && number != AIR_BOX_TOO_LONG_AFTER_LAST) {
           lost = 0;
       } else if (++lost == 3) {                             // box and clock have lost each other: the box is built afresh
           lost = 0;
           air_box_build(&box, box.last.choices);            // with all that it was built with; never refused
           number = air_box_tick(&box, &tick, &output);      // this tick is its first
       }
       if (number != AIR_BOX_ACCEPTED) report(number);       // `output` still holds what the last accepted tick gave

   Time. `t` is in whole seconds from any start that the caller chooses, from 0 to 2,147,483,648. A clock that is never set, such as seconds since
   power-up, is best; it lasts for 68 years, and Unix time until January 2038. `t` never goes back. It may stand still: a second tick at the same time
   adds no seconds. Between two accepted ticks it moves by at most 240. A tick a minute is what the controller is made for. A caller that ticks less often
   than every 240 seconds rebuilds its box again and again, and such a box shows no alarm.
   A box samples at the multiples of 120 of `t`. Where the first accepted `t` is no multiple of 120, the first cooling setpoint may count as a change, and
   temperature requests 2 and 3 are then kept back for up to half an hour. Seconds counted from the box's own first tick avoid that.

   Refusals. A refused tick writes nothing: no byte of the box, none of the output. The last accepted command stays where the caller has it, and the
   box goes on from its last accepted tick as if the refused one had not been. So a caller that meets a bad reading keeps its outputs and tries again.
   But readings that stay bad let the 240 seconds run out. From then on a clock that goes on gets AIR_BOX_TOO_LONG_AFTER_LAST for every tick, however good
   its readings are, until the box is built afresh: a loop that only goes on to the next tick leaves that box dead for the night. A clock that was set
   back gets AIR_BOX_BEFORE_LAST until it has caught up. The lines above are the way out of both. They wait for three such refusals in a row, since a
   box that is built at one false time far ahead would refuse the right times that follow. A fresh box has no last time and takes the first good
   tick, whenever that comes. It has forgotten all: its alarms show 0 until they have waited out their delays again, and its damper and loops start anew.
   Until its first accepted tick the outputs are what the caller put there. The desk code does not show refusals: report the number beside it.

   Plain or quiet. A real box takes the quiet start. With a plain start a fault that seems to stand at the first tick counts as having stood for long:
   in occupied mode flow that is measured there with the fan off shows code 23 at once, and low airflow 12 or 13; in any mode a leak 34. With a quiet start
   every alarm, and every request above 1, waits out its delay first. Eight delays wait so: of the requests those of temperature 2 and 3, 120 seconds
   each, and the damper's for pressure 2 and 3, 60; of the alarms the setpoint's and the two low airflows', 300 each, the sensor's and the leak's, 600
   each. One more, the fan's arming, does not: the low airflow alarm is armed once the fan has been on for 30 minutes, and with either start a fan that
   is on at the first tick counts as having been on for that long. So with a quiet start low airflow shows 5 minutes after power-up at the earliest, and
   with either start 35 minutes after a fan start that the box has seen. The plain start is that of the published reference, for comparing with it.
   A fresh box does not know where its damper stood, and with the fan on it takes minutes to bring its flow up. In occupied mode a sound one may therefore
   show low airflow, with the quiet start from minute 5 on: in examples/sixteen_boxes.c, where all begin without flow, until minute 21. Low airflow right
   after power-up, or after a box was built afresh, is a fault only if it stays.

   Size. A box from air_box_fresh has a design minimum of 0.5 and a cooling maximum of 1.5 cubic metres a second. A box of another size is built with
   its own two flows:

       AirBoxChoices choices = {true, 0.2, 0.6, false};      // a quiet start, the design minimum, the cooling maximum, the first reading of the alarm
       AirBox box;                                           // what stands there is not read
       uint8_t number = air_box_build(&box, choices);
       if (number != AIR_BOX_BUILT) report(number);          // nothing was written: there is no box to tick

   The maximum is from 0.1 to 10.0 and the minimum from 0.0 to the maximum. Both ends belong to a range; what lies outside is refused, and a NaN too. -0.0
   is a minimum of 0 and is then used as it came. The start, the size and the reading stay with the box and never change; they stand in `last.choices`. So
   a box that is built afresh takes them from there, as above, or from where the caller keeps them: air_box_fresh would make it one of 0.5 and 1.5, with
   the first reading.
   The maximum and the minimum are the flows of overrides 2 and 3. The damper's loop takes setpoint and measured flow as shares of the maximum, and for the
   alarms flow is high above a tenth of it. The dead bands, that of 0.01 below this tenth among them, are the same for every size: at a maximum of 0.1 flow
   that was high stays high until about 0 is measured.

   Reading. The airflow sensor alarm has two readings, of which a box is built with one. In the first, that of the published reference, the flow has been
   high and the fan off, both at once, for 600 seconds. In the second the fan has been off for 600 seconds and the flow is high now, however short a time.
   Both show the alarm in occupied mode alone. With a plain start what stands at the very first tick counts as having stood for long: in the first reading
   flow high with the fan off, in the second the fan off. Nothing else differs: the nine other outputs are the same, and code 23 means the same.
   Of two boxes that are otherwise built alike and get the same ticks, the one with the second reading shows the alarm wherever the one with the first does
   (proved), and sometimes where that one does not. Two ticks are enough, with a plain start and in occupied mode: the fan off at both, the flow not high at
   the first tick and high at the second. The first reading then shows 0, the second 3.
   Which one a box takes is for the designer of its controls to say: the first is that of the published reference, the second that of the guideline as the
   maker's consultants read it. air_box_fresh keeps the first. So does an initialiser of three values, {true, 0.2, 0.6}, about which compilers warn under
   -Wextra. A program that assigns the fields one by one has to assign this one too.

   Why there is no alarm. A box also tells why its airflow sensor alarm does not stand, and why its leaking damper alarm does not, as a number: the first of
   these that is true of its last accepted tick.

       sensor:  AIR_BOX_NO_TICK, AIR_BOX_NOT_OCCUPIED, AIR_BOX_FAN_ON, AIR_BOX_FLOW_NOT_HIGH, AIR_BOX_HELD, AIR_BOX_ALARM_STANDS
       leak:    AIR_BOX_NO_TICK, AIR_BOX_FAN_OFF, AIR_BOX_DAMPER_NOT_CLOSED, AIR_BOX_FLOW_NOT_HIGH, AIR_BOX_HELD, AIR_BOX_ALARM_STANDS

       AirBoxSensorReason why = air_box_sensor_reason(&box);
       if (why.reason == AIR_BOX_HELD) report_held(why.seconds_lacking);

   It may be asked at any time, and speaks of the last accepted tick: a refused one changes none of it. The leak alarm asks for no mode. AIR_BOX_HELD: all is
   there but the 600 seconds. Of them `seconds_lacking`, from 1 to 600, are lacking at that tick: if nothing changes the alarm stands from the first tick on
   that is so many seconds later or more. With any other reason it is 0.
   The seconds run from the accepted tick at which flow high with the fan off last began, in whatever mode; with the second reading from the one at which the
   fan last stopped, whenever the flow became high; for the leak from the one at which fan on, damper closed and flow high last came together. With a quiet
   start the first tick counts as such a beginning. With a plain start what is there from the first tick on is never held.
   Beside the reason, whichever it is, stands whether memory decided. That flow is high, and that the damper is closed, are comparisons with a dead band in
   which the answer before stays: a flow above 0.01 less than a tenth of the maximum and not above that tenth, a damper command from 0.01 to below 0.015.
   A flag says that with the other memory that comparison would have given the other answer. Before the first accepted tick the flags are false.

   What the archive needs and takes.
   - x86-64 with the System V ABI, as on Linux and the BSDs. No other processor, and not the ABI of Windows. SSE2 is enough.
   - Doubles rounded to nearest, exceptions masked, no flushing of small numbers to zero: the state in which a program starts. A program that is linked
     with -ffast-math may start in another.
   - No allocation, no global or static variable, no errno. A tick and a reason call nothing out of the archive; air_box_fresh and
     air_box_build call memset, which a program without a C library has to bring. Calls may run at the same time on different boxes; one box is
     ticked by one thread at a time, and asked for no reason meanwhile, and a signal handler neither ticks nor asks a box that it may have interrupted.
   - No loop, no recursion and no indirect jump, so the time of a call is bounded. A tick was seen to take some 750 bytes of stack, a building
     100; no proof bounds them.

   What a caller keeps to. A pointer points to a whole record of its type, and the box, the tick and the output do not lie over each other. A flag is 0 or 1,
   and nothing else. A box is what air_box_fresh, air_box_build or a tick left, or a copy of it. air_box_build takes any room for one. The
   other numbers of a tick, and the two flows of a building, may be any, NaN and infinities among them: none stops the box.
   Header and archive come together. A program that was compiled with an older header is compiled again with this one: the records grew, which no linker
   sees, and a call from the older program would write past its box.

   A box holds no pointer: it may be copied, by assignment or memcpy, and saved, to be loaded by a program with the same archive; the caller keeps a
   version beside it. A loaded box goes on where the same clock has moved on by at most 240 seconds; else a fresh one is needed. Its padding may
   hold anything, so two boxes that are the same may differ in raw bytes: to compare two, compare their fields, and do not send raw bytes to others.
   A box that an older archive saved cannot be loaded: it is shorter, and keeps nothing of its last tick. It is built afresh. */
#ifndef AIR_BOX_H
#define AIR_BOX_H

#include <stdbool.h>
#include <stddef.h>
#include <stdint.h>

#if !defined(__x86_64__) || defined(__ILP32__) || defined(_WIN32)
#error "the archive of the air box is for x86-64 with the System V ABI"
#endif

/* C99 and later, C++98 and later. The assertions hold each struct to sizes and offsets that stand here as numbers. That the archive has the same layout
   rests on its records being declared as C lays them out (repr(C)), and on programs that are linked to it and compared on every bit. */
#if defined(__cplusplus) && __cplusplus >= 201103L
#define AIR_BOX_ASSERT(fact) static_assert(fact, #fact)
#elif !defined(__cplusplus) && defined(__STDC_VERSION__) && __STDC_VERSION__ >= 201112L
#define AIR_BOX_ASSERT(fact) _Static_assert(fact, #fact)
#else
#define AIR_BOX_ASSERT_LINE(fact, line) typedef char air_box_assert_##line[(fact) ? 1 : -1]
#define AIR_BOX_ASSERT_AT(fact, line) AIR_BOX_ASSERT_LINE(fact, line)
#define AIR_BOX_ASSERT(fact) AIR_BOX_ASSERT_AT(fact, __LINE__)
#endif

#ifdef __cplusplus
extern "C" {
#endif

/* ---- What a tick returns: accepted, or the number of the first question that gets a "no". They are asked in this order; both ends belong to a range. */
#define AIR_BOX_ACCEPTED 0
#define AIR_BOX_NOT_WHOLE_SECONDS 1         /* refused unless t is finite and a whole number */
#define AIR_BOX_TIME_OUT_OF_RANGE 2         /* refused unless t is from 0 to 2,147,483,648 */
#define AIR_BOX_BEFORE_LAST 3               /* refused unless t is that of the last accepted tick or later; not asked where there is none */
#define AIR_BOX_TOO_LONG_AFTER_LAST 4       /* refused unless t is at most 240 after it; not asked where there is none. Lasts until the box is built afresh */
#define AIR_BOX_TEMPERATURE_OUT_OF_RANGE 5  /* refused unless each of the five temperatures is from 150.0 to 450.0 kelvin */
#define AIR_BOX_CO2_OUT_OF_RANGE 6          /* refused unless both CO2 values are from 0.0 to 10000.0 parts per million */
#define AIR_BOX_AIRFLOW_OUT_OF_RANGE 7      /* refused unless the airflow is from -10.0 to 10.0 cubic metres a second */

/* ---- What is chosen when a box is built, and stays with it */

/* The start, the size and the reading of the airflow sensor alarm. Airflows in cubic metres a second. */
typedef struct AirBoxChoices {
    bool quiet;                         /* true: a quiet start; false: a plain one */
    double design_minimum_flow;         /* from 0.0 to the maximum; 0.5 where air_box_fresh built the box */
    double design_cooling_maximum_flow; /* from 0.1 to 10.0; 1.5 there */
    bool second_reading;                /* true: the second reading of the airflow sensor alarm; false: the first, which air_box_fresh has */
} AirBoxChoices;
AIR_BOX_ASSERT(sizeof(AirBoxChoices) == 32);
AIR_BOX_ASSERT(offsetof(AirBoxChoices, design_minimum_flow) == 8);
AIR_BOX_ASSERT(offsetof(AirBoxChoices, design_cooling_maximum_flow) == 16);
AIR_BOX_ASSERT(offsetof(AirBoxChoices, second_reading) == 24);

/* What building a box with choices returns; no tick returns 8. */
#define AIR_BOX_BUILT 0
#define AIR_BOX_DESIGN_FLOWS_OUT_OF_RANGE 8 /* refused unless the maximum is from 0.1 to 10.0 and the minimum from 0.0 to the maximum */

/* ---- What a tick carries */

/* operating_mode. 4 to 7, and any number outside of 1 to 7, are treated alike. Where the airflow setpoint is 0 the damper closes only as far as the
   measured flow asks; damper override 1 closes it. */
#define AIR_BOX_MODE_OCCUPIED 1             /* a minimum flow with people in and windows closed; low airflow and sensor alarms show in this mode alone */
#define AIR_BOX_MODE_COOL_DOWN 2            /* no minimum flow; cooling up to the maximum */
#define AIR_BOX_MODE_SETUP 3                /* the same */
#define AIR_BOX_MODE_WARM_UP 4              /* the airflow setpoint is 0 */
#define AIR_BOX_MODE_SETBACK 5              /* the same, as are the next two */
#define AIR_BOX_MODE_FREEZE_PROTECTION 6
#define AIR_BOX_MODE_UNOCCUPIED 7

/* airflow_override_index. Any other number is no override. */
#define AIR_BOX_AIRFLOW_OVERRIDE_NONE 0
#define AIR_BOX_AIRFLOW_OVERRIDE_ZERO 1     /* the airflow setpoint is 0 */
#define AIR_BOX_AIRFLOW_OVERRIDE_MAXIMUM 2  /* the cooling maximum */
#define AIR_BOX_AIRFLOW_OVERRIDE_MINIMUM 3  /* the design minimum */

/* damper_override_index. Any other number is no override. */
#define AIR_BOX_DAMPER_OVERRIDE_NONE 0
#define AIR_BOX_DAMPER_OVERRIDE_CLOSED 1    /* the damper command is 0 */
#define AIR_BOX_DAMPER_OVERRIDE_OPEN 2      /* it is 1 */

/* window_status: true is closed, the normal state; false is open. */
#define AIR_BOX_WINDOWS_CLOSED true
#define AIR_BOX_WINDOWS_OPEN false          /* the outdoor airflows and the minimum flow are 0 */

/* The readings and settings of a tick. Temperatures in kelvin from 150.0 to 450.0, CO2 in parts per million from 0.0 to 10000.0, airflow in cubic
   metres a second from -10.0 to 10.0; what lies outside is refused. The mode and the override indices may be any numbers; no value of theirs is refused. */
typedef struct AirBoxInput {
    double zone_temperature;
    double cooling_setpoint;          /* above it the zone is cooled */
    double heating_setpoint;          /* below it the zone is too cold; this box cannot heat it */
    bool window_status;               /* true: windows closed */
    bool occupancy_status;            /* true: people in the zone; false makes the outdoor airflows and the minimum flow 0, as open windows do */
    int64_t operating_mode;           /* AIR_BOX_MODE_.. */
    double co2_setpoint;              /* from 200 below it up to it the minimum flow rises from the design minimum to the cooling maximum */
    double co2_concentration;         /* where there is no sensor: a value 200 or more below the setpoint */
    double discharge_air_temperature; /* of the air that leaves the box */
    double supply_air_temperature;    /* of the air that comes to it */
    double discharge_airflow;         /* as measured; a sensor may read below 0 */
    int64_t airflow_override_index;   /* AIR_BOX_AIRFLOW_OVERRIDE_.. */
    int64_t damper_override_index;    /* AIR_BOX_DAMPER_OVERRIDE_.. */
    bool supply_fan_status;           /* true: the supply fan runs */
} AirBoxInput;
AIR_BOX_ASSERT(sizeof(AirBoxInput) == 104);
AIR_BOX_ASSERT(offsetof(AirBoxInput, cooling_setpoint) == 8);
AIR_BOX_ASSERT(offsetof(AirBoxInput, heating_setpoint) == 16);
AIR_BOX_ASSERT(offsetof(AirBoxInput, window_status) == 24);
AIR_BOX_ASSERT(offsetof(AirBoxInput, occupancy_status) == 25);
AIR_BOX_ASSERT(offsetof(AirBoxInput, operating_mode) == 32);
AIR_BOX_ASSERT(offsetof(AirBoxInput, co2_setpoint) == 40);
AIR_BOX_ASSERT(offsetof(AirBoxInput, co2_concentration) == 48);
AIR_BOX_ASSERT(offsetof(AirBoxInput, discharge_air_temperature) == 56);
AIR_BOX_ASSERT(offsetof(AirBoxInput, supply_air_temperature) == 64);
AIR_BOX_ASSERT(offsetof(AirBoxInput, discharge_airflow) == 72);
AIR_BOX_ASSERT(offsetof(AirBoxInput, airflow_override_index) == 80);
AIR_BOX_ASSERT(offsetof(AirBoxInput, damper_override_index) == 88);
AIR_BOX_ASSERT(offsetof(AirBoxInput, supply_fan_status) == 96);

/* A tick: its time in whole seconds, and what it carries. */
typedef struct AirBoxTick {
    double t;
    AirBoxInput input;
} AirBoxTick;
AIR_BOX_ASSERT(sizeof(AirBoxTick) == 112);
AIR_BOX_ASSERT(offsetof(AirBoxTick, input) == 8);

/* ---- What an accepted tick gives */

/* Alarms. 0 is no alarm; else the number is the alarm's level, of which a smaller one is the more urgent. */
#define AIR_BOX_LOW_AIRFLOW_BELOW_HALF 2    /* low_airflow_alarm: the flow is below half of its setpoint */
#define AIR_BOX_LOW_AIRFLOW_BELOW_SEVENTY 3 /* low_airflow_alarm: it is below 70 percent */
#define AIR_BOX_AIRFLOW_SENSOR 3            /* airflow_sensor_alarm: flow is measured while the fan is off, in either reading */
#define AIR_BOX_LEAKING_DAMPER 4            /* leaking_damper_alarm: flow is measured while the fan is on and the damper closed */

/* The ten outputs. Airflows in cubic metres a second. A request is a number of requests to the air handler, from 0 to 3, 3 the strongest.
   Of a box that was built by this library and has had nothing but ticks, no real output is ever infinite or NaN, nor is a number of the box; each
   output lies in the range that stands beside it, whatever the ticks carried. */
typedef struct AirBoxOutput {
    double airflow_setpoint;                /* from 0 to the box's cooling maximum */
    double damper_command;                  /* from 0, closed, to 1, open */
    double adjusted_population_flow;        /* from 0 to 0.005, outdoor air for the people */
    double adjusted_area_flow;              /* from 0 to 0.006, outdoor air for the floor */
    double minimum_outdoor_airflow;         /* from 0 to 0.01375 */
    int64_t zone_temperature_reset_request; /* for colder supply air */
    int64_t zone_pressure_reset_request;    /* for more duct pressure */
    int64_t low_airflow_alarm;              /* 0, 2 or 3 */
    int64_t airflow_sensor_alarm;           /* 0 or 3 */
    int64_t leaking_damper_alarm;           /* 0 or 4 */
} AirBoxOutput;
AIR_BOX_ASSERT(sizeof(AirBoxOutput) == 80);
AIR_BOX_ASSERT(offsetof(AirBoxOutput, damper_command) == 8);
AIR_BOX_ASSERT(offsetof(AirBoxOutput, adjusted_population_flow) == 16);
AIR_BOX_ASSERT(offsetof(AirBoxOutput, adjusted_area_flow) == 24);
AIR_BOX_ASSERT(offsetof(AirBoxOutput, minimum_outdoor_airflow) == 32);
AIR_BOX_ASSERT(offsetof(AirBoxOutput, zone_temperature_reset_request) == 40);
AIR_BOX_ASSERT(offsetof(AirBoxOutput, zone_pressure_reset_request) == 48);
AIR_BOX_ASSERT(offsetof(AirBoxOutput, low_airflow_alarm) == 56);
AIR_BOX_ASSERT(offsetof(AirBoxOutput, airflow_sensor_alarm) == 64);
AIR_BOX_ASSERT(offsetof(AirBoxOutput, leaking_damper_alarm) == 72);

/* The desk code: the three alarms in one number, by the first of these that fits. The order is by where the fitter has to go, not by
   level: where air passes a closed damper, that is what has to be mended, also where the airflow is low. So 34 leaves open whether low_airflow_alarm
   stands too. Every other code tells all three alarms of a tick: the sensor's stands only with the fan off, the two others only with the fan on. */
#define AIR_BOX_DESK_LEAKING_DAMPER 34      /* leaking_damper_alarm is 4 */
#define AIR_BOX_DESK_LOW_BELOW_HALF 12      /* low_airflow_alarm is 2 */
#define AIR_BOX_DESK_LOW_BELOW_SEVENTY 13   /* it is 3 */
#define AIR_BOX_DESK_AIRFLOW_SENSOR 23      /* airflow_sensor_alarm is 3 */
#define AIR_BOX_DESK_NO_ALARM 0             /* else */

/* ---- Why there is no alarm, after the last accepted tick. None of the numbers is that of a refusal or a desk code, 0 apart,
   which there says that nothing is wrong, and here that the alarm stands. */
#define AIR_BOX_ALARM_STANDS 0              /* the alarm stands: in the outputs of that tick it is AIR_BOX_AIRFLOW_SENSOR, or AIR_BOX_LEAKING_DAMPER */
#define AIR_BOX_NO_TICK 60                  /* no tick yet: none was accepted */
#define AIR_BOX_NOT_OCCUPIED 61             /* mode not 1; of the sensor alarm alone */
#define AIR_BOX_FAN_ON 62                   /* fan on; of the sensor alarm alone */
#define AIR_BOX_FAN_OFF 63                  /* fan off; of the leak alarm alone */
#define AIR_BOX_DAMPER_NOT_CLOSED 64        /* damper not closed; of the leak alarm alone */
#define AIR_BOX_FLOW_NOT_HIGH 65            /* flow not high */
#define AIR_BOX_HELD 66                     /* held: all is there, but for less than 600 seconds */

/* Why there is no airflow sensor alarm. */
typedef struct AirBoxSensorReason {
    uint8_t reason;                         /* one of these numbers */
    uint16_t seconds_lacking;               /* with AIR_BOX_HELD from 1 to 600, else 0 */
    bool flow_by_memory;                    /* true: memory decided whether the flow is high */
} AirBoxSensorReason;
AIR_BOX_ASSERT(sizeof(AirBoxSensorReason) == 6);
AIR_BOX_ASSERT(offsetof(AirBoxSensorReason, seconds_lacking) == 2);
AIR_BOX_ASSERT(offsetof(AirBoxSensorReason, flow_by_memory) == 4);

/* Why there is no leaking damper alarm. */
typedef struct AirBoxLeakReason {
    uint8_t reason;
    uint16_t seconds_lacking;
    bool damper_by_memory;                  /* true: memory decided whether the damper is closed */
    bool flow_by_memory;
} AirBoxLeakReason;
AIR_BOX_ASSERT(sizeof(AirBoxLeakReason) == 6);
AIR_BOX_ASSERT(offsetof(AirBoxLeakReason, seconds_lacking) == 2);
AIR_BOX_ASSERT(offsetof(AirBoxLeakReason, damper_by_memory) == 4);
AIR_BOX_ASSERT(offsetof(AirBoxLeakReason, flow_by_memory) == 5);

/* ---- The inside of a box: what it remembers from tick to tick. Callers need none of it but `last.choices`. */

/* A time, or none: where `present` is false, `time` has no meaning. */
typedef struct AirBoxOptionalTime {
    bool present;
    double time;
} AirBoxOptionalTime;
AIR_BOX_ASSERT(sizeof(AirBoxOptionalTime) == 16);
AIR_BOX_ASSERT(offsetof(AirBoxOptionalTime, time) == 8);

/* A periodic sampler. */
typedef struct AirBoxSampler {
    bool initialized;
    double t0;
    int64_t last_index;
    double held;
} AirBoxSampler;
AIR_BOX_ASSERT(sizeof(AirBoxSampler) == 32);
AIR_BOX_ASSERT(offsetof(AirBoxSampler, t0) == 8);
AIR_BOX_ASSERT(offsetof(AirBoxSampler, last_index) == 16);
AIR_BOX_ASSERT(offsetof(AirBoxSampler, held) == 24);

/* A unit delay of one period. */
typedef struct AirBoxUnitDelay {
    bool initialized;
    double t0;
    int64_t last_index;
    double held;
    double staged;
} AirBoxUnitDelay;
AIR_BOX_ASSERT(sizeof(AirBoxUnitDelay) == 40);
AIR_BOX_ASSERT(offsetof(AirBoxUnitDelay, t0) == 8);
AIR_BOX_ASSERT(offsetof(AirBoxUnitDelay, last_index) == 16);
AIR_BOX_ASSERT(offsetof(AirBoxUnitDelay, held) == 24);
AIR_BOX_ASSERT(offsetof(AirBoxUnitDelay, staged) == 32);

/* A true delay. */
typedef struct AirBoxTrueDelay {
    AirBoxOptionalTime previous_time;
    bool previous_input;
    bool held;
    double timer;
} AirBoxTrueDelay;
AIR_BOX_ASSERT(sizeof(AirBoxTrueDelay) == 32);
AIR_BOX_ASSERT(offsetof(AirBoxTrueDelay, previous_input) == 16);
AIR_BOX_ASSERT(offsetof(AirBoxTrueDelay, held) == 17);
AIR_BOX_ASSERT(offsetof(AirBoxTrueDelay, timer) == 24);

/* Seconds since an input last rose. */
typedef struct AirBoxTimer {
    AirBoxOptionalTime entry_time;
    bool previous_input;
} AirBoxTimer;
AIR_BOX_ASSERT(sizeof(AirBoxTimer) == 24);
AIR_BOX_ASSERT(offsetof(AirBoxTimer, previous_input) == 16);

/* A latch. */
typedef struct AirBoxLatch {
    bool held;
    bool previous_input;
} AirBoxLatch;
AIR_BOX_ASSERT(sizeof(AirBoxLatch) == 2);
AIR_BOX_ASSERT(offsetof(AirBoxLatch, previous_input) == 1);

/* Time suppression. */
typedef struct AirBoxTimeSuppression {
    AirBoxSampler setpoint_sampler;
    AirBoxUnitDelay previous_sample;
    AirBoxTrueDelay startup_delay;
    bool change_detected;
    AirBoxLatch suppression_latch;
    AirBoxLatch passed_latch;
    AirBoxTimer timer;
    bool previous_active;
    bool previous_passed;
    double captured_setpoint;
    double captured_zone;
} AirBoxTimeSuppression;
AIR_BOX_ASSERT(sizeof(AirBoxTimeSuppression) == 160);
AIR_BOX_ASSERT(offsetof(AirBoxTimeSuppression, previous_sample) == 32);
AIR_BOX_ASSERT(offsetof(AirBoxTimeSuppression, startup_delay) == 72);
AIR_BOX_ASSERT(offsetof(AirBoxTimeSuppression, change_detected) == 104);
AIR_BOX_ASSERT(offsetof(AirBoxTimeSuppression, suppression_latch) == 105);
AIR_BOX_ASSERT(offsetof(AirBoxTimeSuppression, passed_latch) == 107);
AIR_BOX_ASSERT(offsetof(AirBoxTimeSuppression, timer) == 112);
AIR_BOX_ASSERT(offsetof(AirBoxTimeSuppression, previous_active) == 136);
AIR_BOX_ASSERT(offsetof(AirBoxTimeSuppression, previous_passed) == 137);
AIR_BOX_ASSERT(offsetof(AirBoxTimeSuppression, captured_setpoint) == 144);
AIR_BOX_ASSERT(offsetof(AirBoxTimeSuppression, captured_zone) == 152);

/* A PI loop. */
typedef struct AirBoxLoopPi {
    double integrator;
    AirBoxOptionalTime previous_time;
    bool previous_trigger;
} AirBoxLoopPi;
AIR_BOX_ASSERT(sizeof(AirBoxLoopPi) == 32);
AIR_BOX_ASSERT(offsetof(AirBoxLoopPi, previous_time) == 8);
AIR_BOX_ASSERT(offsetof(AirBoxLoopPi, previous_trigger) == 24);

/* The cooling and heating loops. */
typedef struct AirBoxControlLoops {
    bool cooling_enable;
    bool heating_enable;
    AirBoxLoopPi cooling_pi;
    AirBoxLoopPi heating_pi;
    bool cooling_near_zero;
    bool heating_near_zero;
    AirBoxTrueDelay cooling_delay;
    AirBoxTrueDelay heating_delay;
} AirBoxControlLoops;
AIR_BOX_ASSERT(sizeof(AirBoxControlLoops) == 144);
AIR_BOX_ASSERT(offsetof(AirBoxControlLoops, heating_enable) == 1);
AIR_BOX_ASSERT(offsetof(AirBoxControlLoops, cooling_pi) == 8);
AIR_BOX_ASSERT(offsetof(AirBoxControlLoops, heating_pi) == 40);
AIR_BOX_ASSERT(offsetof(AirBoxControlLoops, cooling_near_zero) == 72);
AIR_BOX_ASSERT(offsetof(AirBoxControlLoops, heating_near_zero) == 73);
AIR_BOX_ASSERT(offsetof(AirBoxControlLoops, cooling_delay) == 80);
AIR_BOX_ASSERT(offsetof(AirBoxControlLoops, heating_delay) == 112);

/* Whether the supply cools: the memory of the ventilation setpoints. */
typedef struct AirBoxSetpoints {
    bool cooling_supply;
} AirBoxSetpoints;
AIR_BOX_ASSERT(sizeof(AirBoxSetpoints) == 1);

/* The memories by which the zone is told to be heating, cooling or in the dead band. */
typedef struct AirBoxZoneStates {
    bool heating_signal;
    bool cooling_signal;
    bool heating_tiebreak;
} AirBoxZoneStates;
AIR_BOX_ASSERT(sizeof(AirBoxZoneStates) == 3);
AIR_BOX_ASSERT(offsetof(AirBoxZoneStates, cooling_signal) == 1);
AIR_BOX_ASSERT(offsetof(AirBoxZoneStates, heating_tiebreak) == 2);

/* The damper. */
typedef struct AirBoxDamper {
    bool supply_warm;
    double integrator;
    AirBoxOptionalTime previous_time;
    bool previous_fan;
} AirBoxDamper;
AIR_BOX_ASSERT(sizeof(AirBoxDamper) == 40);
AIR_BOX_ASSERT(offsetof(AirBoxDamper, integrator) == 8);
AIR_BOX_ASSERT(offsetof(AirBoxDamper, previous_time) == 16);
AIR_BOX_ASSERT(offsetof(AirBoxDamper, previous_fan) == 32);

/* System requests. */
typedef struct AirBoxSystemRequests {
    bool hot_three;
    bool hot_two;
    AirBoxTrueDelay hot_three_delay;
    AirBoxTrueDelay hot_two_delay;
    AirBoxSampler cooling_sampler;
    AirBoxSampler setpoint_sampler;
    AirBoxSampler discharge_sampler;
    AirBoxSampler damper_sampler;
    bool cooling_high;
    bool setpoint_on;
    bool damper_high;
    AirBoxTrueDelay damper_delay;
    bool starved_half;
    bool starved_seventy;
} AirBoxSystemRequests;
AIR_BOX_ASSERT(sizeof(AirBoxSystemRequests) == 248);
AIR_BOX_ASSERT(offsetof(AirBoxSystemRequests, hot_two) == 1);
AIR_BOX_ASSERT(offsetof(AirBoxSystemRequests, hot_three_delay) == 8);
AIR_BOX_ASSERT(offsetof(AirBoxSystemRequests, hot_two_delay) == 40);
AIR_BOX_ASSERT(offsetof(AirBoxSystemRequests, cooling_sampler) == 72);
AIR_BOX_ASSERT(offsetof(AirBoxSystemRequests, setpoint_sampler) == 104);
AIR_BOX_ASSERT(offsetof(AirBoxSystemRequests, discharge_sampler) == 136);
AIR_BOX_ASSERT(offsetof(AirBoxSystemRequests, damper_sampler) == 168);
AIR_BOX_ASSERT(offsetof(AirBoxSystemRequests, cooling_high) == 200);
AIR_BOX_ASSERT(offsetof(AirBoxSystemRequests, setpoint_on) == 201);
AIR_BOX_ASSERT(offsetof(AirBoxSystemRequests, damper_high) == 202);
AIR_BOX_ASSERT(offsetof(AirBoxSystemRequests, damper_delay) == 208);
AIR_BOX_ASSERT(offsetof(AirBoxSystemRequests, starved_half) == 240);
AIR_BOX_ASSERT(offsetof(AirBoxSystemRequests, starved_seventy) == 241);

/* Alarms. */
typedef struct AirBoxAlarms {
    AirBoxTrueDelay fan_armed;
    bool setpoint_nonzero;
    AirBoxTrueDelay setpoint_on;
    bool low_half;
    bool low_seventy;
    AirBoxTrueDelay low_half_delay;
    AirBoxTrueDelay low_seventy_delay;
    bool flow_high;
    AirBoxTrueDelay sensor_delay;
    bool damper_closed;
    AirBoxTrueDelay leak_delay;
} AirBoxAlarms;
AIR_BOX_ASSERT(sizeof(AirBoxAlarms) == 224);
AIR_BOX_ASSERT(offsetof(AirBoxAlarms, setpoint_nonzero) == 32);
AIR_BOX_ASSERT(offsetof(AirBoxAlarms, setpoint_on) == 40);
AIR_BOX_ASSERT(offsetof(AirBoxAlarms, low_half) == 72);
AIR_BOX_ASSERT(offsetof(AirBoxAlarms, low_seventy) == 73);
AIR_BOX_ASSERT(offsetof(AirBoxAlarms, low_half_delay) == 80);
AIR_BOX_ASSERT(offsetof(AirBoxAlarms, low_seventy_delay) == 112);
AIR_BOX_ASSERT(offsetof(AirBoxAlarms, flow_high) == 144);
AIR_BOX_ASSERT(offsetof(AirBoxAlarms, sensor_delay) == 152);
AIR_BOX_ASSERT(offsetof(AirBoxAlarms, damper_closed) == 184);
AIR_BOX_ASSERT(offsetof(AirBoxAlarms, leak_delay) == 192);

/* From the control loops to the damper. */
typedef struct AirBoxAirflow {
    AirBoxControlLoops control_loops;
    AirBoxSetpoints setpoints;
    AirBoxZoneStates zone_states;
    AirBoxDamper dampers;
} AirBoxAirflow;
AIR_BOX_ASSERT(sizeof(AirBoxAirflow) == 192);
AIR_BOX_ASSERT(offsetof(AirBoxAirflow, setpoints) == 144);
AIR_BOX_ASSERT(offsetof(AirBoxAirflow, zone_states) == 145);
AIR_BOX_ASSERT(offsetof(AirBoxAirflow, dampers) == 152);

/* What is kept of the last accepted tick for the reasons, or nothing: where `present` is false, the rest has no meaning. */
typedef struct AirBoxOptionalLastTick {
    bool present;
    bool fan;
    bool flow_by_memory;
    bool damper_by_memory;
    int64_t mode;
} AirBoxOptionalLastTick;
AIR_BOX_ASSERT(sizeof(AirBoxOptionalLastTick) == 16);
AIR_BOX_ASSERT(offsetof(AirBoxOptionalLastTick, fan) == 1);
AIR_BOX_ASSERT(offsetof(AirBoxOptionalLastTick, flow_by_memory) == 2);
AIR_BOX_ASSERT(offsetof(AirBoxOptionalLastTick, damper_by_memory) == 3);
AIR_BOX_ASSERT(offsetof(AirBoxOptionalLastTick, mode) == 8);

/* The time of the last accepted tick, what was chosen when the box was built, and what is kept of that tick. */
typedef struct AirBoxLast {
    AirBoxOptionalTime time;
    AirBoxChoices choices;
    AirBoxOptionalLastTick tick;
} AirBoxLast;
AIR_BOX_ASSERT(sizeof(AirBoxLast) == 64);
AIR_BOX_ASSERT(offsetof(AirBoxLast, choices) == 16);
AIR_BOX_ASSERT(offsetof(AirBoxLast, tick) == 48);

/* A box. The stages stand in the order in which a tick goes through them. */
typedef struct AirBox {
    AirBoxTimeSuppression time_suppression;
    AirBoxAirflow airflow;
    AirBoxSystemRequests system_requests;
    AirBoxAlarms alarms;
    AirBoxLast last;
} AirBox;
AIR_BOX_ASSERT(sizeof(AirBox) == 888);
AIR_BOX_ASSERT(offsetof(AirBox, airflow) == 160);
AIR_BOX_ASSERT(offsetof(AirBox, system_requests) == 352);
AIR_BOX_ASSERT(offsetof(AirBox, alarms) == 600);
AIR_BOX_ASSERT(offsetof(AirBox, last) == 824);

/* ---- The six functions */

/* A box that has had no tick, with a quiet start where `quiet` is true, else a plain one, a design minimum of 0.5, a cooling maximum of 1.5 and the first
   reading of the airflow sensor alarm. */
AirBox air_box_fresh(bool quiet);

/* AIR_BOX_BUILT: the box at `box` has had no tick, and has these choices. AIR_BOX_DESIGN_FLOWS_OUT_OF_RANGE: they are refused, and nothing was written.
   What stood at `box` is not read. Where it was no box before and building is refused, it is none afterwards, and must not be ticked. */
uint8_t air_box_build(AirBox *box, AirBoxChoices choices);

/* One tick of the box at `box`. AIR_BOX_ACCEPTED: the box has moved on, and `output` holds the ten outputs.
   Any other number: the tick is refused for that reason, and neither the box nor the output was written. */
uint8_t air_box_tick(AirBox *box, const AirBoxTick *tick, AirBoxOutput *output);

/* Why the box at `box` has no airflow sensor alarm, and why it has no leaking damper alarm, after its last accepted tick. The box is read, and not written. */
AirBoxSensorReason air_box_sensor_reason(const AirBox *box);
AirBoxLeakReason air_box_leak_reason(const AirBox *box);

/* The desk code of three alarms, AIR_BOX_DESK_..; any numbers may be given. */
uint8_t air_box_desk_code(int64_t low_airflow_alarm, int64_t airflow_sensor_alarm, int64_t leaking_damper_alarm);

#ifdef __cplusplus
}
#endif

#undef AIR_BOX_ASSERT
#undef AIR_BOX_ASSERT_AT
#undef AIR_BOX_ASSERT_LINE

#endif
