/* Long nights at the ends of every range, of boxes of the usual size and then of other sizes. After each accepted tick every f64 of the state has to be a
   number, and the integrators and the real outputs have to stay in the bounds that are proved (crates/bounds/specs/Bounds.antt); a refused tick may change
   nothing. The first tick that breaks this is written to standard error, and ends the program with status 1. Else the lowest and the highest that were
   met are written beside the bounds. The arguments are the ticks of each of the two, those that a search tries on copies among them, and the bound of the
   damper's integrator for other sizes. */
#include <stdlib.h>
#include "../hostile.h"
#include "output.h"

static const double MAXIMUM = 1.5, MINIMUM = 0.5, LARGEST_MAXIMUM = 10.0;
enum { STRETCH_TICKS = 800, ROUNDS = 30, TRIES = 24, LONGEST_TRY = 4, STANDING = 20 };

/* ---- what is looked at */

/* A double of a box: where it stands, and the flag without which it has no meaning. */
typedef struct { const char *name; size_t at, flag; } Place;
enum { ALWAYS = 0xffff };
static const Place PLACES[] = {
#include "places.h"
};
enum { PLACE_COUNT = sizeof PLACES / sizeof PLACES[0] };

/* What was met of an integrator or an output, and the bounds that it has to stay in. */
typedef struct { const char *name; double bound_low, bound_high, lowest, highest; } Measure;
enum { COOLING, HEATING, DAMPER, INTEGRATORS, MEASURES = INTEGRATORS + 5 };
static Measure measures[MEASURES];
static unsigned long accepted, at_last_time, refused, boxes;

/* The double at that place of the box, or 0 where it has no meaning. */
static double double_at(const AirBox *box, const Place *place) {
    bool present = true;
    double number;
    if (place->flag != ALWAYS) memcpy(&present, (const char *)box + place->flag, sizeof present);
    memcpy(&number, (const char *)box + place->at, sizeof number);
    return present ? number : 0.0;
}

/* The first place of the box with an infinity or a NaN, or PLACE_COUNT. */
static int no_number(const AirBox *box) {
    int n = 0;
    while (n < PLACE_COUNT && isfinite(double_at(box, &PLACES[n]))) n++;
    return n;
}

static void measure(const AirBox *box, const AirBoxOutput *output, double *values) {
    values[COOLING] = box->airflow.control_loops.cooling_pi.integrator;
    values[HEATING] = box->airflow.control_loops.heating_pi.integrator;
    values[DAMPER] = box->airflow.dampers.integrator;
    values[INTEGRATORS] = output->airflow_setpoint;
    values[INTEGRATORS + 1] = output->damper_command;
    values[INTEGRATORS + 2] = output->adjusted_population_flow;
    values[INTEGRATORS + 3] = output->adjusted_area_flow;
    values[INTEGRATORS + 4] = output->minimum_outdoor_airflow;
}

/* Writes the tick after which something was wrong, and ends the program. */
static void wrong_after(const AirBox *box, const AirBoxTick *tick) {
    const AirBoxInput *in = &tick->input;
    const AirBoxChoices *choices = &box->last.choices;
    fprintf(stderr, ", at t %.17g; %lu ticks were accepted\n", tick->t, accepted);
    fprintf(stderr, "  zone %.17g, cooling %.17g, heating %.17g, discharge %.17g, supply %.17g, flow %.17g, CO2 %.17g of %.17g\n", in->zone_temperature,
            in->cooling_setpoint, in->heating_setpoint, in->discharge_air_temperature, in->supply_air_temperature, in->discharge_airflow,
            in->co2_concentration, in->co2_setpoint);
    fprintf(stderr, "  windows %d, people %d, fan %d, mode %lld, overrides %lld and %lld\n", in->window_status, in->occupancy_status, in->supply_fan_status,
            (long long)in->operating_mode, (long long)in->airflow_override_index, (long long)in->damper_override_index);
    fprintf(stderr, "  of a box with quiet %d, minimum %.17g, maximum %.17g, second reading %d\n", choices->quiet, choices->design_minimum_flow,
            choices->design_cooling_maximum_flow, choices->second_reading);
    exit(EXIT_FAILURE);
}

/* A number that is none, or out of its bounds. */
static void broken(const char *name, double value, const AirBox *box, const AirBoxTick *tick) {
    fprintf(stderr, "bounds: %s is %.17g", name, value);
    wrong_after(box, tick);
}

static void wrong(const char *what, const AirBox *box, const AirBoxTick *tick) {
    fprintf(stderr, "bounds: %s", what);
    wrong_after(box, tick);
}

static void failed(const char *what) {
    fprintf(stderr, "bounds: %s\n", what);
    exit(EXIT_FAILURE);
}

/* A tick that keeps to every range: it has to be accepted, and what it leaves and gives is looked at. */
static void good_tick(AirBox *box, const AirBoxTick *tick, double *values) {
    AirBoxOutput output;
    if (air_box_tick(box, tick, &output) != AIR_BOX_ACCEPTED) wrong("a tick within every range was refused", box, tick);
    accepted++;
    at_last_time += tick->t == LAST_TIME;
    int odd = no_number(box);
    if (odd < PLACE_COUNT) broken(PLACES[odd].name, double_at(box, &PLACES[odd]), box, tick);
    measure(box, &output, values);
    if (output.airflow_setpoint > box->last.choices.design_cooling_maximum_flow) broken("airflow_setpoint", output.airflow_setpoint, box, tick);
    for (int n = 0; n < MEASURES; n++) {
        Measure *one = &measures[n];
        if (!isfinite(values[n]) || !(one->bound_low <= values[n] && values[n] <= one->bound_high)) broken(one->name, values[n], box, tick);
        if (values[n] < one->lowest) one->lowest = values[n];
        if (values[n] > one->highest) one->highest = values[n];
    }
}

/* ---- chance */

/* How a reading goes from tick to tick. */
typedef enum { LOW, HIGH, SWITCHED, SWITCHED_BACK, EITHER_END, ANYWHERE, PATTERNS } Pattern;
typedef struct { Pattern pattern; double low, high; } Course;
typedef struct { Pattern pattern; int64_t low, high; } NumberCourse;
static const int64_t NUMBERS[] = {-1, 0, 1, 2, 3, 4, 1, 2, 3, 4, 5, 7, 8, INT64_MAX, INT64_MIN};
enum { NUMBER_COUNT = sizeof NUMBERS / sizeof NUMBERS[0] };

static bool is_high(Pattern pattern, unsigned long n) {
    switch (pattern) {
    case LOW: return false;
    case HIGH: return true;
    case SWITCHED: return n & 1;
    case SWITCHED_BACK: return !(n & 1);
    default: return below(2) == 0;
    }
}

static double reading(const Course *course, unsigned long n) {
    if (course->pattern == ANYWHERE) return between(course->low, course->high);
    return is_high(course->pattern, n) ? course->high : course->low;
}

static int64_t number(const NumberCourse *course, unsigned long n) {
    if (course->pattern == ANYWHERE) return NUMBERS[below(NUMBER_COUNT)];
    return is_high(course->pattern, n) ? course->high : course->low;
}

static Pattern any_pattern(void) { return (Pattern)below(PATTERNS); }
static int64_t any_number(void) { return NUMBERS[below(NUMBER_COUNT)]; }

/* Between the two ends; now and then another value stands for one of them. */
static Course any_course(double low, double high) {
    Course course = {any_pattern(), low, high};
    if (below(8) == 0) course.low = between(low, high);
    if (below(8) == 0) course.high = between(low, high);
    return course;
}

static Course co2_course(void) {
    static const double values[] = {0.0, -0.0, 200.0, 10000.0, 10000.0, 5e-324};
    Course course = {any_pattern(), 0.0, 0.0};
    course.low = values[below(6)];
    course.high = values[below(6)];
    if (below(4) == 0) course.low = between(0.0, 10000.0);
    return course;
}

/* Measured flow: its ends, none, and what a box may be asked for. */
static Course flow_course(double maximum) {
    Course course = any_course(-10.0, 10.0);
    uint64_t choice = below(16);
    if (choice == 0) course.low = 0.0;
    if (choice == 1) course.low = -0.0;
    if (choice == 2) course.high = maximum;
    if (choice == 3) course.low = between(0.0, maximum);
    return course;
}

/* ---- nights */

enum { TEMPERATURES = 5, FLAGS = 3 };

/* A stretch of a night: how time and each reading go. */
typedef struct {
    Course step, temperatures[TEMPERATURES], co2_setpoint, co2, flow;
    NumberCourse mode, airflow_override, damper_override;
    Pattern flags[FLAGS];
} Stretch;

static NumberCourse any_number_course(void) {
    NumberCourse course = {any_pattern(), 0, 0};
    course.low = any_number();
    course.high = any_number();
    return course;
}

static Stretch any_stretch(const AirBox *box) {
    static const double steps[] = {0, 0, 1, 60, 119, 120, 121, 239};
    Stretch stretch;
    stretch.step = (Course){any_pattern(), 0.0, MOST_STEP};
    stretch.step.low = steps[below(8)];
    if (below(2) == 0) stretch.step.pattern = HIGH;
    for (int n = 0; n < TEMPERATURES; n++) stretch.temperatures[n] = any_course(150.0, 450.0);
    stretch.co2_setpoint = co2_course();
    stretch.co2 = co2_course();
    stretch.flow = flow_course(box->last.choices.design_cooling_maximum_flow);
    stretch.mode = any_number_course();
    stretch.airflow_override = any_number_course();
    stretch.damper_override = any_number_course();
    for (int n = 0; n < FLAGS; n++) stretch.flags[n] = any_pattern();
    return stretch;
}

/* The time of a tick after the box's last: the step in whole seconds, as far as the last time there is. The first tick has the time `first`. */
static double time_after(const AirBox *box, double first, double step) {
    if (!box->last.time.present) return first;
    double time = box->last.time.time + (double)(int)step;
    return time > LAST_TIME ? LAST_TIME : time;
}

/* CO2 is now and then read where the line of its setpoint rises. */
static double co2_reading(const Stretch *stretch, unsigned long n, double setpoint) {
    double low = setpoint > 200.0 ? setpoint - 200.0 : 0.0;
    return below(4) == 0 ? between(low, setpoint) : reading(&stretch->co2, n);
}

/* The nth tick of the stretch. */
static AirBoxTick nth_tick(const Stretch *stretch, unsigned long n, const AirBox *box, double first) {
    double temperatures[TEMPERATURES];
    for (int k = 0; k < TEMPERATURES; k++) temperatures[k] = reading(&stretch->temperatures[k], n);
    double setpoint = reading(&stretch->co2_setpoint, n);
    AirBoxInput input;
    input.zone_temperature = temperatures[0];
    input.cooling_setpoint = temperatures[1];
    input.heating_setpoint = temperatures[2];
    input.window_status = is_high(stretch->flags[0], n);
    input.occupancy_status = is_high(stretch->flags[1], n);
    input.operating_mode = number(&stretch->mode, n);
    input.co2_setpoint = setpoint;
    input.co2_concentration = co2_reading(stretch, n, setpoint);
    input.discharge_air_temperature = temperatures[3];
    input.supply_air_temperature = temperatures[4];
    input.discharge_airflow = reading(&stretch->flow, n);
    input.airflow_override_index = number(&stretch->airflow_override, n);
    input.damper_override_index = number(&stretch->damper_override, n);
    input.supply_fan_status = is_high(stretch->flags[2], n);
    return (AirBoxTick){time_after(box, first, reading(&stretch->step, n)), input};
}

/* A building that has to be refused, and to change no byte. */
static void bad_building(AirBox *box) {
    static const double flows[][2] = {{NAN, 1.5}, {-5e-324, 1.5}, {1.5001, 1.5}, {0.0, 0.0999}, {0.5, 10.0001}, {0.5, INFINITY}, {0.5, NAN}};
    AirBox before;
    memcpy(&before, box, sizeof before);
    const double *odd = flows[below(7)];
    if (air_box_build(box, (AirBoxChoices){below(2) == 0, odd[0], odd[1], false}) == AIR_BOX_BUILT) failed("a building out of range was not refused");
    if (memcmp(&before, box, sizeof before) != 0) failed("a refused building changed the box");
}

/* A tick that has to be refused, and to change no byte of the box or of the output. */
static void bad_tick(AirBox *box, AirBoxTick tick) {
    AirBox before;
    AirBoxOutput output, untouched;
    memset(&output, 0x5a, sizeof output);
    memcpy(&untouched, &output, sizeof output);
    memcpy(&before, box, sizeof before);
    spoil(&tick, box->last.time.present, box->last.time.time);
    if (air_box_tick(box, &tick, &output) == AIR_BOX_ACCEPTED) wrong("a tick out of range was accepted", box, &tick);
    refused++;
    if (memcmp(&before, box, sizeof before) != 0) wrong("a refused tick changed the box", box, &tick);
    if (memcmp(&untouched, &output, sizeof output) != 0) wrong("a refused tick wrote outputs", box, &tick);
}

static bool is_at_last_time(const AirBox *box) { return box->last.time.present && box->last.time.time == LAST_TIME; }

/* Goes on by that many ticks of the stretch, by a few at the last time there is; one in sixteen comes after a tick and a building that are refused. */
static void run(AirBox *box, const Stretch *stretch, unsigned long ticks, double first, double *values) {
    for (unsigned long n = 0; n < ticks && !(n > STANDING && is_at_last_time(box)); n++) {
        AirBoxTick tick = nth_tick(stretch, n, box, first);
        if (below(16) == 0) {
            bad_tick(box, tick);
            bad_building(box);
        }
        good_tick(box, &tick, values);
    }
}

/* Drives one measure up or down: in each round tries short stretches on copies of the box, and goes on with the one that ends furthest. */
static void drive(AirBox *box, int target, double direction, double first) {
    for (int round = 0; round < ROUNDS && !is_at_last_time(box); round++) {
        AirBox best = *box;
        double furthest = -INFINITY;
        for (int n = 0; n < TRIES; n++) {
            AirBox tried = *box;
            double values[MEASURES];
            Stretch stretch = any_stretch(box);
            run(&tried, &stretch, 1 + below(LONGEST_TRY), first, values);
            if (direction * values[target] >= furthest) {
                furthest = direction * values[target];
                best = tried;
            }
        }
        *box = best;
    }
}

/* The time of a first tick: the ends, both zeros, beside the grid of 120 seconds, anywhere, and so late that the night comes to the last time there is. */
static double first_time(void) {
    static const double times[] = {0.0, -0.0, 1, 119, 120, 121, 2147483520, 2147483647, 2147483648};
    uint64_t choice = below(16);
    if (choice < sizeof times / sizeof times[0]) return times[choice];
    return choice == 15 ? LAST_TIME - (double)below(STRETCH_TICKS * MOST_STEP) : (double)below(2147483649);
}

/* The design flows of a box of another size: the ends, and anything between. */
static AirBoxChoices any_choices(void) {
    static const double maxima[] = {0.1, 10.0, 0.1, 10.0, 1.5};
    uint64_t choice = below(8);
    double maximum = choice < 5 ? maxima[choice] : choice == 5 ? between(0.1, 1.0) : between(0.1, 10.0);
    const double minima[] = {0.0, -0.0, maximum, between(0.0, maximum), 5e-324};
    return (AirBoxChoices){false, minima[below(5)], maximum, false};
}

/* A box that has had no tick: of the usual size with either reading, or of another. */
static AirBox any_box(bool usual) {
    AirBox box;
    bool quiet = below(2) == 0;
    if (usual && below(4) == 0) return air_box_fresh(quiet);
    AirBoxChoices choices = usual ? (AirBoxChoices){false, MINIMUM, MAXIMUM, false} : any_choices();
    choices.quiet = quiet;
    choices.second_reading = below(2) == 0;
    if (air_box_build(&box, choices) != AIR_BOX_BUILT) failed("a box was not built");
    return box;
}

/* One night: stretches of chance, after each of which one measure is driven as far as it goes, up and down by turns. */
static void night(bool usual) {
    AirBox box = any_box(usual);
    double values[MEASURES], first = first_time();
    boxes++;
    int target = (int)below(MEASURES);
    double direction = below(2) == 0 ? 1.0 : -1.0;
    for (uint64_t parts = 1 + below(4); parts > 0 && !is_at_last_time(&box); parts--) {
        Stretch stretch = any_stretch(&box);
        run(&box, &stretch, 1 + below(STRETCH_TICKS), first, values);
        drive(&box, target, direction, first);
        direction = -direction;
    }
}

/* Whether a NaN and an infinity at each place of a box are told, at that place. */
static bool each_place_is_told(void) {
    AirBox box = air_box_fresh(true);
    double first = 100.0, values[MEASURES];
    Stretch stretch = any_stretch(&box);
    run(&box, &stretch, 1, first, values);
    for (int n = 0; n < PLACE_COUNT; n++) {
        const double odd[] = {NAN, INFINITY};
        bool present = true;
        for (int k = 0; k < 2; k++) {
            AirBox changed = box;
            memcpy((char *)&changed + PLACES[n].at, &odd[k], sizeof odd[k]);
            if (PLACES[n].flag != ALWAYS) memcpy((char *)&changed + PLACES[n].flag, &present, sizeof present);
            if (no_number(&changed) != n) return false;
        }
    }
    return true;
}

/* ---- what is written */

/* The shortest decimal that gives the number back; -0.0 as 0. */
static const char *shortest(double x, char *text, size_t room) {
    for (int digits = 6; digits <= 17; digits++) {
        snprintf(text, room, "%.*g", digits, x + 0.0);
        if (strtod(text, NULL) == x) break;
    }
    return text;
}

static bool put_measure(const Measure *one) {
    char lowest[32], highest[32], low[32], high[32];
    shortest(one->lowest, lowest, sizeof lowest);
    shortest(one->highest, highest, sizeof highest);
    shortest(one->bound_low, low, sizeof low);
    shortest(one->bound_high, high, sizeof high);
    return put("  %-24s met from %s to %s, proved bounds %s and %s\n", one->name, lowest, highest, low, high);
}

/* Runs nights until so many ticks have been accepted, and writes what was met. */
static bool nights(const char *which, bool usual, unsigned long ticks) {
    accepted = at_last_time = refused = boxes = 0;
    while (accepted < ticks) night(usual);
    if (!put("bounds: %s\n", which)) return false;
    for (int n = 0; n < MEASURES; n++) {
        if (!put_measure(&measures[n])) return false;
    }
    return put("  %lu ticks accepted, %lu of them at the last time there is, %lu refused, of %lu boxes; %d numbers of the state were looked at after each\n",
               accepted, at_last_time, refused, boxes, PLACE_COUNT);
}

/* The proved bounds, of a box of this cooling maximum, or of any up to it, and of this range of the damper's integrator. */
static void set_bounds(double maximum, double damper) {
    const Measure all[MEASURES] = {
        {"cooling integrator", -64.0, 64.0, 0, 0},
        {"heating integrator", -64.0, 64.0, 0, 0},
        {"damper integrator", -damper, damper, 0, 0},
        {"airflow_setpoint", 0.0, maximum, 0, 0},
        {"damper_command", 0.0, 1.0, 0, 0},
        {"adjusted_population_flow", 0.0, 0.005, 0, 0},
        {"adjusted_area_flow", 0.0, 0.006, 0, 0},
        {"minimum_outdoor_airflow", 0.0, 0.01375, 0, 0},
    };
    memcpy(measures, all, sizeof measures);
    for (int n = 0; n < MEASURES; n++) {
        measures[n].lowest = INFINITY;
        measures[n].highest = -INFINITY;
    }
}

int main(int count, char **arguments) {
    unsigned long ticks = count == 3 ? strtoul(arguments[1], NULL, 10) : 0;
    double other_damper = count == 3 ? strtod(arguments[2], NULL) : 0;
    if (ticks == 0 || !(other_damper > 0)) failed("the arguments are the ticks and the bound of the damper's integrator for other sizes");
    set_bounds(MAXIMUM, 16.0);
    if (!each_place_is_told()) failed("a NaN or an infinity in the state was not told");
    set_bounds(MAXIMUM, 16.0);
    if (!nights("boxes of the usual size", true, ticks)) return cannot("bounds", "write");
    set_bounds(LARGEST_MAXIMUM, other_damper);
    if (!nights("boxes of other sizes", false, ticks)) return cannot("bounds", "write");
    return close_output() ? 0 : cannot("bounds", "write");
}
