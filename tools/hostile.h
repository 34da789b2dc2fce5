/* What the long nights of tools/bounds and tools/reasons share: chance, the same each time, and a tick that is refused for a reason of chance. */
#ifndef HOSTILE_H
#define HOSTILE_H
#include <math.h>
#include "air_box.h"

static const double LAST_TIME = 2147483648.0;
enum { MOST_STEP = 240 };

/* The next bits of a xorshift generator. */
static uint64_t bits(void) {
    static uint64_t state = 20260501;
    state ^= state << 13;
    state ^= state >> 7;
    return state ^= state << 17;
}

static uint64_t below(uint64_t count) { return (bits() >> 11) % count; }
static double between(double low, double high) { return low + (high - low) * (double)(bits() >> 11) / 9007199254740992.0; }

/* Makes the tick one that is refused by a box whose last accepted time is `last`, where it has one. */
static void spoil(AirBoxTick *tick, bool has_last, double last) {
    static const double odd[] = {NAN, INFINITY, -INFINITY, 1e300};
    double far = odd[below(4)];
    bool by_much = below(2) == 0, one = below(2) == 0;
    AirBoxInput *in = &tick->input;
    double *temperatures[] = {&in->zone_temperature, &in->cooling_setpoint, &in->heating_setpoint, &in->discharge_air_temperature,
                              &in->supply_air_temperature};
    uint64_t which = below(sizeof temperatures / sizeof temperatures[0]);
    switch (below(8)) {
    case 0: tick->t += 0.5; break;
    case 1: tick->t = far; break;
    case 2: tick->t = one ? -1.0 : LAST_TIME + 1.0; break;
    case 3: tick->t = has_last ? last - 1.0 : -1.0; break;
    case 4: tick->t = has_last ? last + MOST_STEP + 1.0 : far; break;
    case 5: *temperatures[which] = by_much ? far : one ? 149.9999 : 450.0001; break;
    case 6: *(one ? &in->co2_setpoint : &in->co2_concentration) = by_much ? far : -5e-324; break;
    default: in->discharge_airflow = by_much ? far : one ? 10.0001 : -10.0001; break;
    }
}
#endif
