/* Writes the sample trace of `replay`: five boxes for 25 minutes, each with a record a minute, twelve seconds after the box before it.
   Box 0 is sound. The duct of box 3 is blocked in minute 3, half freed in minute 12 and freed in minute 18. Box 7 measures flow with its fan off from
   minute 2 to minute 20. The damper of box 11 is told to close and leaks from minute 1 on. Box 15 is silent from minute 19 to minute 24, more than
   240 seconds, so that its last record is refused. No two records share a second; if they did, their boxes would have to go by rising number.
   Build: gcc -O2 examples/sample_trace.c -o target/sample_trace
   Run:   target/sample_trace | cmp - crates/replay/stdin */
#include <stdbool.h>
#include <stdint.h>
#include <stdio.h>
#include <string.h>

enum { MINUTES = 25, STEP = 12, WINDOWS_CLOSED = 1, PEOPLE = 2, FAN = 4 };
enum { SOUND = 0, BLOCKED = 3, FAN_OFF = 7, LEAKING = 11, SILENT = 15 };
static const int boxes[] = {SOUND, BLOCKED, FAN_OFF, LEAKING, SILENT};

/* The number in groups of seven bits, the low group first; the high bit is set where another follows. */
static bool put_number(uint64_t n) {
    for (; n > 127; n >>= 7) {
        if (putchar(128 + (int)(n & 127)) == EOF) return false;
    }
    return putchar((int)n) != EOF;
}

static bool put_reading(double x) {
    uint64_t bits;
    memcpy(&bits, &x, sizeof bits);
    return put_number(bits);
}

static double flow(int box, int minute) {
    switch (box) {
    case BLOCKED: return minute < 3 || minute >= 18 ? 1.4 : minute < 12 ? 0.2 : 0.9;
    case FAN_OFF: return minute < 2 ? 0.0 : 0.3;
    case LEAKING: return minute < 1 ? 0.0 : 0.3;
    default: return 1.4;
    }
}

/* A record of the box, so many seconds after the record before it. Airflow override 2 asks for the cooling maximum, 1 for no flow; damper override 1 closes. */
static bool put_record(int box, int minute, int step) {
    bool fan = box != FAN_OFF || minute >= 20, leaking = box == LEAKING;
    const double readings[] = {296.5, 297.0, 293.0, 894.0, 500.0, 288.0, 287.0, flow(box, minute)};
    const int numbers[] = {box, step, WINDOWS_CLOSED + PEOPLE + (fan ? FAN : 0), 1, leaking ? 1 : 2, leaking ? 1 : 0};
    for (size_t i = 0; i < sizeof numbers / sizeof numbers[0]; i++) {
        if (!put_number((uint64_t)numbers[i])) return false;
    }
    for (size_t i = 0; i < sizeof readings / sizeof readings[0]; i++) {
        if (!put_reading(readings[i])) return false;
    }
    return true;
}

int main(void) {
    int last = 0;
    for (int minute = 0; minute < MINUTES; minute++) {
        for (int i = 0; i < (int)(sizeof boxes / sizeof boxes[0]); i++) {
            if (boxes[i] == SILENT && minute > 19 && minute < 24) continue;
            int now = 60 * minute + STEP * i;
            if (!put_record(boxes[i], minute, now - last)) {
                perror("sample_trace: cannot write");
                return 1;
            }
            last = now;
        }
    }
    if (fflush(stdout)) {
        perror("sample_trace: cannot write");
        return 1;
    }
    return 0;
}
