/* A line in the format of the program `ticks`: fields of sixteen lowercase hex digits, joined by one blank. Fourteen are a tick, three or four a building. */
#ifndef TICK_LINE_H
#define TICK_LINE_H
#include <stdio.h>
#include <string.h>
#include <sys/types.h>
#include "air_box.h"

enum { TICK_FIELDS = 14, SIZE_FIELDS = 3, BUILDING_FIELDS = 4, FIELD_DIGITS = 16 };
typedef enum { END_OF_INPUT, READ_FAILED, MALFORMED, A_TICK, A_BUILDING } LineKind;

/* What a line says: of a tick its readings, of a building the choices. */
typedef struct Line {
    LineKind kind;
    AirBoxTick tick;
    AirBoxChoices choices;
} Line;

static int hex_value(char c) {
    return c >= '0' && c <= '9' ? c - '0' : c >= 'a' && c <= 'f' ? c - 'a' + 10 : -1;
}

/* The fields of the n bytes at text, and whether they are so many. */
static bool fields_of(const char *text, ssize_t n, int count, uint64_t *w) {
    if (n != count * (FIELD_DIGITS + 1) - 1) return false;
    for (int i = 0; i < count; i++) {
        const char *field = text + i * (FIELD_DIGITS + 1);
        if (i > 0 && field[-1] != ' ') return false;
        w[i] = 0;
        for (int k = 0; k < FIELD_DIGITS; k++) {
            if (hex_value(field[k]) < 0) return false;
            w[i] = w[i] * 16 + (uint64_t)hex_value(field[k]);
        }
    }
    return true;
}

/* A tick's line. A start word of 1 or 2 makes the box afresh, plain or quiet, with the usual design flows and the first reading. */
static bool is_tick(const char *text, ssize_t n, AirBox *box, AirBoxTick *tick) {
    uint64_t w[TICK_FIELDS];
    if (!fields_of(text, n, TICK_FIELDS, w) || w[0] > 2 || w[13] > 7) return false;
    double x[10];
    memcpy(x, w, sizeof x);
    if (w[0] != 0) *box = air_box_fresh(w[0] == 2);
    *tick = (AirBoxTick){x[1], {x[2], x[3], x[4], w[13] & 1, w[13] & 2, (int64_t)w[10], x[5], x[6], x[7], x[8], x[9],
                                (int64_t)w[11], (int64_t)w[12], w[13] & 4}};
    return true;
}

/* A building line: a start and two design flows, and the reading, 1 or 2, which is the first where it is left out. It is for the caller to build the box. */
static bool is_building(const char *text, ssize_t n, AirBoxChoices *choices) {
    uint64_t w[BUILDING_FIELDS];
    if (fields_of(text, n, SIZE_FIELDS, w)) w[3] = 1;
    else if (!fields_of(text, n, BUILDING_FIELDS, w)) return false;
    if ((w[0] != 1 && w[0] != 2) || (w[3] != 1 && w[3] != 2)) return false;
    double x[BUILDING_FIELDS];
    memcpy(x, w, sizeof x);
    *choices = (AirBoxChoices){w[0] == 2, x[1], x[2], w[3] == 2};
    return true;
}

/* The next line of standard input; a malformed one changes nothing.
   Where a read failed, its reason is in errno, and what was read of a line is no line. */
static LineKind next_line(AirBox *box, Line *line) {
    static char *text;
    static size_t room;
    ssize_t n = getline(&text, &room, stdin);
    if (ferror(stdin) || (n < 0 && !feof(stdin))) return line->kind = READ_FAILED;
    if (n < 0) return line->kind = END_OF_INPUT;
    if (text[n - 1] == '\n') n--;
    if (is_tick(text, n, box, &line->tick)) return line->kind = A_TICK;
    return line->kind = is_building(text, n, &line->choices) ? A_BUILDING : MALFORMED;
}
#endif
