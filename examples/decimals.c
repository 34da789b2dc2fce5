/* Lines for the program `ticks` from decimals, and its answers back in decimals, for a person at a terminal.
   Each line of input has fourteen fields, joined by blanks, tabs or commas: start (plain, quiet, or next for the box of the line before), t, zone,
   cooling setpoint, heating setpoint, CO2 setpoint, CO2, discharge air, supply air, flow, mode, airflow override, damper override, and the status:
   1 for windows closed, 2 for people in the zone and 4 for the fan on, summed. A line of three or four fields builds a box with design flows of its own:
   plain or quiet, the design minimum, the cooling maximum and, where it is named, the reading of the airflow sensor alarm: first or second.
   Empty lines and lines that begin with # are left out.
   Build: gcc -O2 examples/decimals.c -o target/decimals
   Run:   target/decimals < my_ticks.txt | crates/ticks/out/ticks | target/decimals --answers */
#define _POSIX_C_SOURCE 200809L
#include <inttypes.h>
#include <math.h>
#include <stdbool.h>
#include <stdlib.h>
#include <sys/types.h>
#include "output.h"

enum { FIELDS = 14, SIZE_FIELDS = 3, BUILDING_FIELDS = 4, READING = 3, FIRST_INTEGER = 10, STATUS = 13, REALS = 5 };
static const char between[] = " \t,\r";
static const char *const BUILDING_NAMES[BUILDING_FIELDS] = {"start of a box to be built", "design minimum", "cooling maximum", "reading"};
static const char *const NAMES[FIELDS] = {"start", "t", "zone", "cooling setpoint", "heating setpoint", "CO2 setpoint", "CO2", "discharge air",
                                          "supply air", "flow", "mode", "airflow override", "damper override", "status"};

/* 1 or 2 for the text that is `one` or `two`, else 0. */
static uint64_t which(const char *text, const char *one, const char *two) {
    return strcmp(text, one) == 0 ? 1 : strcmp(text, two) == 0 ? 2 : 0;
}

static bool start_word(const char *text, uint64_t *word) {
    *word = which(text, "plain", "quiet");
    return *word != 0 || strcmp(text, "next") == 0;
}

/* The bits of the f64 nearest to the decimal. One too large is no number; one near 0 is, though strtod may have something to say of it. */
static bool real(const char *text, uint64_t *word) {
    char *end;
    errno = 0;
    double x = strtod(text, &end);
    memcpy(word, &x, sizeof x);
    return *text != '\0' && *end == '\0' && (errno == 0 || fabs(x) < 1.0);
}

static bool integer(const char *text, int64_t least, int64_t most, uint64_t *word) {
    char *end;
    errno = 0;
    int64_t n = strtoll(text, &end, 10);
    *word = (uint64_t)n;
    return *text != '\0' && *end == '\0' && errno == 0 && n >= least && n <= most;
}

static bool tick_field(int i, const char *text, uint64_t *word) {
    if (i == 0) return start_word(text, word);
    if (i < FIRST_INTEGER) return real(text, word);
    return i == STATUS ? integer(text, 0, 7, word) : integer(text, INT64_MIN, INT64_MAX, word);
}

static bool building_field(int i, const char *text, uint64_t *word) {
    if (i != 0 && i != READING) return real(text, word);
    *word = i == 0 ? which(text, "plain", "quiet") : which(text, "first", "second");
    return *word != 0;
}

/* The fields of a line, as far as a tick's go and one more, and how many they are. */
static int split(char *text, char *fields[FIELDS + 1]) {
    char *rest = NULL;
    int count = 0;
    for (char *next = strtok_r(text, between, &rest); next != NULL && count <= FIELDS; next = strtok_r(NULL, between, &rest)) fields[count++] = next;
    return count;
}

/* The words of a line of decimals, and how many they are: a tick's or a building's; or 0, and what is wrong with it on standard error. */
static int words(char *text, unsigned long number, uint64_t word[FIELDS]) {
    char *fields[FIELDS + 1];
    int count = split(text, fields);
    bool building = count == SIZE_FIELDS || count == BUILDING_FIELDS;
    int wanted = building ? count : FIELDS;
    const char *const *names = building ? BUILDING_NAMES : NAMES;
    bool (*field)(int, const char *, uint64_t *) = building ? building_field : tick_field;
    for (int i = 0; i < wanted; i++) {
        if (i == count) fprintf(stderr, "decimals: line %lu: the %s is missing\n", number, names[i]);
        else if (!field(i, fields[i], &word[i])) fprintf(stderr, "decimals: line %lu: '%s' is no %s\n", number, fields[i], names[i]);
        else continue;
        return 0;
    }
    if (count <= wanted) return wanted;
    fprintf(stderr, "decimals: line %lu: '%s' stands after the last field\n", number, fields[wanted]);
    return 0;
}

static bool put_line(const uint64_t *word, int count) {
    for (int i = 0; i < count; i++)
        if (!put(i + 1 < count ? "%016" PRIx64 " " : "%016" PRIx64 "\n", word[i])) return false;
    return true;
}

/* The decimal with the fewest digits that is read as x again. */
static bool put_real(uint64_t word) {
    double x, again;
    char text[32];
    memcpy(&x, &word, sizeof x);
    for (int digits = 1; digits <= 17; digits++) {
        snprintf(text, sizeof text, "%.*g", digits, x);
        again = strtod(text, NULL);
        if (memcmp(&again, &x, sizeof x) == 0) break;
    }
    return put("%s", text);
}

/* An answer with its five reals in decimals; a line that is none as it came. */
static bool put_answer(const char *text) {
    uint64_t word[REALS];
    int past = -1;
    sscanf(text, "%16" SCNx64 " %16" SCNx64 " %16" SCNx64 " %16" SCNx64 " %16" SCNx64 "%n", &word[0], &word[1], &word[2], &word[3], &word[4], &past);
    if (past < 0) return put("%s\n", text);
    for (int i = 0; i < REALS; i++)
        if (!put_real(word[i]) || (i + 1 < REALS && !put(" "))) return false;
    return put("%s\n", text + past);
}

/* A line of decimals, unless it is to be left out. The status of the program. */
static int put_words(char *line, unsigned long number) {
    uint64_t word[FIELDS];
    if (line[0] == '#' || line[strspn(line, between)] == '\0') return 0;
    int count = words(line, number, word);
    if (count == 0) return 1;
    return put_line(word, count) ? 0 : cannot("decimals", "write");
}

/* Whether the line has no byte 0, which would hide what stands after it. */
static bool is_text(const char *line, size_t length, unsigned long number) {
    if (strlen(line) == length) return true;
    fprintf(stderr, "decimals: line %lu: it has a byte 0\n", number);
    return false;
}

int main(int count, char **arguments) {
    bool answers = count == 2 && strcmp(arguments[1], "--answers") == 0;
    if (count > 1 && !answers) {
        fputs("decimals: the only argument is --answers\n", stderr);
        return 2;
    }
    char *line = NULL;
    size_t room = 0;
    ssize_t n;
    int status = 0;
    for (unsigned long number = 1; status == 0 && (n = getline(&line, &room, stdin)) >= 0 && !ferror(stdin); number++) {
        if (line[n - 1] == '\n') line[--n] = '\0';
        if (!is_text(line, (size_t)n, number)) status = 1;
        else if (answers) status = put_answer(line) ? 0 : cannot("decimals", "write");
        else status = put_words(line, number);
    }
    if (status == 0 && !feof(stdin)) status = cannot("decimals", "read");
    return close_output() || status != 0 ? status : cannot("decimals", "write");
}
