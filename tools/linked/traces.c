/* Runs the stored traces on standard input, tools/linked/traces.txt, and compares the records done, the number and every byte of the buffer with what stands
   beside them. A line `trace BYTES` gives a trace; a line `run LENGTH READING ROOM DONE NUMBER CODES` runs its first bytes. Bytes are hex, `-` for none.
   Trace and buffer lie before a page that may not be touched, and the trace may only be read: a touch beside them, or a write to the trace, ends the program.
   The argument is the most bytes of stack that a run may take; more ends with status 1. */
#define _DEFAULT_SOURCE
#include <stdio.h>
#include "guarded.h"
#include "painted_stack.h"
#include "trace_run.h"

static uint8_t *trace_end, *codes_end;
static uint8_t trace[ROOM], codes[ROOM];
static size_t trace_length;
static unsigned long runs, seen[TRACE_RUN_BOX_OUT_OF_ORDER + 1];
static size_t stack_taken;

/* The run under way, and what it gives. */
static size_t length, room;
static bool second;
static TraceRunOutcome outcome;

static void one_run(void) { outcome = trace_run(trace_end - length, length, second, codes_end - room, room); }

/* Runs the first `length` bytes of the trace with this much room; what is wrong with what it gives, or NULL. */
static const char *run(size_t done, unsigned number) {
    uint8_t *buffer = codes_end - room;
    memset(codes_end - ROOM, MARK, ROOM);
    if (mprotect(trace_end - ROOM, ROOM, PROT_READ | PROT_WRITE) != 0) return "memory cannot be made writable";
    memcpy(trace_end - length, trace, length);
    if (mprotect(trace_end - ROOM, ROOM, PROT_READ) != 0) return "memory cannot be made read-only";
    stack_taken = larger(stack_taken, one_run);
    if (outcome.done != done) return "another count of records done";
    if (outcome.number != number) return "another number";
    if (memcmp(buffer, codes, done) != 0) return "another code";
    for (uint8_t *at = codes_end - ROOM; at < codes_end; at++)
        if ((at < buffer || at >= buffer + done) && *at != MARK) return "a byte that is no code's was written";
    runs++;
    seen[number]++;
    return NULL;
}

/* One line; what is wrong with it, or NULL. */
static const char *take(char *line) {
    line[strcspn(line, "\n")] = '\0';
    if (strncmp(line, "trace ", 6) == 0) return bytes_of(line + 6, trace, &trace_length) ? NULL : "no trace";
    size_t done, count;
    unsigned reading, number;
    int read = 0;
    if (sscanf(line, "run %zu %u %zu %zu %u %n", &length, &reading, &room, &done, &number, &read) != 5 || read == 0) return "neither a trace nor a run";
    if (!bytes_of(line + read, codes, &count) || count != done || done > room || room > ROOM || length > trace_length) return "no run of that trace";
    if (reading < 1 || reading > 2 || number > TRACE_RUN_BOX_OUT_OF_ORDER) return "no reading or no number";
    second = reading == 2;
    return run(done, number);
}

static int failed(const char *what, unsigned long line) {
    fprintf(stderr, "traces: line %lu: %s\n", line, what);
    return 1;
}

int main(int count, char **arguments) {
    static const unsigned met[] = {0, 2, 4, 5, 6, 7, 20, 21, 22, 23, 24, 25, 26, 27};
    char *text = NULL;
    size_t text_room = 0;
    unsigned long line = 0;
    if (count != 2) return failed("the argument is the most bytes of stack", line);
    trace_end = room_end();
    codes_end = room_end();
    if (trace_end == NULL || codes_end == NULL) return failed("no memory", line);
    while (getline(&text, &text_room, stdin) >= 0) {
        const char *wrong = (line++, take(text));
        if (wrong != NULL) return failed(wrong, line);
    }
    if (ferror(stdin)) return failed("cannot read", line + 1);
    free(text);
    for (size_t i = 0; i < sizeof met / sizeof met[0]; i++)
        if (seen[met[i]] == 0) return failed("a number did not come up", line);
    if (printf("traces: %lu runs as stored, no other byte written; %zu bytes of stack seen\n", runs, stack_taken) < 0 || fflush(stdout) != 0) return 1;
    return stack_taken > strtoul(arguments[1], NULL, 10) ? failed("more stack than the argument allows", line) : 0;
}
