/* Converts what stands on standard input, tools/text_logs/cases.txt, and compares the records done, the bytes written, the number and every byte of the buffer
   with what stands there. Lines of it, in which - stands for no byte, and of LENGTH and ROOM for all:

       log TEXT                                   a text log, with \n, \r, \t and \xHH for bytes
       trace BYTES                                its trace in hex; log and trace stand for the lines below, up to the next
       to_trace LENGTH ROOM DONE WRITTEN NUMBER   the first LENGTH bytes of the log: it gives the first WRITTEN of the trace
       to_text LENGTH ROOM DONE WRITTEN NUMBER    the first LENGTH bytes of the trace: it gives the first WRITTEN of the log
       line NUMBER TEXT                           a text whose first line is refused: alone, and behind the log, of which all is done
       record NUMBER BYTES                        the same of a trace
       next_line NUMBER TEXT, next_record NUMBER BYTES   the same, but only behind the log or the trace

   Input and buffer lie before a page that may not be touched, and once more behind one; the input may only be read. A touch beside them, or a write to the
   input, ends the program. The argument is the most bytes of stack that a conversion may take; more ends with status 1. */
#define _DEFAULT_SOURCE
#include <stdio.h>
#include "guarded.h"
#include "painted_stack.h"
#include "text_log.h"

enum { WORDS = 5, NUMBERS = TEXT_LOG_NO_ROOM + 1 };
typedef TextLogOutcome Conversion(const uint8_t *, size_t, uint8_t *, size_t);
typedef struct { uint8_t bytes[ROOM]; size_t length; } Bytes;
static uint8_t *input_end, *output_end;
static Bytes log_text, log_trace, other;
static size_t log_records;
static unsigned long conversions, seen[2][NUMBERS];
static size_t stack_taken;

/* The conversion under way, and what it gives. */
static Conversion *conversion;
static const uint8_t *input;
static uint8_t *output;
static size_t length, room;
static TextLogOutcome outcome;

static void one_conversion(void) { outcome = conversion(input, length, output, room); }

/* With input and buffer where they stand; what is wrong with what it gives, or NULL. */
static const char *placed(const uint8_t *from, const uint8_t *wanted, size_t done, size_t written, unsigned number) {
    memset(output_end - ROOM, MARK, ROOM);
    if (mprotect(input_end - ROOM, ROOM, PROT_READ | PROT_WRITE) != 0) return "memory cannot be made writable";
    memcpy((uint8_t *)input, from, length);
    if (mprotect(input_end - ROOM, ROOM, PROT_READ) != 0) return "memory cannot be made read-only";
    stack_taken = larger(stack_taken, one_conversion);
    if (outcome.number != number) return "another number";
    if (outcome.done != done) return "another count of records done";
    if (outcome.written != written) return "another count of bytes written";
    if (memcmp(output, wanted, written) != 0) return "another byte written";
    for (uint8_t *at = output_end - ROOM; at < output_end; at++)
        if ((at < output || at >= output + written) && *at != MARK) return "a byte past those written was written";
    conversions++;
    seen[conversion == text_log_to_text][number]++;
    return NULL;
}

/* Before the pages that may not be touched, and behind them. */
static const char *convert(Conversion *how, const uint8_t *from, const uint8_t *wanted, size_t done, size_t written, unsigned number) {
    conversion = how;
    input = input_end - length;
    output = output_end - room;
    const char *wrong = placed(from, wanted, done, written, number);
    if (wrong != NULL) return wrong;
    input = input_end - ROOM;
    output = output_end - ROOM;
    return placed(from, wanted, done, written, number);
}

static size_t all_or(const char *word, size_t all) { return strcmp(word, "-") == 0 ? all : (size_t)strtoul(word, NULL, 10); }

/* The byte of an escape whose letter is at `*at`, which is moved past it, or -1. */
static int escaped(const char **at) {
    char letter = *(*at)++;
    if (letter == 'n') return '\n';
    if (letter == 'r') return '\r';
    if (letter == 't') return '\t';
    int high = letter == 'x' ? hex_value((*at)[0]) : -1, low = high < 0 ? -1 : hex_value((*at)[1]);
    *at += 2;
    return low < 0 ? -1 : high * 16 + low;
}

/* The bytes of a text; whether it is one. */
static bool text_of(const char *word, Bytes *to) {
    to->length = 0;
    if (strcmp(word, "-") == 0) return true;
    while (*word != '\0') {
        int byte = (uint8_t)*word++;
        if (byte == '\\') byte = escaped(&word);
        if (byte < 0 || to->length == ROOM) return false;
        to->bytes[to->length++] = (uint8_t)byte;
    }
    return true;
}

/* Of the bytes, alone if that is wanted, and behind others of which all is done. */
static const char *refused(Conversion *how, const Bytes *before, const Bytes *wanted, unsigned number, bool alone) {
    static uint8_t both[2 * ROOM];
    room = ROOM;
    length = other.length;
    const char *wrong = alone ? convert(how, other.bytes, wanted->bytes, 0, 0, number) : NULL;
    if (wrong != NULL) return wrong;
    memcpy(both, before->bytes, before->length);
    memcpy(both + before->length, other.bytes, other.length);
    length += before->length;
    return length > ROOM ? "too long" : convert(how, both, wanted->bytes, log_records, wanted->length, number);
}

static const char *take_log(const char *word) {
    if (!text_of(word, &log_text)) return "no text";
    log_records = 0;
    for (size_t i = 0; i < log_text.length; i++) log_records += log_text.bytes[i] == '\n';
    return NULL;
}

static const char *take_conversion(const char *word, bool back) {
    char length_word[16], room_word[16];
    size_t done, written;
    unsigned number;
    if (sscanf(word, "%15s %15s %zu %zu %u", length_word, room_word, &done, &written, &number) != WORDS || number >= NUMBERS) return "no conversion";
    const Bytes *from = back ? &log_trace : &log_text, *wanted = back ? &log_text : &log_trace;
    length = all_or(length_word, from->length);
    room = all_or(room_word, ROOM);
    if (length > from->length || room > ROOM || written > room || written > wanted->length) return "no conversion of that log";
    return convert(back ? text_log_to_text : text_log_to_trace, from->bytes, wanted->bytes, done, written, number);
}

static const char *take_refused(const char *word, bool back, bool alone) {
    char *bytes;
    unsigned long number = strtoul(word, &bytes, 10);
    if (*bytes++ != ' ' || number >= NUMBERS) return "no number";
    if (back) return bytes_of(bytes, other.bytes, &other.length) ? refused(text_log_to_text, &log_trace, &log_text, (unsigned)number, alone) : "no trace";
    return text_of(bytes, &other) ? refused(text_log_to_trace, &log_text, &log_trace, (unsigned)number, alone) : "no text";
}

/* One line; what is wrong with it, or NULL. */
static const char *take(char *line) {
    line[strcspn(line, "\n")] = '\0';
    char *word = strchr(line, ' ');
    if (word == NULL) return "no word after the first";
    *word++ = '\0';
    if (strcmp(line, "log") == 0) return take_log(word);
    if (strcmp(line, "trace") == 0) return bytes_of(word, log_trace.bytes, &log_trace.length) ? NULL : "no trace";
    if (strcmp(line, "to_trace") == 0) return take_conversion(word, false);
    if (strcmp(line, "to_text") == 0) return take_conversion(word, true);
    if (strcmp(line, "line") == 0) return take_refused(word, false, true);
    if (strcmp(line, "record") == 0) return take_refused(word, true, true);
    if (strcmp(line, "next_line") == 0) return take_refused(word, false, false);
    if (strcmp(line, "next_record") == 0) return take_refused(word, true, false);
    return "neither a log nor a conversion";
}

static int failed(const char *what, unsigned long line) {
    fprintf(stderr, "conversions: line %lu: %s\n", line, what);
    return 1;
}

int main(int count, char **arguments) {
    static const unsigned met[2][10] = {{0, 22, 23, 24, 25, 27, 50, 51, 52, 54}, {0, 20, 21, 22, 23, 24, 25, 27, 53, 54}};
    char *text = NULL;
    size_t text_room = 0;
    unsigned long line = 0;
    if (count != 2) return failed("the argument is the most bytes of stack", line);
    input_end = room_end();
    output_end = room_end();
    if (input_end == NULL || output_end == NULL) return failed("no memory", line);
    while (getline(&text, &text_room, stdin) >= 0) {
        const char *wrong = (line++, take(text));
        if (wrong != NULL) return failed(wrong, line);
    }
    if (ferror(stdin)) return failed("cannot read", line + 1);
    free(text);
    for (size_t i = 0; i < 20; i++)
        if (seen[i / 10][met[i / 10][i % 10]] == 0) return failed("a number did not come up", line);
    if (printf("conversions: %lu as stored, no other byte written; %zu bytes of stack seen\n", conversions, stack_taken) < 0 || fflush(stdout) != 0) return 1;
    return stack_taken > strtoul(arguments[1], NULL, 10) ? failed("more stack than the argument allows", line) : 0;
}
