/* Text logs to traces and back, for C and C++: the lines that older gateways write, one a record, and the traces that trace_run.h runs.
   Link with libtext_log_c.a, which `tools/build_archive` writes to target/staticlib. This header, the archive and C's memset and memcpy are all that a program
   needs. It may be linked beside the archives of air_box.h and trace_run.h, and needs neither.

       TextLogOutcome outcome = text_log_to_trace(log, log_length, trace, 3 * log_length);   // no null: one byte for an empty log
       TraceRunOutcome run = trace_run(trace, outcome.written, false, codes, sizeof codes);   // trace_run.h
       if (outcome.number != TEXT_LOG_CLEAN_END) report(outcome.done + 1, outcome.number);    // the line that was refused, counted from 1

   The text. ASCII, nothing before the first line. A line is fourteen fields joined by commas, and each line ends with a newline, the last too:

       box                 0 to 15
       seconds             since the record before, whatever its box; of the first record since 0. 0 to 2,147,483,648
       flags               0 to 7: the sum of 1 windows closed, 2 people in the zone, 4 supply fan on
       mode                0 to 255, as AirBoxInput of air_box.h has it, as the next two
       airflow override    0 to 255
       damper override     0 to 255
       eight readings      decimals: zone temperature, cooling setpoint, heating setpoint in K, CO2 setpoint, CO2 in ppm, discharge air, supply air in K,
                           airflow in cubic metres a second. Their ranges are not asked here, but by a tick

       2,240,7,1,0,0,295.01,295.15,292.65,894,625.2,287.15,286.65,0.438

   The first six are integers: digits alone, the first 0 only where it is the only one, of any length as far as the form goes. A reading is digits, which a minus
   may stand before, and if it has a point there are digits on both sides of it: 296.5, -0.02, 300, 0300.50, but not .5, 5. or -.5. It has at most 15 digits,
   needless zeros counted, and at most 6 of them after the point. A zero has no minus. No line has a plus, an exponent, a blank or a carriage return, and no
   line is empty.
   A reading becomes the double nearest to its decimal, and of two as near the one whose last bit is 0.

   The trace. What trace_run.h says of it, with the same fields in the same order.

   From a trace each reading is written as the decimal with the fewest digits after the point that is read as the same double: 0.5, 300, -2.25. No number has a
   needless zero. A trace that is not refused comes back from its text byte for byte, and that text comes back from whatever
   trace is made of it.

   The order in one second. Records of the same second stand by rising box number, and a box stands at most once in a second: a record whose seconds are 0 has
   a greater box number than the record before it. The first record has none before it and breaks nothing. Both directions refuse what breaks this rule.

   A conversion goes record by record until the input ends or a record is refused. A record is written whole or not at all, and of a refused one nothing is, nor
   of what comes after it. The records done fill the buffer from its start. Every byte of it past them keeps its content, whatever the conversion ends with, and
   no byte beside the buffer is touched. A log may be converted in parts, cut between two lines, and the traces put one behind the other: of the first line of a
   part the order is then not asked, but by a run of the whole trace.

   What the archive needs and takes.
   - x86-64 with the System V ABI, SSE2 and the floating-point state in which a program starts, as air_box.h says it of its archive.
   - No allocation, no global or static variable, no errno; calls may run at the same time on different buffers. It calls nothing out of the archive but
     memset and memcpy, which a program without a C library has to bring itself.
   - A conversion was seen to take some 1,800 bytes of stack, whatever its input; no proof bounds them.
   - Input of any length, and a buffer of any length, none included. A line of a text gives at most 78 bytes of trace for each 28 of its own, and a record of a
     trace at most 37 bytes of text for each 14 of its own: a buffer of three times the input's bytes is never too short. Every loop goes over the bytes of the
     input, of a line or of a number, the fields of a record or the digits after a point, and there is no recursion and no indirect jump: a conversion ends with
     its input at the latest, in a time that grows as the input does.

   What a caller keeps to. The input's pointer points to as many bytes that may be read as its length says, and the buffer's to as many that may be written.
   Neither pointer is null, even where its length is 0. The two do not lie over each other, and while a call goes on nobody else writes to either. The bytes of
   the input may be any: none stops the program.
   Header and archive come together: a program that was compiled with another header is compiled again. */
#ifndef TEXT_LOG_H
#define TEXT_LOG_H

#include <stddef.h>
#include <stdint.h>

#if !defined(__x86_64__) || defined(__ILP32__) || defined(_WIN32)
#error "the archive of the text logs is for x86-64 with the System V ABI"
#endif

/* C99 and later, C++98 and later. The assertions hold the struct to a size and offsets that stand here as numbers. */
#if defined(__cplusplus) && __cplusplus >= 201103L
#define TEXT_LOG_ASSERT(fact) static_assert(fact, #fact)
#elif !defined(__cplusplus) && defined(__STDC_VERSION__) && __STDC_VERSION__ >= 201112L
#define TEXT_LOG_ASSERT(fact) _Static_assert(fact, #fact)
#else
#define TEXT_LOG_ASSERT_LINE(fact, line) typedef char text_log_assert_##line[(fact) ? 1 : -1]
#define TEXT_LOG_ASSERT_AT(fact, line) TEXT_LOG_ASSERT_LINE(fact, line)
#define TEXT_LOG_ASSERT(fact) TEXT_LOG_ASSERT_AT(fact, __LINE__)
#endif

#ifdef __cplusplus
extern "C" {
#endif

/* ---- The number with which a conversion ends. Each question is asked of the whole line or record before the next, in the order in which they stand here: of
   two faults in one record the first here is told, wherever they stand in it. But 20 and 21 are found as a trace's numbers are read one by one: of these the one
   that comes first in the record is told. */
#define TEXT_LOG_CLEAN_END 0           /* the input ended at the end of a record; an empty one has 0 records and ends so */

/* From a text alone, as a line is read. */
#define TEXT_LOG_MALFORMED 50          /* the line has not the form above, or no newline ends it */
#define TEXT_LOG_TOO_MANY_DIGITS 51    /* a reading has more than 15 digits, or more than 6 after the point */
#define TEXT_LOG_ZERO_WITH_MINUS 52    /* a reading is a zero with a minus, such as -0 or -0.000 */

/* From a trace alone, as each number is read, in the order of a record's numbers. */
#define TEXT_LOG_ENDS_IN_RECORD 20     /* it ended inside a record, in a number or between two */
#define TEXT_LOG_NUMBER_OUT_OF_FORM 21 /* a number is over 2^64 - 1, or its last group is a needless 0. A tenth group above 1, or with the high bit set, is
                                          that at once, whatever follows */

/* Both ways. */
#define TEXT_LOG_BOX_OUT_OF_RANGE 22   /* the box is above 15 */
#define TEXT_LOG_FLAGS_OUT_OF_RANGE 23 /* the flags are above 7 */
#define TEXT_LOG_SETTING_OUT_OF_RANGE 24 /* the mode or an override is above 255 */
#define TEXT_LOG_STEP_OUT_OF_RANGE 25  /* the seconds are above 2,147,483,648 */
#define TEXT_LOG_BOX_OUT_OF_ORDER 27   /* the seconds are 0, and the box is not above that of the record before. Never of the first record */

/* From a trace alone. */
#define TEXT_LOG_NO_DECIMAL 53         /* no decimal of at most 15 digits, at most 6 after the point, is read as a reading: it is -0.0, infinite or not a number,
                                          or has too many digits, or is too fine */

/* Both ways, last. */
#define TEXT_LOG_NO_ROOM 54            /* the buffer has no room for the whole record */

/* What a conversion ends with. */
typedef struct text_log_outcome {
    size_t done;    /* the records done */
    size_t written; /* the bytes that they take in the buffer */
    uint8_t number; /* TEXT_LOG_CLEAN_END, or why the line or record after them was refused */
} TextLogOutcome;
TEXT_LOG_ASSERT(sizeof(TextLogOutcome) == 24);
TEXT_LOG_ASSERT(offsetof(TextLogOutcome, done) == 0);
TEXT_LOG_ASSERT(offsetof(TextLogOutcome, written) == 8);
TEXT_LOG_ASSERT(offsetof(TextLogOutcome, number) == 16);

/* Converts a text log to a trace. */
TextLogOutcome text_log_to_trace(const uint8_t *text, size_t text_length, uint8_t *trace, size_t trace_length);

/* Converts a trace to a text log. */
TextLogOutcome text_log_to_text(const uint8_t *trace, size_t trace_length, uint8_t *text, size_t text_length);

#ifdef __cplusplus
}
#endif

#undef TEXT_LOG_ASSERT
#undef TEXT_LOG_ASSERT_AT
#undef TEXT_LOG_ASSERT_LINE

#endif
