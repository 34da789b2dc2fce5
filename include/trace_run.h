/* A night run again from its trace, for C and C++: the records of up to sixteen air boxes, and for each record the desk code that its box shows.
   Link with libtrace_run_c.a, which `tools/build_archive` writes to target/staticlib. This header, the archive and C's memset and memcpy are all that a program
   needs. The archive has the controller in it: libair_box_c.a is not needed beside it, and may be linked too.

       uint8_t codes[MOST_RECORDS];
       TraceRunOutcome outcome = trace_run(trace, trace_length, false, codes, sizeof codes);
       for (size_t i = 0; i < outcome.done; i++) show(codes[i]);     // in the order of the records; 0: no alarm
       if (outcome.number != TRACE_RUN_CLEAN_END) report(outcome.done + 1, outcome.number);   // the record that was refused, counted from 1

   The trace. Bytes, nothing before the first record and nothing between two. A record is fourteen numbers:

       box                 0 to 15
       seconds             since the record before, whatever its box; of the first record since 0. 0 to 2,147,483,648
       flags               0 to 7: the sum of 1 windows closed, 2 people in the zone, 4 supply fan on
       mode                0 to 255, as AirBoxInput of air_box.h has it, as the next two
       airflow override    0 to 255
       damper override     0 to 255
       eight readings      the bits of the doubles: zone temperature, cooling setpoint, heating setpoint, CO2 setpoint, CO2, discharge air, supply air,
                           airflow; their ranges are those of a tick

   A number is written in groups of seven bits, one in a byte, the low group first; the high bit of the byte says that another group follows. The last group is
   0 only where it is the only one, and there are at most ten: so each number from 0 to 2^64 - 1 is written in one way. 300 is 0xac 0x02.

   The boxes. Each of the sixteen is a box of its own with a plain start, a design minimum of 0.5 and a cooling maximum of 1.5 cubic metres a second. All have
   the first reading of the airflow sensor alarm, or with `second_reading` all the second; air_box.h says how the two differ. A box's first record is its first
   tick, at which with a plain start a fault that seems to stand counts as having stood for long: its code shows at once. The time of a tick is the sum of the
   seconds of all records up to its own. A box may begin late, but once it has begun two records of it are at most 240 seconds apart.

   The order in one second. Records of the same second stand by rising box number, and a box stands at most once in a second: a record whose seconds are 0 has
   a greater box number than the record before it. The first record has none before it and breaks nothing, whatever its seconds. Records of different seconds
   may name their boxes in any order. So the same records at the same times are the same bytes.

   The run goes record by record until the trace ends or a record is refused. A refused record is not done: it has no code, its box is not ticked, and nothing
   after it is read. What was done before it stands, its codes among it.

   The codes. One byte for each record done, in the trace's order: the desk code of the record's box after its tick, AIR_BOX_DESK_.. of air_box.h, which is 34,
   12, 13, 23, or 0 for no alarm. They fill the buffer from its start. Every byte of it past them keeps its content, whatever the run ends with, and no byte
   beside the buffer is touched.

   What the archive needs and takes.
   - x86-64 with the System V ABI, SSE2 and the floating-point state in which a program starts, as air_box.h says it of its archive.
   - No allocation, no global or static variable, no errno; calls may run at the same time on different buffers. It calls nothing out of the archive but
     memset and memcpy, which a program without a C library has to bring itself.
   - The sixteen boxes lie on the stack. A run was seen to take some 19,400 bytes of it, whatever the trace; no proof bounds them. A thread with a small
     stack has to have that room.
   - A trace of any length, and a buffer of any length, none included. A record takes at least 14 bytes, so a buffer of a fourteenth of the trace's bytes is
     never too short. Every loop goes over the sixteen boxes, the trace's bytes, the numbers of a record or the records, and there is no recursion and no
     indirect jump: a run ends with its trace at the latest, in a time that grows as the trace does.

   What a caller keeps to. `trace` points to `trace_length` bytes that may be read, and `codes` to `codes_length` bytes that may be written. Neither pointer is
   null, even where its length is 0. The two do not lie over each other, and while a run goes on nobody else writes to either. `second_reading` is 0 or 1, and
   nothing else. The bytes of the trace may be any: none stops the program, and readings that are NaN or infinite are refused as a tick refuses them.
   Header and archive come together: a program that was compiled with another header is compiled again. */
#ifndef TRACE_RUN_H
#define TRACE_RUN_H

#include <stdbool.h>
#include <stddef.h>
#include <stdint.h>

#if !defined(__x86_64__) || defined(__ILP32__) || defined(_WIN32)
#error "the archive of the trace run is for x86-64 with the System V ABI"
#endif

/* C99 and later, C++98 and later. The assertions hold the struct to a size and offsets that stand here as numbers. */
#if defined(__cplusplus) && __cplusplus >= 201103L
#define TRACE_RUN_ASSERT(fact) static_assert(fact, #fact)
#elif !defined(__cplusplus) && defined(__STDC_VERSION__) && __STDC_VERSION__ >= 201112L
#define TRACE_RUN_ASSERT(fact) _Static_assert(fact, #fact)
#else
#define TRACE_RUN_ASSERT_LINE(fact, line) typedef char trace_run_assert_##line[(fact) ? 1 : -1]
#define TRACE_RUN_ASSERT_AT(fact, line) TRACE_RUN_ASSERT_LINE(fact, line)
#define TRACE_RUN_ASSERT(fact) TRACE_RUN_ASSERT_AT(fact, __LINE__)
#endif

#ifdef __cplusplus
extern "C" {
#endif

/* ---- The number with which a run ends. 20 and 21 are found as each number is read, in the order of a record's numbers: a fifth number that is damaged is 21,
   whatever the box was. Only when all fourteen are read are 22 to 25, 27 and 26 asked, in this order, and after them what a tick asks. */
#define TRACE_RUN_CLEAN_END 0           /* the trace ended at the end of a record; an empty one has 0 records and ends so */
#define TRACE_RUN_ENDS_IN_RECORD 20     /* it ended inside a record, in a number or between two */
#define TRACE_RUN_NUMBER_OUT_OF_FORM 21 /* a number is over 2^64 - 1, or its last group is a needless 0. A tenth group above 1, or with the high bit set, is
                                           that at once, whatever follows */
#define TRACE_RUN_BOX_OUT_OF_RANGE 22   /* the box is above 15 */
#define TRACE_RUN_FLAGS_OUT_OF_RANGE 23 /* the flags are above 7 */
#define TRACE_RUN_SETTING_OUT_OF_RANGE 24 /* the mode or an override is above 255 */
#define TRACE_RUN_STEP_OUT_OF_RANGE 25  /* the seconds are above 2,147,483,648 */
#define TRACE_RUN_BOX_OUT_OF_ORDER 27   /* the seconds are 0, and the box is not above that of the record before. Never of the first record. Asked before 26 */
#define TRACE_RUN_NO_ROOM 26            /* the buffer has no byte left for the code. Asked before the tick, whatever the tick would have said */

/* The tick's own refusals, by the same numbers as in air_box.h. Its 1 and 3 do not come up: the time of a record is a whole number, and never goes back. */
#define TRACE_RUN_TIME_OUT_OF_RANGE 2        /* the sum of the seconds is above 2,147,483,648 */
#define TRACE_RUN_TOO_LONG_AFTER_LAST 4      /* over 240 seconds after the record of the same box before it */
#define TRACE_RUN_TEMPERATURE_OUT_OF_RANGE 5 /* one of the five temperatures is not from 150.0 to 450.0 */
#define TRACE_RUN_CO2_OUT_OF_RANGE 6         /* one of the two CO2 values is not from 0.0 to 10000.0 */
#define TRACE_RUN_AIRFLOW_OUT_OF_RANGE 7     /* the airflow is not from -10.0 to 10.0 */

/* What a run ends with. */
typedef struct trace_run_outcome {
    size_t done;    /* the records done, and so the codes written */
    uint8_t number; /* TRACE_RUN_CLEAN_END, or why the record after them was refused */
} TraceRunOutcome;
TRACE_RUN_ASSERT(sizeof(TraceRunOutcome) == 16);
TRACE_RUN_ASSERT(offsetof(TraceRunOutcome, done) == 0);
TRACE_RUN_ASSERT(offsetof(TraceRunOutcome, number) == 8);

/* Runs the trace and writes the codes. */
TraceRunOutcome trace_run(const uint8_t *trace, size_t trace_length, bool second_reading, uint8_t *codes, size_t codes_length);

#ifdef __cplusplus
}
#endif

#undef TRACE_RUN_ASSERT
#undef TRACE_RUN_ASSERT_AT
#undef TRACE_RUN_ASSERT_LINE

#endif
