/* Runs the trace on standard input again and prints one desk code a line, in the trace's order, and last how many records are done and why the run ended, as
   `replay` does. A trace of any length is taken. With an argument all boxes have the second reading of the airflow sensor alarm.
   Build: gcc -O2 -Iinclude examples/trace_codes.c target/staticlib/libtrace_run_c.a -o target/trace_codes
   Run: target/trace_codes <crates/replay/stdin */
#include "input.h"
#include "output.h"
#include "trace_run.h"

enum { LEAST_RECORD = 14 };

int main(int count, char **arguments) {
    (void)arguments;
    size_t length;
    uint8_t *trace = read_all(&length);
    if (trace == NULL) return cannot("trace_codes", "read the trace");
    size_t most = length / LEAST_RECORD + 1;
    uint8_t *codes = malloc(most);
    if (codes == NULL) return cannot("trace_codes", "hold the codes");
    TraceRunOutcome outcome = trace_run(trace, length, count > 1, codes, most);
    bool written = true;
    for (size_t i = 0; i < outcome.done && written; i++) written = put("%u\n", (unsigned)codes[i]);
    written = written && put("done %zu number %u\n", outcome.done, (unsigned)outcome.number);
    free(codes);
    free(trace);
    return written && close_output() ? 0 : cannot("trace_codes", "write");
}
