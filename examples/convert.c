/* Converts the text log on standard input to a trace on standard output, or with an argument the trace on standard input to a text log, as `to_trace` and
   `to_text` do. Input of any length is taken. Where and with which number a line or record was refused goes to standard error; what stands before it is written.
   The sample log is of three boxes for 56 minutes, each with a record every four minutes, in the same second by rising number. Box 2 is sound. The duct of box 5
   is blocked in minute 16 and freed in minute 44. Box 9 is unoccupied with its fan off, and measures next to nothing, sometimes less than nothing.
   Build: gcc -O2 -Iinclude examples/convert.c target/staticlib/libtext_log_c.a -o target/convert
   Run: target/convert <examples/sample_log.csv | target/convert back */
#include "input.h"
#include "output.h"
#include "text_log.h"

/* Output is never longer than three times the input. */
enum { MOST_GROWTH = 3 };

int main(int count, char **arguments) {
    (void)arguments;
    bool back = count > 1;
    size_t length;
    uint8_t *input = read_all(&length);
    if (input == NULL) return cannot("convert", "read the input");
    size_t room = MOST_GROWTH * length + 1;
    uint8_t *output = malloc(room);
    if (output == NULL) return cannot("convert", "hold the output");
    TextLogOutcome outcome = (back ? text_log_to_text : text_log_to_trace)(input, length, output, room);
    bool written = fwrite(output, 1, outcome.written, stdout) == outcome.written;
    free(output);
    free(input);
    if (!written || !close_output()) return cannot("convert", "write the output");
    if (outcome.number == TEXT_LOG_CLEAN_END) return 0;
    fprintf(stderr, "convert: %s %zu refused with %u\n", back ? "record" : "line", outcome.done + 1, (unsigned)outcome.number);
    return 1;
}
