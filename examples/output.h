/* Standard output with nothing lost in silence: each write is tested, and so is the close that flushes what is left. */
#ifndef OUTPUT_H
#define OUTPUT_H
#include <errno.h>
#include <stdarg.h>
#include <stdbool.h>
#include <stdio.h>
#include <string.h>

/* What could not be done, and why, on standard error. The status is for main to return. */
static inline int cannot(const char *program, const char *what) {
    fprintf(stderr, "%s: cannot %s: %s\n", program, what, strerror(errno));
    return 1;
}

/* printf, and whether it was written as far as can be told yet. */
static inline bool put(const char *format, ...) {
    va_list rest;
    va_start(rest, format);
    int written = vprintf(format, rest);
    va_end(rest);
    return written >= 0;
}

/* The last of the output. Of a file on another machine only this may tell that it was lost. */
static inline bool close_output(void) {
    return fclose(stdout) == 0;
}
#endif
