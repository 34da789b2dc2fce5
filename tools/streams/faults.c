/* Loaded before the C library, makes standard input and output fail as FAULTS says, a word and a number:
   interrupted 0     every second read and write is interrupted or would block, the others move at most 1,000 bytes
   short N           a read and a write move at most N bytes
   read N, write N   the first N bytes are read or written, and from there on every call fails with EIO
   zero N            the first N bytes are written, and from there on no write takes a byte, or fails
   close 0           what was written is lost as late as at the end: fsync fails with EIO, and so does the close of standard output */
#define _GNU_SOURCE
#include <dlfcn.h>
#include <errno.h>
#include <stdbool.h>
#include <stdio.h>
#include <stdlib.h>
#include <string.h>
#include <sys/types.h>

typedef ssize_t Reads(int, void *, size_t);
typedef ssize_t Writes(int, const void *, size_t);
typedef int Ends(int);

/* Whether FAULTS has this word, and its number. */
static bool told(const char *word, size_t *number) {
    char found[16];
    const char *faults = getenv("FAULTS");
    return faults != NULL && sscanf(faults, "%15s %zu", found, number) == 2 && strcmp(found, word) == 0;
}

/* How many of the n bytes the call may move, 0 where it fails with errno. `done` were moved so far. */
static size_t allowed(const char *word, size_t n, size_t done) {
    static unsigned calls;
    size_t number;
    if (told("interrupted", &number)) {
        calls++;
        errno = calls % 4 == 1 ? EINTR : EAGAIN;
        return calls % 2 == 1 ? 0 : n < 1000 ? n : 1000;
    }
    if (told("short", &number)) return n < number ? n : number;
    if (!told(word, &number)) return n;
    errno = EIO;
    return n < number - done ? n : number - done;
}

/* The bytes moved so far, and what the call answers. */
static ssize_t counted(ssize_t moved, size_t *done) {
    if (moved > 0) *done += (size_t)moved;
    return moved;
}

ssize_t read(int fd, void *at, size_t n) {
    static size_t done;
    Reads *real;
    *(void **)&real = dlsym(RTLD_NEXT, "read");
    if (fd != 0 || n == 0) return real(fd, at, n);
    size_t most = allowed("read", n, done);
    return most == 0 ? -1 : counted(real(fd, at, most), &done);
}

ssize_t write(int fd, const void *at, size_t n) {
    static size_t done;
    size_t number;
    Writes *real;
    *(void **)&real = dlsym(RTLD_NEXT, "write");
    if (fd != 1 || n == 0) return real(fd, at, n);
    bool zero = told("zero", &number);
    size_t most = allowed(zero ? "zero" : "write", n, done);
    return most == 0 ? (zero ? 0 : -1) : counted(real(fd, at, most), &done);
}

/* A call that ends with the file at fd, or fails with EIO where it is asked to. */
static int ended(const char *name, int fd, bool fails) {
    Ends *real;
    *(void **)&real = dlsym(RTLD_NEXT, name);
    if (!fails) return real(fd);
    errno = EIO;
    return -1;
}

int close(int fd) {
    size_t number;
    return ended("close", fd, fd == 1 && told("close", &number));
}

int fsync(int fd) {
    size_t number;
    return ended("fsync", fd, told("close", &number));
}
