/* Room between two pages that may not be touched, and the bytes of a word of hex digits. Before this header _DEFAULT_SOURCE is defined. */
#ifndef GUARDED_H
#define GUARDED_H
#include <stdbool.h>
#include <stddef.h>
#include <stdint.h>
#include <string.h>
#include <sys/mman.h>
#include <sys/types.h>
#include <unistd.h>

enum { ROOM = 65536, MARK = 0xd3 };

/* ROOM bytes between two pages that may not be touched; where they end, or NULL. */
static uint8_t *room_end(void) {
    size_t page = (size_t)sysconf(_SC_PAGESIZE);
    uint8_t *at = mmap(NULL, ROOM + 2 * page, PROT_NONE, MAP_PRIVATE | MAP_ANONYMOUS, -1, 0);
    return at == MAP_FAILED || mprotect(at + page, ROOM, PROT_READ | PROT_WRITE) != 0 ? NULL : at + page + ROOM;
}

static int hex_value(char c) {
    return c >= '0' && c <= '9' ? c - '0' : c >= 'a' && c <= 'f' ? c - 'a' + 10 : -1;
}

/* The bytes of a word of hex digits into `bytes`, of `-` none; whether it is such a word. */
static bool bytes_of(const char *word, uint8_t *bytes, size_t *length) {
    *length = 0;
    if (strcmp(word, "-") == 0) return true;
    for (; word[0] != '\0'; word += 2) {
        int high = hex_value(word[0]), low = high < 0 ? -1 : hex_value(word[1]);
        if (low < 0 || *length == ROOM) return false;
        bytes[(*length)++] = (uint8_t)(high * 16 + low);
    }
    return true;
}
#endif
