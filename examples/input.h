/* Standard input as a whole. */
#ifndef INPUT_H
#define INPUT_H
#include <stdint.h>
#include <stdio.h>
#include <stdlib.h>

enum { FIRST_ROOM = 65536 };

/* All of standard input, or NULL where it cannot be read. */
static uint8_t *read_all(size_t *length) {
    uint8_t *bytes = NULL;
    size_t room = 0;
    for (*length = 0; !feof(stdin) && !ferror(stdin); *length += fread(bytes + *length, 1, room - *length, stdin)) {
        if (*length < room) continue;
        room = room == 0 ? FIRST_ROOM : 2 * room;
        uint8_t *more = realloc(bytes, room);
        if (more == NULL) break;
        bytes = more;
    }
    if (feof(stdin) && !ferror(stdin)) return bytes;
    free(bytes);
    return NULL;
}
#endif
