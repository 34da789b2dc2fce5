/* How many bytes of stack a call takes, seen on a painted stack of its own. */
#ifndef PAINTED_STACK_H
#define PAINTED_STACK_H
#include <stdlib.h>
#include <string.h>
#include <ucontext.h>

enum { STACK_ROOM = 131072, PAINT = 0xc5 };
static unsigned char stack[STACK_ROOM];
static ucontext_t here, there;

static void nothing(void) {}

/* The bytes that a call of `run` leaves written on a stack of its own. */
static size_t written_by(void (*run)(void)) {
    memset(stack, PAINT, STACK_ROOM);
    if (getcontext(&there) != 0) exit(2);
    there.uc_stack.ss_sp = stack;
    there.uc_stack.ss_size = STACK_ROOM;
    there.uc_link = &here;
    makecontext(&there, run, 0);
    if (swapcontext(&here, &there) != 0) exit(2);
    size_t unwritten = 0;
    while (unwritten < STACK_ROOM && stack[unwritten] == PAINT) unwritten++;
    return STACK_ROOM - unwritten;
}

/* The larger of the bytes seen before and those that a call of `run` writes beside what any call does. */
static size_t larger(size_t seen, void (*run)(void)) {
    size_t written = written_by(run) - written_by(nothing);
    return written > seen ? written : seen;
}
#endif
