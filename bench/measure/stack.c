/* The work runs on a stack of its own that is painted before and looked over afterwards. */
#include "stack.h"

#include <stdio.h>
#include <stdlib.h>
#include <string.h>
#include <ucontext.h>

enum { ROOM_BYTES = 1 << 18, PAINT = 0xa5 };

static unsigned char painted[ROOM_BYTES] __attribute__((aligned(64)));

static void nothing(void)
{
}

static size_t untouched(void)
{
    size_t i = 0;
    while (i < ROOM_BYTES && painted[i] == PAINT)
        i++;
    return i;
}

static size_t used_by(void (*work)(void))
{
    ucontext_t here, there;
    memset(painted, PAINT, ROOM_BYTES);
    if (getcontext(&there) != 0) {
        perror("bench: getcontext");
        exit(2);
    }
    there.uc_stack.ss_sp = painted;
    there.uc_stack.ss_size = ROOM_BYTES;
    there.uc_link = &here;
    makecontext(&there, work, 0);
    swapcontext(&here, &there);
    return ROOM_BYTES - untouched();
}

size_t stack_of(void (*work)(void))
{
    return used_by(work) - used_by(nothing);
}
