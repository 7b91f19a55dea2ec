/* The stack that a call needs. */
#ifndef STACK_H
#define STACK_H

#include <stddef.h>

/* Bytes of a painted stack that the work changes, less those that no work at all changes. */
size_t stack_of(void (*work)(void));

/* The stack of each operation of the library, printed; and that of an insert, in bytes. A stack that is over what the header
 * promises is marked. */
size_t measure_stack(void);

#endif
