/* How deep a call goes into the stack. */
#ifndef STACK_H
#define STACK_H

#include <stddef.h>

/* Runs the call on a painted stack of its own and gives the bytes from the caller's end to the deepest one written, less those that an
   empty call writes. */
size_t stack_depth(void (*call)(void));

#endif
