/* How deep a call goes. */
#ifndef STACK_H
#define STACK_H

#include <stddef.h>

/* The bytes of stack that run() uses below its caller's frame. */
size_t stack_of(void (*run)(void));

#endif
