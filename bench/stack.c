/* A call is run on a stack of its own that was filled with a pattern; the lowest byte that changed says how deep it went. */
#include "stack.h"

#include <pthread.h>
#include <stdint.h>
#include <stdio.h>
#include <stdlib.h>
#include <string.h>

enum { SIZE = 1 << 20, PATTERN = 0xa5 };

static _Alignas(4096) uint8_t stack[SIZE];
static uint8_t *top;

static void *on_it(void *run)
{
    top = __builtin_frame_address(0);
    (*(void (**)(void))run)();
    return NULL;
}

size_t stack_of(void (*run)(void))
{
    pthread_attr_t attributes;
    pthread_t thread;
    run(); /* so that nothing is bound or first loaded on the stack that is measured */
    memset(stack, PATTERN, sizeof stack);
    if (pthread_attr_init(&attributes) || pthread_attr_setstack(&attributes, stack, SIZE) || pthread_create(&thread, &attributes, on_it, &run) || pthread_join(thread, NULL)) {
        perror("stack_of");
        exit(1);
    }
    pthread_attr_destroy(&attributes);
    size_t i = 0;
    while (i < SIZE && stack[i] == PATTERN)
        i++;
    return (size_t)(top - (stack + i));
}
