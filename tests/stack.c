/* Measures how much stack each call uses on its largest inputs: it runs on a stack filled with one byte, of which the
 * lowest one that changes shows how deep the call went. Prints a row for each call, the bytes for the caller that takes
 * more; tests/manual compares them with the manual's figures. */
#define _GNU_SOURCE
#include <pthread.h>

/* 4 MB of script. */
enum { MOVES = (4 << 20) / 7 };
#include "calls.h"

enum { STACK = 4 << 20, UNTOUCHED = 0xA5 };

static void nothing(void) {}

static void *run(void *call) {
    (*(void (**)(void))call)();
    return NULL;
}

/* The bytes of stack that a thread touches that makes this call. */
static size_t depth(void (*call)(void)) {
    static _Alignas(4096) uint8_t stack[STACK];
    memset(stack, UNTOUCHED, STACK);
    pthread_attr_t attributes;
    pthread_t thread;
    if (pthread_attr_init(&attributes) || pthread_attr_setstack(&attributes, stack, STACK)
        || pthread_create(&thread, &attributes, run, &call) || pthread_join(thread, NULL)) {
        fprintf(stderr, "stack: no thread\n");
        exit(1);
    }
    size_t place = 0;
    while (place < STACK && stack[place] == UNTOUCHED) {
        place++;
    }
    return STACK - place;
}

int main(void) {
    size_t most[CALLS] = {0};
    for (size_t served = 0; served < CALLERS; served++) {
        serve(callers[served]);
        size_t without = depth(nothing);
        for (size_t call = 0; call < CALLS; call++) {
            /* A thread's own beginning and end can take more than a call. */
            size_t deepest = depth(calls[call].make);
            size_t bytes = deepest > without ? deepest - without : 0;
            most[call] = bytes > most[call] ? bytes : most[call];
        }
    }
    for (size_t call = 0; call < CALLS; call++) {
        printf("%s %zu\n", calls[call].name, most[call]);
    }
    return 0;
}
