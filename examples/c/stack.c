/*
 * How much stack each call takes, at most over all schemes. A thread's stack is filled with a
 * pattern, the thread makes one accepted call, and afterwards the pattern is gone as deep as the
 * call went. It counts from the frame of the function that calls. Fails where WIM_STACK is not
 * enough, or WIM_SCRUB_STACK for wim_scrub, or where the scrub does not go WIM_SCRUB_MORE deeper
 * than it was told. examples/c/depths reads the lines.
 */
#define _POSIX_C_SOURCE 200809L

#include "calls.h"

#include <pthread.h>
#include <stdio.h>
#include <stdlib.h>
#include <string.h>

#define SIZE ((size_t)1 << 20)
#define PATTERN 0xA5

static struct lent lent;
static uint32_t (*make)(struct lent *);
static uint32_t refusal;
static uint8_t *frame;

static uint32_t scrub(struct lent *unused)
{
    (void)unused;
    wim_scrub();
    return WIM_DONE;
}

#define SOME 2000 /* bytes of stack of some call */

static uint32_t scrub_depth(struct lent *unused)
{
    (void)unused;
    wim_scrub_depth(SOME);
    return WIM_DONE;
}

static void *caller(void *unused)
{
    uint8_t here;

    (void)unused;
    frame = &here;
    refusal = make(&lent);
    return NULL;
}

/* The bytes below the caller's frame that one call overwrote; SIZE where it was refused or could
 * not be run. */
static size_t depth(uint8_t *stack)
{
    pthread_attr_t attributes;
    pthread_t thread;
    size_t i = 0;

    memset(stack, PATTERN, SIZE);
    if (pthread_attr_init(&attributes) != 0 ||
        pthread_attr_setstack(&attributes, stack, SIZE) != 0 ||
        pthread_create(&thread, &attributes, caller, NULL) != 0)
        return SIZE;
    pthread_join(thread, NULL);
    pthread_attr_destroy(&attributes);
    if (refusal != WIM_DONE)
        return SIZE;
    while (stack[i] == PATTERN)
        i++;
    return (size_t)(frame - (stack + i));
}

int main(void)
{
    static size_t most[CALLS];
    void *stack = NULL;
    size_t scrubbed;
    int enough = 1;

    if (posix_memalign(&stack, 65536, SIZE) != 0)
        return EXIT_FAILURE;
    for (uint32_t k = 0; wim_sizes(k) != NULL; k++) {
        if (draw_all(&lent, wim_sizes(k)) != WIM_DONE)
            return EXIT_FAILURE;
        for (size_t i = 0; i < CALLS; i++) {
            size_t taken;
            make = calls[i].make;
            make(&lent); /* so that none is looked up for the first time while it is measured */
            taken = depth(stack);
            most[i] = taken > most[i] ? taken : most[i];
        }
    }
    for (size_t i = 0; i < CALLS; i++) {
        printf("%-20s %6zu bytes of stack\n", calls[i].name, most[i]);
        enough = enough && most[i] <= WIM_STACK;
    }
    make = scrub;
    scrubbed = depth(stack);
    printf("%-20s %6zu bytes of stack\n", "wim_scrub", scrubbed);
    enough = enough && scrubbed >= WIM_STACK + WIM_SCRUB_MORE && scrubbed <= WIM_SCRUB_STACK;
    make = scrub_depth;
    scrubbed = depth(stack);
    enough = enough && scrubbed >= SOME + WIM_SCRUB_MORE &&
             scrubbed <= SOME + WIM_SCRUB_MORE + 1024;
    free(stack);
    return enough ? EXIT_SUCCESS : EXIT_FAILURE;
}
