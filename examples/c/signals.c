/*
 * What signals during a call leave on the stack, after wim_scrub.
 *
 * A thread makes wim_bench, which takes more stack than any other call, on a stack filled with a
 * pattern, and is sent signals all the while; for each the system lays the registers below the
 * call. Then the thread blocks signals and scrubs. All that was touched must then be zero but for
 * NEAREST bytes next to the caller's frame. It is tried until a handler has stood deeper than the
 * call itself ever does, which shows that there was something to overwrite.
 */
#define _POSIX_C_SOURCE 200809L

#include "calls.h"

#include <pthread.h>
#include <signal.h>
#include <stdatomic.h>
#include <stdio.h>
#include <stdlib.h>
#include <string.h>

#define SIZE ((size_t)1 << 20)
#define PATTERN 0xA5
#define NEAREST 64
#define TRIES 2000
#define SCHEME WIM_BCNS /* in which it goes deepest */

static struct lent lent;
static uint32_t refusal;
static int scrubs;
static uint8_t *frame;
static _Atomic(uint8_t *) lowest; /* where a handler stood deepest */
static atomic_int calling, called, waits, goes;
static atomic_ulong came;

static void come(int unused)
{
    uint8_t here;

    (void)unused;
    if (&here < atomic_load(&lowest))
        atomic_store(&lowest, &here);
    atomic_fetch_add(&came, 1);
}

static void *caller(void *unused)
{
    sigset_t all;
    uint8_t here;

    (void)unused;
    frame = &here;
    sigfillset(&all);
    atomic_store(&lowest, &here);
    atomic_store(&calling, 1);
    refusal = calls[BENCH].make(&lent);
    pthread_sigmask(SIG_SETMASK, &all, NULL);
    atomic_store(&called, 1);
    if (scrubs)
        wim_scrub();
    /* No function is called while the stack is being looked at, so that nothing of it changes. */
    atomic_store(&waits, 1);
    while (!atomic_load(&goes))
        ;
    return NULL;
}

/* How far from the caller's frame the farthest byte lies that is neither the pattern nor, after a
 * scrub, zero; SIZE where the call failed. */
static size_t run(uint8_t *stack, int signals)
{
    pthread_attr_t attributes;
    pthread_t thread;
    size_t depth, at = 0;

    memset(stack, PATTERN, SIZE);
    atomic_store(&calling, 0);
    atomic_store(&called, 0);
    atomic_store(&waits, 0);
    atomic_store(&goes, 0);
    if (pthread_attr_init(&attributes) != 0 ||
        pthread_attr_setstack(&attributes, stack, SIZE) != 0 ||
        pthread_create(&thread, &attributes, caller, NULL) != 0)
        return 0;
    while (!atomic_load(&calling))
        ;
    while (signals && !atomic_load(&called))
        pthread_kill(thread, SIGUSR1);
    while (!atomic_load(&waits))
        ;
    depth = (size_t)(frame - stack);
    while (at < depth && (stack[at] == PATTERN || (scrubs && stack[at] == 0)))
        at++;
    atomic_store(&goes, 1);
    pthread_join(thread, NULL);
    pthread_attr_destroy(&attributes);
    return refusal == WIM_DONE ? depth - at : SIZE;
}

int main(void)
{
    struct sigaction action = {.sa_handler = come};
    void *stack = NULL;
    size_t alone, deepest = 0, far = 0;
    int tries = 0;

    if (posix_memalign(&stack, 65536, SIZE) != 0 || sigaction(SIGUSR1, &action, NULL) != 0 ||
        draw_all(&lent, wim_sizes(SCHEME)) != WIM_DONE)
        return EXIT_FAILURE;
    alone = run(stack, 0);
    scrubs = 1;
    while (far <= NEAREST && deepest <= alone && tries++ < TRIES) {
        size_t stood;
        far = run(stack, 1);
        stood = (size_t)(frame - atomic_load(&lowest));
        deepest = stood > deepest ? stood : deepest;
    }
    printf("wim_bench takes %zu bytes of stack; of %lu signals the deepest was handled at %zu, and "
           "wim_scrub left zeros but for the nearest %zu bytes\n",
           alone, atomic_load(&came), deepest, far);
    free(stack);
    return alone < SIZE && deepest > alone && far <= NEAREST ? EXIT_SUCCESS : EXIT_FAILURE;
}
