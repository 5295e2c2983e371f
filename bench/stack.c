/* How much stack a call takes: it runs in a thread of its own whose stack was painted before, and
   what is no longer painted was used. And a call with the stack further down. */
#define _POSIX_C_SOURCE 200809L

#include <pthread.h>
#include <stddef.h>
#include <stdint.h>
#include <stdlib.h>
#include <string.h>

enum { STACK = 1 << 18, PAGE = 1 << 16 };

struct call {
    void (*run)(void *);
    void *about;
    /* A place in the frame that makes the call. */
    uint8_t *top;
};

static void *started(void *given)
{
    struct call *call = given;
    uint8_t here;
    call->top = &here;
    call->run(call->about);
    return NULL;
}

/* How far down the call wrote anything but this paint; 0 where no thread can be made. */
static size_t depth(struct call *call, uint8_t *stack, uint8_t paint)
{
    pthread_t thread;
    pthread_attr_t attributes;
    size_t lowest = 0;
    memset(stack, paint, STACK);
    if (pthread_attr_init(&attributes) != 0)
        return 0;
    int failed = pthread_attr_setstack(&attributes, stack, STACK) != 0 ||
                 pthread_create(&thread, &attributes, started, call) != 0 ||
                 pthread_join(thread, NULL) != 0;
    pthread_attr_destroy(&attributes);
    if (failed)
        return 0;
    while (stack[lowest] == paint)
        lowest++;
    return (size_t)(call->top - (stack + lowest));
}

/* Two paints, since what the call writes may look like one of them. */
size_t stack_of(void (*run)(void *), void *about)
{
    uint8_t *stack = aligned_alloc(PAGE, STACK);
    if (!stack)
        return 0;
    struct call call = {run, about, NULL};
    size_t one = depth(&call, stack, 0xA5), other = depth(&call, stack, 0x5A);
    free(stack);
    return one > other ? one : other;
}

/* Both ends of the padding are written, so that all of it lies between this frame and the call's. */
void run_below(size_t bytes, void (*run)(void *), void *about)
{
    volatile uint8_t padding[bytes + 1];
    padding[0] = 0;
    run(about);
    padding[bytes] = 0;
}
