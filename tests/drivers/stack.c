/* Test driver, not proved: measures the stack that the sheet job and a train of eight full
   sheets need, amount sheets and class sheets in turn. Runs each by each method on a thread
   whose stack was filled with a fixed byte, and counts the bytes from the caller's frame
   down to the lowest byte that was changed. Prints the counts for each method; fails if one
   is above COUPLING_STACK, or if a call refuses. */
#define _GNU_SOURCE
#include <pthread.h>
#include <stdio.h>
#include <string.h>
#include <sys/mman.h>

#include "coupling.h"
#include "records.h"

#define STACK ((size_t)1 << 20)
#define PAINT 0xA5

struct call {
    uint32_t method, returned;
    const uint8_t *frame;
};

static uint8_t sheets[COUPLING_SHEETS_MAX][COUPLING_SHEET_MAX], out[COUPLING_SHEET_MAX];

static void *run_job(void *argument)
{
    struct call *call = argument;
    call->frame = __builtin_frame_address(0);
    call->returned = coupling_multiply(call->method, sheets[0], sizeof sheets[0], sheets[1], sizeof sheets[1], out, sizeof out);
    return NULL;
}

static void *run_train(void *argument)
{
    struct call *call = argument;
    call->frame = __builtin_frame_address(0);
    call->returned = coupling_train(call->method, COUPLING_SHEETS_MAX, sheets[0], sizeof sheets, out, sizeof out);
    return NULL;
}

/* The number of bytes of stack used, or 0 if the call failed. */
static size_t measure(void *(*run)(void *), uint32_t method)
{
    struct call call = {method, 0, NULL};
    pthread_attr_t attributes;
    pthread_t thread;
    size_t untouched = 0;
    uint8_t *stack = mmap(NULL, STACK, PROT_READ | PROT_WRITE, MAP_PRIVATE | MAP_ANONYMOUS | MAP_STACK, -1, 0);
    if (stack == MAP_FAILED)
        return 0;
    memset(stack, PAINT, STACK);
    if (pthread_attr_init(&attributes) != 0 || pthread_attr_setstack(&attributes, stack, STACK) != 0)
        return 0;
    if (pthread_create(&thread, &attributes, run, &call) != 0 || pthread_join(thread, NULL) != 0)
        return 0;
    pthread_attr_destroy(&attributes);
    while (untouched < STACK && stack[untouched] == PAINT)
        untouched++;
    size_t touched = (size_t)(call.frame - (stack + untouched));
    munmap(stack, STACK);
    return COUPLING_REFUSED(call.returned) ? 0 : touched;
}

int main(void)
{
    const uint32_t methods[] = {1, 3, 4, 5, 7};
    size_t most_job = 0, most_train = 0;
    for (int i = 0; i < COUPLING_SHEETS_MAX; i++)
        put_full_of(i % 2 == 0 ? AMOUNT_SHEET : CLASS_SHEET, sheets[i], true);
    for (int i = 0; i < 5; i++) {
        size_t job = measure(run_job, methods[i]), train = measure(run_train, methods[i]);
        printf("method %u: job %zu bytes, train %zu bytes\n", methods[i], job, train);
        if (job == 0 || train == 0)
            return 1;
        if (job > most_job)
            most_job = job;
        if (train > most_train)
            most_train = train;
    }
    printf("job %zu bytes, train %zu bytes at most, COUPLING_STACK is %d\n", most_job, most_train, COUPLING_STACK);
    return most_job > COUPLING_STACK || most_train > COUPLING_STACK;
}
