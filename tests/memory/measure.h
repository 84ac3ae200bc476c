/* How deep the stack goes in a call. Each call runs in a thread of its own, on a stack that was painted before; what is measured is the distance from the
 * stack pointer in front of the call, before its arguments, down to the lowest byte that lost its paint: arguments, return address, every frame below,
 * and the bytes below the stack pointer that a function without calls may use. Each call is measured with two paints, so that no byte hides by being
 * written with the paint's own value. What a frame sets aside and never writes is not seen. */
#ifndef MEASURE_H
#define MEASURE_H

#include "rolsipay.h"

#include <pthread.h>
#include <stdio.h>
#include <stdlib.h>
#include <string.h>
#include <sys/mman.h>

/* Far more than any call takes. Below it lies a page that nobody may write, so that a call that took more would end the test by a signal. */
#define STACK (1 << 19)
#define PAGE 4096

/* The delivered calls. */
enum call { READ, RELEASE, REPORT, END, CALLS };

/* What the calls are given. */
static char text[ROLSIPAY_TEXT];
static size_t bytes;
static rolsipay_leaf row[ROLSIPAY_LEAVES];
static rolsipay_head head;
static rolsipay_state state;

/* The most that each call took, in any case so far. */
static size_t deepest[CALLS];

/* A call in a thread: the point of a report, where the stack stood in front of the call, and the refusal's number, or 0. */
struct job {
    enum call call;
    uint64_t point, number;
    uintptr_t top;
};

/* Makes the call, and gives the refusal's number, or 0. */
static uint64_t answered(enum call call, uint64_t point)
{
    if (call == READ)
        return rolsipay_read((const uint8_t *)text, bytes, row, ROLSIPAY_LEAVES, &head).number;
    if (call == RELEASE)
        return rolsipay_release(row, ROLSIPAY_LEAVES, &head, &state).number;
    if (call == REPORT)
        return rolsipay_report(row, ROLSIPAY_LEAVES, &head, &state, point, 0).number;
    return rolsipay_end(row, ROLSIPAY_LEAVES, &head, &state, 0).number;
}

/* Makes a job's call in a thread. */
static void *run(void *given)
{
    struct job *job = given;
    __asm__ volatile("mov %%rsp, %0" : "=r"(job->top));
    job->number = answered(job->call, job->point);
    return NULL;
}

/* Ends the test with a failure, once standard error has what is missing. */
static void missing(const char *what)
{
    perror(what);
    exit(2);
}

/* Makes a stack with the page below it. */
static unsigned char *guarded(void)
{
    unsigned char *page = mmap(NULL, PAGE + STACK, PROT_READ | PROT_WRITE, MAP_PRIVATE | MAP_ANONYMOUS, -1, 0);
    if (page == MAP_FAILED || mprotect(page, PAGE, PROT_NONE) != 0)
        missing("no stack");
    return page + PAGE;
}

/* Runs the job on a stack of this paint, and gives how far below its top the paint is gone. */
static size_t painted(struct job *job, int paint)
{
    static unsigned char *stack;
    pthread_attr_t attributes;
    pthread_t thread;
    size_t kept = 0;
    if (stack == NULL)
        stack = guarded();
    memset(stack, paint, STACK);
    pthread_attr_init(&attributes);
    if (pthread_attr_setstack(&attributes, stack, STACK) != 0 || pthread_create(&thread, &attributes, run, job) != 0)
        missing("no thread");
    pthread_join(thread, NULL);
    pthread_attr_destroy(&attributes);
    while (stack[kept] == paint)
        kept++;
    return job->top - (uintptr_t)(stack + kept);
}

/* Makes the call on either paint, notes how deep it went, and gives the refusal's number, or 0. The state is moved on once. */
static uint64_t measured(enum call call, uint64_t point)
{
    static const int paints[] = {0xA5, 0x5A};
    struct job job = {call, point, 0, 0};
    rolsipay_state before = state;
    for (int i = 0; i < 2; i++) {
        state = before;
        size_t depth = painted(&job, paints[i]);
        if (deepest[call] < depth)
            deepest[call] = depth;
    }
    return job.number;
}

#endif
