// A part of the library of tests/call_log.c that refuses memory: to one thread of the server as long as the test says so, or one request of
// any thread. Each thread has the least number from 1 on that no other has as it is made, up to 63. The main thread has none.
#define _GNU_SOURCE
#include <dlfcn.h>
#include <errno.h>
#include <pthread.h>
#include <stddef.h>
#include <stdlib.h>

#include "call_control.h"

struct beginning {
    void *(*function)(void *);
    void *argument;
    uint64_t number;
};

// The C library's own, by the names that it has for who puts himself before it.
void *__libc_malloc(size_t);
void *__libc_calloc(size_t, size_t);
void *__libc_realloc(void *, size_t);
void *__libc_memalign(size_t, size_t);

// The numbers that threads have, a bit for each. That of the main thread stands for none.
static _Atomic uint64_t taken = 1;
// It is laid out as the thread is made, so that to look at it takes no memory.
static _Thread_local uint64_t number __attribute__((tls_model("initial-exec")));

// Whether this request is the one that is refused.
static int is_due(void) {
    uint64_t left = control->memory_due;
    while (left && !atomic_compare_exchange_weak(&control->memory_due, &left, left - 1))
        ;
    return left == 1;
}

static int is_refused(void) {
    if ((!number || control->thread_without_memory != number) && !is_due())
        return 0;
    control->memory_refusals++;
    errno = ENOMEM;
    return 1;
}

static uint64_t take_number(void) {
    for (uint64_t old = taken;;) {
        uint64_t least = ~old & (old + 1);
        if (!least)
            abort();
        if (atomic_compare_exchange_weak(&taken, &old, old | least))
            return __builtin_ctzll(least);
    }
}

static void give_back(uint64_t number) {
    taken &= ~((uint64_t)1 << number);
}

static void *begin_thread(void *given) {
    struct beginning beginning = *(struct beginning *)given;
    free(given);
    number = beginning.number;
    void *result = beginning.function(beginning.argument);
    give_back(beginning.number);
    return result;
}

int pthread_create(pthread_t *thread, const pthread_attr_t *attributes, void *(*function)(void *), void *argument) {
    int (*next)(pthread_t *, const pthread_attr_t *, void *(*)(void *), void *) = dlsym(RTLD_NEXT, "pthread_create");
    struct beginning *beginning = __libc_malloc(sizeof *beginning);
    if (!beginning)
        return EAGAIN;
    *beginning = (struct beginning){function, argument, take_number()};
    int error = next(thread, attributes, begin_thread, beginning);
    if (error) {
        give_back(beginning->number);
        free(beginning);
    }
    return error;
}

void *malloc(size_t size) {
    return is_refused() ? NULL : __libc_malloc(size);
}

void *calloc(size_t count, size_t size) {
    return is_refused() ? NULL : __libc_calloc(count, size);
}

void *realloc(void *old, size_t size) {
    return is_refused() ? NULL : __libc_realloc(old, size);
}

void *aligned_alloc(size_t alignment, size_t size) {
    return is_refused() ? NULL : __libc_memalign(alignment, size);
}

int posix_memalign(void **given, size_t alignment, size_t size) {
    void *memory = is_refused() ? NULL : __libc_memalign(alignment, size);
    if (!memory)
        return ENOMEM;
    *given = memory;
    return 0;
}
