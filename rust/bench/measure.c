/* What calls take: the processor time of a thread; and, of a call that is run on a stack of its own,
 * filled beforehand, the bytes and pages that it touched. */
#define _GNU_SOURCE
#include <pthread.h>
#include <stddef.h>
#include <stdint.h>
#include <string.h>
#include <sys/mman.h>
#include <sys/resource.h>
#include <time.h>

/* Nanoseconds that the calling thread has run; 0 where the system does not tell. */
uint64_t bench_c_nanoseconds(void) {
    struct timespec run;
    if (clock_gettime(CLOCK_THREAD_CPUTIME_ID, &run) != 0) return 0;
    return (uint64_t)run.tv_sec * 1000000000 + (uint64_t)run.tv_nsec;
}

enum { STACK = 1 << 20, FILL = 0xa5 };

/* A call, and what was seen: where its stack began, and the pages that were new to the thread. */
struct bench_c_call {
    void (*run)(void *);
    void *with;
    uint8_t *begin;
    long pages;
};

static long pages(void) {
    struct rusage seen;
    return getrusage(RUSAGE_THREAD, &seen) == 0 ? seen.ru_minflt : -1;
}

static void *on_its_stack(void *given) {
    struct bench_c_call *call = given;
    pages(); /* its own first use is not the call's */
    call->begin = __builtin_frame_address(0);
    long before = pages();
    call->run(call->with);
    call->pages = pages() - before;
    return NULL;
}

/* Runs the call and gives the bytes of stack from its caller's frame to the last one touched; 0
 * where there was no stack or thread to be had. */
size_t bench_c_stack(struct bench_c_call *call) {
    uint8_t *stack =
        mmap(NULL, STACK, PROT_READ | PROT_WRITE, MAP_PRIVATE | MAP_ANONYMOUS, -1, 0);
    if (stack == MAP_FAILED) return 0;
    memset(stack, FILL, STACK);
    pthread_attr_t attributes;
    pthread_t thread;
    size_t used = 0;
    if (pthread_attr_init(&attributes) == 0) {
        if (pthread_attr_setstack(&attributes, stack, STACK) == 0 &&
            pthread_create(&thread, &attributes, on_its_stack, call) == 0 &&
            pthread_join(thread, NULL) == 0) {
            size_t untouched = 0;
            while (stack[untouched] == FILL) untouched++;
            used = (size_t)(call->begin - (stack + untouched));
        }
        pthread_attr_destroy(&attributes);
    }
    munmap(stack, STACK);
    return used;
}
