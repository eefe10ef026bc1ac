/*
 * Runs every call, plans and hand plans of each kind, on a stack of just the bytes that include/planner.h promises for it, and
 * measures how many it needs. Prints what fails and ends with 1, or ends with 0; with --measure it prints the numbers for the
 * header as well. It is linked with -Wl,-z,now.
 */
#define _GNU_SOURCE
#include <limits.h>
#include <pthread.h>
#include <stdio.h>
#include <stdlib.h>
#include <sys/mman.h>
#include <sys/wait.h>
#include <ucontext.h>
#include <unistd.h>

#include "stack_cases.h"
#include "stack_faults.h"

/* How far a promise may be above what was measured, and the room and the step by which it is made from that. */
enum { SLACK = 4096, ROOM = 256, STEP = 512 };

static int failures = 0;

/* What this test's own frames take above a call, measured by a call that does nothing. */
static size_t own_frames = 0;

/* The low end of a stack of this size, below which memory can't be touched. */
static uint8_t *guarded_stack(size_t size) {
    size_t page = (size_t)sysconf(_SC_PAGESIZE);
    uint8_t *memory = mmap(NULL, page + (size + page - 1) / page * page, PROT_READ | PROT_WRITE, MAP_PRIVATE | MAP_ANONYMOUS, -1, 0);
    if (memory == MAP_FAILED || mprotect(memory, page, PROT_NONE) != 0) {
        perror("stack: a stack with a guard");
        exit(2);
    }
    return memory + page;
}

static void run_on(uint8_t *low, size_t size, void (*run)(void)) {
    static ucontext_t here, there;
    getcontext(&there);
    there.uc_stack.ss_sp = low;
    there.uc_stack.ss_size = size;
    there.uc_link = &here;
    makecontext(&there, run, 0);
    swapcontext(&here, &there);
}

/* How deep a call writes below its caller's frame: over two patterns, since it may write a pattern's own byte. */
static size_t depth(void (*run)(void)) {
    static const uint8_t patterns[2] = {0x5a, 0xa5};
    size_t size = 2 * PLANNER_STACK_MOST, most = 0;
    uint8_t *low = guarded_stack(size);
    for (int i = 0; i < 2; i++) {
        size_t untouched = 0;
        memset(low, patterns[i], size);
        run_on(low, size, run);
        while (untouched < size && low[untouched] == patterns[i]) {
            untouched++;
        }
        most = size - untouched > most ? size - untouched : most;
    }
    return most - own_frames;
}

/* Kept out of line like the library's calls; its depth is that of its return address. */
__attribute__((noinline)) static uint64_t nothing(uint64_t number) {
    __asm__ volatile("" : "+r"(number));
    return number;
}

static void run_nothing(void) {
    answer = nothing(answer);
}

/* What a child tells the test: how deep its call went, and its refusal. */
static struct {
    size_t depth;
    uint32_t refusal;
} *told;

/* In a child, which dies if they are too few: measures a call, and runs it on this many bytes. */
static void run_measured(const struct call *call, size_t bytes) {
    told->depth = depth(call->run);
    run_on(guarded_stack(bytes + own_frames), bytes + own_frames, call->run);
}

static void *run_call(void *call) {
    ((const struct call *)call)->run();
    return NULL;
}

/* In a child likewise: runs a call on a thread with these bytes and the least that a thread needs. */
static void run_threaded(const struct call *call, size_t bytes) {
    pthread_attr_t attributes;
    pthread_t thread;
    struct call copy = *call;
    if (pthread_attr_init(&attributes) || pthread_attr_setstacksize(&attributes, bytes + (size_t)PTHREAD_STACK_MIN) ||
        pthread_create(&thread, &attributes, run_call, &copy) || pthread_join(thread, NULL)) {
        _exit(2);
    }
}

/* Runs a call in a child, with a fault or none, and reports if it dies or its refusal is another than the fault's. */
static void test(const struct call *call, const struct fault *fault, size_t bytes, void (*run)(const struct call *, size_t), const char *on) {
    int status = 1;
    told->depth = 0;
    pid_t child = fork();
    if (child == 0) {
        if (fault) {
            fault->put();
        }
        run(call, bytes);
        told->refusal = planner_refusal(answer);
        _exit(0);
    }
    if (child == -1 || waitpid(child, &status, 0) != child || status != 0) {
        printf("stack: %s, %s: died on %zu bytes (status %d), measured: %zu\n", call->name, on, bytes, status, told->depth);
        failures++;
    } else if (told->refusal != (fault ? fault->refusal : 0)) {
        printf("stack: %s, %s: refusal %u\n", call->name, on, (unsigned)told->refusal);
        failures++;
    }
}

static size_t larger(size_t a, size_t b) {
    return a > b ? a : b;
}

/* The depth of a call that is accepted, over all towns that it accepts; its first town it also plans on a thread. */
static size_t test_accepted(const struct call *call) {
    size_t most = 0;
    for (size_t i = 0; i < TOWNS; i++) {
        const struct town *town = &towns[i];
        char on[96];
        if (kind_of(call) == PLANNER_BALANCED && town->n < town->k) {
            continue;
        }
        make_town(town->n, town->m, town->k, kind_of(call), town->lists, town->top);
        snprintf(on, sizeof on, "town %zu (%zu streets, %zu sites, K %zu, weights to %zu)", i, n, m, k, town->top);
        test(call, NULL, call->promise, run_measured, on);
        most = larger(most, told->depth);
        if (i == 0) {
            test(call, NULL, call->promise, run_threaded, "on a thread");
        }
    }
    return most;
}

/* The depth of a call that refuses, over all faults that it can meet. Both its own promise and that of a refusal have to do. */
static size_t test_refused(const struct call *call) {
    size_t most = 0, bytes = call->promise < PLANNER_STACK_REFUSED ? call->promise : PLANNER_STACK_REFUSED;
    make_town(towns[0].n, towns[0].m, towns[0].k, kind_of(call), towns[0].lists, towns[0].top);
    for (size_t i = 0; i < FAULTS; i++) {
        if (call->refuses & faults[i].concerns) {
            test(call, &faults[i], bytes, run_measured, faults[i].name);
            most = larger(most, told->depth);
        }
    }
    return most;
}

/* Reports a promise that is far above what was measured, and for --measure prints what it should be. */
static void compare(const char *name, size_t promise, size_t accepted, size_t refused, int print) {
    size_t measured = larger(accepted, refused);
    if (promise > measured + SLACK) {
        printf("stack: PLANNER_STACK_%s promises %zu, measured: %zu\n", name, promise, measured);
        failures++;
    }
    if (print) {
        size_t rounded = (measured + ROOM + STEP - 1) / STEP * STEP;
        printf("#define PLANNER_STACK_%s %zu /* measured: %zu accepted, %zu refused */\n", name, rounded, accepted, refused);
    }
}

int main(int argc, char **argv) {
    int print = argc > 1 && !strcmp(argv[1], "--measure");
    size_t refused = 0, most = 0;
    told = mmap(NULL, sizeof *told, PROT_READ | PROT_WRITE, MAP_SHARED | MAP_ANONYMOUS, -1, 0);
    if (told == MAP_FAILED) {
        perror("stack");
        return 2;
    }
    setvbuf(stdout, NULL, _IONBF, 0); /* nothing waits in a buffer that a child would print again */
    own_frames = depth(run_nothing) - sizeof(void *);
    for (size_t i = 0; i < CALLS; i++) {
        size_t when_accepted = test_accepted(&calls[i]), when_refused = test_refused(&calls[i]);
        compare(calls[i].name, calls[i].promise, when_accepted, when_refused, print);
        refused = larger(refused, when_refused);
        most = larger(most, calls[i].promise);
    }
    compare("REFUSED", PLANNER_STACK_REFUSED, 0, refused, print);
    if (most != PLANNER_STACK_MOST) {
        printf("stack: PLANNER_STACK_MOST is %d, and the most is %zu\n", PLANNER_STACK_MOST, most);
        failures++;
    }
    return failures > 0;
}
