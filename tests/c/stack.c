/* One call of a function of the header, the first of its process, in a thread
 * that has just so many octets of stack left, above a closed page.
 *
 * stack FUNCTION OCTETS NUMBER FILE [OTHER]
 *
 * FUNCTION  read, write, most, plan, examine or log
 * OCTETS    of stack; 0 for as many as the header states
 * NUMBER    horizon or amount; 0 where none is asked
 * FILE      a network's record; for write, its numbers as they lie in memory
 * OTHER     for examine, a plan's record; for log, a link log to be replayed
 *
 * Prints what the header states, how many octets the call touched, and what it
 * returned. A call that needs more than it has ends the process. */
#define _GNU_SOURCE
#include "pudeyan.h"

#include <alloca.h>
#include <pthread.h>
#include <stdio.h>
#include <stdlib.h>
#include <string.h>
#include <sys/mman.h>

enum { PAGE = 4096, SPARE = 65536, FILL = 0xA5 };

static const char *function;
static uint64_t number;
static uint8_t file[65536], plan[65536];
static size_t file_len, plan_len;
static size_t octets;
static uint8_t *lowest; /* octet of the thread's stack */
static uint32_t refusal;

static uint8_t buffer[PUDEYAN_PLAN_BUFFER];
static uint32_t numbers[PUDEYAN_NUMBERS];
static uint64_t first, second;
static uint32_t verdict;

static void check(int failed, const char *what) {
    if (failed) {
        fprintf(stderr, "stack: %s failed\n", what);
        exit(2);
    }
}

static size_t stated(void) {
    switch (function[0]) {
    case 'r': return PUDEYAN_STACK_READ;
    case 'w': return PUDEYAN_STACK_WRITE;
    case 'm': return PUDEYAN_STACK_MOST;
    case 'p': return PUDEYAN_STACK_PLAN;
    case 'l': return PUDEYAN_STACK_REPLAY;
    default: return PUDEYAN_STACK_EXAMINE;
    }
}

static __attribute__((noinline)) void call(void) {
    switch (function[0]) {
    case 'r': refusal = pudeyan_read_network(file, file_len, numbers); break;
    case 'w': refusal = pudeyan_write_network(numbers, buffer, sizeof buffer, &first); break;
    case 'm': refusal = pudeyan_most(file, file_len, number, numbers, PUDEYAN_PLACES_MOST, &first); break;
    case 'p': refusal = pudeyan_plan(file, file_len, number, buffer, sizeof buffer, &first, &second); break;
    case 'l': refusal = pudeyan_replay(file, file_len, plan, plan_len, &verdict, &first); break;
    default: refusal = pudeyan_examine(file, file_len, plan, plan_len, &verdict, &first); break;
    }
}

/* Fills what the call has, and calls. What is left of the stack at the call is
 * `octets`, less the few of this frame. */
static __attribute__((noinline)) void fill_and_call(void) {
    volatile uint8_t *at = lowest;
    volatile uint8_t *end = (uint8_t *)__builtin_frame_address(0) - 256;
    for (; at < end; ++at) {
        *at = FILL;
    }
    call();
}

/* Gives up the thread's stack but for `octets`. */
static void *in_thread(void *unused) {
    uint8_t *here = __builtin_frame_address(0);
    size_t left = (size_t)(here - lowest);
    volatile uint8_t *given_up;
    check(left <= octets, "keeping the thread's start small");
    given_up = alloca(left - octets);
    given_up[0] = 0;
    fill_and_call();
    return unused;
}

static size_t read_file(const char *name, uint8_t *to, size_t room) {
    FILE *f = fopen(name, "rb");
    size_t got;
    if (f == NULL) {
        perror(name);
        exit(2);
    }
    got = fread(to, 1, room, f);
    fclose(f);
    return got;
}

int main(int count, char **words) {
    pthread_attr_t attributes;
    pthread_t thread;
    size_t size, touched, i;
    uint8_t *map;

    check(count < 5 || count > 6, "reading the command line");
    function = words[1];
    octets = strtoull(words[2], NULL, 10);
    number = strtoull(words[3], NULL, 10);
    file_len = read_file(words[4], file, sizeof file);
    if (count == 6) {
        plan_len = read_file(words[5], plan, sizeof plan);
    }
    if (function[0] == 'w') {
        check(file_len != sizeof numbers, "reading the numbers");
        for (i = 0; i < sizeof numbers; ++i) {
            ((uint8_t *)numbers)[i] = file[i];
        }
    }
    octets = octets == 0 ? stated() : octets;

    /* A closed page, the stack, and what a thread's own start takes of it. */
    size = (octets + PAGE - 1) / PAGE * PAGE + SPARE;
    map = mmap(NULL, PAGE + size, PROT_READ | PROT_WRITE, MAP_PRIVATE | MAP_ANONYMOUS, -1, 0);
    check(map == MAP_FAILED, "mmap");
    check(mprotect(map, PAGE, PROT_NONE) != 0, "mprotect");
    lowest = map + PAGE;
    check(pthread_attr_init(&attributes) != 0, "pthread_attr_init");
    check(pthread_attr_setstack(&attributes, lowest, size) != 0, "pthread_attr_setstack");
    check(pthread_create(&thread, &attributes, in_thread, NULL) != 0, "pthread_create");
    check(pthread_join(thread, NULL) != 0, "pthread_join");

    touched = octets;
    for (i = 0; i < octets && lowest[i] == FILL; ++i) {
        --touched;
    }
    printf("stated %zu touched %zu refusal %u\n", stated(), touched, (unsigned)refusal);
    return 0;
}
