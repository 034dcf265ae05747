/*
 * Measures how much stack each function of the library takes, on its largest inputs: the call runs in a thread of its own, on a stack that
 * was filled with a pattern, and what is no longer pattern was taken. Each call has a process of its own, so that what the dynamic linker
 * takes at a first call is in the figure. Prints a line for each call. Ends with 1 where a call took more than the 256 KiB that the header
 * names, or did not answer as it should.
 */
#define _GNU_SOURCE
#include <inttypes.h>
#include <pthread.h>
#include <stdio.h>
#include <stdlib.h>
#include <string.h>
#include <sys/wait.h>
#include <unistd.h>

#include "catrovindy.h"

enum { STACK = 1 << 20, PATTERN = 0xA5, MOST = 256 * 1024, READINGS = 1000000 };

static const uint32_t western_electric[CATROVINDY_SLOTS] = CATROVINDY_WESTERN_ELECTRIC;
static const uint32_t many_states[CATROVINDY_SLOTS] = {3, 9, 6, 3, 8, 12};     /* 1,008 states */
static const uint32_t too_many_states[CATROVINDY_SLOTS] = {3, 9, 6, 3, 9, 12}; /* 1,296 states */
static const uint32_t weights[CATROVINDY_ZONES] = {134217728, 134217728, 134217728, 134217728, 134217728, 134217728, 134217728, 134217728};

static uint64_t pmf[CATROVINDY_MAX_HORIZON], survival[CATROVINDY_MAX_HORIZON], figures[CATROVINDY_FIGURES];
static uint32_t kinds[CATROVINDY_KINDS];
static double values[CATROVINDY_VALUES];
static uint64_t state[1], batch_answer[CATROVINDY_BATCH_ANSWER], bytes[1];
static uint32_t points[1], zone[1], step_answer[CATROVINDY_STEP_ANSWER], bracket_answer[CATROVINDY_BRACKET_ANSWER];
static uint32_t shift_weights[CATROVINDY_ZONES];
static int32_t readings[READINGS];
static uint8_t text[CATROVINDY_MAX_TEXT + 1], out[CATROVINDY_TABLE_SIZE]; /* the largest buffer of a report */
static size_t text_length;

static uint64_t of_check(void) { return catrovindy_check(western_electric, CATROVINDY_WESTERN_ELECTRIC_COUNT); }
static uint64_t of_zone(void) { return catrovindy_zone(-2147483647 - 1, 2147483647, CATROVINDY_MAX_SIGMA, zone); }
static uint64_t of_step(void) {
    return catrovindy_step(western_electric, CATROVINDY_WESTERN_ELECTRIC_COUNT, state, points, CATROVINDY_ZONE_C1, step_answer);
}
static uint64_t of_batch(void) {
    return catrovindy_batch(western_electric, CATROVINDY_WESTERN_ELECTRIC_COUNT, state, points, 0, 400, readings, READINGS, batch_answer);
}
static uint64_t of_shift_weights(void) { return catrovindy_shift_weights(-CATROVINDY_MAX_SHIFT, shift_weights); }
static uint64_t of_refused_shift(void) { return catrovindy_shift_weights(-2147483647 - 1, shift_weights); }
static uint64_t of_table(void) {
    return catrovindy_table(many_states, 2, weights, CATROVINDY_MAX_HORIZON, pmf, CATROVINDY_MAX_HORIZON, survival, CATROVINDY_MAX_HORIZON,
                            figures);
}
static uint64_t of_refused_table(void) {
    return catrovindy_table(too_many_states, 2, weights, CATROVINDY_MAX_HORIZON, pmf, CATROVINDY_MAX_HORIZON, survival,
                            CATROVINDY_MAX_HORIZON, figures);
}
static uint64_t of_bracket(void) { return catrovindy_bracket(pmf, CATROVINDY_MAX_HORIZON, 1008, 99, bracket_answer); }
static uint64_t of_plot(void) {
    return catrovindy_plot(many_states, 2, weights, CATROVINDY_MAX_HORIZON, pmf, CATROVINDY_MAX_HORIZON, survival, CATROVINDY_MAX_HORIZON,
                           kinds, values);
}
static uint64_t of_table_report(void) { return catrovindy_table_report(text, text_length, out, bytes); }
static uint64_t of_monitor_report(void) { return catrovindy_monitor_report(text, text_length, out, bytes); }
static uint64_t of_weights_report(void) { return catrovindy_weights_report(text, text_length, out, bytes); }

static uint64_t (*call)(void);
static uint64_t code;
static unsigned char *frame;

static void *run(void *none) {
    unsigned char here;
    frame = &here;
    code = call();
    return none;
}

/* Measures the bytes of stack below the frame that makes the call, and answers whether all was as it should be. */
static int measured(const char *name, uint64_t (*of)(void), uint32_t wanted) {
    unsigned char *stack;
    pthread_attr_t attributes;
    pthread_t thread;
    size_t untouched = 0, taken;
    if (posix_memalign((void **)&stack, 4096, STACK) != 0) return 0;
    memset(stack, PATTERN, STACK);
    call = of;
    if (pthread_attr_init(&attributes) != 0 || pthread_attr_setstack(&attributes, stack, STACK) != 0 ||
        pthread_create(&thread, &attributes, run, NULL) != 0 || pthread_join(thread, NULL) != 0) {
        puts("FAILED: no thread");
        return 0;
    }
    while (stack[untouched] == PATTERN) untouched++;
    taken = (size_t)(frame - (stack + untouched));
    printf("stack  %s: %zu bytes, of the %d that the header names\n", name, taken, MOST);
    if (taken > MOST || catrovindy_number(code) != wanted) {
        printf("FAILED %s: over %d bytes of stack, or refused by %" PRIu32 " and not by %" PRIu32 "\n", name, MOST, catrovindy_number(code), wanted);
        return 0;
    }
    return 1;
}

static int failed;

static void measure(const char *name, uint64_t (*of)(void), uint32_t wanted) {
    int status = 1;
    pid_t child;
    fflush(stdout);
    child = fork();
    if (child == 0) {
        const int good = measured(name, of, wanted);
        fflush(stdout);
        _exit(good ? 0 : 1);
    }
    if (child < 0 || waitpid(child, &status, 0) != child || status != 0) {
        printf("FAILED %s: it did not end well\n", name);
        failed = 1;
    }
}

static void add(const char *line) {
    while (*line != 0) text[text_length++] = (uint8_t)*line++;
}

int main(void) {
    int i;
    measure("check of a rule list", of_check, 0);
    measure("zone of a reading", of_zone, 0);
    measure("one point", of_step, 0);
    for (i = 0; i < READINGS; i++) readings[i] = i % 2 == 0 ? 399 : -399;
    measure("a batch of 1,000,000 readings", of_batch, 0);
    measure("weights of a shift", of_shift_weights, 0);
    measure("weights refused by 18", of_refused_shift, 18);
    measure("table, 1,008 states to 65,535", of_table, 0);
    measure("bracket of 65,535 chances", of_bracket, 0);
    measure("table refused by 10", of_refused_table, 10);
    measure("plot record, 1,008 states to 65,535", of_plot, 0);
    add("weights,134217728,134217728,134217728,134217728,134217728,134217728,134217728,134217728\nrule,3,9,6\nrule,3,8,12\nhorizon,4096\n");
    measure("table report, 1,008 states to 4,096", of_table_report, 0);
    text_length = 0;
    add("chart,0,1\nrule,1,1,1\n");
    for (i = 0; text_length + 11 <= CATROVINDY_MAX_TEXT; i++) {
        char line[24];
        sprintf(line, "point,%d,9\n", i % CATROVINDY_NODES);
        add(line);
    }
    measure("monitor report, 6,315 points on 16 nodes", of_monitor_report, 0);
    text_length -= 11;
    add("point,16,9\n");
    measure("monitor report refused by 19", of_monitor_report, 19);
    text_length = CATROVINDY_MAX_TEXT + 1;
    measure("monitor report refused by 17", of_monitor_report, 17);
    text_length = 0;
    add("shift,-150\n");
    measure("weights report", of_weights_report, 0);
    while (text_length + 10 <= CATROVINDY_MAX_TEXT) add("shift,150\n");
    measure("weights report refused by 16", of_weights_report, 16);
    return failed;
}
