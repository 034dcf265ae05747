/*
 * A bench of sixteen cores from C or C++: a monitor for each node, one chart and one rule list for all. It prints, point by point, what the
 * monitor program prints for the same points, and holds its lines against that program's, byte by byte. bench.rs does the same from Rust. See
 * build.sh for the commands.
 */
#include "catrovindy.h"

#include <inttypes.h>
#include <stdarg.h>
#include <stdio.h>
#include <stdlib.h>
#include <string.h>

#define CENTRE 50000
#define SIGMA 400
#define CORES 4
#define PERIODS 9

static const uint32_t rules[CATROVINDY_SLOTS] = CATROVINDY_WESTERN_ELECTRIC;
static const uint32_t rule_count = CATROVINDY_WESTERN_ELECTRIC_COUNT;

/* Session counts, a row for each period, from cores on four of the nodes: 15 jumps once, 3 runs high, 0 is sound, 7 runs a little low. */
static const uint32_t cores[CORES] = {15, 3, 0, 7};
static const int32_t readings[PERIODS][CORES] = {
    {50230, 50437, 50129, 49835},
    {49745, 50616, 49755, 49957},
    {51304, 50127, 50333, 49801},
    {50160, 50704, 49636, 49933},
    {49909, 50516, 50187, 49681},
    {50028, 50419, 49975, 49990},
    {50105, 50866, 50229, 49872},
    {49917, 50515, 49843, 49760},
    {50014, 50543, 50073, 49888},
};

/*
 * What the bench keeps of a core: the monitor, as its state and its count of points since the last signal; and all its points and signals. The
 * count starts again after a signal, the number of all points does not: it is the period of a point.
 */
static struct {
    uint64_t state;
    uint32_t count, points, signals;
} nodes[CATROVINDY_NODES]; /* all 0: every monitor is fresh */

/* Lines one behind the other: those that the bench prints, and the text for the monitor program. */
static struct written {
    char bytes[4096];
    size_t length;
} lines, text;

/* One line more. */
static void add(struct written *to, const char *format, ...) {
    va_list numbers;
    va_start(numbers, format);
    to->length += (size_t)vsnprintf(to->bytes + to->length, sizeof to->bytes - to->length, format, numbers);
    va_end(numbers);
    if (to->length >= sizeof to->bytes) abort();
}

/* For calls that this program knows to be accepted. */
static void must(uint64_t code) {
    if (code != CATROVINDY_ACCEPTED) {
        fprintf(stderr, "refused,%" PRIu32 ",%" PRIu32 ",%s\n", catrovindy_number(code), catrovindy_place(code), catrovindy_meaning(code));
        exit(1);
    }
}

/* (a) A point goes to the monitor of its node, and no other monitor is touched. */
static void chart(uint32_t node, int32_t reading) {
    uint32_t zone, answer[CATROVINDY_STEP_ANSWER];
    must(catrovindy_zone(reading, CENTRE, SIGMA, &zone));
    must(catrovindy_step(rules, rule_count, &nodes[node].state, &nodes[node].count, zone, answer));
    nodes[node].points++;
    if (answer[CATROVINDY_STEP_MASK] == 0) {
        add(&lines, "quiet,%" PRIu32 ",%" PRIu32 ",%" PRIu32 "\n", node, answer[CATROVINDY_STEP_COUNT], nodes[node].points);
    } else {
        nodes[node].signals++;
        add(&lines, "signal,%" PRIu32 ",%" PRIu32 ",%" PRIu32 ",%" PRIu32 "\n", node, answer[CATROVINDY_STEP_COUNT],
            answer[CATROVINDY_STEP_MASK], nodes[node].points);
    }
}

/* (b) At the end a total for each node that has points. */
static void total(void) {
    for (uint32_t node = 0; node < CATROVINDY_NODES; node++) {
        if (nodes[node].points == 0) continue;
        add(&lines, "total,%" PRIu32 ",%" PRIu32 ",%" PRIu32 "\n", node, nodes[node].points, nodes[node].signals);
    }
}

/* (c) The same points as a text for the monitor program. */
static void write_text(void) {
    add(&text, "chart,%d,%d\n", CENTRE, SIGMA);
    for (uint32_t i = 0; i < rule_count; i++) {
        add(&text, "rule,%" PRIu32 ",%" PRIu32 ",%" PRIu32 "\n", rules[3 * i], rules[3 * i + 1], rules[3 * i + 2]);
    }
    for (int period = 0; period < PERIODS; period++) {
        for (int core = 0; core < CORES; core++) add(&text, "point,%" PRIu32 ",%" PRId32 "\n", cores[core], readings[period][core]);
    }
}

/* Whether the monitor program prints the bench's lines for it. */
static int alike(void) {
    static uint8_t printed[CATROVINDY_MONITOR_SIZE];
    uint64_t bytes;
    must(catrovindy_monitor_report((const uint8_t *)text.bytes, text.length, printed, &bytes));
    return bytes == lines.length && memcmp(printed, lines.bytes, lines.length) == 0;
}

int main(void) {
    for (int period = 0; period < PERIODS; period++) {
        for (int core = 0; core < CORES; core++) chart(cores[core], readings[period][core]);
    }
    total();
    fwrite(lines.bytes, 1, lines.length, stdout);
    write_text();
    if (!alike()) {
        fprintf(stderr, "the monitor program prints other lines\n");
        return 1;
    }
    return 0;
}
