/*
 * The edges of the calls from C and C++: lists of length 0 that are null, a batch of no readings, a full count, a plot record that is
 * refused, the last zone, the largest shifts, a text without points, a node beyond the last. Every exported function with a list is reached
 * by way of __wrap_..., see build.sh, which looks whether a null pointer gets there. Prints what is wrong, and nothing where nothing is.
 */
#include "catrovindy.h"

#include <stdio.h>
#include <string.h>

static int seen, nulls, failed;

static void see(const void *list) {
    seen++;
    nulls += list == NULL;
}

static void require(int holds, const char *what) {
    if (!holds) {
        printf("not so: %s\n", what);
        failed = 1;
    }
}

static int refused(uint64_t code, uint32_t number, uint32_t place) {
    return catrovindy_number(code) == number && catrovindy_place(code) == place;
}

#ifdef __cplusplus
extern "C" {
#endif

uint64_t __real_catrovindy_batch(const uint32_t *, uint32_t, uint64_t *, uint32_t *, int32_t, uint32_t, const int32_t *, size_t, uint64_t *);
uint64_t __wrap_catrovindy_batch(const uint32_t *slots, uint32_t count, uint64_t *state, uint32_t *points, int32_t centre, uint32_t sigma,
                                 const int32_t *readings, size_t length, uint64_t *answer) {
    see(readings);
    return __real_catrovindy_batch(slots, count, state, points, centre, sigma, readings, length, answer);
}

uint64_t __real_catrovindy_table(const uint32_t *, uint32_t, const uint32_t *, uint32_t, uint64_t *, size_t, uint64_t *, size_t, uint64_t *);
uint64_t __wrap_catrovindy_table(const uint32_t *slots, uint32_t count, const uint32_t *weights, uint32_t horizon, uint64_t *pmf,
                                 size_t pmf_length, uint64_t *survival, size_t survival_length, uint64_t *figures) {
    see(pmf);
    see(survival);
    return __real_catrovindy_table(slots, count, weights, horizon, pmf, pmf_length, survival, survival_length, figures);
}

uint64_t __real_catrovindy_bracket(const uint64_t *, size_t, uint32_t, uint32_t, uint32_t *);
uint64_t __wrap_catrovindy_bracket(const uint64_t *pmf, size_t pmf_length, uint32_t state_count, uint32_t percent, uint32_t *answer) {
    see(pmf);
    return __real_catrovindy_bracket(pmf, pmf_length, state_count, percent, answer);
}

uint64_t __real_catrovindy_plot(const uint32_t *, uint32_t, const uint32_t *, uint32_t, uint64_t *, size_t, uint64_t *, size_t, uint32_t *,
                                double *);
uint64_t __wrap_catrovindy_plot(const uint32_t *slots, uint32_t count, const uint32_t *weights, uint32_t horizon, uint64_t *pmf,
                                size_t pmf_length, uint64_t *survival, size_t survival_length, uint32_t *kinds, double *values) {
    see(pmf);
    see(survival);
    return __real_catrovindy_plot(slots, count, weights, horizon, pmf, pmf_length, survival, survival_length, kinds, values);
}

uint64_t __real_catrovindy_table_report(const uint8_t *, size_t, uint8_t *, uint64_t *);
uint64_t __wrap_catrovindy_table_report(const uint8_t *text, size_t length, uint8_t *out, uint64_t *bytes) {
    see(text);
    return __real_catrovindy_table_report(text, length, out, bytes);
}

uint64_t __real_catrovindy_monitor_report(const uint8_t *, size_t, uint8_t *, uint64_t *);
uint64_t __wrap_catrovindy_monitor_report(const uint8_t *text, size_t length, uint8_t *out, uint64_t *bytes) {
    see(text);
    return __real_catrovindy_monitor_report(text, length, out, bytes);
}

uint64_t __real_catrovindy_weights_report(const uint8_t *, size_t, uint8_t *, uint64_t *);
uint64_t __wrap_catrovindy_weights_report(const uint8_t *text, size_t length, uint8_t *out, uint64_t *bytes) {
    see(text);
    return __real_catrovindy_weights_report(text, length, out, bytes);
}

#ifdef __cplusplus
}
#endif

static const uint32_t rules[CATROVINDY_SLOTS] = CATROVINDY_DUNCAN;
static const uint32_t rule_count = CATROVINDY_DUNCAN_COUNT;
static const uint32_t weights[CATROVINDY_ZONES] = {CATROVINDY_WEIGHT_TOTAL, 0, 0, 0, 0, 0, 0, 0};
static const int32_t quiet[5] = {0, 0, 0, 0, 0};
static uint8_t table_lines[CATROVINDY_TABLE_SIZE], monitor_lines[CATROVINDY_MONITOR_SIZE], weights_line[CATROVINDY_WEIGHTS_SIZE];

/* Every list of every function once as null, with the length 0. */
static void null_lists(void) {
    uint64_t state = 0, bytes = 77, list[3], answer[CATROVINDY_BATCH_ANSWER], figures[CATROVINDY_FIGURES];
    uint32_t points = 3, place[CATROVINDY_BRACKET_ANSWER], kinds[CATROVINDY_KINDS];
    double values[CATROVINDY_VALUES];
    require(catrovindy_batch(rules, rule_count, &state, &points, 0, 1, NULL, 0, answer) == CATROVINDY_ACCEPTED, "no readings are accepted");
    require(answer[CATROVINDY_BATCH_TAKEN] == 0 && answer[CATROVINDY_BATCH_COUNT] == 3 && answer[CATROVINDY_BATCH_MASK] == 0 &&
                !catrovindy_batch_full(answer) && state == 0 && points == 3,
            "no readings leave the monitor");
    require(refused(catrovindy_table(rules, rule_count, weights, 3, NULL, 0, NULL, 0, figures), CATROVINDY_SHORT_LIST, 0), "11 for no lists");
    require(refused(catrovindy_table(rules, rule_count, weights, 3, list, 3, NULL, 0, figures), CATROVINDY_SHORT_LIST, 0), "11 for one list");
    require(refused(catrovindy_bracket(NULL, 0, 1, 50, place), CATROVINDY_BAD_LIST, 0), "12 for no chances");
    require(refused(catrovindy_plot(rules, rule_count, weights, 3, NULL, 0, NULL, 0, kinds, values), CATROVINDY_SHORT_LIST, 0),
            "11 for a plot with no lists");
    require(refused(catrovindy_table_report(NULL, 0, table_lines, &bytes), CATROVINDY_BAD_LINE, 1), "16 for no table text");
    require(refused(catrovindy_monitor_report(NULL, 0, monitor_lines, &bytes), CATROVINDY_BAD_LINE, 1), "16 for no monitor text");
    require(refused(catrovindy_weights_report(NULL, 0, weights_line, &bytes), CATROVINDY_BAD_LINE, 1), "16 for no shift text");
    require(bytes == 77, "a refused report leaves the number of bytes");
    require(seen == 11 && nulls == 0, "no null pointer gets to an exported function");
}

/* A batch of no readings is checked like a first reading. */
static void no_readings(void) {
    uint64_t state = 0, answer[CATROVINDY_BATCH_ANSWER] = {9, 9, 9, 9};
    uint32_t points = 3;
    require(refused(catrovindy_batch(rules, 0, &state, &points, 0, 0, NULL, 0, answer), CATROVINDY_BAD_RULE_COUNT, 0), "2 comes first");
    require(refused(catrovindy_batch(rules, rule_count, &state, &points, 0, 0, NULL, 0, answer), CATROVINDY_BAD_SIGMA, 0), "1 for sigma 0");
    state = 1;
    require(refused(catrovindy_batch(rules, rule_count, &state, &points, 0, 1, NULL, 0, answer), CATROVINDY_BAD_STATE, 0), "5 for a state");
    state = 0;
    points = CATROVINDY_MAX_COUNT;
    require(refused(catrovindy_batch(rules, rule_count, &state, &points, 0, 1, NULL, 0, answer), CATROVINDY_BAD_COUNT, 0), "7 for a count");
    require(answer[0] == 9 && answer[1] == 9 && answer[2] == 9 && answer[3] == 9, "a refused batch leaves the answer");
}

/* Two readings are counted, and for the third there is no number. */
static void full_count(void) {
    uint64_t state = 0, answer[CATROVINDY_BATCH_ANSWER];
    uint32_t points = CATROVINDY_MAX_COUNT - 2;
    require(catrovindy_batch(rules, rule_count, &state, &points, 0, 1, quiet, 5, answer) == CATROVINDY_ACCEPTED, "what was taken is accepted");
    require(answer[CATROVINDY_BATCH_TAKEN] == 2 && catrovindy_batch_full(answer), "the count is full after two readings");
    require(points == CATROVINDY_MAX_COUNT, "the monitor has the full count");
    require(refused(catrovindy_batch(rules, rule_count, &state, &points, 0, 1, quiet, 3, answer), CATROVINDY_BAD_COUNT, 0), "7 from then on");
}

/* A refused plot record leaves the struct; an accepted one fills it. */
static void plot_record(void) {
    struct catrovindy_box_plot plot, before;
    uint64_t pmf[4], survival[4];
    memset(&plot, 0x5A, sizeof plot);
    memcpy(&before, &plot, sizeof plot);
    require(refused(catrovindy_fill_box_plot(rules, rule_count, weights, 5, pmf, 4, survival, 4, &plot), CATROVINDY_SHORT_LIST, 0),
            "11 for short lists");
    require(memcmp(&plot, &before, sizeof plot) == 0, "a refused plot record leaves the struct");
    /* every point lies beyond three sigma, so that the run length is 1 */
    require(catrovindy_fill_box_plot(rules, rule_count, weights, 4, pmf, 4, survival, 4, &plot) == CATROVINDY_ACCEPTED, "it is accepted");
    require(plot.p5.kind == CATROVINDY_AT && plot.p5.first == 1 && plot.p5.second == 1, "the percentile 5 is at 1");
    require(plot.p95.kind == CATROVINDY_AT && plot.p95.first == 1 && plot.p95.second == 1, "the percentile 95 is at 1");
    require(plot.lower <= 1 && plot.upper >= 1 && plot.has_iqr == 1 && plot.iqr == 0, "the mean is 1, and the range 0");
}

/* The last zone is the centre itself. A point there counts for neither side, and there is no zone after it. */
static void last_zone(void) {
    static const uint32_t eight[CATROVINDY_SLOTS] = {8, 8, CATROVINDY_SET_ABOVE, 1, 9, CATROVINDY_ALL_ZONES + 1};
    static const int32_t readings[13] = {101, 101, 101, 101, 100, 101, 101, 101, 101, 101, 101, 101, 101};
    uint64_t state = 0, answer[CATROVINDY_BATCH_ANSWER];
    uint32_t points = 0, zone = 0, step[CATROVINDY_STEP_ANSWER];
    require(catrovindy_zone(100, 100, 10, &zone) == CATROVINDY_ACCEPTED && zone == CATROVINDY_ZONE_C0, "100 on the centre 100 is in C0");
    require(catrovindy_batch(eight, 1, &state, &points, 100, 10, readings, 13, answer) == CATROVINDY_ACCEPTED, "13 readings are accepted");
    require(answer[CATROVINDY_BATCH_TAKEN] == 13 && answer[CATROVINDY_BATCH_MASK] == 1, "eight in a row above do not go over the centre");
    require(catrovindy_step(eight, 1, &state, &points, CATROVINDY_ZONES - 1, step) == CATROVINDY_ACCEPTED, "the last zone is accepted");
    require(refused(catrovindy_step(eight, 1, &state, &points, CATROVINDY_ZONES, step), CATROVINDY_BAD_ZONE, 0), "6 for a zone after it");
    require(refused(catrovindy_check(eight, 2), CATROVINDY_BAD_ZONE_SET, 1), "4 for a set of a zone after it");
}

/* Whether a shift has these weights. */
static int weighs(int32_t shift, const uint32_t expected[CATROVINDY_ZONES]) {
    uint32_t written[CATROVINDY_ZONES];
    return catrovindy_shift_weights(shift, written) == CATROVINDY_ACCEPTED && memcmp(written, expected, sizeof written) == 0;
}

/* The largest shift on either side, and those beyond it: a refused call leaves the weights. */
static void shifts(void) {
    static const uint32_t high[CATROVINDY_ZONES] = {71737334, 259555974, 411162504, 259555974, 65066109, 6417793, 246136, 0};
    static const uint32_t low[CATROVINDY_ZONES] = {71737334, 246136, 6417793, 65066109, 259555974, 411162504, 259555974, 0};
    static const int32_t beyond[4] = {CATROVINDY_MAX_SHIFT + 1, -CATROVINDY_MAX_SHIFT - 1, INT32_MAX, INT32_MIN};
    uint32_t kept[CATROVINDY_ZONES] = {1, 2, 3, 4, 5, 6, 7, 8};
    require(weighs(CATROVINDY_MAX_SHIFT, high), "the weights of the largest shift");
    require(weighs(-CATROVINDY_MAX_SHIFT, low), "the weights of the least shift are their mirror");
    for (int i = 0; i < 4; i++) {
        require(refused(catrovindy_shift_weights(beyond[i], kept), CATROVINDY_BAD_SHIFT, 0), "18 for a shift beyond");
    }
    for (uint32_t zone = 0; zone < CATROVINDY_ZONES; zone++) require(kept[zone] == zone + 1, "a refused shift leaves the weights");
}

static uint64_t weights_report_of(const char *text, uint64_t *bytes) {
    return catrovindy_weights_report((const uint8_t *)text, strlen(text), weights_line, bytes);
}

/* The weights report: one line, and nothing behind it; a refused one leaves the buffer. */
static void weights_reports(void) {
    static const char line[] = "weights,2898884,22978326,145927014,366516130,366516130,145927014,22978326,0\n";
    const size_t length = strlen(line);
    uint8_t kept[CATROVINDY_WEIGHTS_SIZE];
    uint64_t bytes = 77;
    memset(kept, 0x5A, sizeof kept);
    memset(weights_line, 0x5A, sizeof weights_line);
    require(refused(weights_report_of("", &bytes), CATROVINDY_BAD_LINE, 1), "16 for an empty text");
    require(refused(weights_report_of("shift,0", &bytes), CATROVINDY_BAD_LINE, 1), "16 for a line without its end");
    require(refused(weights_report_of("shift,0\n0", &bytes), CATROVINDY_BAD_LINE, 2), "16 for what stands behind the line");
    require(refused(weights_report_of("shift,151\n", &bytes), CATROVINDY_BAD_SHIFT, 0), "18 for a text with a shift beyond");
    require(bytes == 77 && memcmp(weights_line, kept, sizeof kept) == 0, "a refused weights report leaves the buffer");
    require(weights_report_of("shift,0\n", &bytes) == CATROVINDY_ACCEPTED, "a shift of 0 is accepted");
    require(bytes == length && memcmp(weights_line, line, length) == 0, "the line of a shift of 0");
    require(memcmp(weights_line + length, kept, sizeof kept - length) == 0, "the bytes after the line are kept");
}

static uint64_t monitor_report_of(const char *text, uint64_t *bytes) {
    return catrovindy_monitor_report((const uint8_t *)text, strlen(text), monitor_lines, bytes);
}

/* Whether the buffer of the monitor report has something else than 0x5A from a place on. */
static int written_from(size_t place) {
    while (place < sizeof monitor_lines && monitor_lines[place] == 0x5A) place++;
    return place < sizeof monitor_lines;
}

/* The monitor report: each node by itself, a period that goes on after a signal, no lines for no points, and a node beyond the last refused. */
static void monitor_reports(void) {
    static const char two_nodes[] = "chart,0,1\nrule,1,1,1\npoint,15,9\npoint,0,0\npoint,15,0\n";
    static const char lines[] = "signal,15,1,1,1\nquiet,0,1,1\nquiet,15,1,2\ntotal,0,1,0\ntotal,15,2,1\n";
    const size_t length = strlen(lines);
    uint64_t bytes = 77;
    memset(monitor_lines, 0x5A, sizeof monitor_lines);
    require(refused(monitor_report_of("chart,0,1\nrule,1,1,1\npoint,15,0\npoint,16,0\n", &bytes), CATROVINDY_BAD_NODE, 4), "19 for node 16");
    require(refused(monitor_report_of("chart,0,0\npoint,4294967295,0\n", &bytes), CATROVINDY_BAD_NODE, 2), "19 comes before the rules");
    require(refused(monitor_report_of("chart,0,1\nrule,1,1,1\npoint,16,0\npoint,0\n", &bytes), CATROVINDY_BAD_LINE, 4), "16 comes before 19");
    require(bytes == 77 && !written_from(0), "a refused monitor report leaves the buffer");
    require(monitor_report_of("chart,0,1\nrule,1,1,1\n", &bytes) == CATROVINDY_ACCEPTED, "a text without points is accepted");
    require(bytes == 0 && !written_from(0), "and has no lines");
    require(monitor_report_of(two_nodes, &bytes) == CATROVINDY_ACCEPTED, "two nodes are accepted");
    require(bytes == length && memcmp(monitor_lines, lines, length) == 0, "the lines of two nodes");
    require(!written_from(length), "the bytes after the lines are kept");
}

int main(void) {
    require(catrovindy_version() == CATROVINDY_VERSION_NUMBER, "the library belongs to the header");
    null_lists();
    no_readings();
    full_count();
    plot_record();
    last_zone();
    shifts();
    weights_reports();
    monitor_reports();
    return failed;
}
