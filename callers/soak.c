/*
 * A soak from C or C++: plan it with the run-length table, then run the chart on the readings. soak.rs does the same from Rust, and all print
 * the same lines. See build.sh for the commands.
 */
#include "catrovindy.h"

#include <inttypes.h>
#include <stdio.h>
#include <stdlib.h>
#include <string.h>

#define HORIZON 1000
#define READINGS 28
#define CENTRE 50000
#define SIGMA 400
#define SHIFT 100 /* in hundredths of sigma */

static const uint32_t rules[CATROVINDY_SLOTS] = CATROVINDY_WESTERN_ELECTRIC;
static const uint32_t rule_count = CATROVINDY_WESTERN_ELECTRIC_COUNT;

/*
 * Normal readings: the chance of each zone, S A1 B1 C1 C2 B2 A2 C0, in units of 2^-30. First on a chart with the right centre and sigma,
 * then with a mean that is one sigma too high.
 */
static uint32_t in_control[CATROVINDY_ZONES], shifted[CATROVINDY_ZONES];

static const uint32_t percents[5] = {5, 25, 50, 75, 95};

/* Session counts of a core; from the 13th on they are about one sigma higher. */
static const int32_t readings[READINGS] = {50129, 49755, 50437, 49835, 49557, 50333, 50127, 50230, 49745, 50137, 49801, 49636, 50160, 50616,
                                           50516, 51024, 50704, 50187, 50515, 50073, 50419, 50105, 50028, 50229, 50866, 49909, 50543, 50515};

static const char table_text[] = "weights,0,536870912,0,0,536870912,0,0,0\nrule,2,2,2\nhorizon,4\n";
static const char monitor_text[] = "chart,100,10\nrule,1,1,1\nrule,2,3,2\npoint,3,121\npoint,15,131\npoint,3,100\npoint,3,121\n";
static const char weights_text[] = "shift,100\n";

/* The lists of the table, and the buffers of the reports: too large for some stacks. */
static uint64_t pmf[HORIZON], survival[HORIZON];
static uint8_t table_lines[CATROVINDY_TABLE_SIZE], monitor_lines[CATROVINDY_MONITOR_SIZE], weights_line[CATROVINDY_WEIGHTS_SIZE];

/* For calls that this program knows to be accepted. */
static void must(uint64_t code) {
    if (code != CATROVINDY_ACCEPTED) {
        fprintf(stderr, "refused,%" PRIu32 ",%" PRIu32 ",%s\n", catrovindy_number(code), catrovindy_place(code), catrovindy_meaning(code));
        exit(1);
    }
}

/* Before all else: does the library belong to the header, and are the rules accepted? */
static void check(void) {
    if (catrovindy_version() != CATROVINDY_VERSION_NUMBER) {
        fprintf(stderr, "the library is not the one of this header\n");
        exit(1);
    }
    must(catrovindy_check(rules, rule_count));
    printf("version,%s\n", CATROVINDY_VERSION);
}

/* The weights of both cores: a planner knows the shift. */
static void weigh(void) {
    must(catrovindy_shift_weights(0, in_control));
    must(catrovindy_shift_weights(SHIFT, shifted));
}

/* The chance of a signal by n: the exact one is at least the first and less than the second, in units of 2^-60. */
static void print_by(uint64_t n, uint64_t states) {
    uint64_t by = 0;
    for (uint64_t i = 0; i < n; i++) by += pmf[i];
    printf("by,%" PRIu64 ",%" PRIu64 ",%" PRIu64 "\n", n, by, by + n * (states + 1));
}

/* Where a percentile of the run length lies. */
static void print_percentile(uint32_t percent, uint64_t states) {
    uint32_t answer[CATROVINDY_BRACKET_ANSWER];
    must(catrovindy_bracket(pmf, HORIZON, (uint32_t)states, percent, answer));
    printf("percentile,%" PRIu32 ",", percent);
    uint32_t first = answer[CATROVINDY_BRACKET_FIRST], second = answer[CATROVINDY_BRACKET_SECOND];
    switch (answer[CATROVINDY_BRACKET_KIND]) {
    case CATROVINDY_AT: printf("at,%" PRIu32 "\n", first); break;
    case CATROVINDY_BETWEEN: printf("between,%" PRIu32 ",%" PRIu32 "\n", first, second); break;
    case CATROVINDY_OPEN: printf("open,%" PRIu32 "\n", first); break;
    default: printf("beyond,%" PRIu32 "\n", first);
    }
}

/* (a) How likely is a sound core to be flagged, and (b) after how many points? */
static void plan(void) {
    uint64_t figures[CATROVINDY_FIGURES];
    must(catrovindy_table(rules, rule_count, in_control, HORIZON, pmf, HORIZON, survival, HORIZON, figures));
    /* N, the number of states that differ: every bound below has it */
    uint64_t states = figures[CATROVINDY_FIGURE_STATES];
    printf("states,%" PRIu64 "\n", states);
    print_by(48, states);
    print_by(HORIZON, states);
    /* the exact mean is at least this, and at most the last number of units more */
    printf("mean,%" PRIu64 ",%" PRIu64 ",%" PRIu64 "\n", figures[CATROVINDY_FIGURE_MEAN_WHOLE], figures[CATROVINDY_FIGURE_MEAN_FRACTION],
           states * HORIZON * (HORIZON - 1) / 2);
    for (int i = 0; i < 5; i++) print_percentile(percents[i], states);
}

/* (c) And a core whose mean is one sigma too high? */
static void plan_shifted(void) {
    uint64_t figures[CATROVINDY_FIGURES];
    must(catrovindy_table(rules, rule_count, shifted, HORIZON, pmf, HORIZON, survival, HORIZON, figures));
    printf("shift,%d,", SHIFT);
    print_by(48, figures[CATROVINDY_FIGURE_STATES]);
    printf("shift,%d,", SHIFT);
    print_percentile(50, figures[CATROVINDY_FIGURE_STATES]);
}

/* (d) The sound core's percentiles and mean as doubles, for a plotter; over 100 points only, so that the last ones lie beyond. */
static void plot(void) {
    struct catrovindy_box_plot plot;
    must(catrovindy_fill_box_plot(rules, rule_count, in_control, 100, pmf, HORIZON, survival, HORIZON, &plot));
    const struct catrovindy_plot_item items[5] = {plot.p5, plot.p25, plot.p50, plot.p75, plot.p95};
    for (int i = 0; i < 5; i++) {
        static const char *const names[] = {"", "point", "span", "open", "beyond"};
        printf("plot,%" PRIu32 ",%s,%.1f", percents[i], names[items[i].kind], items[i].first);
        if (items[i].kind == CATROVINDY_BETWEEN) printf(",%.1f", items[i].second);
        printf("\n");
    }
    printf("plot,mean,%.12f,%.12f\n", plot.lower, plot.upper);
    if (plot.has_iqr) {
        printf("plot,iqr,%.1f\n", plot.iqr);
    } else {
        printf("plot,iqr,none\n");
    }
}

/* (e) The chart, reading by reading, from a fresh monitor: state 0, no points. */
static void watch(uint64_t *state, uint32_t *points) {
    *state = 0;
    *points = 0;
    for (int i = 0; i < READINGS; i++) {
        uint32_t zone, answer[CATROVINDY_STEP_ANSWER];
        must(catrovindy_zone(readings[i], CENTRE, SIGMA, &zone));
        must(catrovindy_step(rules, rule_count, state, points, zone, answer));
        if (answer[CATROVINDY_STEP_MASK] != 0) {
            printf("step,%d,signal,%" PRIu32 ",%" PRIu32 "\n", i + 1, answer[CATROVINDY_STEP_COUNT], answer[CATROVINDY_STEP_MASK]);
        }
    }
    printf("steps,%d,%" PRIu64 ",%" PRIu32 "\n", READINGS, *state, *points);
}

/* (f) The same series in batches: each stops at a signal, and the next one takes up the rest. */
static void watch_batches(uint64_t *state, uint32_t *points) {
    size_t done = 0;
    *state = 0;
    *points = 0;
    while (done < READINGS) {
        uint64_t answer[CATROVINDY_BATCH_ANSWER];
        must(catrovindy_batch(rules, rule_count, state, points, CENTRE, SIGMA, readings + done, READINGS - done, answer));
        done += answer[CATROVINDY_BATCH_TAKEN];
        const char *why = answer[CATROVINDY_BATCH_MASK] ? "signal" : catrovindy_batch_full(answer) ? "full" : "end";
        printf("batch,%" PRIu64 ",%s,%" PRIu64 ",%" PRIu64 "\n", answer[CATROVINDY_BATCH_TAKEN], why, answer[CATROVINDY_BATCH_COUNT],
               answer[CATROVINDY_BATCH_MASK]);
    }
    printf("batches,%zu,%" PRIu64 ",%" PRIu32 "\n", done, *state, *points);
}

/* (g) A signal by two rules at once: of a list of one's own, the rules with index 0 and 1 hold at the second point. */
static void both(void) {
    static const uint32_t own[CATROVINDY_SLOTS] = {
        2, 2, CATROVINDY_SET_A_OR_B_ABOVE, /* both of the last two in A or B above the centre */
        2, 3, CATROVINDY_SET_A_OR_B_ABOVE, /* two of the last three */
        1, 1, CATROVINDY_SET_S,            /* one beyond three sigma */
    };
    static const int32_t high[3] = {CENTRE + 2 * SIGMA, CENTRE + 2 * SIGMA + 1, CENTRE};
    uint64_t state = 0, answer[CATROVINDY_BATCH_ANSWER];
    uint32_t points = 0;
    must(catrovindy_batch(own, 3, &state, &points, CENTRE, SIGMA, high, 3, answer));
    printf("both,%" PRIu64 ",%" PRIu64, answer[CATROVINDY_BATCH_TAKEN], answer[CATROVINDY_BATCH_MASK]);
    for (int i = 0; i < 3; i++) {
        if (answer[CATROVINDY_BATCH_MASK] >> i & 1) printf(",rule %d", i);
    }
    printf("\n");
}

/* (h) A refusal: the second rule's set has a zone that does not exist. All that was lent is as it was. */
static void refusal(void) {
    uint32_t wrong[CATROVINDY_SLOTS] = CATROVINDY_WESTERN_ELECTRIC;
    uint64_t lent[2][3] = {{7, 7, 7}, {8, 8, 8}}, figures[CATROVINDY_FIGURES] = {9, 9, 9, 9};
    uint64_t lent_before[2][3], figures_before[CATROVINDY_FIGURES];
    memcpy(lent_before, lent, sizeof lent);
    memcpy(figures_before, figures, sizeof figures);
    wrong[5] = 256;
    uint64_t code = catrovindy_table(wrong, rule_count, in_control, 3, lent[0], 3, lent[1], 3, figures);
    int kept = memcmp(lent, lent_before, sizeof lent) == 0 && memcmp(figures, figures_before, sizeof figures) == 0;
    printf("refused,%" PRIu32 ",%" PRIu32 ",%s\n", catrovindy_number(code), catrovindy_place(code), kept ? "kept" : "altered");
    printf("meaning,%s\n", catrovindy_meaning(code));
}

/* (i) The three programs, text in and text out. */
static void reports(void) {
    uint64_t bytes;
    must(catrovindy_table_report((const uint8_t *)table_text, strlen(table_text), table_lines, &bytes));
    fwrite(table_lines, 1, bytes, stdout);
    must(catrovindy_monitor_report((const uint8_t *)monitor_text, strlen(monitor_text), monitor_lines, &bytes));
    fwrite(monitor_lines, 1, bytes, stdout);
    must(catrovindy_weights_report((const uint8_t *)weights_text, strlen(weights_text), weights_line, &bytes));
    fwrite(weights_line, 1, bytes, stdout);
}

int main(void) {
    uint64_t state, batch_state;
    uint32_t points, batch_points;
    check();
    weigh();
    plan();
    plan_shifted();
    plot();
    watch(&state, &points);
    watch_batches(&batch_state, &batch_points);
    printf("%s\n", state == batch_state && points == batch_points ? "alike" : "different");
    both();
    refusal();
    reports();
    return 0;
}
