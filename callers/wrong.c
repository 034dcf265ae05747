/*
 * Mistakes that a compiler must tell: an array that is one place short, and a code that is ignored. wrong.sh compiles this as C and as C++,
 * each time with one call, CALL_..., and with no mistake or one of them, SHORT_... or IGNORED. It is never run.
 */
#include "catrovindy.h"

#ifdef IGNORED
#define KEEP
#else
#define KEEP code |=
#endif

/* Each is 1 where its array is to be one place short. */
#ifndef SHORT_SLOTS
#define SHORT_SLOTS 0
#endif
#ifndef SHORT_WEIGHTS
#define SHORT_WEIGHTS 0
#endif
#ifndef SHORT_ANSWER
#define SHORT_ANSWER 0
#endif
#ifndef SHORT_VALUES
#define SHORT_VALUES 0
#endif

uint32_t slots[CATROVINDY_SLOTS - SHORT_SLOTS], weights[CATROVINDY_ZONES - SHORT_WEIGHTS];
uint32_t step_answer[CATROVINDY_STEP_ANSWER - SHORT_ANSWER], bracket_answer[CATROVINDY_BRACKET_ANSWER - SHORT_ANSWER];
uint64_t batch_answer[CATROVINDY_BATCH_ANSWER - SHORT_ANSWER], figures[CATROVINDY_FIGURES - SHORT_ANSWER];
uint32_t kinds[CATROVINDY_KINDS - SHORT_ANSWER];
double values[CATROVINDY_VALUES - SHORT_VALUES];
uint8_t table_lines[CATROVINDY_TABLE_SIZE - SHORT_ANSWER], monitor_lines[CATROVINDY_MONITOR_SIZE - SHORT_ANSWER];
uint8_t weights_line[CATROVINDY_WEIGHTS_SIZE - SHORT_ANSWER];
int32_t readings[3];
uint8_t text[3];
uint64_t pmf[5], survival[5], state, bytes, code;
uint32_t points, zone;
struct catrovindy_box_plot plot;

int main(void) {
#if defined(CALL_CHECK)
    KEEP catrovindy_check(slots, 1);
#elif defined(CALL_ZONE)
    KEEP catrovindy_zone(0, 0, 1, &zone);
#elif defined(CALL_STEP)
    KEEP catrovindy_step(slots, 1, &state, &points, 0, step_answer);
#elif defined(CALL_BATCH)
    KEEP catrovindy_batch(slots, 1, &state, &points, 0, 1, readings, 3, batch_answer);
#elif defined(CALL_BATCH_FULL)
    code |= (uint64_t)catrovindy_batch_full(batch_answer);
#elif defined(CALL_TABLE)
    KEEP catrovindy_table(slots, 1, weights, 5, pmf, 5, survival, 5, figures);
#elif defined(CALL_BRACKET)
    KEEP catrovindy_bracket(pmf, 5, 1, 50, bracket_answer);
#elif defined(CALL_PLOT)
    KEEP catrovindy_plot(slots, 1, weights, 5, pmf, 5, survival, 5, kinds, values);
#elif defined(CALL_FILL_BOX_PLOT)
    KEEP catrovindy_fill_box_plot(slots, 1, weights, 5, pmf, 5, survival, 5, &plot);
#elif defined(CALL_TABLE_REPORT)
    KEEP catrovindy_table_report(text, 3, table_lines, &bytes);
#elif defined(CALL_MONITOR_REPORT)
    KEEP catrovindy_monitor_report(text, 3, monitor_lines, &bytes);
#elif defined(CALL_SHIFT_WEIGHTS)
    KEEP catrovindy_shift_weights(0, weights);
#elif defined(CALL_WEIGHTS_REPORT)
    KEEP catrovindy_weights_report(text, 3, weights_line, &bytes);
#else
#error "which call?"
#endif
    return code != CATROVINDY_ACCEPTED;
}
