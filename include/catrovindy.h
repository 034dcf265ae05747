/*
 * Catrovindy: run-length tables and monitors for runs-rules control charts.
 *
 * Link with target/staticlib/libcapi.a, which `bash scripts/library.sh` writes. It needs nothing but memcpy and memset. The header is for
 * C99 and C++11, and for what came after them.
 *
 * Words. A point lies in one of eight zones by its distance from the centre. A rule k,m,Z holds where at least k of the last m points lie
 * in the zones of Z, the sum of 2^zone; where fewer than m points exist, all of them count. A chart signals where some rule holds, and a
 * signal clears it. The run length is the number of the first point that signals. A unit is 2^-60.
 *
 * Codes. What a function returns is a code: 0 where the call is accepted, else a refusal with its number in the low 32 bits and its place
 * above them; only catrovindy_version and the helpers return something else. catrovindy_number and catrovindy_place take a code apart, and
 * catrovindy_meaning says it in words. The place is the rule's index from 0 for 3 and 4, the line from 1 for 16 and 19, else 0. The refusals
 * of each function are listed in the order in which they are looked for; the first that applies is the code. There are no others. A refused
 * call alters nothing that was lent. A compiler warns where a code is ignored.
 *
 * Arrays and lists. An array has the number of places that its declaration gives; a compiler tells where it sees a shorter one handed over.
 * A list comes with its length. What is marked `written only` need not hold values; all else does.
 *
 * What the caller sees to. Every pointer is valid and aligned for the places that are given with it, and not null; only a list of length 0
 * may be null. No array or list that a function writes to overlaps another one of the same call. Nothing else is asked: every number may
 * have any value.
 *
 * Threads. The functions keep nothing between calls and share nothing, so they may run at the same time on different arrays. They take no
 * memory from the heap; 256 KiB of stack are enough for any call.
 */
#ifndef CATROVINDY_H
#define CATROVINDY_H

#include <stddef.h>
#include <stdint.h>

/* Stands before a function that returns a code: the compiler warns where the code is ignored. */
#if (defined(__cplusplus) && __cplusplus >= 201703L) || (!defined(__cplusplus) && defined(__STDC_VERSION__) && __STDC_VERSION__ >= 202311L)
#define CATROVINDY_CODE [[nodiscard]]
#elif defined(__GNUC__)
#define CATROVINDY_CODE __attribute__((warn_unused_result))
#else
#define CATROVINDY_CODE
#endif

/* Stands before the number of places of an array that is handed over. C++ has no such word; see the end of this header. */
#ifdef __cplusplus
#define CATROVINDY_AT_LEAST
#else
#define CATROVINDY_AT_LEAST static
#endif

#ifdef __cplusplus
extern "C" {
#endif

/* ---- The version */

/* The version of this header, as text and as major * 10000 + minor * 100 + patch. The Rust crate has the same. */
#define CATROVINDY_VERSION "0.8.0"
#define CATROVINDY_VERSION_NUMBER 800

/* The version of the library, as a number: CATROVINDY_VERSION_NUMBER where the library belongs to this header. It is no code. */
uint32_t catrovindy_version(void);

/* ---- Sizes and bounds */

#define CATROVINDY_RULES 8                            /* the most rules of a list */
#define CATROVINDY_SLOTS 24                           /* the numbers of a list: k, m and Z of each of eight slots */
#define CATROVINDY_MAX_WINDOW 9                       /* the largest m */
#define CATROVINDY_ZONES 8                            /* the zones, numbered from 0 */
#define CATROVINDY_ALL_ZONES 255                      /* the largest zone set */
#define CATROVINDY_MAX_SIGMA 65535                    /* the largest sigma; the least is 1 */
#define CATROVINDY_WEIGHT_TOTAL 1073741824            /* 2^30: what the weights of all zones sum to */
#define CATROVINDY_MAX_SHIFT 150                      /* the largest shift, in hundredths of sigma; the least is its negative */
#define CATROVINDY_MAX_HORIZON 65535                  /* the largest horizon; the least is 1 */
#define CATROVINDY_MAX_STATES 1024                    /* the most states of a table's rules, before merging */
#define CATROVINDY_MAX_COUNT 4294967295u              /* a monitor with this count takes no more points */
#define CATROVINDY_UNITS_PER_ONE 1152921504606846976u /* 2^60 */

#define CATROVINDY_MAX_TEXT 65536      /* the most bytes of a report's text */
#define CATROVINDY_MAX_ROWS 4096       /* the largest horizon of a table report */
#define CATROVINDY_NODES 16            /* the nodes of a monitor report, numbered from 0 */
#define CATROVINDY_TABLE_SIZE 344544   /* the buffer of a table report */
#define CATROVINDY_MONITOR_SIZE 334827 /* the buffer of a monitor report */
#define CATROVINDY_WEIGHTS_SIZE 96     /* the buffer of a weights report */

/* The places of each array that is written. */
#define CATROVINDY_STEP_ANSWER 2
#define CATROVINDY_BATCH_ANSWER 4
#define CATROVINDY_BRACKET_ANSWER 3
#define CATROVINDY_FIGURES 4
#define CATROVINDY_KINDS 6
#define CATROVINDY_VALUES 13

/* ---- Zones and zone sets */

/* The zones. With t = reading - centre and d = sigma; a reading on a limit belongs to the inner zone. */
enum {
    CATROVINDY_ZONE_S = 0,  /* t > 3d or t < -3d */
    CATROVINDY_ZONE_A1 = 1, /* 2d < t <= 3d */
    CATROVINDY_ZONE_B1 = 2, /* d < t <= 2d */
    CATROVINDY_ZONE_C1 = 3, /* 0 < t <= d */
    CATROVINDY_ZONE_C2 = 4, /* -d <= t < 0 */
    CATROVINDY_ZONE_B2 = 5, /* -2d <= t < -d */
    CATROVINDY_ZONE_A2 = 6, /* -3d <= t < -2d */
    CATROVINDY_ZONE_C0 = 7  /* t = 0 */
};

/* The zone sets, for the Z of a rule. Sets are joined by |. S is on both sides of the centre, C0 on neither: no set of one side has them. */
enum {
    CATROVINDY_SET_S = 1,            /* beyond three sigma, on either side */
    CATROVINDY_SET_A1 = 2,           /* A above the centre */
    CATROVINDY_SET_B1 = 4,           /* B above */
    CATROVINDY_SET_C1 = 8,           /* C above the centre */
    CATROVINDY_SET_C2 = 16,          /* C below the centre */
    CATROVINDY_SET_B2 = 32,          /* B below */
    CATROVINDY_SET_A2 = 64,          /* A below */
    CATROVINDY_SET_C0 = 128,         /* the centre itself, which no ready list has: such a point counts for neither side */
    CATROVINDY_SET_A_OR_B_ABOVE = 6, /* above the centre by more than one sigma, and at most three */
    CATROVINDY_SET_A_OR_B_BELOW = 96,
    CATROVINDY_SET_ABOVE = 14, /* above the centre by at most three sigma; a point on the centre is in neither */
    CATROVINDY_SET_BELOW = 112,
    CATROVINDY_SET_C = 152,        /* within one sigma of the centre, on either side or on it */
    CATROVINDY_SET_OUTSIDE_C = 103 /* more than one sigma from the centre, on either side */
};

/* ---- Refusals */

enum {
    CATROVINDY_ACCEPTED = 0,
    CATROVINDY_BAD_SIGMA = 1,        /* sigma is outside 1 to 65,535 */
    CATROVINDY_BAD_RULE_COUNT = 2,   /* no rules, or more than eight */
    CATROVINDY_BAD_RULE = 3,         /* m outside 1 to 9, or k outside 1 to m */
    CATROVINDY_BAD_ZONE_SET = 4,     /* Z is 0 or over 255 */
    CATROVINDY_BAD_STATE = 5,        /* the state cannot stand with these rules and this count */
    CATROVINDY_BAD_ZONE = 6,         /* the zone is over 7 */
    CATROVINDY_BAD_COUNT = 7,        /* the count is 4,294,967,295 */
    CATROVINDY_BAD_WEIGHTS = 8,      /* the weights do not sum to 2^30 */
    CATROVINDY_BAD_HORIZON = 9,      /* the horizon is outside 1 to 65,535; in a text, outside 1 to 4,096 */
    CATROVINDY_TOO_MANY_STATES = 10, /* the rules have more than 1,024 states before merging */
    CATROVINDY_SHORT_LIST = 11,      /* a lent list is shorter than the horizon */
    CATROVINDY_BAD_LIST = 12,        /* the list of chances is empty, or has more than 65,535 places */
    CATROVINDY_BAD_N = 13,           /* the number of states is outside 1 to 1,024 */
    CATROVINDY_BAD_PERCENT = 14,     /* the percent is outside 1 to 99 */
    CATROVINDY_BAD_CHANCES = 15,     /* the chances sum to more than 2^60 */
    CATROVINDY_BAD_LINE = 16,        /* a line is not the one expected, or cannot be read */
    CATROVINDY_LONG_TEXT = 17,       /* the text has more than 65,536 bytes */
    CATROVINDY_BAD_SHIFT = 18,       /* the shift is outside -150 to 150 hundredths of sigma */
    CATROVINDY_BAD_NODE = 19         /* a point's node is over 15 */
};

/* The number of a code: 0 for an accepted call, else the refusal's, 1 to 19. */
static inline uint32_t catrovindy_number(uint64_t code) {
    return (uint32_t)(code & 0xFFFFFFFFu);
}

/* The place of a code: the rule's index from 0 for 3 and 4, the line from 1 for 16 and 19, else 0. */
static inline uint32_t catrovindy_place(uint64_t code) {
    return (uint32_t)(code >> 32);
}

/* What a code means, in one sentence. The Rust crate says the same words. */
static inline const char *catrovindy_meaning(uint64_t code) {
    switch (catrovindy_number(code)) {
    case CATROVINDY_ACCEPTED: return "The call is accepted.";
    case CATROVINDY_BAD_SIGMA: return "The chart's sigma is outside 1 to 65,535.";
    case CATROVINDY_BAD_RULE_COUNT: return "There are no rules, or more than eight.";
    case CATROVINDY_BAD_RULE: return "A rule's m is outside 1 to 9, or its k is outside 1 to m.";
    case CATROVINDY_BAD_ZONE_SET: return "A rule's zone set is 0 or over 255: it has no zone, or one that does not exist.";
    case CATROVINDY_BAD_STATE: return "The monitor's state cannot have come from these rules and this count of points.";
    case CATROVINDY_BAD_ZONE: return "The zone is over 7: there is no such zone.";
    case CATROVINDY_BAD_COUNT: return "The monitor has counted 4,294,967,295 points with no signal, and can count no further.";
    case CATROVINDY_BAD_WEIGHTS: return "The weights of the eight zones do not sum to 2^30, which is 1,073,741,824.";
    case CATROVINDY_BAD_HORIZON: return "The horizon is outside 1 to 65,535, or in a text outside 1 to 4,096.";
    case CATROVINDY_TOO_MANY_STATES: return "The rules have more than 1,024 states before merging, too many for a table.";
    case CATROVINDY_SHORT_LIST: return "A list that was lent for the table is shorter than the horizon.";
    case CATROVINDY_BAD_LIST: return "The list of chances is empty, or has more than 65,535 places.";
    case CATROVINDY_BAD_N: return "The number of states is outside 1 to 1,024.";
    case CATROVINDY_BAD_PERCENT: return "The percent is outside 1 to 99.";
    case CATROVINDY_BAD_CHANCES: return "The chances sum to more than 2^60, which stands for one.";
    case CATROVINDY_BAD_LINE: return "A line of the text is missing, is not the one expected, or cannot be read.";
    case CATROVINDY_LONG_TEXT: return "The text has more than 65,536 bytes.";
    case CATROVINDY_BAD_SHIFT: return "The shift is outside -150 to 150 hundredths of sigma.";
    case CATROVINDY_BAD_NODE: return "A point's node is over 15: there is no such node.";
    default: return "There is no such refusal.";
    }
}

/* ---- Rule lists */

/*
 * Every function that takes rules takes them as
 *   slots: CATROVINDY_SLOTS numbers; the rule with index i has its k, m and Z in slots[3 * i], slots[3 * i + 1] and slots[3 * i + 2];
 *   count: how many rules there are. The slots after them may hold anything.
 * The two ready lists are initialisers:
 *   static const uint32_t rules[CATROVINDY_SLOTS] = CATROVINDY_WESTERN_ELECTRIC;
 * A list of one's own: at least two of the last three points in A or B above the centre, or one beyond three sigma.
 *   static const uint32_t rules[CATROVINDY_SLOTS] = {2, 3, CATROVINDY_SET_A_OR_B_ABOVE, 1, 1, CATROVINDY_SET_S};
 */
#define CATROVINDY_WESTERN_ELECTRIC { 1, 1, 1, 2, 3, 64, 2, 3, 2, 4, 5, 96, 4, 5, 6, 8, 8, 112, 8, 8, 14, 0, 0, 0 }
#define CATROVINDY_WESTERN_ELECTRIC_COUNT 7
#define CATROVINDY_DUNCAN { 1, 1, 1, 2, 2, 64, 2, 2, 2, 5, 5, 96, 5, 5, 6, 0, 0, 0, 0, 0, 0, 0, 0, 0 }
#define CATROVINDY_DUNCAN_COUNT 5

/*
 * Whether the rules are accepted, before a chart is run or planned with them. Nothing is written.
 *   slots, count: the rules.
 * Refused by 2; then rule by rule 3, 4.
 */
CATROVINDY_CODE uint64_t catrovindy_check(const uint32_t slots[CATROVINDY_AT_LEAST CATROVINDY_SLOTS], uint32_t count);

/* ---- The monitor */

/*
 * The zone of a reading.
 *   reading, centre, sigma: any numbers.
 *   zone: 1 place, written only. Then holds the zone, 0 to 7.
 * Refused by 1.
 */
CATROVINDY_CODE uint64_t catrovindy_zone(int32_t reading, int32_t centre, uint32_t sigma, uint32_t zone[CATROVINDY_AT_LEAST 1]);

/*
 * One point. The monitor is kept by the caller as two numbers, the state and the count of points since the last signal. Both are 0 at the
 * start; afterwards the caller hands back what was written, with the same rules. A bench with several cores keeps a monitor for each of them.
 *   slots, count: the rules.
 *   state: 1 place, the state. Then holds the state for the next point: 0 after a signal.
 *   points: 1 place, the count of points. Then holds the count for the next point: 0 after a signal.
 *   zone: the point's zone.
 *   answer: CATROVINDY_STEP_ANSWER places, written only.
 * Refused by 2; then rule by rule 3, 4; 6; 5; 7. 5 does not come for a monitor that was handed back as it was written.
 *
 * In the state, byte i belongs to the rule with index i, and bit a - 1 of it is a remembered hit a points back. 5 is for a rule with k or
 * more hits, a hit that should be forgotten, a hit older than the points counted, or a hit in a byte beyond the rules.
 */
CATROVINDY_CODE uint64_t catrovindy_step(const uint32_t slots[CATROVINDY_AT_LEAST CATROVINDY_SLOTS], uint32_t count,
                                         uint64_t state[CATROVINDY_AT_LEAST 1], uint32_t points[CATROVINDY_AT_LEAST 1], uint32_t zone,
                                         uint32_t answer[CATROVINDY_AT_LEAST CATROVINDY_STEP_ANSWER]);

enum {
    CATROVINDY_STEP_COUNT = 0, /* answer[0]: the count with this point in it */
    CATROVINDY_STEP_MASK = 1   /* answer[1]: the sum of 2^index over the rules that hold; 0 for quiet */
};

/*
 * Readings one after another, until one signals, the count is full, or none is left. To go on after a signal, call again with the readings
 * that were not taken.
 *   slots, count, state, points: as for a step. They are then as after a step for each reading taken.
 *   centre, sigma: the chart; any numbers.
 *   readings: `length` numbers; may be none.
 *   answer: CATROVINDY_BATCH_ANSWER places, written only.
 * Refused by 2; then rule by rule 3, 4; 1; 5; 7, as a first reading is; so too where there are no readings. The code is never 7 once a
 * reading was taken: where the count is then full before the next reading, the call is accepted, and catrovindy_batch_full says so.
 */
CATROVINDY_CODE uint64_t catrovindy_batch(const uint32_t slots[CATROVINDY_AT_LEAST CATROVINDY_SLOTS], uint32_t count,
                                          uint64_t state[CATROVINDY_AT_LEAST 1], uint32_t points[CATROVINDY_AT_LEAST 1], int32_t centre,
                                          uint32_t sigma, const int32_t *readings, size_t length,
                                          uint64_t answer[CATROVINDY_AT_LEAST CATROVINDY_BATCH_ANSWER]);

enum {
    CATROVINDY_BATCH_TAKEN = 0,  /* answer[0]: how many readings were taken */
    CATROVINDY_BATCH_COUNT = 1,  /* answer[1]: the count with the last of them in it; where none was taken, the count as it was */
    CATROVINDY_BATCH_MASK = 2,   /* answer[2]: the rules that hold at the last of them; 0 where all were quiet */
    CATROVINDY_BATCH_REFUSAL = 3 /* answer[3]: 7 where a full count kept the next reading from being taken, else 0 */
};

/* ---- Weights for a shifted core */

/*
 * The weights of a normal reading whose mean is off the centre by a known shift. The table and the plot record accept the weights of every
 * shift. A weight is what a table of normal areas, each to the nearest multiple of 2^-30, has between the limits of the zone.
 *   shift: in hundredths of sigma, -CATROVINDY_MAX_SHIFT to CATROVINDY_MAX_SHIFT: above the centre where it is over 0, below where it is
 *     under 0. A shift of 0 is in control.
 *   weights: CATROVINDY_ZONES places, written only. Then holds the weights by the zones' numbers: C0's, the last, is 0, since such a
 *     reading is never exactly on the centre, and S's is what is missing from CATROVINDY_WEIGHT_TOTAL.
 * Refused by 18.
 */
CATROVINDY_CODE uint64_t catrovindy_shift_weights(int32_t shift, uint32_t weights[CATROVINDY_AT_LEAST CATROVINDY_ZONES]);

/* ---- The run-length table */

/*
 * The table: for each n from 1 to the horizon the chance that the run length is n, and the chance that no signal has come by n, in units,
 * by sums that are rounded down. The chance of a signal by n is the sum of the first n chances. The exact one is not less, and exceeds
 * it by less than n * (N + 1) units. N is the number of states that differ: two are one where every continuation first signals at the same
 * point from both. Every zone continues, those of weight 0 too. 10 counts the states before they are merged.
 *   slots, count: the rules.
 *   weights: CATROVINDY_ZONES numbers, by the zones' numbers, so that C0's is the last; a zone's chance is its weight over 2^30. For a
 *     normal reading catrovindy_shift_weights makes them.
 *   horizon: H.
 *   pmf: `pmf_length` numbers, written only. Then pmf[n - 1] holds the chance of a signal at n; the places beyond H are kept.
 *   survival: `survival_length` numbers, written only. Then survival[n - 1] holds what is left at n; the places beyond H are kept.
 *   figures: CATROVINDY_FIGURES places, written only.
 * Refused by 2; then rule by rule 3, 4; 8; 9; 10; 11.
 */
CATROVINDY_CODE uint64_t catrovindy_table(const uint32_t slots[CATROVINDY_AT_LEAST CATROVINDY_SLOTS], uint32_t count,
                                          const uint32_t weights[CATROVINDY_AT_LEAST CATROVINDY_ZONES], uint32_t horizon, uint64_t *pmf,
                                          size_t pmf_length, uint64_t *survival, size_t survival_length,
                                          uint64_t figures[CATROVINDY_AT_LEAST CATROVINDY_FIGURES]);

enum {
    CATROVINDY_FIGURE_STATES = 0,       /* figures[0]: N, the number of states that differ; zones of weight 0 lead to states too */
    CATROVINDY_FIGURE_SURVIVAL = 1,     /* figures[1]: what is left at the horizon, in units */
    CATROVINDY_FIGURE_MEAN_WHOLE = 2,   /* figures[2]: the whole part of the mean run length cut at the horizon */
    CATROVINDY_FIGURE_MEAN_FRACTION = 3 /* figures[3]: its fraction in units. The exact mean is not less, and exceeds this one by at most
                                           N * H * (H - 1) / 2 units */
};

/*
 * The bracket of a percentile of the run length: it contains the true one, which is the least n by which the exact chance of a signal is
 * at least the percent. For a bracket of a table hand over the first H places of its pmf, and its N.
 *   pmf: `pmf_length` chances.
 *   state_count: N, the number of states that differ.
 *   percent: 1 to 99.
 *   answer: CATROVINDY_BRACKET_ANSWER places, written only. Then holds the kind and its two numbers.
 * Refused by 12; 13; 14; 15.
 */
CATROVINDY_CODE uint64_t catrovindy_bracket(const uint64_t *pmf, size_t pmf_length, uint32_t state_count, uint32_t percent,
                                            uint32_t answer[CATROVINDY_AT_LEAST CATROVINDY_BRACKET_ANSWER]);

enum {
    CATROVINDY_BRACKET_KIND = 0,  /* answer[0]: one of the four kinds */
    CATROVINDY_BRACKET_FIRST = 1, /* answer[1]: the first of its two numbers */
    CATROVINDY_BRACKET_SECOND = 2 /* answer[2]: the second */
};

/* The kind of a bracket, and of a plot's item. */
enum {
    CATROVINDY_AT = 1,      /* at n: both numbers are n */
    CATROVINDY_BETWEEN = 2, /* from the first number to the second */
    CATROVINDY_OPEN = 3,    /* the first number or more; a bracket's second is 0 */
    CATROVINDY_BEYOND = 4   /* more than the first number, which is the length of the list or the horizon; a bracket's second is 0 */
};

/* ---- The plot record */

/*
 * The plot record: the percentiles 5, 25, 50, 75 and 95 and the mean's bounds as doubles, each of them exact. It is made by the table's
 * own run, so that `pmf` and `survival` are then as the table leaves them. catrovindy_fill_box_plot gives the same as a struct with names.
 *   slots, count, weights, horizon, pmf, survival: as for the table.
 *   kinds: CATROVINDY_KINDS places, written only.
 *   values: CATROVINDY_VALUES places, written only.
 * Refused as the table is: by 2; then rule by rule 3, 4; 8; 9; 10; 11.
 */
CATROVINDY_CODE uint64_t catrovindy_plot(const uint32_t slots[CATROVINDY_AT_LEAST CATROVINDY_SLOTS], uint32_t count,
                                         const uint32_t weights[CATROVINDY_AT_LEAST CATROVINDY_ZONES], uint32_t horizon, uint64_t *pmf,
                                         size_t pmf_length, uint64_t *survival, size_t survival_length,
                                         uint32_t kinds[CATROVINDY_AT_LEAST CATROVINDY_KINDS],
                                         double values[CATROVINDY_AT_LEAST CATROVINDY_VALUES]);

/* The items: kinds[i] is the kind of item i; values[2 * i] and values[2 * i + 1] its doubles, which differ only for CATROVINDY_BETWEEN. */
enum {
    CATROVINDY_P5 = 0,
    CATROVINDY_P25 = 1,
    CATROVINDY_P50 = 2,
    CATROVINDY_P75 = 3,
    CATROVINDY_P95 = 4,
    CATROVINDY_KIND_IQR = 5,     /* kinds[5]: 1 where there is an interquartile range, else 0 */
    CATROVINDY_VALUE_LOWER = 10, /* values[10]: the mean cut at the horizon is not less than this */
    CATROVINDY_VALUE_UPPER = 11, /* values[11]: and not more than this; both are multiples of 2^-36 */
    CATROVINDY_VALUE_IQR = 12    /* values[12]: the interquartile range where both quartiles are at a point, else 0 */
};

/* A percentile as a plotter takes it. Each double is a whole number, exactly. */
struct catrovindy_plot_item {
    uint32_t kind; /* CATROVINDY_AT, CATROVINDY_BETWEEN, CATROVINDY_OPEN or CATROVINDY_BEYOND */
    double first;
    double second; /* for CATROVINDY_BETWEEN the other end, else the same as `first` */
};

/* The plot record with names. */
struct catrovindy_box_plot {
    struct catrovindy_plot_item p5;
    struct catrovindy_plot_item p25; /* the first quartile */
    struct catrovindy_plot_item p50; /* the median */
    struct catrovindy_plot_item p75; /* the third quartile */
    struct catrovindy_plot_item p95;
    double lower;     /* the mean cut at the horizon is not less than this */
    double upper;     /* and not more than this; both are multiples of 2^-36 */
    uint32_t has_iqr; /* 1 where there is an interquartile range, else 0 */
    double iqr;       /* the interquartile range where both quartiles are at a point, else 0 */
};

/* ---- The three programs' reports */

/*
 * The table program's lines for a text of a line of CATROVINDY_ZONES weights, rule lines and a horizon line.
 *   text: `length` bytes.
 *   out: CATROVINDY_TABLE_SIZE bytes, written only. Then begins with the lines; the bytes after them are kept.
 *   bytes: 1 place, written only. Then holds the number of bytes of the lines.
 * Refused by 17; 16; 2; then rule by rule 3, 4; 8; 9, also for a horizon over 4,096; 10.
 */
CATROVINDY_CODE uint64_t catrovindy_table_report(const uint8_t *text, size_t length, uint8_t out[CATROVINDY_AT_LEAST CATROVINDY_TABLE_SIZE],
                                                 uint64_t bytes[CATROVINDY_AT_LEAST 1]);

/*
 * The monitor program's lines for a text of a chart line, rule lines and point lines `point,node,reading`. Each node, 0 to 15, has a monitor
 * of its own; the chart and the rules are common. A point is written, in the text's order, as one of the first two lines, and behind the last
 * point each node that has points, in order of node, as the third:
 *   quiet,node,count,period: no rule holds; the count is that of the node's points since its last signal.
 *   signal,node,count,mask,period: the mask is the sum of 2^index over the rules that hold.
 *   total,node,points,signals: the number of the node's points, and how many of them signalled.
 * The period is the number of the node's points since the start of the text, from 1; unlike the count, it goes on after a signal.
 * So a text without points has no lines. With the same chart and rules the lines of a node depend on its own points alone.
 *   text: `length` bytes.
 *   out: CATROVINDY_MONITOR_SIZE bytes, written only. Then begins with the lines; the bytes after them are kept.
 *   bytes: 1 place, written only. Then holds the number of bytes of the lines.
 * Refused by 17; 16; 19; 2; then rule by rule 3, 4; 1.
 */
CATROVINDY_CODE uint64_t catrovindy_monitor_report(const uint8_t *text, size_t length,
                                                   uint8_t out[CATROVINDY_AT_LEAST CATROVINDY_MONITOR_SIZE],
                                                   uint64_t bytes[CATROVINDY_AT_LEAST 1]);

/*
 * The weights program's line for a text of a shift line, as the table program takes it.
 *   text: `length` bytes.
 *   out: CATROVINDY_WEIGHTS_SIZE bytes, written only. Then begins with the line; the bytes after it are kept.
 *   bytes: 1 place, written only. Then holds the number of bytes of the line.
 * Refused by 17; 16; 18.
 */
CATROVINDY_CODE uint64_t catrovindy_weights_report(const uint8_t *text, size_t length,
                                                   uint8_t out[CATROVINDY_AT_LEAST CATROVINDY_WEIGHTS_SIZE],
                                                   uint64_t bytes[CATROVINDY_AT_LEAST 1]);

#ifdef __cplusplus
}
#endif

/* ---- How the names above are called */

/*
 * The library's own functions take no null pointer. So the name of each function with a list stands for an inline function that hands on
 * everything as it is, but for a list of length 0 the address of a place that is there. In C++ the other functions with arrays have such an
 * inline function too, for the sizes: an array with fewer places than the function takes does not compile. In both languages a pointer goes
 * where an array goes; its places are then the caller's care.
 */
#ifdef __cplusplus

/* A parameter that takes an array of N places or more, or a pointer. */
template <typename T, size_t N> class catrovindy_array {
    T *first;

public:
    template <size_t M> catrovindy_array(T (&array)[M]) : first(array) {
        static_assert(M >= N, "this array has fewer places than the function takes");
    }
    template <typename U> catrovindy_array(U *const &pointer) : first(pointer) {}
    operator T *() const { return first; }
};

#define CATROVINDY_ARRAY(type, name, places) catrovindy_array<type, places> name
#else
#define CATROVINDY_ARRAY(type, name, places) type name[CATROVINDY_AT_LEAST places]
#endif

CATROVINDY_CODE static inline uint64_t catrovindy_call_batch(CATROVINDY_ARRAY(const uint32_t, slots, CATROVINDY_SLOTS), uint32_t count,
                                                             CATROVINDY_ARRAY(uint64_t, state, 1), CATROVINDY_ARRAY(uint32_t, points, 1),
                                                             int32_t centre, uint32_t sigma, const int32_t *readings, size_t length,
                                                             CATROVINDY_ARRAY(uint64_t, answer, CATROVINDY_BATCH_ANSWER)) {
    const int32_t none = 0;
    return catrovindy_batch(slots, count, state, points, centre, sigma, length == 0 ? &none : readings, length, answer);
}

CATROVINDY_CODE static inline uint64_t catrovindy_call_table(CATROVINDY_ARRAY(const uint32_t, slots, CATROVINDY_SLOTS), uint32_t count,
                                                             CATROVINDY_ARRAY(const uint32_t, weights, CATROVINDY_ZONES), uint32_t horizon,
                                                             uint64_t *pmf, size_t pmf_length, uint64_t *survival, size_t survival_length,
                                                             CATROVINDY_ARRAY(uint64_t, figures, CATROVINDY_FIGURES)) {
    uint64_t none[2] = {0, 0};
    return catrovindy_table(slots, count, weights, horizon, pmf_length == 0 ? &none[0] : pmf, pmf_length,
                            survival_length == 0 ? &none[1] : survival, survival_length, figures);
}

CATROVINDY_CODE static inline uint64_t catrovindy_call_bracket(const uint64_t *pmf, size_t pmf_length, uint32_t state_count,
                                                               uint32_t percent,
                                                               CATROVINDY_ARRAY(uint32_t, answer, CATROVINDY_BRACKET_ANSWER)) {
    const uint64_t none = 0;
    return catrovindy_bracket(pmf_length == 0 ? &none : pmf, pmf_length, state_count, percent, answer);
}

CATROVINDY_CODE static inline uint64_t catrovindy_call_plot(CATROVINDY_ARRAY(const uint32_t, slots, CATROVINDY_SLOTS), uint32_t count,
                                                            CATROVINDY_ARRAY(const uint32_t, weights, CATROVINDY_ZONES), uint32_t horizon,
                                                            uint64_t *pmf, size_t pmf_length, uint64_t *survival, size_t survival_length,
                                                            CATROVINDY_ARRAY(uint32_t, kinds, CATROVINDY_KINDS),
                                                            CATROVINDY_ARRAY(double, values, CATROVINDY_VALUES)) {
    uint64_t none[2] = {0, 0};
    return catrovindy_plot(slots, count, weights, horizon, pmf_length == 0 ? &none[0] : pmf, pmf_length,
                           survival_length == 0 ? &none[1] : survival, survival_length, kinds, values);
}

CATROVINDY_CODE static inline uint64_t catrovindy_call_table_report(const uint8_t *text, size_t length,
                                                                    CATROVINDY_ARRAY(uint8_t, out, CATROVINDY_TABLE_SIZE),
                                                                    CATROVINDY_ARRAY(uint64_t, bytes, 1)) {
    const uint8_t none = 0;
    return catrovindy_table_report(length == 0 ? &none : text, length, out, bytes);
}

CATROVINDY_CODE static inline uint64_t catrovindy_call_monitor_report(const uint8_t *text, size_t length,
                                                                      CATROVINDY_ARRAY(uint8_t, out, CATROVINDY_MONITOR_SIZE),
                                                                      CATROVINDY_ARRAY(uint64_t, bytes, 1)) {
    const uint8_t none = 0;
    return catrovindy_monitor_report(length == 0 ? &none : text, length, out, bytes);
}

CATROVINDY_CODE static inline uint64_t catrovindy_call_weights_report(const uint8_t *text, size_t length,
                                                                      CATROVINDY_ARRAY(uint8_t, out, CATROVINDY_WEIGHTS_SIZE),
                                                                      CATROVINDY_ARRAY(uint64_t, bytes, 1)) {
    const uint8_t none = 0;
    return catrovindy_weights_report(length == 0 ? &none : text, length, out, bytes);
}

#define catrovindy_batch catrovindy_call_batch
#define catrovindy_table catrovindy_call_table
#define catrovindy_bracket catrovindy_call_bracket
#define catrovindy_plot catrovindy_call_plot
#define catrovindy_table_report catrovindy_call_table_report
#define catrovindy_monitor_report catrovindy_call_monitor_report
#define catrovindy_weights_report catrovindy_call_weights_report

#ifdef __cplusplus

CATROVINDY_CODE static inline uint64_t catrovindy_call_check(CATROVINDY_ARRAY(const uint32_t, slots, CATROVINDY_SLOTS), uint32_t count) {
    return catrovindy_check(slots, count);
}

CATROVINDY_CODE static inline uint64_t catrovindy_call_zone(int32_t reading, int32_t centre, uint32_t sigma,
                                                            CATROVINDY_ARRAY(uint32_t, zone, 1)) {
    return catrovindy_zone(reading, centre, sigma, zone);
}

CATROVINDY_CODE static inline uint64_t catrovindy_call_step(CATROVINDY_ARRAY(const uint32_t, slots, CATROVINDY_SLOTS), uint32_t count,
                                                            CATROVINDY_ARRAY(uint64_t, state, 1), CATROVINDY_ARRAY(uint32_t, points, 1),
                                                            uint32_t zone, CATROVINDY_ARRAY(uint32_t, answer, CATROVINDY_STEP_ANSWER)) {
    return catrovindy_step(slots, count, state, points, zone, answer);
}

CATROVINDY_CODE static inline uint64_t catrovindy_call_shift_weights(int32_t shift, CATROVINDY_ARRAY(uint32_t, weights, CATROVINDY_ZONES)) {
    return catrovindy_shift_weights(shift, weights);
}

#define catrovindy_check catrovindy_call_check
#define catrovindy_zone catrovindy_call_zone
#define catrovindy_step catrovindy_call_step
#define catrovindy_shift_weights catrovindy_call_shift_weights

#endif

/* ---- Helpers */

/*
 * Whether an accepted batch stopped because the count is full: 1 or 0. It took CATROVINDY_BATCH_TAKEN readings, all of them quiet, and the
 * next one cannot be counted. To go on, start a fresh chart.
 *   answer: CATROVINDY_BATCH_ANSWER places, as the batch wrote them.
 */
static inline int catrovindy_batch_full(CATROVINDY_ARRAY(const uint64_t, answer, CATROVINDY_BATCH_ANSWER)) {
    return answer[CATROVINDY_BATCH_REFUSAL] == CATROVINDY_BAD_COUNT;
}

/* An item of the plot record, by its index from CATROVINDY_P5 to CATROVINDY_P95. */
static inline struct catrovindy_plot_item catrovindy_plot_item_at(const uint32_t kinds[CATROVINDY_AT_LEAST CATROVINDY_KINDS],
                                                                  const double values[CATROVINDY_AT_LEAST CATROVINDY_VALUES], int i) {
    struct catrovindy_plot_item item;
    item.kind = kinds[i];
    item.first = values[2 * i];
    item.second = values[2 * i + 1];
    return item;
}

/*
 * The plot record as a struct with names.
 *   slots, count, weights, horizon, pmf, survival: as for the table.
 *   plot: 1 place, written only.
 * Refused as the table is: by 2; then rule by rule 3, 4; 8; 9; 10; 11.
 */
CATROVINDY_CODE static inline uint64_t catrovindy_fill_box_plot(CATROVINDY_ARRAY(const uint32_t, slots, CATROVINDY_SLOTS), uint32_t count,
                                                                CATROVINDY_ARRAY(const uint32_t, weights, CATROVINDY_ZONES),
                                                                uint32_t horizon, uint64_t *pmf, size_t pmf_length, uint64_t *survival,
                                                                size_t survival_length,
                                                                CATROVINDY_ARRAY(struct catrovindy_box_plot, plot, 1)) {
    uint32_t kinds[CATROVINDY_KINDS];
    double values[CATROVINDY_VALUES];
    const uint64_t code = catrovindy_plot(slots, count, weights, horizon, pmf, pmf_length, survival, survival_length, kinds, values);
    if (code == CATROVINDY_ACCEPTED) {
        plot[0].p5 = catrovindy_plot_item_at(kinds, values, CATROVINDY_P5);
        plot[0].p25 = catrovindy_plot_item_at(kinds, values, CATROVINDY_P25);
        plot[0].p50 = catrovindy_plot_item_at(kinds, values, CATROVINDY_P50);
        plot[0].p75 = catrovindy_plot_item_at(kinds, values, CATROVINDY_P75);
        plot[0].p95 = catrovindy_plot_item_at(kinds, values, CATROVINDY_P95);
        plot[0].lower = values[CATROVINDY_VALUE_LOWER];
        plot[0].upper = values[CATROVINDY_VALUE_UPPER];
        plot[0].has_iqr = kinds[CATROVINDY_KIND_IQR];
        plot[0].iqr = values[CATROVINDY_VALUE_IQR];
    }
    return code;
}

#endif
