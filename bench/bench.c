/* The benchmark: nanoseconds per answer of the engine's library, of plain C doubles and of Arb in two ways, in one run.

   bench                                   checks that all agree, then measures and prints a table for each model, first
                                           at periods with a row, then between rows
   bench count CONTESTANT MODEL PERIODS N  only works out N answers, for a counter of instructions; PERIODS is tabled or
                                           between

   Scenarios are drawn over all the limits of a model, with a fixed seed, and kept in memory with their records.  Those
   between rows are the same but for their periods.  They have the distance that the model reads and not the other, so
   that the figures can be compared with those of before there were two. */

#include <math.h>
#include <sched.h>
#include <stdio.h>
#include <stdlib.h>
#include <string.h>
#include <time.h>

#include "peers.h"

enum { SCENARIOS = 1024, SHEET = 64, PASSES = 16, ROUNDS = 101, RECORD_ROOM = 16 };

/* How far plain C may lie outside of our ends, in units of a natural logarithm. */
#define PLAIN_MAY_DIFFER 1e-6

typedef struct {
    fusnoch_scenario scenario[SCENARIOS];
    uint8_t record[SCENARIOS][RECORD_ROOM];
    size_t length[SCENARIOS];
    /* Whether the periods lie between rows. */
    int between;
} drawn;

static const char *const MODEL_NAMES[2] = {"Idriss 2014", "Boore and Atkinson 2008"};

/* Everything that the contestants return ends up here. */
static volatile uint64_t consumed;
static volatile double consumed_double;

/* ---- The scenarios ---- */

/* The next number of a generator (splitmix64), from 0 to less than the limit. */
static uint32_t draw(uint64_t *state, uint32_t limit)
{
    uint64_t x = *state += 0x9e3779b97f4a7c15;
    x = (x ^ x >> 30) * 0xbf58476d1ce4e5b9;
    x = (x ^ x >> 27) * 0x94d049bb133111eb;
    return (uint32_t)((x ^ x >> 31) % limit);
}

/* Periods with a row, peak acceleration first. */
static const uint16_t IDRISS_PERIODS[] = {0,   10,  20,  30,  40,   50,   75,   100,  150,  200,  250, 300,
                                          400, 500, 750, 1000, 1500, 2000, 3000, 4000, 5000, 7500, 10000};
static const uint16_t BOORE_ATKINSON_PERIODS[] = {0,   10,  20,  30,   50,   75,   100,  150,  200,  250,  300,
                                                  400, 500, 750, 1000, 1500, 2000, 3000, 4000, 5000, 7500, 10000};
enum {
    OF_IDRISS = sizeof IDRISS_PERIODS / sizeof *IDRISS_PERIODS,
    OF_BOORE_ATKINSON = sizeof BOORE_ATKINSON_PERIODS / sizeof *BOORE_ATKINSON_PERIODS
};

static fusnoch_scenario draw_idriss(uint64_t *state)
{
    fusnoch_scenario s = {.model = 1, .rupture_present = 1};
    s.magnitude = 450 + draw(state, 790 - 450 + 1);
    s.rupture_distance = draw(state, 17500 + 1);
    s.velocity = 4500 + draw(state, 20000 - 4500 + 1);
    s.mechanism = draw(state, 5);
    s.period = IDRISS_PERIODS[draw(state, OF_IDRISS)];
    return s;
}

static fusnoch_scenario draw_boore_atkinson(uint64_t *state)
{
    static const uint8_t codes[] = {0, 1, 2, 3, 9};
    fusnoch_scenario s = {.model = 2, .projection_present = 1};
    s.magnitude = 500 + draw(state, 800 - 500 + 1);
    s.projection_distance = draw(state, 19999 + 1);
    s.velocity = 1800 + draw(state, 13000 - 1800 + 1);
    s.mechanism = codes[draw(state, sizeof codes)];
    s.period = BOORE_ATKINSON_PERIODS[draw(state, OF_BOORE_ATKINSON)];
    return s;
}

/* Two neighbouring rows of the model, all such pairs alike, and a period between them; peak acceleration is no
   neighbour. */
static uint16_t draw_between(uint64_t *state, int model)
{
    const uint16_t *periods = model == 1 ? IDRISS_PERIODS : BOORE_ATKINSON_PERIODS;
    uint32_t lower = 1 + draw(state, (model == 1 ? OF_IDRISS : OF_BOORE_ATKINSON) - 2);
    return periods[lower] + 1 + draw(state, periods[lower + 1] - periods[lower] - 1);
}

static uint8_t *put_two(uint8_t *place, uint16_t number)
{
    *place++ = number & 0xff;
    *place++ = number >> 8;
    return place;
}

/* Write the record of a scenario and return its length: a map byte, then the fields that are not absent and have no
   absent number. */
static size_t encode(uint8_t *record, fusnoch_scenario s)
{
    uint8_t *place = record;
    *place++ = 3 | (s.rupture_present != 0) << 2 | (s.velocity != 7600) << 3 | (s.mechanism != 9) << 4
             | (s.period != 0) << 5 | (s.projection_present != 0) << 6;
    *place++ = s.model;
    place = put_two(place, s.magnitude);
    if (s.rupture_present)
        place = put_two(place, s.rupture_distance);
    if (s.velocity != 7600)
        place = put_two(place, s.velocity);
    if (s.mechanism != 9)
        *place++ = s.mechanism;
    if (s.period != 0)
        place = put_two(place, s.period);
    if (s.projection_present)
        place = put_two(place, s.projection_distance);
    return (size_t)(place - record);
}

/* Periods between rows come from a generator of their own, so that all other fields are those of the tabled ones. */
static void draw_all(drawn *all, int model, int between)
{
    uint64_t state = 20140801 + (uint64_t)model, state_between = 20080201 + (uint64_t)model;
    all->between = between;
    for (int i = 0; i < SCENARIOS; i++) {
        all->scenario[i] = model == 1 ? draw_idriss(&state) : draw_boore_atkinson(&state);
        if (between)
            all->scenario[i].period = draw_between(&state_between, model);
        all->length[i] = encode(all->record[i], all->scenario[i]);
    }
}

/* ---- The contestants, each a loop that goes round the scenarios ---- */

static uint64_t mixed(fusnoch_answer a)
{
    return (uint64_t)(a.number + a.median_low + a.median_high + a.sigma_low + a.sigma_high);
}

static double mixed_doubles(fusnoch_doubles a)
{
    return a.number + a.median_low + a.median_high + a.sigma_low + a.sigma_high;
}

static void run_fields(const drawn *all, size_t answers)
{
    uint64_t sum = 0;
    for (size_t i = 0; i < answers; i++)
        sum += mixed(fusnoch_answer_fields(all->scenario[i % SCENARIOS]));
    consumed += sum;
}

static void run_record(const drawn *all, size_t answers)
{
    uint64_t sum = 0;
    for (size_t i = 0; i < answers; i++)
        sum += mixed(fusnoch_answer_record(all->record[i % SCENARIOS], all->length[i % SCENARIOS]));
    consumed += sum;
}

static void run_fields_in_doubles(const drawn *all, size_t answers)
{
    double sum = 0;
    for (size_t i = 0; i < answers; i++)
        sum += mixed_doubles(fusnoch_answer_fields_in_doubles(all->scenario[i % SCENARIOS]));
    consumed_double += sum;
}

static void run_record_in_doubles(const drawn *all, size_t answers)
{
    double sum = 0;
    for (size_t i = 0; i < answers; i++)
        sum += mixed_doubles(
            fusnoch_answer_record_in_doubles(all->record[i % SCENARIOS], all->length[i % SCENARIOS]));
    consumed_double += sum;
}

static void run_millionths(const drawn *all, size_t answers)
{
    uint64_t sum = 0;
    for (size_t i = 0; i < answers; i++) {
        fusnoch_bounds b = fusnoch_millionths(all->scenario[i % SCENARIOS]);
        sum += (uint64_t)b.number + b.low + b.high;
    }
    consumed += sum;
}

/* The sheet of the scenarios from the i-th on. */
static fusnoch_sheet sheet_from(const drawn *all, size_t i)
{
    fusnoch_scenarios scenarios;
    memcpy(scenarios.places, all->scenario + i, sizeof scenarios.places);
    return fusnoch_answer_sheet(SHEET, scenarios);
}

static fusnoch_answer at_place(const fusnoch_sheet *sheet, size_t i)
{
    return (fusnoch_answer){sheet->numbers[i], sheet->median_low[i], sheet->median_high[i], sheet->sigma_low[i],
                            sheet->sigma_high[i]};
}

/* Answers are a multiple of SHEET. */
static void run_sheet(const drawn *all, size_t answers)
{
    uint64_t sum = 0;
    for (size_t i = 0; i < answers; i += SHEET) {
        fusnoch_sheet sheet = sheet_from(all, i % SCENARIOS);
        for (size_t place = 0; place < sheet.count; place++)
            sum += mixed(at_place(&sheet, place));
    }
    consumed += sum;
}

static void run_plain(const drawn *all, size_t answers)
{
    plain_answer (*answer)(fusnoch_scenario) = all->between ? answer_between_in_plain_c : answer_in_plain_c;
    double sum = 0;
    for (size_t i = 0; i < answers; i++) {
        plain_answer a = answer(all->scenario[i % SCENARIOS]);
        sum += a.median + a.sigma;
    }
    consumed_double += sum;
}

static inline void run_arb(const drawn *all, size_t answers, void (*answer)(arb_t, arb_t, fusnoch_scenario))
{
    uint64_t sum = 0;
    arb_t median, sigma;
    arb_init(median);
    arb_init(sigma);
    for (size_t i = 0; i < answers; i++) {
        answer(median, sigma, all->scenario[i % SCENARIOS]);
        sum += (uint64_t)(ARF_EXP(arb_midref(median)) + ARF_EXP(arb_midref(sigma)));
    }
    consumed += sum;
    arb_clear(median);
    arb_clear(sigma);
}

static void run_arb_terms(const drawn *all, size_t answers)
{
    if (all->between)
        run_arb(all, answers, answer_between_in_arb_terms);
    else
        run_arb(all, answers, answer_in_arb_terms);
}

static void run_arb_tuned(const drawn *all, size_t answers)
{
    if (all->between)
        run_arb(all, answers, answer_between_in_arb_tuned);
    else
        run_arb(all, answers, answer_in_arb_tuned);
}

/* The loop alone.  The empty line keeps the compiler from taking several scenarios at a time. */
static void run_nothing(const drawn *all, size_t answers)
{
    uint64_t sum = 0;
    for (size_t i = 0; i < answers; i++) {
        sum += all->scenario[i % SCENARIOS].magnitude;
        __asm__ volatile("" : "+r"(sum));
    }
    consumed += sum;
}

typedef struct {
    const char *name, *title;
    void (*run)(const drawn *all, size_t answers);
} contestant;

/* The first six are ours; the table of times leaves the last one out.  The peers give logarithms alone. */
enum { OURS = 6, PLAIN = 6, ARB_TERMS = 7, ARB_TUNED = 8, TIMED = 9, CONTESTANTS = 10 };
static const contestant CONTESTANT[CONTESTANTS] = {
    {"fields", "ours, from fields", run_fields},
    {"record", "ours, from a record", run_record},
    {"fields_in_doubles", "ours, from fields, in doubles", run_fields_in_doubles},
    {"record_in_doubles", "ours, from a record, in doubles", run_record_in_doubles},
    {"millionths", "ours, from fields, in millionths", run_millionths},
    {"sheet", "ours, from fields, 64 in one call", run_sheet},
    {"plain", "plain C doubles", run_plain},
    {"arb_terms", "Arb, 64 bits, term by term", run_arb_terms},
    {"arb_tuned", "Arb, 64 bits, tuned", run_arb_tuned},
    {"nothing", "the loop alone", run_nothing},
};

/* ---- Do they agree? ---- */

/* What they answer to one scenario. */
typedef struct {
    fusnoch_answer ours;
    plain_answer plain;
    arb_t terms_median, terms_sigma, tuned_median, tuned_sigma;
} answered;

/* The distance of a value from our ends, 0 within them. */
static double outside(double value, int64_t low, int64_t high)
{
    return fmax(fmax((double)low * 1e-9 - value, value - (double)high * 1e-9), 0);
}

/* Say whether the ball and our ends, in units of 10^-9, have a point in common. */
static int meets(const arb_t ball, int64_t low, int64_t high)
{
    arb_t units, end;
    int met;
    arb_init(units);
    arb_init(end);
    arb_mul_ui(units, ball, 1000000000, 128);
    arb_set_si(end, low);
    met = !arb_lt(units, end);
    arb_set_si(end, high);
    met = met && low <= high && !arb_gt(units, end);
    arb_clear(units);
    arb_clear(end);
    return met;
}

static int both_meet(const arb_t median, const arb_t sigma, fusnoch_answer ours)
{
    return meets(median, ours.median_low, ours.median_high) && meets(sigma, ours.sigma_low, ours.sigma_high);
}

static int same(fusnoch_answer a, fusnoch_answer b)
{
    return a.number == b.number && a.median_low == b.median_low && a.median_high == b.median_high
        && a.sigma_low == b.sigma_low && a.sigma_high == b.sigma_high;
}

static int same_in_doubles(fusnoch_answer a, fusnoch_doubles b)
{
    return a.number == b.number && (double)a.median_low == b.median_low && (double)a.median_high == b.median_high
        && (double)a.sigma_low == b.sigma_low && (double)a.sigma_high == b.sigma_high;
}

/* Say whether 10^6 exp of the ball and our millionths have a point in common; a low of 0 is no bound. */
static int meets_millionths(const arb_t ball, fusnoch_bounds ours)
{
    arb_t millionths;
    int met;
    arb_init(millionths);
    arb_exp(millionths, ball, 128);
    arb_mul_ui(millionths, millionths, 1000000, 128);
    arb_sub_ui(millionths, millionths, ours.low, 128);
    met = ours.number == 0 && (ours.low == 0 || !arb_is_negative(millionths));
    arb_sub_ui(millionths, millionths, ours.high - ours.low, 128);
    met = met && ours.low <= ours.high && !arb_is_positive(millionths);
    arb_clear(millionths);
    return met;
}

static int same_in_sheet(const drawn *all, size_t i, fusnoch_answer a)
{
    fusnoch_sheet sheet = sheet_from(all, i - i % SHEET);
    return sheet.number == 0 && sheet.count == SHEET && same(a, at_place(&sheet, i % SHEET));
}

/* Return what is wrong with the answers to a scenario, or a null pointer. */
static const char *fault_of(const drawn *all, int i, const answered *a)
{
    const uint8_t *record = all->record[i];
    size_t length = all->length[i];
    if (a->ours.number != 0)
        return "our library refuses an accepted scenario";
    if (!same(a->ours, fusnoch_answer_record(record, length)))
        return "our answers from fields and from a record differ";
    if (!same_in_doubles(a->ours, fusnoch_answer_fields_in_doubles(all->scenario[i]))
        || !same_in_doubles(a->ours, fusnoch_answer_record_in_doubles(record, length)))
        return "our answers in doubles differ";
    if (!same_in_sheet(all, (size_t)i, a->ours))
        return "our answer in a sheet differs";
    if (!(outside(a->plain.median, a->ours.median_low, a->ours.median_high) <= PLAIN_MAY_DIFFER)
        || !(outside(a->plain.sigma, a->ours.sigma_low, a->ours.sigma_high) <= PLAIN_MAY_DIFFER))
        return "plain C lies too far outside of our ends";
    if (!both_meet(a->terms_median, a->terms_sigma, a->ours))
        return "a ball of Arb, term by term, does not meet our ends";
    if (!both_meet(a->tuned_median, a->tuned_sigma, a->ours))
        return "a ball of Arb, tuned, does not meet our ends";
    if (!meets_millionths(a->tuned_median, fusnoch_millionths(all->scenario[i])))
        return "a ball of Arb does not meet our millionths";
    if (!arb_overlaps(a->terms_median, a->tuned_median) || !arb_overlaps(a->terms_sigma, a->tuned_sigma))
        return "the balls of the two ways of Arb do not meet";
    return NULL;
}

static void print_balls(const char *way, const arb_t median, const arb_t sigma)
{
    printf("  %s median ", way);
    arb_printd(median, 20);
    printf(", sigma ");
    arb_printd(sigma, 20);
    printf("\n");
}

static void print_fault(const char *fault, fusnoch_scenario s, const answered *a)
{
    printf("%s:\n", fault);
    printf("  model %d, magnitude %d, distance %d, velocity %d, mechanism %d, period %d\n", s.model, s.magnitude,
           s.model == 1 ? s.rupture_distance : s.projection_distance, s.velocity, s.mechanism, s.period);
    printf("  ours      number %d, median %lld to %lld, sigma %lld to %lld (units of 10^-9)\n", a->ours.number,
           (long long)a->ours.median_low, (long long)a->ours.median_high, (long long)a->ours.sigma_low,
           (long long)a->ours.sigma_high);
    printf("  plain C   median %.12f, sigma %.12f\n", a->plain.median, a->plain.sigma);
    print_balls("Arb terms", a->terms_median, a->terms_sigma);
    print_balls("Arb tuned", a->tuned_median, a->tuned_sigma);
}

static void ask_all(answered *a, fusnoch_scenario s, int between)
{
    a->ours = fusnoch_answer_fields(s);
    if (between) {
        a->plain = answer_between_in_plain_c(s);
        answer_between_in_arb_terms(a->terms_median, a->terms_sigma, s);
        answer_between_in_arb_tuned(a->tuned_median, a->tuned_sigma, s);
    } else {
        a->plain = answer_in_plain_c(s);
        answer_in_arb_terms(a->terms_median, a->terms_sigma, s);
        answer_in_arb_tuned(a->tuned_median, a->tuned_sigma, s);
    }
}

/* Say whether all contestants agree on all the scenarios; print the first one on which they do not. */
static int agree(const drawn *all)
{
    const char *fault = NULL;
    answered a;
    arb_ptr balls[] = {a.terms_median, a.terms_sigma, a.tuned_median, a.tuned_sigma};
    for (int ball = 0; ball < 4; ball++)
        arb_init(balls[ball]);
    for (int i = 0; i < SCENARIOS && fault == NULL; i++) {
        ask_all(&a, all->scenario[i], all->between);
        fault = fault_of(all, i, &a);
        if (fault != NULL)
            print_fault(fault, all->scenario[i], &a);
    }
    for (int ball = 0; ball < 4; ball++)
        arb_clear(balls[ball]);
    return fault == NULL;
}

/* ---- Measuring ---- */

/* Processor time, so that other programs on the machine count for less. */
static double nanoseconds(void)
{
    struct timespec now;
    clock_gettime(CLOCK_PROCESS_CPUTIME_ID, &now);
    return (double)now.tv_sec * 1e9 + (double)now.tv_nsec;
}

static int in_order(const void *a, const void *b)
{
    double first = *(const double *)a, second = *(const double *)b;
    return (first > second) - (first < second);
}

/* Return the nanoseconds per answer of one contestant in one round. */
static double time_of(const contestant *who, const drawn *all)
{
    double start = nanoseconds();
    who->run(all, (size_t)PASSES * SCENARIOS);
    return (nanoseconds() - start) / (PASSES * SCENARIOS);
}

/* Fill in the times of all rounds, in order, by model and contestant; a first round only warms up. */
static void measure(const drawn all[2], double times[2][TIMED][ROUNDS])
{
    for (int round = -1; round < ROUNDS; round++) {
        for (int i = 0; i < 2 * TIMED; i++) {
            double taken = time_of(&CONTESTANT[i % TIMED], &all[i / TIMED]);
            if (round >= 0)
                times[i / TIMED][i % TIMED][round] = taken;
        }
    }
    for (int i = 0; i < 2 * TIMED; i++)
        qsort(times[i / TIMED][i % TIMED], ROUNDS, sizeof(double), in_order);
}

static void print_times(int model, double times[TIMED][ROUNDS])
{
    printf("\n%-35s %8s %8s %14s %18s %18s\n", MODEL_NAMES[model - 1], "best", "median", "ours / plain",
           "Arb terms / ours", "Arb tuned / ours");
    for (int who = 0; who < TIMED; who++) {
        double best = times[who][0];
        printf("  %-33s %8.1f %8.1f", CONTESTANT[who].title, best, times[who][ROUNDS / 2]);
        if (who < OURS)
            printf(" %14.2f %18.2f %18.2f", best / times[PLAIN][0], times[ARB_TERMS][0] / best,
                   times[ARB_TUNED][0] / best);
        printf("\n");
    }
}

/* Keep to the core that the program is on.  Where this is not allowed, the measurement goes on without. */
static void keep_to_one_core(void)
{
    cpu_set_t cores;
    int core = sched_getcpu();
    if (core < 0)
        return;
    CPU_ZERO(&cores);
    CPU_SET(core, &cores);
    if (sched_setaffinity(0, sizeof cores, &cores) != 0)
        fprintf(stderr, "bench: not held to one core\n");
}

/* Measure both models and print a table for each. */
static void measure_and_print(const drawn all[2])
{
    static double times[2][TIMED][ROUNDS];
    measure(all, times);
    for (int model = 1; model <= 2; model++)
        print_times(model, times[model - 1]);
}

static int compare(void)
{
    static drawn tabled[2], between[2];

    keep_to_one_core();
    for (int model = 1; model <= 2; model++) {
        draw_all(&tabled[model - 1], model, 0);
        draw_all(&between[model - 1], model, 1);
        if (!agree(&tabled[model - 1]) || !agree(&between[model - 1]))
            return 1;
    }
    printf("Nanoseconds per answer, one thread: %d scenarios of each model, drawn over all its limits.\n", SCENARIOS);
    printf("The contestants take turns, %d rounds of %d answers each; the best round and the median of the rounds.\n",
           ROUNDS, PASSES * SCENARIOS);
    printf("Before the measurement all contestants agreed on all of the scenarios.  Ratios are of the best rounds.\n");
    measure_and_print(tabled);
    printf("\nBetween rows: the same scenarios at periods without a row, drawn over all pairs of neighbouring rows.\n");
    measure_and_print(between);
    return 0;
}

static int count(const char *name, const char *model, const char *periods, const char *answers)
{
    static drawn all;
    int number = atoi(model), between = strcmp(periods, "between") == 0;
    int known = (number == 1 || number == 2) && (between || strcmp(periods, "tabled") == 0);
    for (int who = 0; who < CONTESTANTS; who++) {
        if (known && strcmp(name, CONTESTANT[who].name) == 0) {
            draw_all(&all, number, between);
            CONTESTANT[who].run(&all, strtoul(answers, NULL, 10));
            return 0;
        }
    }
    fprintf(stderr, "bench: no contestant %s, no model %s or no periods %s\n", name, model, periods);
    return 2;
}

int main(int words, char **word)
{
    ready_plain_c();
    ready_arb();
    if (words == 1)
        return compare();
    if (words == 6 && strcmp(word[1], "count") == 0)
        return count(word[2], word[3], word[4], word[5]);
    fprintf(stderr, "usage: bench, or bench count CONTESTANT MODEL PERIODS N\n");
    return 2;
}
