/* The peer in Arb: both models over balls of 64 bits, which enclose the value as our engine's ends do.
   Coefficients and constants become balls once, and all balls that an answer needs are made once.  The parts that can
   be done term by term or tuned are in arb_terms.c and arb_tuned.c; all the rest is here.  What answers at rows share
   with those between rows is inline, so that it costs the former no calls. */

#include "arb_shared.h"

#define PERIOD(period, ...) period,
static const uint16_t IDRISS_PERIODS[ROWS] = {IDRISS_TABLE_2(PERIOD)};
static const uint16_t BOORE_ATKINSON_PERIODS[ROWS] = {BOORE_ATKINSON_TABLES(PERIOD)};

#define TEXT(period, a1, a2, a3, b1, b2, xi, gamma, phi) {#a1, #a2, #a3, #b1, #b2, #xi, #gamma, #phi},
static const char *const IDRISS_TEXT[2][ROWS][IDRISS_COLUMNS] = {{IDRISS_TABLE_2(TEXT)}, {IDRISS_TABLE_3(TEXT)}};
#undef TEXT
#define TEXT(period, blin, b1, b2, c1, c2, c3, h, e1, e2, e3, e4, e5, e6, e7, hinge, unspecified, specified) \
    {#e5, #e6, #c1, #c2, #c3, #e7, #e1, #e2, #e3, #e4, #blin, #b1, #b2, #unspecified, #specified},
static const char *const BOORE_ATKINSON_TEXT[ROWS][BOORE_ATKINSON_COLUMNS] = {BOORE_ATKINSON_TABLES(TEXT)};

#define H(period, blin, b1, b2, c1, c2, c3, h, ...) (ulong)(100 * h + 0.5),
const ulong H_HUNDREDTHS[ROWS] = {BOORE_ATKINSON_TABLES(H)};
#define HINGE(period, blin, b1, b2, c1, c2, c3, h, e1, e2, e3, e4, e5, e6, e7, hinge, ...) (slong)(100 * hinge + 0.5),
const slong HINGE_HUNDREDTHS[ROWS] = {BOORE_ATKINSON_TABLES(HINGE)};

/* What each column is divided by: 1, or the units of its field in one. */
static const ulong IDRISS_UNITS[IDRISS_COLUMNS] = {1, 100, 10000, 1, 100, 1, 100, 1};
static const ulong BOORE_ATKINSON_UNITS[BOORE_ATKINSON_COLUMNS] = {100, 10000, 1, 100, 100, 100, 1, 1, 1, 1, 1, 1, 1,
                                                                   1, 1};

const uint8_t E_OF_CODE[10] = {[0] = E1 + 1, [1] = E1 + 2, [2] = E1 + 3, [3] = E1 + 3, [9] = E1};

/* Of Idriss, first the coefficients for magnitudes up to 6.75, then those above it. */
static arb_struct idriss_balls[2][ROWS][IDRISS_COLUMNS];
arb_struct boore_atkinson_balls[ROWS][BOORE_ATKINSON_COLUMNS];

/* 1.18 + 0.035 ln T of each period, T held to 0.05 s to 3 s, and 0.06 for a hundredth of magnitude. */
static arb_struct sigma_of_period[ROWS];
static arb_t sigma_of_magnitude;

/* The same between rows, from ln T of thousandths of a second: 1.18 - 0.035 ln 1000, and 0.035. */
static arb_t sigma_constant, sigma_of_ln_period;

/* From a row to the next: ln T1, of thousandths of a second, and 1 / ln(T2/T1). */
typedef struct {
    arb_t ln_lower, to_upper;
} interval;

static interval idriss_intervals[ROWS - 1], boore_atkinson_intervals[ROWS - 1];

arb_t ln_10, ln_100, ln_10000, ln_0_03, ln_0_09;
static arb_t ln_3000, ln_7600, ln_0_1, ln_0_6;
/* 1 / ln(180/300), 1 / ln(300/760), and c and d of the nonlinear part over the slope */
static arb_t to_180, to_300, c_over_slope, d_over_slope;

/* Balls that are written anew for each answer. */
static arb_t ln_v, ln_v_over_760, factor, rock, rock_acceleration, bnl, nonlinear, z, branch;
/* Those that only answers between rows need. */
static arb_t ln_period, weight, difference, upper_median, upper_bnl;

/* x becomes ln(a/b). */
static void set_ln(arb_t x, ulong a, ulong b)
{
    arb_set_ui(x, a);
    arb_div_ui(x, x, b, 2 * BITS);
    arb_log(x, x, BITS);
}

/* x becomes the decimal over the units. */
static void set_decimal(arb_t x, const char *decimal, ulong units)
{
    arb_set_str(x, decimal, 2 * BITS);
    arb_div_ui(x, x, units, BITS);
}

static void ready_tables(void)
{
    for (int row = 0; row < ROWS; row++) {
        for (int table = 0; table < 2; table++) {
            for (int column = 0; column < IDRISS_COLUMNS; column++) {
                arb_ptr ball = &idriss_balls[table][row][column];
                arb_init(ball);
                set_decimal(ball, IDRISS_TEXT[table][row][column], IDRISS_UNITS[column]);
            }
        }
        for (int column = 0; column < BOORE_ATKINSON_COLUMNS; column++) {
            arb_ptr ball = &boore_atkinson_balls[row][column];
            arb_init(ball);
            set_decimal(ball, BOORE_ATKINSON_TEXT[row][column], BOORE_ATKINSON_UNITS[column]);
        }
    }
}

static void ready_sigma(void)
{
    arb_t scale, constant;

    arb_init(scale);
    arb_init(constant);
    set_decimal(scale, "0.035", 1);
    set_decimal(constant, "1.18", 1);
    for (int row = 0; row < ROWS; row++) {
        ulong period = IDRISS_PERIODS[row];
        arb_ptr ball = &sigma_of_period[row];
        arb_init(ball);
        set_ln(ball, period < 50 ? 50 : period > 3000 ? 3000 : period, 1000);
        arb_mul(ball, ball, scale, BITS);
        arb_add(ball, ball, constant, BITS);
    }
    arb_init(sigma_of_magnitude);
    set_decimal(sigma_of_magnitude, "0.06", 100);
    arb_init(sigma_of_ln_period);
    arb_set(sigma_of_ln_period, scale);
    arb_init(sigma_constant);
    set_ln(sigma_constant, 1, 1000);
    arb_mul(sigma_constant, sigma_constant, scale, BITS);
    arb_add(sigma_constant, sigma_constant, constant, BITS);
    arb_clear(scale);
    arb_clear(constant);
}

/* The row PGA is no neighbour of any period. */
static void ready_intervals(interval *intervals, const uint16_t *periods)
{
    for (int row = periods[0] == 0 ? 1 : 0; row + 1 < ROWS; row++) {
        arb_init(intervals[row].ln_lower);
        arb_init(intervals[row].to_upper);
        set_ln(intervals[row].ln_lower, periods[row], 1);
        set_ln(intervals[row].to_upper, periods[row + 1], periods[row]);
        arb_inv(intervals[row].to_upper, intervals[row].to_upper, BITS);
    }
}

/* c and d over the slope: (3 y - x)/x^2 and (x - 2 y)/x^3 with x = ln 3 and y = ln 1.5. */
static void ready_transition(void)
{
    arb_t x, y;

    arb_init(x);
    arb_init(y);
    set_ln(x, 3, 1);
    set_ln(y, 3, 2);
    arb_mul_ui(c_over_slope, y, 3, BITS);
    arb_sub(c_over_slope, c_over_slope, x, BITS);
    arb_div(c_over_slope, c_over_slope, x, BITS);
    arb_div(c_over_slope, c_over_slope, x, BITS);
    arb_set(d_over_slope, x);
    arb_submul_ui(d_over_slope, y, 2, BITS);
    for (int power = 0; power < 3; power++)
        arb_div(d_over_slope, d_over_slope, x, BITS);
    arb_clear(x);
    arb_clear(y);
}

static void ready_constants(void)
{
    static const struct {
        arb_ptr ball;
        ulong a, b;
    } logarithms[] = {{ln_10, 10, 1},     {ln_100, 100, 1}, {ln_10000, 10000, 1}, {ln_3000, 3000, 1},
                      {ln_7600, 7600, 1}, {ln_0_03, 3, 100}, {ln_0_09, 9, 100},   {ln_0_1, 1, 10},
                      {ln_0_6, 6, 10},    {to_180, 180, 300}, {to_300, 300, 760}};

    for (size_t i = 0; i < sizeof logarithms / sizeof *logarithms; i++) {
        arb_init(logarithms[i].ball);
        set_ln(logarithms[i].ball, logarithms[i].a, logarithms[i].b);
    }
    arb_inv(to_180, to_180, BITS);
    arb_inv(to_300, to_300, BITS);
}

void ready_arb(void)
{
    arb_ptr balls[] = {ln_v, ln_v_over_760, factor, rock, rock_acceleration, bnl, nonlinear, z, branch, c_over_slope,
                       d_over_slope, ln_period, weight, difference, upper_median, upper_bnl};

    for (size_t i = 0; i < sizeof balls / sizeof *balls; i++)
        arb_init(balls[i]);
    ready_tables();
    ready_sigma();
    ready_intervals(idriss_intervals, IDRISS_PERIODS);
    ready_intervals(boore_atkinson_intervals, BOORE_ATKINSON_PERIODS);
    ready_transition();
    ready_constants();
    TERM_BY_TERM.ready();
    TUNED.ready();
}

/* The row of a tabled period. */
static size_t row_of(const uint16_t *periods, uint16_t period)
{
    size_t row = 0;
    while (periods[row] != period)
        row++;
    return row;
}

/* The row before a period that lies between two. */
static size_t row_before(const uint16_t *periods, uint16_t period)
{
    size_t row = 0;
    while (periods[row + 1] < period)
        row++;
    return row;
}

/* The weight becomes how far the period is from the row before it to the next, 0 to 1. */
static void weigh(const interval *i, uint16_t period)
{
    arb_log_ui(ln_period, period, BITS);
    arb_sub(weight, ln_period, i->ln_lower, BITS);
    arb_mul(weight, weight, i->to_upper, BITS);
}

/* The value of the row before becomes the one between it and that of the next, by the weight. */
static void go_between(arb_t value, const arb_t next)
{
    arb_sub(difference, next, value, BITS);
    arb_addmul(value, difference, weight, BITS);
}

static void idriss(const arb_way *way, arb_t median, arb_t sigma, fusnoch_scenario s)
{
    size_t row = s.period == 0 ? 0 : row_of(IDRISS_PERIODS, s.period);

    way->idriss_median(median, idriss_balls[s.magnitude > 675][row], s);
    arb_set(sigma, &sigma_of_period[row]);
    arb_submul_ui(sigma, sigma_of_magnitude, s.magnitude < 500 ? 500 : s.magnitude > 750 ? 750 : s.magnitude, BITS);
}

static void idriss_between(const arb_way *way, arb_t median, arb_t sigma, fusnoch_scenario s)
{
    size_t row = row_before(IDRISS_PERIODS, s.period);
    int table = s.magnitude > 675;

    weigh(&idriss_intervals[row], s.period);
    way->idriss_median(median, idriss_balls[table][row], s);
    way->idriss_again(upper_median, idriss_balls[table][row + 1], s);
    go_between(median, upper_median);
    /* Where T is held, sigma is that of the row. */
    if (s.period < 50 || s.period > 3000) {
        arb_set(sigma, &sigma_of_period[row]);
    } else {
        arb_set(sigma, sigma_constant);
        arb_addmul(sigma, sigma_of_ln_period, ln_period, BITS);
    }
    arb_submul_ui(sigma, sigma_of_magnitude, s.magnitude < 500 ? 500 : s.magnitude > 750 ? 750 : s.magnitude, BITS);
}

/* x becomes the slope bnl of the site term, from the logarithms of the velocity. */
static inline void slope(arb_t x, arb_srcptr at, uint16_t velocity)
{
    if (velocity <= 1800) {
        arb_set(x, &at[B1_SITE]);
    } else if (velocity <= 3000) {
        arb_sub(x, ln_v, ln_3000, BITS);
        arb_mul(x, x, to_180, BITS);
        arb_sub(factor, &at[B1_SITE], &at[B2_SITE], BITS);
        arb_mul(x, x, factor, BITS);
        arb_add(x, x, &at[B2_SITE], BITS);
    } else if (velocity < 7600) {
        arb_mul(x, ln_v_over_760, to_300, BITS);
        arb_mul(x, x, &at[B2_SITE], BITS);
    } else {
        arb_zero(x);
    }
}

/* The nonlinear part over the slope between the thresholds, with z = p - ln 0.03. */
static inline void transition(arb_t sum)
{
    arb_set(sum, c_over_slope);
    arb_addmul(sum, d_over_slope, z, BITS);
    arb_mul(sum, sum, z, BITS);
    arb_mul(sum, sum, z, BITS);
    arb_add(sum, sum, ln_0_6, BITS);
}

/* The nonlinear part over the slope: the one branch that p reaches, or the union of those that it may reach. */
static inline void nonlinear_over_slope(const arb_way *way, const arb_t p)
{
    int reached = way->branches(z, p), joined = 0;

    if (reached & UP_TO_LOWER) {
        arb_set(nonlinear, ln_0_6);
        joined = 1;
    }
    if (reached & BETWEEN) {
        transition(joined ? branch : nonlinear);
        if (joined)
            arb_union(nonlinear, nonlinear, branch, BITS);
        joined = 1;
    }
    if (reached & ABOVE_UPPER) {
        arb_sub(joined ? branch : nonlinear, p, ln_0_1, BITS);
        if (joined)
            arb_union(nonlinear, nonlinear, branch, BITS);
    }
}

static void boore_atkinson(const arb_way *way, arb_t median, arb_t sigma, fusnoch_scenario s)
{
    size_t row = row_of(BOORE_ATKINSON_PERIODS, s.period);
    arb_srcptr at = boore_atkinson_balls[row];

    arb_log_ui(ln_v, s.velocity, BITS);
    arb_sub(ln_v_over_760, ln_v, ln_7600, BITS);
    way->on_rock(rock, row, s);
    slope(bnl, at, s.velocity);

    arb_mul(median, &at[BLIN], ln_v_over_760, BITS);
    arb_add(median, median, rock, BITS);
    /* Without a slope there is no need of p, and for the row PGA it is known already. */
    if (!arb_is_zero(bnl)) {
        if (row != 0)
            way->on_rock(rock_acceleration, 0, s);
        nonlinear_over_slope(way, row == 0 ? rock : rock_acceleration);
        arb_addmul(median, bnl, nonlinear, BITS);
    }
    arb_set(sigma, &at[s.mechanism == 9 ? UNSPECIFIED : SPECIFIED]);
}

/* The distance term, the magnitude term and the linear part of a row. */
static void on_linear_ground(const arb_way *way, arb_t sum, size_t row, fusnoch_scenario s)
{
    way->on_rock(rock, row, s);
    arb_mul(sum, &boore_atkinson_balls[row][BLIN], ln_v_over_760, BITS);
    arb_add(sum, sum, rock, BITS);
}

static void boore_atkinson_between(const arb_way *way, arb_t median, arb_t sigma, fusnoch_scenario s)
{
    size_t row = row_before(BOORE_ATKINSON_PERIODS, s.period), column = s.mechanism == 9 ? UNSPECIFIED : SPECIFIED;
    arb_srcptr at = boore_atkinson_balls[row], next = boore_atkinson_balls[row + 1];

    weigh(&boore_atkinson_intervals[row], s.period);
    arb_log_ui(ln_v, s.velocity, BITS);
    arb_sub(ln_v_over_760, ln_v, ln_7600, BITS);
    on_linear_ground(way, median, row, s);
    on_linear_ground(way, upper_median, row + 1, s);
    slope(bnl, at, s.velocity);
    slope(upper_bnl, next, s.velocity);
    if (!arb_is_zero(bnl) || !arb_is_zero(upper_bnl)) {
        way->on_rock(rock_acceleration, 0, s);
        nonlinear_over_slope(way, rock_acceleration);
        arb_addmul(median, bnl, nonlinear, BITS);
        arb_addmul(upper_median, upper_bnl, nonlinear, BITS);
    }
    go_between(median, upper_median);
    arb_set(sigma, &at[column]);
    go_between(sigma, &next[column]);
}

static void answer(const arb_way *way, arb_t median, arb_t sigma, fusnoch_scenario s)
{
    if (s.model == 1)
        idriss(way, median, sigma, s);
    else
        boore_atkinson(way, median, sigma, s);
}

static void answer_between(const arb_way *way, arb_t median, arb_t sigma, fusnoch_scenario s)
{
    if (s.model == 1)
        idriss_between(way, median, sigma, s);
    else
        boore_atkinson_between(way, median, sigma, s);
}

void answer_in_arb_terms(arb_t median, arb_t sigma, fusnoch_scenario s)
{
    answer(&TERM_BY_TERM, median, sigma, s);
}

void answer_in_arb_tuned(arb_t median, arb_t sigma, fusnoch_scenario s)
{
    answer(&TUNED, median, sigma, s);
}

void answer_between_in_arb_terms(arb_t median, arb_t sigma, fusnoch_scenario s)
{
    answer_between(&TERM_BY_TERM, median, sigma, s);
}

void answer_between_in_arb_tuned(arb_t median, arb_t sigma, fusnoch_scenario s)
{
    answer_between(&TUNED, median, sigma, s);
}
