/* The plain peer at periods between two rows: ln PSA goes linearly with ln T from row to row, and so does the sigma of
   Boore-Atkinson.  What the two rows have in common is worked out once. */

#include "plain_shared.h"

#define LN_1000 6.9077552789821371
/* ln T where T is held to 0.05 s or 3 s */
#define LN_0_05 (-2.9957322735539910)
#define LN_3 1.0986122886681097

/* From a row to the next: ln T1, of thousandths of a second, and 1 / ln(T2/T1). */
typedef struct {
    double ln_lower, to_upper;
} interval;

static interval idriss_intervals[ROWS - 1], boore_atkinson_intervals[ROWS - 1];

/* The row PGA is no neighbour of any period. */
static void ready_intervals(interval *intervals, const uint16_t *periods)
{
    for (int row = periods[0] == 0 ? 1 : 0; row + 1 < ROWS; row++) {
        intervals[row].ln_lower = log(periods[row]);
        intervals[row].to_upper = 1 / (log(periods[row + 1]) - log(periods[row]));
    }
}

void ready_plain_c(void)
{
    ready_intervals(idriss_intervals, IDRISS_PERIODS);
    ready_intervals(boore_atkinson_intervals, BOORE_ATKINSON_PERIODS);
}

/* The row before the period. */
static size_t row_before(const uint16_t *periods, uint16_t period)
{
    size_t row = 0;
    while (periods[row + 1] < period)
        row++;
    return row;
}

/* How far the period is from the row before it to the next, 0 to 1. */
static double weight(const interval *i, double ln_period)
{
    return (ln_period - i->ln_lower) * i->to_upper;
}

static double idriss_median(const idriss_row *at, fusnoch_scenario s, double ln_r, double ln_v)
{
    double m = s.magnitude * 0.01;
    double r = s.rupture_distance * 0.01;
    double to_top = 8.5 - m;
    double median = at->a1 + at->a2 * m + at->a3 * to_top * to_top - (at->b1 + at->b2 * m) * ln_r + at->xi * ln_v
                  + at->gamma * r;

    return s.mechanism >= 2 ? median + at->phi : median;
}

static plain_answer idriss(fusnoch_scenario s)
{
    size_t row = row_before(IDRISS_PERIODS, s.period);
    const idriss_row *at = s.magnitude <= 675 ? &IDRISS_2[row] : &IDRISS_3[row];
    double ln_r = log(s.rupture_distance * 0.01 + 10);
    double ln_v = log((s.velocity < 12000 ? s.velocity : 12000) * 0.1);
    double ln_period = log(s.period);
    double ln_held = s.period < 50 ? LN_0_05 : s.period > 3000 ? LN_3 : ln_period - LN_1000;
    double held = (s.magnitude < 500 ? 500 : s.magnitude > 750 ? 750 : s.magnitude) * 0.01;
    double lower = idriss_median(at, s, ln_r, ln_v), upper = idriss_median(at + 1, s, ln_r, ln_v);
    plain_answer answer;

    answer.median = lower + (upper - lower) * weight(&idriss_intervals[row], ln_period);
    answer.sigma = 1.18 + 0.035 * ln_held - 0.06 * held;
    return answer;
}

static plain_answer boore_atkinson(fusnoch_scenario s)
{
    size_t row = row_before(BOORE_ATKINSON_PERIODS, s.period);
    const boore_atkinson_row *at = &BOORE_ATKINSON[row], *next = at + 1;
    double m = s.magnitude * 0.01;
    double rjb = s.projection_distance * 0.01;
    double ln_v = log(s.velocity * 0.1);
    double w = weight(&boore_atkinson_intervals[row], log(s.period));
    double lower = on_rock(at, m, rjb, s.mechanism) + at->blin * (ln_v - LN_760);
    double upper = on_rock(next, m, rjb, s.mechanism) + next->blin * (ln_v - LN_760);
    double lower_bnl = slope(at, s.velocity, ln_v), upper_bnl = slope(next, s.velocity, ln_v);
    double lower_sigma = s.mechanism == 9 ? at->sigma_unspecified : at->sigma_specified;
    double upper_sigma = s.mechanism == 9 ? next->sigma_unspecified : next->sigma_specified;
    plain_answer answer;

    /* Without a slope there is no need of p. */
    if (lower_bnl != 0 || upper_bnl != 0) {
        double part = nonlinear_over_slope(on_rock(&BOORE_ATKINSON[0], m, rjb, s.mechanism));
        lower += lower_bnl * part;
        upper += upper_bnl * part;
    }
    answer.median = lower + (upper - lower) * w;
    answer.sigma = lower_sigma + (upper_sigma - lower_sigma) * w;
    return answer;
}

plain_answer answer_between_in_plain_c(fusnoch_scenario s)
{
    return s.model == 1 ? idriss(s) : boore_atkinson(s);
}
