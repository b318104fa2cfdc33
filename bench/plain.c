/* The plain peer: both models in C doubles with the logarithm and root of libm, written for speed.
   There are no enclosures and no checks; each logarithm is worked out once, and what is constant stands as a number. */

#include "plain_shared.h"

/* ln T of each period of Idriss, T held to 0.05 s to 3 s. */
static const double LN_HELD_PERIOD[ROWS] = {
    -2.9957322735539910, -2.9957322735539910, -2.9957322735539910, -2.9957322735539910, -2.9957322735539910,
    -2.5902671654458266, -2.3025850929940457, -1.8971199848858813, -1.6094379124341004, -1.3862943611198906,
    -1.2039728043259360, -0.91629073187415507, -0.69314718055994531, -0.28768207245178093, 0,
    0.40546510810816438, 0.69314718055994531, 1.0986122886681097, 1.0986122886681097, 1.0986122886681097,
    1.0986122886681097, 1.0986122886681097};

/* The row of a tabled period. */
static size_t row_of(const uint16_t *periods, uint16_t period)
{
    size_t row = 0;
    while (periods[row] != period)
        row++;
    return row;
}

static plain_answer idriss(fusnoch_scenario s)
{
    size_t row = s.period == 0 ? 0 : row_of(IDRISS_PERIODS, s.period);
    const idriss_row *at = s.magnitude <= 675 ? &IDRISS_2[row] : &IDRISS_3[row];
    double m = s.magnitude * 0.01;
    double r = s.rupture_distance * 0.01;
    double v = (s.velocity < 12000 ? s.velocity : 12000) * 0.1;
    double to_top = 8.5 - m;
    double held = (s.magnitude < 500 ? 500 : s.magnitude > 750 ? 750 : s.magnitude) * 0.01;
    plain_answer answer;

    answer.median = at->a1 + at->a2 * m + at->a3 * to_top * to_top - (at->b1 + at->b2 * m) * log(r + 10)
                  + at->xi * log(v) + at->gamma * r;
    if (s.mechanism >= 2)
        answer.median += at->phi;
    answer.sigma = 1.18 + 0.035 * LN_HELD_PERIOD[row] - 0.06 * held;
    return answer;
}

static plain_answer boore_atkinson(fusnoch_scenario s)
{
    const boore_atkinson_row *at = &BOORE_ATKINSON[row_of(BOORE_ATKINSON_PERIODS, s.period)];
    double m = s.magnitude * 0.01;
    double rjb = s.projection_distance * 0.01;
    double ln_v = log(s.velocity * 0.1);
    double rock = on_rock(at, m, rjb, s.mechanism);
    double bnl = slope(at, s.velocity, ln_v);
    plain_answer answer;

    answer.median = rock + at->blin * (ln_v - LN_760);
    /* Without a slope there is no need of p, and for the row PGA it is known already. */
    if (bnl != 0) {
        double p = s.period == 0 ? rock : on_rock(&BOORE_ATKINSON[0], m, rjb, s.mechanism);
        answer.median += bnl * nonlinear_over_slope(p);
    }
    answer.sigma = s.mechanism == 9 ? at->sigma_unspecified : at->sigma_specified;
    return answer;
}

plain_answer answer_in_plain_c(fusnoch_scenario s)
{
    return s.model == 1 ? idriss(s) : boore_atkinson(s);
}
