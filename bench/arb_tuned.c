/* The peer in Arb, tuned: the long sums of products are dot products, and signs of differences take the place of
   comparisons. */

#include "arb_shared.h"

enum { UP_TO_HINGE = E7 - E5, ABOVE_HINGE = E1 - C1 };

/* Balls that are written anew for each answer; the terms go with the columns. */
static arb_struct idriss_terms[IDRISS_COLUMNS], boore_atkinson_terms[E1];
static arb_t over_upper;

static void ready(void)
{
    for (int column = 0; column < IDRISS_COLUMNS; column++)
        arb_init(&idriss_terms[column]);
    for (int column = 0; column < E1; column++)
        arb_init(&boore_atkinson_terms[column]);
    arb_init(over_upper);
}

static void idriss_median(arb_t median, arb_srcptr at, fusnoch_scenario s)
{
    arb_ptr term = idriss_terms;
    ulong to_top = 850 - s.magnitude;

    arb_one(&term[A1]);
    arb_set_ui(&term[A2], s.magnitude);
    arb_set_ui(&term[A3], to_top * to_top);
    /* -ln(R + 10), alone and times the magnitude; then ln V */
    arb_log_ui(&term[B1], s.rupture_distance + 1000, BITS);
    arb_sub(&term[B1], ln_100, &term[B1], BITS);
    arb_mul_ui(&term[B2], &term[B1], s.magnitude, BITS);
    arb_log_ui(&term[XI], s.velocity < 12000 ? s.velocity : 12000, BITS);
    arb_sub(&term[XI], &term[XI], ln_10, BITS);
    arb_set_ui(&term[GAMMA], s.rupture_distance);
    arb_set_ui(&term[PHI], s.mechanism >= 2);
    arb_dot(median, NULL, 0, at, 1, term, 1, IDRISS_COLUMNS, BITS);
}

static void idriss_again(arb_t median, arb_srcptr at, fusnoch_scenario s)
{
    (void)s;
    arb_dot(median, NULL, 0, at, 1, idriss_terms, 1, IDRISS_COLUMNS, BITS);
}

static void on_rock(arb_t sum, size_t row, fusnoch_scenario s)
{
    arb_srcptr at = boore_atkinson_balls[row], e = &at[E_OF_CODE[s.mechanism]];
    arb_ptr term = boore_atkinson_terms;
    ulong squares = (ulong)s.projection_distance * s.projection_distance + H_HUNDREDTHS[row] * H_HUNDREDTHS[row];
    slong beyond_hinge = s.magnitude - HINGE_HUNDREDTHS[row];

    /* ln R, which is half of ln(R^2), alone and times M - Mref; then R - Rref */
    arb_log_ui(&term[C1], squares, BITS);
    arb_sub(&term[C1], &term[C1], ln_10000, BITS);
    arb_mul_2exp_si(&term[C1], &term[C1], -1);
    arb_mul_si(&term[C2], &term[C1], s.magnitude - 450, BITS);
    arb_sqrt_ui(&term[C3], squares, BITS);
    arb_sub_ui(&term[C3], &term[C3], 100, BITS);

    if (beyond_hinge <= 0) {
        arb_set_si(&term[E5], beyond_hinge);
        arb_set_si(&term[E6], beyond_hinge * beyond_hinge);
        arb_dot(sum, e, 0, &at[E5], 1, &term[E5], 1, UP_TO_HINGE, BITS);
    } else {
        arb_set_si(&term[E7], beyond_hinge);
        arb_dot(sum, e, 0, &at[C1], 1, &term[C1], 1, ABOVE_HINGE, BITS);
    }
}

static int branches(arb_t z, const arb_t p)
{
    int reached = 0;

    arb_sub(z, p, ln_0_03, BITS);
    arb_sub(over_upper, p, ln_0_09, BITS);
    if (!arb_is_positive(z))
        reached += UP_TO_LOWER;
    if (!arb_is_nonpositive(z) && !arb_is_positive(over_upper))
        reached += BETWEEN;
    if (!arb_is_nonpositive(over_upper))
        reached += ABOVE_UPPER;
    return reached;
}

const arb_way TUNED = {ready, idriss_median, idriss_again, on_rock, branches};
