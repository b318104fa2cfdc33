/* The peer in Arb, term by term: the sums follow the equations, one ball operation after another, and p is compared
   with the thresholds. */

#include "arb_shared.h"

/* Balls that are written anew for each answer. */
static arb_t ln_r, ln_v, root, factor;

static void ready(void)
{
    arb_init(ln_r);
    arb_init(ln_v);
    arb_init(root);
    arb_init(factor);
}

/* With the logarithms and 8.5 - M at hand. */
static inline void idriss_sum(arb_t median, arb_srcptr at, const fusnoch_scenario *s, ulong to_top)
{
    arb_set(factor, &at[B1]);
    arb_addmul_ui(factor, &at[B2], s->magnitude, BITS);

    arb_set(median, &at[A1]);
    arb_addmul_ui(median, &at[A2], s->magnitude, BITS);
    arb_addmul_ui(median, &at[A3], to_top * to_top, BITS);
    arb_submul(median, factor, ln_r, BITS);
    arb_addmul(median, &at[XI], ln_v, BITS);
    arb_addmul_ui(median, &at[GAMMA], s->rupture_distance, BITS);
    if (s->mechanism >= 2)
        arb_add(median, median, &at[PHI], BITS);
}

static void idriss_median(arb_t median, arb_srcptr at, fusnoch_scenario s)
{
    ulong to_top = 850 - s.magnitude;

    /* ln(R + 10) and ln V */
    arb_log_ui(ln_r, s.rupture_distance + 1000, BITS);
    arb_sub(ln_r, ln_r, ln_100, BITS);
    arb_log_ui(ln_v, s.velocity < 12000 ? s.velocity : 12000, BITS);
    arb_sub(ln_v, ln_v, ln_10, BITS);
    idriss_sum(median, at, &s, to_top);
}

static void idriss_again(arb_t median, arb_srcptr at, fusnoch_scenario s)
{
    idriss_sum(median, at, &s, 850 - s.magnitude);
}

static void on_rock(arb_t sum, size_t row, fusnoch_scenario s)
{
    arb_srcptr at = boore_atkinson_balls[row];
    ulong squares = (ulong)s.projection_distance * s.projection_distance + H_HUNDREDTHS[row] * H_HUNDREDTHS[row];
    slong beyond_hinge = s.magnitude - HINGE_HUNDREDTHS[row];

    /* ln R, which is half of ln(R^2), and R - Rref */
    arb_log_ui(ln_r, squares, BITS);
    arb_sub(ln_r, ln_r, ln_10000, BITS);
    arb_mul_2exp_si(ln_r, ln_r, -1);
    arb_sqrt_ui(root, squares, BITS);
    arb_sub_ui(root, root, 100, BITS);

    arb_set(factor, &at[C1]);
    arb_addmul_si(factor, &at[C2], s.magnitude - 450, BITS);

    arb_set(sum, &at[E_OF_CODE[s.mechanism]]);
    arb_addmul(sum, factor, ln_r, BITS);
    arb_addmul(sum, &at[C3], root, BITS);
    if (beyond_hinge <= 0) {
        arb_addmul_si(sum, &at[E5], beyond_hinge, BITS);
        arb_addmul_si(sum, &at[E6], beyond_hinge * beyond_hinge, BITS);
    } else {
        arb_addmul_si(sum, &at[E7], beyond_hinge, BITS);
    }
}

static int branches(arb_t z, const arb_t p)
{
    int up_to_lower = arb_le(p, ln_0_03), above_lower = arb_gt(p, ln_0_03);
    int up_to_upper = up_to_lower || arb_le(p, ln_0_09), above_upper = above_lower && arb_gt(p, ln_0_09);
    int between = !up_to_lower && !above_upper;

    if (between)
        arb_sub(z, p, ln_0_03, BITS);
    return (above_lower ? 0 : UP_TO_LOWER) + (between ? BETWEEN : 0) + (up_to_upper ? 0 : ABOVE_UPPER);
}

const arb_way TERM_BY_TERM = {ready, idriss_median, idriss_again, on_rock, branches};
