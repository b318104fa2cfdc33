/* What the plain peer has in common for periods with a row, in plain.c, and between rows, in plain_between.c: the
   coefficients, the constants and the parts of Boore-Atkinson.  In a file of its own, what is done between rows cannot
   move the figures of the other. */

#ifndef PLAIN_SHARED_H
#define PLAIN_SHARED_H

#include <math.h>

#include "peers.h"
#include "tables.h"

#define PERIOD(period, ...) period,
#define NUMBERS(period, ...) {__VA_ARGS__},

typedef struct {
    double a1, a2, a3, b1, b2, xi, gamma, phi;
} idriss_row;

typedef struct {
    double blin, b1, b2, c1, c2, c3, h, e[4], e5, e6, e7, hinge, sigma_unspecified, sigma_specified;
} boore_atkinson_row;

static const uint16_t IDRISS_PERIODS[ROWS] = {IDRISS_TABLE_2(PERIOD)};
static const idriss_row IDRISS_2[ROWS] = {IDRISS_TABLE_2(NUMBERS)};
static const idriss_row IDRISS_3[ROWS] = {IDRISS_TABLE_3(NUMBERS)};

static const uint16_t BOORE_ATKINSON_PERIODS[ROWS] = {BOORE_ATKINSON_TABLES(PERIOD)};
static const boore_atkinson_row BOORE_ATKINSON[ROWS] = {
#define ROW(period, blin, b1, b2, c1, c2, c3, h, e1, e2, e3, e4, ...) \
    {blin, b1, b2, c1, c2, c3, h, {e1, e2, e3, e4}, __VA_ARGS__},
    BOORE_ATKINSON_TABLES(ROW)
#undef ROW
};

/* Which of e1 to e4 a mechanism code takes. */
static const uint8_t E_OF_CODE[10] = {[0] = 1, [1] = 2, [2] = 3, [3] = 3, [9] = 0};

#define LN_0_03 (-3.5065578973199817)
#define LN_0_09 (-2.4079456086518720)
#define LN_0_1 (-2.3025850929940457)
#define LN_0_6 (-0.51082562376599068)
#define LN_300 5.7037824746562011
#define LN_760 6.6333184332803768
/* 1 / ln(180/300) and 1 / ln(300/760) */
#define TO_180 (-1.9576151889712177)
#define TO_300 (-1.0758056110923557)
/* c and d of the nonlinear part, over the slope: (3 ln 1.5 - x)/x^2 and (x - 2 ln 1.5)/x^3 with x = ln 3 */
#define C_OVER_SLOPE 0.097587420413441241
#define D_OVER_SLOPE 0.21695988450631515

/* The distance term and the magnitude term of Boore-Atkinson; for the row PGA this is p. */
static inline double on_rock(const boore_atkinson_row *at, double m, double rjb, uint8_t mechanism)
{
    double square = rjb * rjb + at->h * at->h;
    double distance_term = (at->c1 + at->c2 * (m - 4.5)) * 0.5 * log(square) + at->c3 * (sqrt(square) - 1);
    double beyond_hinge = m - at->hinge;
    double magnitude_term = at->e[E_OF_CODE[mechanism]];

    if (beyond_hinge <= 0)
        magnitude_term += (at->e5 + at->e6 * beyond_hinge) * beyond_hinge;
    else
        magnitude_term += at->e7 * beyond_hinge;
    return distance_term + magnitude_term;
}

/* The slope bnl of the site term. */
static inline double slope(const boore_atkinson_row *at, uint16_t velocity, double ln_v)
{
    if (velocity <= 1800)
        return at->b1;
    if (velocity <= 3000)
        return (at->b1 - at->b2) * (ln_v - LN_300) * TO_180 + at->b2;
    if (velocity < 7600)
        return at->b2 * (ln_v - LN_760) * TO_300;
    return 0;
}

/* The nonlinear part over the slope. */
static inline double nonlinear_over_slope(double p)
{
    double z = p - LN_0_03;

    if (p <= LN_0_03)
        return LN_0_6;
    if (p <= LN_0_09)
        return LN_0_6 + (C_OVER_SLOPE + D_OVER_SLOPE * z) * z * z;
    return p - LN_0_1;
}

#endif
