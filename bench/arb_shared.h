/* What the two ways of the peer in Arb have in common: the coefficients and constants as balls, made ready by arb.c;
   and the parts that each way, in arb_terms.c and arb_tuned.c, does for itself. */

#ifndef ARB_SHARED_H
#define ARB_SHARED_H

#include "peers.h"
#include "tables.h"

enum { BITS = 64 };

enum { A1, A2, A3, B1, B2, XI, GAMMA, PHI, IDRISS_COLUMNS };
/* The columns that a magnitude up to the hinge takes stand together, and so do those that one above it takes. */
enum { E5, E6, C1, C2, C3, E7, E1, BLIN = E1 + 4, B1_SITE, B2_SITE, UNSPECIFIED, SPECIFIED, BOORE_ATKINSON_COLUMNS };

/* Coefficients that meet a field are divided by the field's unit, so that they take its whole number. */
extern arb_struct boore_atkinson_balls[ROWS][BOORE_ATKINSON_COLUMNS];

/* h in hundredths of a kilometre and the hinge magnitude in hundredths are whole numbers. */
extern const ulong H_HUNDREDTHS[ROWS];
extern const slong HINGE_HUNDREDTHS[ROWS];

/* Which of e1 to e4 a mechanism code takes. */
extern const uint8_t E_OF_CODE[10];

extern arb_t ln_10, ln_100, ln_10000, ln_0_03, ln_0_09;

/* The branches of the nonlinear part, by where p lies to the thresholds ln 0.03 and ln 0.09. */
enum { UP_TO_LOWER = 1, BETWEEN = 2, ABOVE_UPPER = 4 };

typedef struct {
    /* Makes, once, the balls that the way writes anew for each answer. */
    void (*ready)(void);
    /* The median of Idriss from a row of the coefficients. */
    void (*idriss_median)(arb_t median, arb_srcptr at, fusnoch_scenario s);
    /* The same from a further row for the scenario of the call before, whose logarithms still stand. */
    void (*idriss_again)(arb_t median, arb_srcptr at, fusnoch_scenario s);
    /* The distance term and the magnitude term of Boore-Atkinson; for the row PGA this is p. */
    void (*on_rock)(arb_t sum, size_t row, fusnoch_scenario s);
    /* The branches that p may reach, added up.  If BETWEEN is one of them, z becomes p - ln 0.03. */
    int (*branches)(arb_t z, const arb_t p);
} arb_way;

extern const arb_way TERM_BY_TERM, TUNED;

#endif
