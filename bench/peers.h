/* The peers that the engine is compared with.  Each goes from the whole-number fields of an accepted scenario to the
   natural logarithm of the median and to sigma, by both models; none of them checks the fields.  Each has one function
   for periods with a row and one for those between rows, so that it need not find out which it has. */

#ifndef PEERS_H
#define PEERS_H

#include <arb.h>

#include "fusnoch.h"

typedef struct {
    double median, sigma;
} plain_answer;

/* Plain C: doubles, with nothing said about their errors.  The constants for periods between rows are made ready once,
   by ready_plain_c. */
void ready_plain_c(void);
plain_answer answer_in_plain_c(fusnoch_scenario s);
plain_answer answer_between_in_plain_c(fusnoch_scenario s);

/* Arb at 64 bits: balls that enclose the value, in two ways between which a user's own would lie.  Term by term follows
   the equations; tuned has dot products for the long sums of products and compares by signs.  The coefficients and the
   constants are made ready once for both, by ready_arb. */
void ready_arb(void);
void answer_in_arb_terms(arb_t median, arb_t sigma, fusnoch_scenario s);
void answer_in_arb_tuned(arb_t median, arb_t sigma, fusnoch_scenario s);
void answer_between_in_arb_terms(arb_t median, arb_t sigma, fusnoch_scenario s);
void answer_between_in_arb_tuned(arb_t median, arb_t sigma, fusnoch_scenario s);

#endif
