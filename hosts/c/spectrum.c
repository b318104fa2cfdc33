/* Prints the spectrum of one earthquake by both models side by side: a vertical strike-slip fault whose rupture begins
   3 km down, at a site 10 km beside it, so that the rupture is 10.44 km away.  Below the table stand the answers that
   have no row of their own. */
#include <inttypes.h>
#include <stdio.h>

#include "ground_motion.h"

/* The site's distance to the rupture, and to its surface projection. */
static const ground_motion_rupture_distance RUPTURE = {.hundredths = 1044};
static const ground_motion_projection_distance PROJECTION = {.hundredths = 1000};

/* In 0.001 s; 0 is peak acceleration. */
static const uint16_t PERIODS[] = {0,   10,  20,  30,  40,   50,   70,   75,   100,  150,  200,  250,
                                   300, 400, 500, 750, 1000, 1500, 2000, 3000, 4000, 5000, 7500, 10000};

enum { CELL = 67, LONGEST = 128, MILLION = 1000000, LINES = sizeof PERIODS / sizeof *PERIODS };

/* The earthquake at the site, with both distances: each model reads its own. */
static fusnoch_scenario earthquake(uint8_t model, uint16_t period)
{
    fusnoch_scenario s = {
        .model = model, .magnitude = 700, .velocity = 7600, .mechanism = GROUND_MOTION_STRIKE_SLIP, .period = period};

    ground_motion_set_rupture_distance(&s, RUPTURE);
    ground_motion_set_projection_distance(&s, PROJECTION);
    return s;
}

/* The part of one model in a line: ends and the median in g, or the refusal. */
static void fill(char cell[LONGEST], uint8_t model, uint16_t period)
{
    fusnoch_scenario s = earthquake(model, period);
    fusnoch_answer a = fusnoch_answer_fields(s);
    fusnoch_bounds g = fusnoch_millionths(s);

    if (a.number != 0)
        snprintf(cell, LONGEST, "refusal %u, %s", a.number, ground_motion_words(a.number));
    else
        snprintf(cell, LONGEST,
                 "%12" PRId64 " %12" PRId64 " %2" PRIu32 ".%06" PRIu32 " %2" PRIu32 ".%06" PRIu32 " %10" PRId64
                 " %10" PRId64, a.median_low, a.median_high, g.low / MILLION, g.low % MILLION, g.high / MILLION,
                 g.high % MILLION, a.sigma_low, a.sigma_high);
}

static void print_heading(void)
{
    fusnoch_scenario s = earthquake(GROUND_MOTION_IDRISS, 0);
    char columns[LONGEST];

    printf("Spectrum, 5 percent damped: M %u.%02u, strike-slip, V_S30 %u.%u m/s\n", s.magnitude / 100,
           s.magnitude % 100, s.velocity / 10, s.velocity % 10);
    printf("Idriss 2014 at %u.%02u km from the rupture, Boore and Atkinson 2008 at %u.%02u km from its surface "
           "projection\n", s.rupture_distance / 100, s.rupture_distance % 100, s.projection_distance / 100,
           s.projection_distance % 100);
    puts("median, sigma: ends in units of 10^-9; they enclose the natural logarithm of the median in g, and sigma");
    puts("g low, g high: the median in g lies between them; whole millionths of g, and a low of 0 sets no bound\n");
    printf("%8s | %-*s | %s\n", "", CELL, "Idriss 2014", "Boore and Atkinson 2008");
    snprintf(columns, LONGEST, "%12s %12s %9s %9s %10s %10s", "median low", "median high", "g low", "g high",
             "sigma low", "sigma high");
    printf("%8s | %s | %s\n", "period s", columns, columns);
}

static void print_table(void)
{
    char name[LONGEST] = "PGA", idriss[LONGEST], boore_atkinson[LONGEST];

    for (int i = 0; i < LINES; i++) {
        if (PERIODS[i] != 0)
            snprintf(name, LONGEST, "%u.%03u", PERIODS[i] / 1000, PERIODS[i] % 1000);
        fill(idriss, GROUND_MOTION_IDRISS, PERIODS[i]);
        fill(boore_atkinson, GROUND_MOTION_BOORE_ATKINSON, PERIODS[i]);
        printf("%8s | %-*s | %s\n", name, CELL, idriss, boore_atkinson);
    }
}

/* The two rows that a model's answer at a period rests on; nothing where there is one row, or no answer. */
static void print_between(const char *title, uint8_t model, uint16_t period)
{
    fusnoch_periods rows = fusnoch_rows(model, period);
    char words[GROUND_MOTION_ROWS_ROOM];

    if (rows.number == 0 && rows.lower != rows.upper)
        printf("%s, %s\n", title, ground_motion_rows_words(words, model, period));
}

int main(void)
{
    print_heading();
    print_table();
    puts("\nBetween rows: answered from the two rows named, by the logarithm of the period");
    for (int i = 0; i < LINES; i++) {
        print_between("Idriss 2014", GROUND_MOTION_IDRISS, PERIODS[i]);
        print_between("Boore and Atkinson 2008", GROUND_MOTION_BOORE_ATKINSON, PERIODS[i]);
    }
    return 0;
}
