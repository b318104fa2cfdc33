/* Prints a page of earthquakes for one bridge, answered in one go; a scenario that is refused does not stop the
   others. */
#include <inttypes.h>
#include <stdio.h>

#include "ground_motion.h"

/* The same throughout the page: V_S30 in 0.1 m/s, and the period in 0.001 s. */
enum { VELOCITY = 5200, PERIOD = 1000 };

typedef ground_motion_rupture_distance Rupture;
typedef ground_motion_projection_distance Projection;

/* The page: magnitudes in 0.01, distances in 0.01 km; an absent distance is NULL. */
static const struct {
    uint8_t model;
    uint16_t magnitude;
    const Rupture *rupture;
    const Projection *projection;
    uint8_t mechanism;
} PAGE[] = {
    {GROUND_MOTION_IDRISS, 700, &(Rupture){1044}, &(Projection){1000}, GROUND_MOTION_STRIKE_SLIP},
    {GROUND_MOTION_BOORE_ATKINSON, 700, &(Rupture){1044}, &(Projection){1000}, GROUND_MOTION_STRIKE_SLIP},
    {GROUND_MOTION_IDRISS, 650, &(Rupture){2200}, &(Projection){1850}, GROUND_MOTION_REVERSE},
    {GROUND_MOTION_BOORE_ATKINSON, 650, &(Rupture){2200}, &(Projection){1850}, GROUND_MOTION_REVERSE},
    {GROUND_MOTION_IDRISS, 800, &(Rupture){18000}, NULL, GROUND_MOTION_STRIKE_SLIP},
    {GROUND_MOTION_BOORE_ATKINSON, 800, NULL, &(Projection){18000}, GROUND_MOTION_STRIKE_SLIP},
    {GROUND_MOTION_IDRISS, 600, &(Rupture){1200}, &(Projection){1500}, GROUND_MOTION_NORMAL},
    {GROUND_MOTION_BOORE_ATKINSON, 600, &(Rupture){1200}, NULL, GROUND_MOTION_NORMAL},
};

enum { LINES = sizeof PAGE / sizeof *PAGE, CELL = 16 };

static const char *const MODELS[] = {
    [GROUND_MOTION_IDRISS] = "Idriss 2014", [GROUND_MOTION_BOORE_ATKINSON] = "Boore and Atkinson 2008"};
static const char *const MECHANISMS[] = {[GROUND_MOTION_STRIKE_SLIP] = "strike-slip",
                                         [GROUND_MOTION_NORMAL] = "normal", [GROUND_MOTION_REVERSE] = "reverse"};

/* The scenario in a line of the page. */
static fusnoch_scenario scenario_in(size_t line)
{
    fusnoch_scenario s = {.model = PAGE[line].model, .magnitude = PAGE[line].magnitude, .velocity = VELOCITY,
                          .mechanism = PAGE[line].mechanism, .period = PERIOD};

    if (PAGE[line].rupture)
        ground_motion_set_rupture_distance(&s, *PAGE[line].rupture);
    if (PAGE[line].projection)
        ground_motion_set_projection_distance(&s, *PAGE[line].projection);
    return s;
}

static void print_heading(void)
{
    printf("A page of earthquakes for one bridge, 5 percent damped: V_S30 %d.%d m/s, period %d.%03d s\n",
           VELOCITY / 10, VELOCITY % 10, PERIOD / 1000, PERIOD % 1000);
    puts("median, sigma: ends in units of 10^-9; they enclose the natural logarithm of the median in g, and sigma\n");
    printf("%5s | %-23s | %4s | %10s | %13s | %-11s | %12s %12s %10s %10s\n", "place", "model", "M", "rupture km",
           "projection km", "mechanism", "median low", "median high", "sigma low", "sigma high");
}

/* A distance in km, or - where it is absent. */
static void name_distance(char cell[CELL], uint8_t present, uint16_t distance)
{
    if (present)
        snprintf(cell, CELL, "%u.%02u", distance / 100u, distance % 100u);
    else
        snprintf(cell, CELL, "-");
}

static void print_scenario(size_t place, fusnoch_scenario s)
{
    char rupture[CELL], projection[CELL];

    name_distance(rupture, s.rupture_present, s.rupture_distance);
    name_distance(projection, s.projection_present, s.projection_distance);
    printf("%5zu | %-23s | %u.%02u | %10s | %13s | %-11s | ", place, MODELS[s.model], s.magnitude / 100,
           s.magnitude % 100, rupture, projection, MECHANISMS[s.mechanism]);
}

/* The ends of an answer, or the refusal. */
static void print_answer(fusnoch_answer a)
{
    if (a.number != 0)
        printf("refusal %u, %s\n", a.number, ground_motion_words(a.number));
    else
        printf("%12" PRId64 " %12" PRId64 " %10" PRId64 " %10" PRId64 "\n", a.median_low, a.median_high, a.sigma_low,
               a.sigma_high);
}

int main(void)
{
    fusnoch_scenario page[LINES];
    fusnoch_sheet sheet;
    size_t answered = 0;

    for (size_t i = 0; i < LINES; i++)
        page[i] = scenario_in(i);
    sheet = ground_motion_answer_sheet(page, LINES);
    if (sheet.number != 0) {
        fprintf(stderr, "refusal %u, %s\n", sheet.number, ground_motion_words(sheet.number));
        return 1;
    }
    print_heading();
    for (size_t i = 0; i < sheet.count; i++) {
        print_scenario(i + 1, page[i]);
        print_answer(ground_motion_answer_at(&sheet, i));
        answered += sheet.numbers[i] == 0;
    }
    printf("\n%zu scenarios, %zu answered\n", sheet.count, answered);
    return 0;
}
