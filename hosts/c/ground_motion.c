/* The safe way to fusnoch.h, see ground_motion.h. */
#include "ground_motion.h"

#include <stdio.h>

static const char *const WORDS[] = {
    "not a refusal",
    "model: neither 1 nor 2",
    "magnitude: beyond the model's limits",
    "distance: that which the model reads is beyond its limits",
    "velocity: beyond the model's limits",
    "mechanism: not a code of the model",
    "period: neither 0 nor from 10 to 10000",
    "cut short: no map byte, or fewer bytes than the map calls for",
    "spare bit: bit 7 stands",
    "wanting: bit 0 or 1 is clear, or the distance that the model reads is absent",
    "blank: no bit stands",
    "plain default: a field written with its absent number",
    "page full: lent bytes shorter than the record",
    "distances: the projection distance exceeds the rupture distance",
    "sheet: more than 64 scenarios"};

const char *ground_motion_words(uint8_t number)
{
    return WORDS[number < sizeof WORDS / sizeof *WORDS ? number : 0];
}

enum { NAME_ROOM = 8 };

/* The name of a period: its seconds, or PGA for peak acceleration. */
static void name_period(char name[NAME_ROOM], uint16_t period)
{
    if (period == 0)
        snprintf(name, NAME_ROOM, "PGA");
    else
        snprintf(name, NAME_ROOM, "%u.%03u", period / 1000u, period % 1000u);
}

const char *ground_motion_rows_words(char room[GROUND_MOTION_ROWS_ROOM], uint8_t model, uint16_t period)
{
    fusnoch_periods rows = fusnoch_rows(model, period);
    char name[NAME_ROOM], lower[NAME_ROOM], upper[NAME_ROOM];
    const char *unit = period == 0 ? "" : " s";

    name_period(name, period);
    name_period(lower, rows.lower);
    name_period(upper, rows.upper);
    if (rows.number != 0)
        snprintf(room, GROUND_MOTION_ROWS_ROOM, "refusal %u, %s", rows.number, ground_motion_words(rows.number));
    else if (rows.lower == rows.upper)
        snprintf(room, GROUND_MOTION_ROWS_ROOM, "%s%s: the row %s", name, unit, lower);
    else
        snprintf(room, GROUND_MOTION_ROWS_ROOM, "%s%s: between %s and %s", name, unit, lower, upper);
    return room;
}

void ground_motion_set_rupture_distance(fusnoch_scenario *scenario, ground_motion_rupture_distance distance)
{
    scenario->rupture_present = 1;
    scenario->rupture_distance = distance.hundredths;
}

void ground_motion_set_projection_distance(fusnoch_scenario *scenario, ground_motion_projection_distance distance)
{
    scenario->projection_present = 1;
    scenario->projection_distance = distance.hundredths;
}

/* A null pointer counts as no bytes, or as no scenarios. */
static size_t present(const void *pointer, size_t length)
{
    return pointer ? length : 0;
}

fusnoch_answer ground_motion_answer_record(const uint8_t *bytes, size_t length)
{
    return fusnoch_answer_record(bytes, present(bytes, length));
}

fusnoch_doubles ground_motion_answer_record_in_doubles(const uint8_t *bytes, size_t length)
{
    return fusnoch_answer_record_in_doubles(bytes, present(bytes, length));
}

ground_motion_reading ground_motion_read(const uint8_t *bytes, size_t length)
{
    fusnoch_reading r = fusnoch_read(bytes, present(bytes, length));

    if (r.number != 0)
        return (ground_motion_reading){.number = r.number};
    return (ground_motion_reading){
        .scenario = r.scenario, .rest = bytes + r.length, .rest_length = length - r.length};
}

/* Takes over just as many scenarios as there are, and returns their count.  One that is too great goes to the engine as
   it is, to be refused there, and none is read. */
static size_t take_over(fusnoch_scenarios *taken, const fusnoch_scenario *scenarios, size_t count)
{
    *taken = (fusnoch_scenarios){.places = {{.model = 0}}};
    if (count > GROUND_MOTION_SHEET_MOST)
        return count;
    count = present(scenarios, count);
    for (size_t i = 0; i < count; i++)
        taken->places[i] = scenarios[i];
    return count;
}

fusnoch_sheet ground_motion_answer_sheet(const fusnoch_scenario *scenarios, size_t count)
{
    fusnoch_scenarios taken;

    count = take_over(&taken, scenarios, count);
    return fusnoch_answer_sheet(count, taken);
}

fusnoch_screening ground_motion_governing(const fusnoch_scenario *scenarios, size_t count)
{
    fusnoch_scenarios taken;

    count = take_over(&taken, scenarios, count);
    return fusnoch_governing(count, taken);
}

fusnoch_answer ground_motion_answer_at(const fusnoch_sheet *sheet, size_t place)
{
    if (place >= GROUND_MOTION_SHEET_MOST)
        return (fusnoch_answer){.number = 0};
    return (fusnoch_answer){.number = sheet->numbers[place],
                            .median_low = sheet->median_low[place],
                            .median_high = sheet->median_high[place],
                            .sigma_low = sheet->sigma_low[place],
                            .sigma_high = sheet->sigma_high[place]};
}

fusnoch_writing ground_motion_write(fusnoch_scenario scenario, uint8_t *lent, size_t length)
{
    return fusnoch_write(scenario, lent, present(lent, length));
}
