/* Ground motion with proved ends, for programs in C: the safe way to the functions of fusnoch.h that take a pointer,
   and to a sheet of scenarios; and the words of the refusals and of the rows that a median rests on.  fusnoch_refusal,
   fusnoch_answer_fields, fusnoch_answer_fields_in_doubles, fusnoch_millionths and fusnoch_rows take no pointer and are
   called as they are.  fusnoch_answer_sheet and fusnoch_governing take none either, but a struct of 64 scenarios, of
   which those at places from the count on are not read; ground_motion_answer_sheet and ground_motion_governing take
   just as many as there are.

   The number of a result is 0, or that of the refusal; a refused result has zeros for all else.  A null pointer counts
   as no bytes, whatever the length, and as no scenarios, unless the count is more than a sheet has.

   A scenario has two distances, and each model reads its own: Idriss that to the rupture, Boore-Atkinson that to its
   surface projection.  A distance stands only where its flag does: a number without its flag is absent, even if it is
   not 0.  Name the fields of a fusnoch_scenario when you fill it in, {.model = .., .magnitude = ..}, and never go by
   their places; the two functions below set a distance and its flag, and do not compile with the other distance. */
#ifndef GROUND_MOTION_H
#define GROUND_MOTION_H

#include "fusnoch.h"

/* The codes of a scenario's model and mechanism. */
enum { GROUND_MOTION_IDRISS = 1, GROUND_MOTION_BOORE_ATKINSON = 2 };
enum {
    GROUND_MOTION_STRIKE_SLIP = 0,
    GROUND_MOTION_NORMAL = 1,
    GROUND_MOTION_REVERSE = 2,
    GROUND_MOTION_REVERSE_OBLIQUE = 3,
    GROUND_MOTION_OTHER_OBLIQUE = 4,
    GROUND_MOTION_UNSPECIFIED = 9
};

/* The two distances, in 0.01 km, each of a type of its own. */
typedef struct {
    uint16_t hundredths;
} ground_motion_rupture_distance;

typedef struct {
    uint16_t hundredths;
} ground_motion_projection_distance;

/* Give a scenario the distance to the rupture, or that to its surface projection, and leave all else as it is. */
void ground_motion_set_rupture_distance(fusnoch_scenario *scenario, ground_motion_rupture_distance distance);
void ground_motion_set_projection_distance(fusnoch_scenario *scenario, ground_motion_projection_distance distance);

/* A scenario that was read, and the caller's own bytes after its record; none of them where the read is refused. */
typedef struct {
    uint8_t number;
    fusnoch_scenario scenario;
    const uint8_t *rest;
    size_t rest_length;
} ground_motion_reading;

/* What the number of a refusal, 1 to 14, stands for: "period: neither 0 nor from 10 to 10000". */
const char *ground_motion_words(uint8_t number);

/* Room for the words of ground_motion_rows_words. */
enum { GROUND_MOTION_ROWS_ROOM = 64 };

/* Puts in the room, and returns, what the median of a model at a period rests on: "0.070 s: between 0.050 and 0.075",
   "0.075 s: the row 0.075", "PGA: the row 0.010"; or the refusal, "refusal 1, model: neither 1 nor 2". */
const char *ground_motion_rows_words(char room[GROUND_MOTION_ROWS_ROOM], uint8_t model, uint16_t period);

fusnoch_answer ground_motion_answer_record(const uint8_t *bytes, size_t length);
fusnoch_doubles ground_motion_answer_record_in_doubles(const uint8_t *bytes, size_t length);
ground_motion_reading ground_motion_read(const uint8_t *bytes, size_t length);

/* The most scenarios that a sheet has. */
enum { GROUND_MOTION_SHEET_MOST = 64 };

/* Answers so many scenarios in one go, each at its place as fusnoch_answer_fields answers it; one that is refused does
   not stop the others.  The count is looked at first: with more than GROUND_MOTION_SHEET_MOST the sheet's own number is
   14, and nothing is read. */
fusnoch_sheet ground_motion_answer_sheet(const fusnoch_scenario *scenarios, size_t count);

/* The answer at a place of a sheet, counted from 0.  Go by the sheet's count: a place from there on has the number 0,
   too, with zeros, and is no answer. */
fusnoch_answer ground_motion_answer_at(const fusnoch_sheet *sheet, size_t place);

/* Says which of so many scenarios governs, and which others may, by the ends with which ground_motion_answer_sheet
   answers them.  The position is counted from 1, and the marks, like the places of a sheet, from 0: with number 0 the
   named one has marks[position - 1] == 1.  With more than GROUND_MOTION_SHEET_MOST the number is 14, and nothing is
   read; with 15 no scenario is accepted, none at all too. */
fusnoch_screening ground_motion_governing(const fusnoch_scenario *scenarios, size_t count);

/* Puts the record at the front of the lent bytes; refused, it leaves them as they are. */
fusnoch_writing ground_motion_write(fusnoch_scenario scenario, uint8_t *lent, size_t length);

#endif
