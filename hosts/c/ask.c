/* Answers lines of standard input through the safe wrapper, one line each, for the tests (bytes are hexadecimal pairs,
   - for none; a SCENARIO is MODEL MAGNITUDE RUPTURE VELOCITY MECHANISM PERIOD PROJECTION, - for an absent distance):
   refusal SCENARIO       the number of the refusal, 0 for none
   read BYTES             E SCENARIO LENGTH REST, or R NUMBER REST
   write SCENARIO BYTES   L LENGTH BYTES, or R NUMBER BYTES: what is lent, and as it is afterwards
   answer SCENARIO, answer_record BYTES, doubles SCENARIO, doubles_record BYTES
                          E and four ends, or R NUMBER; a double is printed as the whole number that it equals
   millionths SCENARIO    E and two whole numbers, or R NUMBER
   sheet SCENARIO ..      S COUNT and at each place | E and four ends, or | R NUMBER; or R NUMBER alone, of the sheet;
                          any number of scenarios, none too
   governing SCENARIO ..  G and the position of the scenario that governs, then those that are marked; or R NUMBER
   words NUMBER           what the number of a refusal stands for
   rows MODEL PERIOD      T and the periods of the two rows that an answer rests on, or R NUMBER
   rows_words MODEL PERIOD
                          the same in words
   null                   the numbers of reading, answering from a record in both ways, and writing, with null pointers
                          by fusnoch.h, and by the wrapper where the length says otherwise
   And in C alone, of the plain struct of fusnoch.h (FIELDS are its nine numbers in the record's
   order, each flag before its distance):
   refusal_flags FIELDS   as refusal
   answer_flags FIELDS    as answer
   read_flags BYTES       NUMBER FIELDS LENGTH, as fusnoch_read hands them back
   And in C alone, of a sheet:
   sheet_places COUNT SCENARIO ..
                          NUMBER COUNT and at each of the 64 places | NUMBER and four ends, as fusnoch_answer_sheet
                          hands them back; just 64 scenarios, whatever the count
   sheet_unfilled SCENARIO ..
                          as sheet, by fusnoch_answer_sheet, with the places past the scenarios left undefined
   sheet_null COUNT       NUMBER COUNT by the wrapper, with a null pointer
   governing_places COUNT SCENARIO .., governing_unfilled SCENARIO .., governing_null COUNT
                          the same of the scenario that governs: NUMBER POSITION and the 64 marks, as fusnoch_governing
                          hands them back; as governing; NUMBER POSITION
   What should hold zeros, and does not, is said: with ends, bounds or periods where a result is refused, with more
   where a sheet has more than its count, or where something is named or marked beside a refusal. */
#include <errno.h>
#include <inttypes.h>
#include <stdio.h>
#include <stdlib.h>
#include <string.h>

#include "ground_motion.h"

enum { LONGEST = 70000, LINE = 2 * LONGEST + 100, SCENARIO_WORDS = 7, FLAGS_WORDS = 9, SHOWN_WORDS = 11 };

/* The words of a line, which has no more of them than bytes; the first is the name of the question. */
typedef struct {
    size_t count;
    char *at[LINE];
} Words;

/* Bytes in memory of just their length, so that valgrind sees what is beyond. */
typedef struct {
    uint8_t *at;
    size_t length;
} Bytes;

/* Scenarios in memory of just their size, for the same reason. */
typedef struct {
    fusnoch_scenario *at;
    size_t count;
} Scenarios;

static int take_bytes(const char *text, Bytes *bytes)
{
    static const char DIGITS[] = "0123456789abcdef";
    size_t digits = strspn(text, DIGITS);

    bytes->length = digits / 2;
    bytes->at = malloc(bytes->length);
    if (bytes->at == NULL || digits % 2 != 0 || strcmp(text + digits, digits == 0 ? "-" : "") != 0)
        return 0;
    for (size_t i = 0; i < bytes->length; i++, text += 2)
        bytes->at[i] = (uint8_t)(16 * (strchr(DIGITS, text[0]) - DIGITS) + (strchr(DIGITS, text[1]) - DIGITS));
    return 1;
}

/* A number up to the most: one that does not fit its field is none. */
static int take_number(const char *word, unsigned long most, unsigned long *number)
{
    errno = 0;
    *number = strtoul(word, NULL, 10);
    return *word != '\0' && word[strspn(word, "0123456789")] == '\0' && errno == 0 && *number <= most;
}

static int take_u8(const char *word, uint8_t *field)
{
    unsigned long number;
    int fits = take_number(word, UINT8_MAX, &number);

    *field = (uint8_t)number;
    return fits;
}

static int take_u16(const char *word, uint16_t *field)
{
    unsigned long number;
    int fits = take_number(word, UINT16_MAX, &number);

    *field = (uint16_t)number;
    return fits;
}

static int take_size(const char *word, size_t *field)
{
    unsigned long number;
    int fits = take_number(word, SIZE_MAX, &number);

    *field = number;
    return fits;
}

/* A distance, or - where it is absent. */
static int take_rupture(const char *word, fusnoch_scenario *s)
{
    ground_motion_rupture_distance distance;

    if (strcmp(word, "-") == 0)
        return 1;
    if (!take_u16(word, &distance.hundredths))
        return 0;
    ground_motion_set_rupture_distance(s, distance);
    return 1;
}

static int take_projection(const char *word, fusnoch_scenario *s)
{
    ground_motion_projection_distance distance;

    if (strcmp(word, "-") == 0)
        return 1;
    if (!take_u16(word, &distance.hundredths))
        return 0;
    ground_motion_set_projection_distance(s, distance);
    return 1;
}

static int take_scenario(char *const word[SCENARIO_WORDS], fusnoch_scenario *s)
{
    *s = (fusnoch_scenario){.model = 0};
    return take_u8(word[0], &s->model) && take_u16(word[1], &s->magnitude) && take_rupture(word[2], s)
           && take_u16(word[3], &s->velocity) && take_u8(word[4], &s->mechanism) && take_u16(word[5], &s->period)
           && take_projection(word[6], s);
}

static int take_places(char *const *word, size_t count, fusnoch_scenario *places)
{
    for (size_t i = 0; i < count; i++, word += SCENARIO_WORDS)
        if (!take_scenario(word, places + i))
            return 0;
    return 1;
}

/* All words as scenarios; the memory of none may be a null pointer. */
static int take_scenarios(char *const *word, size_t words, Scenarios *s)
{
    s->count = words / SCENARIO_WORDS;
    s->at = malloc(s->count * sizeof *s->at);
    return words % SCENARIO_WORDS == 0 && (s->at != NULL || s->count == 0) && take_places(word, s->count, s->at);
}

static int take_flags(char *const word[FLAGS_WORDS], fusnoch_scenario *s)
{
    return take_u8(word[0], &s->model) && take_u16(word[1], &s->magnitude) && take_u8(word[2], &s->rupture_present)
           && take_u16(word[3], &s->rupture_distance) && take_u16(word[4], &s->velocity)
           && take_u8(word[5], &s->mechanism) && take_u16(word[6], &s->period)
           && take_u8(word[7], &s->projection_present) && take_u16(word[8], &s->projection_distance);
}

static void print_bytes(const uint8_t *bytes, size_t length)
{
    for (size_t i = 0; i < length; i++)
        printf("%02x", bytes[i]);
    puts(length == 0 ? "-" : "");
}

static int has_ends(fusnoch_answer a)
{
    return a.median_low != 0 || a.median_high != 0 || a.sigma_low != 0 || a.sigma_high != 0;
}

static void print_ends(fusnoch_answer a)
{
    printf(" %" PRId64 " %" PRId64 " %" PRId64 " %" PRId64, a.median_low, a.median_high, a.sigma_low, a.sigma_high);
}

/* An answer without the line's end, as it stands at a place of a sheet. */
static void print_place(fusnoch_answer a)
{
    if (a.number == 0) {
        printf("E");
        print_ends(a);
    } else
        printf("R %u%s", a.number, has_ends(a) ? " with ends" : "");
}

static void print_answer(fusnoch_answer a)
{
    print_place(a);
    puts("");
}

/* Whether a sheet has anything but zeros from a place on. */
static int has_more(const fusnoch_sheet *sheet, size_t place)
{
    for (; place < GROUND_MOTION_SHEET_MOST; place++)
        if (sheet->numbers[place] != 0 || has_ends(ground_motion_answer_at(sheet, place)))
            return 1;
    return 0;
}

static void print_sheet(fusnoch_sheet sheet)
{
    if (sheet.number != 0) {
        printf("R %u%s\n", sheet.number, sheet.count != 0 || has_more(&sheet, 0) ? " with more" : "");
        return;
    }
    printf("S %zu", sheet.count);
    for (size_t i = 0; i < sheet.count && i < GROUND_MOTION_SHEET_MOST; i++) {
        printf(" | ");
        print_place(ground_motion_answer_at(&sheet, i));
    }
    puts(has_more(&sheet, sheet.count) ? " with more" : "");
}

static void print_places(fusnoch_sheet sheet)
{
    printf("%u %zu", sheet.number, sheet.count);
    for (size_t i = 0; i < GROUND_MOTION_SHEET_MOST; i++) {
        printf(" | %u", sheet.numbers[i]);
        print_ends(ground_motion_answer_at(&sheet, i));
    }
    puts("");
}

static void print_sheet_null(size_t count)
{
    fusnoch_sheet sheet = ground_motion_answer_sheet(NULL, count);

    printf("%u %zu%s\n", sheet.number, sheet.count, has_more(&sheet, 0) ? " with more" : "");
}

/* Whether something is marked. */
static int has_marks(const fusnoch_screening *screening)
{
    for (size_t i = 0; i < GROUND_MOTION_SHEET_MOST; i++)
        if (screening->marks[i] != 0)
            return 1;
    return 0;
}

static void print_screening(fusnoch_screening screening)
{
    if (screening.number != 0) {
        printf("R %u%s\n", screening.number, screening.position != 0 || has_marks(&screening) ? " with more" : "");
        return;
    }
    printf("G %zu", screening.position);
    for (size_t i = 0; i < GROUND_MOTION_SHEET_MOST; i++)
        if (screening.marks[i] != 0)
            printf(" %zu", i + 1);
    puts("");
}

static void print_marks(fusnoch_screening screening)
{
    printf("%u %zu", screening.number, screening.position);
    for (size_t i = 0; i < GROUND_MOTION_SHEET_MOST; i++)
        printf(" %u", screening.marks[i]);
    puts("");
}

static void print_governing_null(size_t count)
{
    fusnoch_screening screening = ground_motion_governing(NULL, count);

    printf("%u %zu%s\n", screening.number, screening.position, has_marks(&screening) ? " with more" : "");
}

/* With 17 digits, which a whole number takes as it is and any other shows. */
static void print_doubles(fusnoch_doubles d)
{
    if (d.number == 0)
        printf("E %.17g %.17g %.17g %.17g\n", d.median_low, d.median_high, d.sigma_low, d.sigma_high);
    else if (d.median_low == 0 && d.median_high == 0 && d.sigma_low == 0 && d.sigma_high == 0)
        printf("R %u\n", d.number);
    else
        printf("R %u with ends\n", d.number);
}

static void print_bounds(fusnoch_bounds b)
{
    if (b.number == 0)
        printf("E %" PRIu32 " %" PRIu32 "\n", b.low, b.high);
    else if (b.low == 0 && b.high == 0)
        printf("R %u\n", b.number);
    else
        printf("R %u with bounds\n", b.number);
}

static void print_rows(fusnoch_periods rows)
{
    if (rows.number == 0)
        printf("T %u %u\n", rows.lower, rows.upper);
    else if (rows.lower == 0 && rows.upper == 0)
        printf("R %u\n", rows.number);
    else
        printf("R %u with periods\n", rows.number);
}

static void print_distance(uint8_t present, uint16_t distance)
{
    if (present)
        printf("%u ", distance);
    else
        printf("- ");
}

static void print_reading(ground_motion_reading r, const uint8_t *bytes)
{
    fusnoch_scenario s = r.scenario;

    if (r.number == 0) {
        printf("E %u %u ", s.model, s.magnitude);
        print_distance(s.rupture_present, s.rupture_distance);
        printf("%u %u %u ", s.velocity, s.mechanism, s.period);
        print_distance(s.projection_present, s.projection_distance);
        printf("%td ", r.rest - bytes);
    } else
        printf("R %u ", r.number);
    print_bytes(r.rest, r.rest_length);
}

static void print_reading_flags(fusnoch_reading r)
{
    fusnoch_scenario s = r.scenario;

    printf("%u %u %u %u %u %u %u %u %u %u %zu\n", r.number, s.model, s.magnitude, s.rupture_present,
           s.rupture_distance, s.velocity, s.mechanism, s.period, s.projection_present, s.projection_distance,
           r.length);
}

static void print_writing(fusnoch_writing w, Bytes lent)
{
    if (w.number == 0)
        printf("L %zu ", w.length);
    else
        printf("R %u ", w.number);
    print_bytes(lent.at, lent.length);
}

/* No bytes at all, and no bytes with a length that says otherwise. */
static void print_null(void)
{
    fusnoch_scenario accepted = {.model = GROUND_MOTION_IDRISS, .magnitude = 700, .velocity = 7600,
                                 .mechanism = GROUND_MOTION_REVERSE, .period = 75};

    ground_motion_set_rupture_distance(&accepted, (ground_motion_rupture_distance){.hundredths = 1000});
    printf("%u %u %u %u ", fusnoch_read(NULL, 0).number, fusnoch_answer_record(NULL, 0).number,
           fusnoch_answer_record_in_doubles(NULL, 0).number, fusnoch_write(accepted, NULL, 0).number);
    printf("%u %u %u %u\n", ground_motion_read(NULL, 5).number, ground_motion_answer_record(NULL, 5).number,
           ground_motion_answer_record_in_doubles(NULL, 5).number, ground_motion_write(accepted, NULL, 50).number);
}

/* Answers a question with a scenario and no more; 0 where it is none. */
static int answer_scenario(const char *name, fusnoch_scenario s)
{
    if (strcmp(name, "refusal") == 0)
        printf("%u\n", fusnoch_refusal(s));
    else if (strcmp(name, "answer") == 0)
        print_answer(fusnoch_answer_fields(s));
    else if (strcmp(name, "doubles") == 0)
        print_doubles(fusnoch_answer_fields_in_doubles(s));
    else if (strcmp(name, "millionths") == 0)
        print_bounds(fusnoch_millionths(s));
    else
        return 0;
    return 1;
}

/* Answers a question with the plain struct; 0 where it is none. */
static int answer_flags(const char *name, fusnoch_scenario s)
{
    if (strcmp(name, "refusal_flags") == 0)
        printf("%u\n", fusnoch_refusal(s));
    else if (strcmp(name, "answer_flags") == 0)
        print_answer(fusnoch_answer_fields(s));
    else
        return 0;
    return 1;
}

/* Answers a question with a scenario and lent bytes; 0 where it is none. */
static int answer_lent(const char *name, fusnoch_scenario s, const char *text)
{
    Bytes lent;
    int known = take_bytes(text, &lent) && strcmp(name, "write") == 0;

    if (known)
        print_writing(ground_motion_write(s, lent.at, lent.length), lent);
    free(lent.at);
    return known;
}

/* Answers a question with a model and a period; 0 where it is none. */
static int answer_period(const char *name, uint8_t model, uint16_t period)
{
    char room[GROUND_MOTION_ROWS_ROOM];

    if (strcmp(name, "rows") == 0)
        print_rows(fusnoch_rows(model, period));
    else if (strcmp(name, "rows_words") == 0)
        puts(ground_motion_rows_words(room, model, period));
    else
        return 0;
    return 1;
}

/* Answers a question with bytes; 0 where it is none. */
static int answer_bytes(const char *name, const char *text)
{
    Bytes b;
    int known = take_bytes(text, &b);

    if (known && strcmp(name, "read") == 0)
        print_reading(ground_motion_read(b.at, b.length), b.at);
    else if (known && strcmp(name, "read_flags") == 0)
        print_reading_flags(fusnoch_read(b.at, b.length));
    else if (known && strcmp(name, "answer_record") == 0)
        print_answer(ground_motion_answer_record(b.at, b.length));
    else if (known && strcmp(name, "doubles_record") == 0)
        print_doubles(ground_motion_answer_record_in_doubles(b.at, b.length));
    else
        known = 0;
    free(b.at);
    return known;
}

/* Answers a question with one word; 0 where it is none. */
static int answer_word(const char *name, const char *word)
{
    uint8_t number;
    size_t count;

    if (strcmp(name, "words") == 0 && take_u8(word, &number))
        puts(ground_motion_words(number));
    else if (strcmp(name, "sheet_null") == 0 && take_size(word, &count))
        print_sheet_null(count);
    else if (strcmp(name, "governing_null") == 0 && take_size(word, &count))
        print_governing_null(count);
    else
        return answer_bytes(name, word);
    return 1;
}

/* What a question about scenarios prints: by the wrapper, by fusnoch.h, and by fusnoch.h place by place. */
typedef struct {
    const char *name;
    void (*of)(const fusnoch_scenario *scenarios, size_t count);
    void (*unfilled)(size_t count, fusnoch_scenarios scenarios);
    void (*places)(size_t count, fusnoch_scenarios scenarios);
} Sheet;

static void sheet_of(const fusnoch_scenario *scenarios, size_t count)
{
    print_sheet(ground_motion_answer_sheet(scenarios, count));
}

static void sheet_unfilled(size_t count, fusnoch_scenarios scenarios)
{
    print_sheet(fusnoch_answer_sheet(count, scenarios));
}

static void sheet_places(size_t count, fusnoch_scenarios scenarios)
{
    print_places(fusnoch_answer_sheet(count, scenarios));
}

static void governing_of(const fusnoch_scenario *scenarios, size_t count)
{
    print_screening(ground_motion_governing(scenarios, count));
}

static void governing_unfilled(size_t count, fusnoch_scenarios scenarios)
{
    print_screening(fusnoch_governing(count, scenarios));
}

static void governing_places(size_t count, fusnoch_scenarios scenarios)
{
    print_marks(fusnoch_governing(count, scenarios));
}

static const Sheet SHEETS[] = {{"sheet", sheet_of, sheet_unfilled, sheet_places},
                               {"governing", governing_of, governing_unfilled, governing_places}};

/* Answers a sheet of all words; 0 where they are no scenarios. */
static int answer_sheet(const Sheet *sheet, char *const *word, size_t words)
{
    Scenarios s;
    int known = take_scenarios(word, words, &s);

    if (known)
        sheet->of(s.at, s.count);
    free(s.at);
    return known;
}

/* Answers a sheet of a count and all places; 0 where the words are not these. */
static int answer_sheet_places(const Sheet *sheet, char *const *word, size_t words)
{
    fusnoch_scenarios s;
    size_t count;

    if (words != 1 + GROUND_MOTION_SHEET_MOST * SCENARIO_WORDS || !take_size(word[0], &count)
        || !take_places(word + 1, GROUND_MOTION_SHEET_MOST, s.places))
        return 0;
    sheet->places(count, s);
    return 1;
}

/* Answers a sheet of all words, whose other places are left as the memory has them, so that valgrind sees whether one
   is looked at; 0 where they are no scenarios, or too many. */
static int answer_sheet_unfilled(const Sheet *sheet, char *const *word, size_t words)
{
    fusnoch_scenarios *s = malloc(sizeof *s);
    size_t count = words / SCENARIO_WORDS;
    int known = s != NULL && words % SCENARIO_WORDS == 0 && count <= GROUND_MOTION_SHEET_MOST
                && take_places(word, count, s->places);

    if (known)
        sheet->unfilled(count, *s);
    free(s);
    return known;
}

/* Answers a question with few words; 0 where it is none.  How many they are says of what kind they are. */
static int answer_words(const char *name, char *const *word, size_t words)
{
    fusnoch_scenario s;
    uint8_t model;
    uint16_t period;

    switch (words) {
    case 0:
        if (strcmp(name, "null") != 0)
            return 0;
        print_null();
        return 1;
    case 1:
        return answer_word(name, word[0]);
    case 2:
        return take_u8(word[0], &model) && take_u16(word[1], &period) && answer_period(name, model, period);
    case SCENARIO_WORDS:
        return take_scenario(word, &s) && answer_scenario(name, s);
    case SCENARIO_WORDS + 1:
        return take_scenario(word, &s) && answer_lent(name, s, word[SCENARIO_WORDS]);
    case FLAGS_WORDS:
        return take_flags(word, &s) && answer_flags(name, s);
    default:
        return 0;
    }
}

/* Answers a line; 0 where it is no question. */
static int answer(const Words *line)
{
    const char *name = line->at[0];
    char *const *word = line->at + 1;
    size_t words = line->count - 1;

    for (size_t i = 0; i < sizeof SHEETS / sizeof *SHEETS; i++) {
        size_t front = strlen(SHEETS[i].name);

        if (strncmp(name, SHEETS[i].name, front) != 0)
            continue;
        if (name[front] == '\0')
            return answer_sheet(&SHEETS[i], word, words);
        if (strcmp(name + front, "_places") == 0)
            return answer_sheet_places(&SHEETS[i], word, words);
        if (strcmp(name + front, "_unfilled") == 0)
            return answer_sheet_unfilled(&SHEETS[i], word, words);
    }
    return answer_words(name, word, words);
}

/* Parts a line into its words. */
static void find_words(char *line, Words *words)
{
    line[strcspn(line, "\n")] = '\0';
    words->count = 0;
    for (;;) {
        words->at[words->count++] = line;
        line += strcspn(line, " ");
        if (*line == '\0')
            return;
        *line++ = '\0';
    }
}

int main(void)
{
    static char line[LINE];
    static Words words;

    while (fgets(line, sizeof line, stdin)) {
        find_words(line, &words);
        if (!answer(&words)) {
            fprintf(stderr, "ask: not a question:");
            for (size_t i = 0; i < words.count && i < SHOWN_WORDS; i++)
                fprintf(stderr, " %.200s", words.at[i]);
            fprintf(stderr, "\n");
            return 1;
        }
    }
    return 0;
}
