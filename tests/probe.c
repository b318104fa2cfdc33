/* Answers lines of standard input with the proved functions, one line each (bytes are hexadecimal pairs, - for none):
   ln A B                 LOW HIGH, or none where the arguments are out of the function's domain
   root X                 R, or none
   place MODEL PERIOD     row K, between K (the rows K and K + 1) or outside: the period in the model's tables
   rest BYTES             the bytes after the record at their front
   table MAGNITUDE        2 or 3, the table of Idriss that the magnitude takes
   idriss TABLE ROW MAGNITUDE RUPTURE VELOCITY MECHANISM, idriss_sigma PERIOD MAGNITUDE,
   boore_atkinson ROW MAGNITUDE PROJECTION VELOCITY MECHANISM, boore_atkinson_sigma ROW MECHANISM,
   nonlinear ROW VELOCITY LOW HIGH (the ends of p)
                          LOW HIGH, or none where the arguments are not accepted */
#include <inttypes.h>
#include <stdbool.h>
#include <stdio.h>
#include <string.h>

typedef struct {
    uint64_t low, high;
} Probed;

typedef struct {
    int64_t low, high;
} ProbedEnds;

typedef struct {
    uint8_t kind;
    size_t row;
} ProbedPlace;

extern Probed probe_ln(uint64_t a, uint64_t b);
extern uint64_t probe_root(uint64_t x);
extern ProbedPlace probe_place(uint8_t model, uint16_t period);
extern size_t probe_rest_length(const uint8_t *bytes, size_t count);
extern uint8_t probe_rest_byte(const uint8_t *bytes, size_t count, size_t place);

extern bool probe_takes_table_3(uint16_t magnitude);
extern ProbedEnds probe_idriss(uint8_t table, size_t row, uint16_t magnitude, uint16_t rupture_distance,
                               uint16_t velocity, uint8_t mechanism);
extern ProbedEnds probe_idriss_sigma(uint16_t period, uint16_t magnitude);
extern ProbedEnds probe_boore_atkinson(size_t row, uint16_t magnitude, uint16_t projection_distance,
                                       uint16_t velocity, uint8_t mechanism);
extern ProbedEnds probe_boore_atkinson_sigma(size_t row, uint8_t mechanism);
extern ProbedEnds probe_nonlinear(size_t row, uint16_t velocity, uint64_t low, uint64_t high);

/* The most bytes of a question. */
enum { LONGEST = 1024 };

/* The bytes of text, and how many they are; -1 where it is none. */
static long bytes_of(const char *text, uint8_t *bytes)
{
    long n = 0;
    int used;

    if (strcmp(text, "-") == 0)
        return 0;
    for (; *text; text += 2, n++) {
        used = 0;
        if (sscanf(text, "%2" SCNx8 "%n", &bytes[n], &used) != 1 || used != 2)
            return -1;
    }
    return n;
}

static void answer_rest(const uint8_t *bytes, size_t n)
{
    size_t left = probe_rest_length(bytes, n);

    for (size_t i = 0; i < left; i++)
        printf("%02x", probe_rest_byte(bytes, n, i));
    puts(left == 0 ? "-" : "");
}

static void print_ends(ProbedEnds e)
{
    if (e.low <= e.high)
        printf("%" PRId64 " %" PRId64 "\n", e.low, e.high);
    else
        puts("none");
}

/* The least p that the nonlinear part is asked for, in units; p is at most 0. */
static const int64_t LEAST_P = -10000000000;

/* Answers a question about the models; 0 where it is none. */
static int answer_model(const char *line)
{
    uint8_t table, mechanism;
    uint16_t magnitude, distance, velocity, period;
    size_t row;
    int64_t low, high;

    if (sscanf(line, "table %" SCNu16, &magnitude) == 1)
        puts(probe_takes_table_3(magnitude) ? "3" : "2");
    else if (sscanf(line, "idriss %" SCNu8 " %zu %" SCNu16 " %" SCNu16 " %" SCNu16 " %" SCNu8, &table, &row,
                    &magnitude, &distance, &velocity, &mechanism) == 6)
        print_ends(probe_idriss(table, row, magnitude, distance, velocity, mechanism));
    else if (sscanf(line, "idriss_sigma %" SCNu16 " %" SCNu16, &period, &magnitude) == 2)
        print_ends(probe_idriss_sigma(period, magnitude));
    else if (sscanf(line, "boore_atkinson %zu %" SCNu16 " %" SCNu16 " %" SCNu16 " %" SCNu8, &row, &magnitude,
                    &distance, &velocity, &mechanism) == 5)
        print_ends(probe_boore_atkinson(row, magnitude, distance, velocity, mechanism));
    else if (sscanf(line, "boore_atkinson_sigma %zu %" SCNu8, &row, &mechanism) == 2)
        print_ends(probe_boore_atkinson_sigma(row, mechanism));
    else if (sscanf(line, "nonlinear %zu %" SCNu16 " %" SCNd64 " %" SCNd64, &row, &velocity, &low, &high) == 4) {
        if (low < LEAST_P || high < low || 0 < high)
            puts("none");
        else
            print_ends(probe_nonlinear(row, velocity, (uint64_t)-high, (uint64_t)-low));
    } else
        return 0;
    return 1;
}

/* Answers one line; 0 where it is no question. */
static int answer(const char *line)
{
    static char text[2 * LONGEST + 1];
    static uint8_t bytes[LONGEST];
    uint64_t a, b;
    long n;

    if (sscanf(line, "ln %" SCNu64 " %" SCNu64, &a, &b) == 2) {
        Probed p = probe_ln(a, b);
        if (p.low <= p.high)
            printf("%" PRIu64 " %" PRIu64 "\n", p.low, p.high);
        else
            puts("none");
    } else if (sscanf(line, "root %" SCNu64, &a) == 1) {
        uint64_t r = probe_root(a);
        if (r != UINT64_MAX)
            printf("%" PRIu64 "\n", r);
        else
            puts("none");
    } else if (sscanf(line, "place %" SCNu64 " %" SCNu64, &a, &b) == 2) {
        ProbedPlace p = probe_place((uint8_t)a, (uint16_t)b);
        if (p.kind == 2)
            puts("outside");
        else
            printf("%s %zu\n", p.kind == 0 ? "row" : "between", p.row);
    } else if (sscanf(line, "rest %2048s", text) == 1 && (n = bytes_of(text, bytes)) >= 0) {
        answer_rest(bytes, (size_t)n);
    } else {
        return answer_model(line);
    }
    return 1;
}

int main(void)
{
    char line[2 * LONGEST + 100];

    while (fgets(line, sizeof line, stdin))
        if (!answer(line)) {
            fprintf(stderr, "probe: not a question: %s", line);
            return 1;
        }
    return 0;
}
