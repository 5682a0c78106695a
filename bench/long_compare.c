/* Holds yard_long_plan and bench/long.c, compiled by each C compiler, to each other in one process: the same row and numbers for every long
 * day and width, then the time of the proved call divided by that of each C function. bench/run builds and calls it, with
 * -DCOMPILERS='C(gcc) C(clang)' for the compilers whose long_gcc, long_clang are linked.
 *
 *     long_compare ROUNDS               checks all days, measures them in ROUNDS rounds, prints the table
 *     long_compare plan FUNCTION DAY    one call, for instruction counts (bench/run counts)
 */
#include "days.h"

/* ---- the functions: the proved one, then that of each compiler */

typedef uint64_t plan_function(const uint8_t *text, size_t text_length, uint32_t width, uint8_t *row, size_t row_length, uint64_t *numbers,
                               size_t numbers_length, size_t *trains);

#define C(compiler) plan_function long_##compiler;
COMPILERS
#undef C

static const struct {
    const char *name;
    plan_function *plan;
} functions[] = {
    {"yard_long_plan", yard_long_plan},
#define C(compiler) {"long_" #compiler, long_##compiler},
    COMPILERS
#undef C
};

enum { FUNCTIONS = sizeof functions / sizeof *functions, PROVED = 0 };

/* ---- the days: each at one width, which stands at the end of its name */

enum { MOST_DAYS = 16 };

static struct day days[MOST_DAYS];
static uint32_t widths[MOST_DAYS];
static size_t day_count;

/* Windows of 4 to 7 slots, anywhere in the day's slots. */
static void draw_windows(struct day *d, uint64_t seed)
{
    for (size_t i = 0; i < d->trains; i++) {
        unsigned length = 4 + (unsigned)(draw(&seed) % 4);
        d->first[i] = 1 + (unsigned)(draw(&seed) % (d->slots - length + 1));
        d->last[i] = d->first[i] + length - 1;
    }
}

static struct day *add_day(const char *name, unsigned trains, unsigned slots, uint32_t width)
{
    struct day *d = &days[day_count];
    char full_name[24];
    widths[day_count++] = width;
    snprintf(full_name, sizeof full_name, "%s-%u", name, width);
    begin_day(d, 0, full_name, trains, 4, slots);
    draw_boxes(d, 5, 40000 + trains);
    return d;
}

/* The days at one width. */
static void add_days(uint32_t width)
{
    add_day("open", 36, 12, width);
    draw_windows(add_day("windows", 36, 12, width), 50000);
    add_day("full", 36, 9, width);
    add_day("fewer", 24, 12, width);
}

static void make_days(void)
{
    add_days(30);
    add_days(64);
    struct day *ties = add_day("ties", 36, 12, 30);
    ties->revisit = ties->split = 0;
    add_day("overbooked", 36, 8, 30);
    for (size_t k = 0; k < day_count; k++)
        write_text(&days[k]);
}

/* ---- the same answers from all */

struct answer {
    uint64_t refusal;
    uint8_t row[YARD_LONG_MOST_TRAINS];
    uint64_t numbers[YARD_LONG_NUMBERS];
    size_t trains;
};

static void plan_into(struct answer *a, size_t f, size_t k)
{
    a->refusal = functions[f].plan((const uint8_t *)days[k].text, days[k].length, widths[k], a->row, sizeof a->row, a->numbers,
                                   YARD_LONG_NUMBERS, &a->trains);
}

/* Over memory of one byte value, so that a byte written beyond the answer shows. */
static uint64_t answer_into(struct answer *a, size_t f, size_t k)
{
    memset(a, 0xaa, sizeof *a);
    plan_into(a, f, k);
    return a->refusal;
}

static int is_refused(size_t k)
{
    return days[k].trains > days[k].tracks * days[k].slots;
}

static void check_day(size_t k)
{
    char what[64];
    struct answer proved, other;
    if (answer_into(&proved, PROVED, k) != (is_refused(k) ? 9 : 0))
        fail(days[k].name, "the answer is of another kind than the day was made for");
    for (size_t f = 1; f < FUNCTIONS; f++) {
        answer_into(&other, f, k);
        snprintf(what, sizeof what, "%s gives another answer", functions[f].name);
        if (memcmp(&proved, &other, sizeof proved) != 0)
            fail(days[k].name, what);
    }
}

/* ---- time: the processor's, since a call is so long that other work on the machine would always fall into it */

static double time_call(size_t f, size_t k)
{
    struct answer a;
    double from = nanoseconds(CLOCK_PROCESS_CPUTIME_ID);
    plan_into(&a, f, k);
    return nanoseconds(CLOCK_PROCESS_CPUTIME_ID) - from;
}

/* In each round every day and function has its turn, so a busy moment of the machine falls on all alike; the first one changes. */
static void measure(unsigned rounds)
{
    for (unsigned round = 0; round < rounds; round++) {
        for (size_t k = 0; k < day_count; k++) {
            for (size_t turn = 0; turn < FUNCTIONS && !is_refused(k); turn++) {
                size_t f = (turn + round) % FUNCTIONS;
                double t = time_call(f, k);
                if (round == 0 || t < days[k].least[f])
                    days[k].least[f] = t;
            }
        }
    }
}

static void print_day(const struct day *d, uint32_t width)
{
    double proved = d->least[PROVED], fastest = d->least[PROVED + 1];
    char label[64];
    for (size_t f = 1; f < FUNCTIONS; f++)
        fastest = d->least[f] < fastest ? d->least[f] : fastest;
    snprintf(label, sizeof label, "%s: %u trains, %u tracks, %u slots, width %u", d->name, d->trains, d->tracks, d->slots, width);
    printf("%-60s %8.2f", label, proved / fastest);
    for (size_t f = 1; f < FUNCTIONS; f++)
        printf(" %12.2f", proved / d->least[f]);
    printf(" %12.3f\n", proved / 1e9);
}

static int compare(unsigned rounds)
{
    for (size_t k = 0; k < day_count; k++)
        check_day(k);
    printf("\n%zu long days: the same row and numbers from all %d functions\n", day_count, FUNCTIONS);
    measure(rounds);
    printf("the proved call's time divided by C's, least of %u rounds; 'same C' is the faster compiler's\n", rounds);
    printf("%-60s %8s", "long days", "same C");
    for (size_t f = 1; f < FUNCTIONS; f++)
        printf(" %12s", functions[f].name);
    printf(" %12s\n", "seconds");
    for (size_t k = 0; k < day_count; k++)
        if (!is_refused(k))
            print_day(&days[k], widths[k]);
    return 0;
}

static int plan_once(const char *function, const char *day)
{
    struct answer a;
    for (size_t f = 0; f < FUNCTIONS; f++)
        for (size_t k = 0; k < day_count; k++)
            if (strcmp(functions[f].name, function) == 0 && strcmp(days[k].name, day) == 0)
                return answer_into(&a, f, k) != 0;
    fail(day, "no such function or day");
    return 1;
}

int main(int argc, char **argv)
{
    make_days();
    if (argc == 2 && atoi(argv[1]) > 0)
        return compare((unsigned)atoi(argv[1]));
    if (argc == 4 && strcmp(argv[1], "plan") == 0)
        return plan_once(argv[2], argv[3]);
    fprintf(stderr, "usage: long_compare ROUNDS | plan FUNCTION DAY\n");
    return 2;
}
