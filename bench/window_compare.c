/* yard_window beside the same steps in C, and beside C without loops over years and slots (bench/window.c by each compiler), in one process:
 * first that all agree on drawn calendars and trains, then the time of one call divided by that in C. bench/run builds and calls it.
 *
 *     window_compare ROUNDS                  checks, measures in ROUNDS rounds, prints the table
 *     window_compare window FUNCTION KIND    CALLS calls, for instruction counts (bench/run counts)
 */
#include <stdio.h>
#include <stdlib.h>
#include <string.h>
#include <time.h>

#include "yard.h"

enum { CALLS = 1000, CHECKED = 200000, MOST_FUNCTIONS = 8 };

typedef uint64_t window_function(const uint32_t *, size_t, uint32_t, const uint32_t *, size_t, uint32_t, uint32_t, uint32_t, uint32_t *,
                                 uint32_t *);

#define C(compiler) window_function window_##compiler, quotients_##compiler;
COMPILERS
#undef C

static const struct {
    const char *name;
    window_function *function;
} functions[] = {
    {"yard_window", yard_window},
#define C(compiler) {"window_" #compiler, window_##compiler}, {"quotients_" #compiler, quotients_##compiler},
    COMPILERS
#undef C
};
enum { FUNCTIONS = sizeof functions / sizeof *functions };

/* ---- calendars and trains */

struct asked {
    uint32_t hours[YARD_HOURS], slot_minutes, closed[YARD_MOST_CLOSED_DATES], date, arrival, departure;
    size_t closed_length;
};

static uint64_t seed = 11;

static uint32_t draw(uint32_t below)
{
    seed = seed * 6364136223846793005u + 1442695040888963407u;
    return (uint32_t)((seed >> 33) % below);
}

/* A date between two years; one in so many is none. */
static uint32_t draw_date(uint32_t from, uint32_t to, uint32_t bad)
{
    return (from + draw(to - from + 1)) * 10000 + (1 + draw(12)) * 100 + 1 + draw(bad && !draw(bad) ? 33 : 28);
}

static const char *const kinds[] = {"early", "late", "closed"};
enum { EARLY, LATE, CLOSED, KINDS };

static struct asked draw_asked(int kind, uint32_t bad)
{
    struct asked a;
    for (size_t i = 0; i < YARD_HOURS; i += 2) {
        a.hours[i] = draw(600);
        a.hours[i + 1] = a.hours[i] + draw(840);
    }
    a.slot_minutes = 30 + draw(90);
    a.closed_length = kind == CLOSED ? YARD_MOST_CLOSED_DATES : 0;
    for (size_t i = 0; i < a.closed_length; i++)
        a.closed[i] = draw_date(2000, 2099, bad);
    a.date = kind == EARLY ? draw_date(2000, 2004, bad) : draw_date(2095, 2099, bad);
    a.arrival = draw(720);
    a.departure = draw(bad ? 1442 : 1440);
    return a;
}

static uint64_t ask(window_function *f, const struct asked *a, uint32_t *first, uint32_t *last)
{
    return f(a->hours, YARD_HOURS, a->slot_minutes, a->closed, a->closed_length, a->date, a->arrival, a->departure, first, last);
}

static void check(void)
{
    unsigned long given = 0, refused = 0;
    for (unsigned i = 0; i < CHECKED; i++) {
        struct asked a = draw_asked((int)(i % KINDS), 40);
        uint32_t first, last;
        uint64_t answer = ask(yard_window, &a, &first, &last);
        answer ? refused++ : given++;
        for (size_t f = 1; f < FUNCTIONS; f++) {
            uint32_t other_first, other_last;
            uint64_t other = ask(functions[f].function, &a, &other_first, &other_last);
            if (other != answer || other_first != first || other_last != last) {
                fprintf(stderr, "%s answers %u otherwise\n", functions[f].name, i);
                exit(1);
            }
        }
    }
    printf("%d calendars and trains, %lu windows, %lu refused: all functions agree\n", CHECKED, given, refused);
}

/* ---- measuring */

static volatile uint64_t sink;

static double seconds(window_function *f, const struct asked *asked)
{
    struct timespec before, after;
    uint32_t first, last;
    clock_gettime(CLOCK_PROCESS_CPUTIME_ID, &before);
    for (size_t i = 0; i < CALLS; i++)
        sink += ask(f, &asked[i], &first, &last) + first + last;
    clock_gettime(CLOCK_PROCESS_CPUTIME_ID, &after);
    return (double)(after.tv_sec - before.tv_sec) + 1e-9 * (double)(after.tv_nsec - before.tv_nsec);
}

int main(int argc, char **argv)
{
    static struct asked asked[CALLS];
    if (argc == 4 && !strcmp(argv[1], "window")) {
        for (int kind = 0; kind < KINDS; kind++)
            for (size_t f = 0; f < FUNCTIONS; f++)
                if (!strcmp(argv[2], functions[f].name) && !strcmp(argv[3], kinds[kind])) {
                    for (size_t i = 0; i < CALLS; i++)
                        asked[i] = draw_asked(kind, 0);
                    seconds(functions[f].function, asked);
                    return 0;
                }
        return 2;
    }
    int rounds = argc == 2 ? atoi(argv[1]) : 0;
    if (rounds < 1)
        return 2;
    printf("\nthe window of a train: the least of %d rounds, nanoseconds of one call; behind C the proved call divided by it\n", rounds);
    check();
    for (int kind = 0; kind < KINDS; kind++) {
        double least[MOST_FUNCTIONS] = {0};
        for (size_t i = 0; i < CALLS; i++)
            asked[i] = draw_asked(kind, 0);
        for (int round = 0; round < rounds; round++)
            for (size_t f = 0; f < FUNCTIONS; f++) {
                double taken = seconds(functions[f].function, asked);
                if (!round || taken < least[f])
                    least[f] = taken;
            }
        printf("%-8s yard_window %.0f", kinds[kind], least[0] / CALLS * 1e9);
        for (size_t f = 1; f < FUNCTIONS; f++)
            printf(", %s %.0f (%.2f)", functions[f].name, least[f] / CALLS * 1e9, least[0] / least[f]);
        printf("\n");
    }
    return 0;
}
