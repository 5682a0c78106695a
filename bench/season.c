/* The report over a season, yard_season, beside planning its days one by one, in one process: first that both come to the same numbers,
 * then the time of one report divided by that of the calls a program would make without it; then texts without a plan, where the time is
 * that of parting the text into days. bench/run builds and calls it.
 *
 *     season ROUNDS                    checks, measures in ROUNDS rounds, prints the tables
 *     season report FUNCTION SEASON    one report, or one call for each day, for instruction counts (bench/run counts)
 *     season parting FUNCTION TEXT     one report over a text without a plan, the same
 */
#include "days.h"

enum { MOST_DAYS = YARD_SEASON_MOST_DAYS, COUNTED_DAYS = 24, TRAINS = 12, MOST_SEASON = 1048576, REFUSALS = 27 };

/* ---- the season: day files in one text, an empty line between two */

enum kind { OPEN, NARROW, DRAWN, KINDS };

static const char *const seasons[] = {[OPEN] = "open", [NARROW] = "narrow", [DRAWN] = "drawn", [KINDS] = "mixed"};

static uint8_t text[MOST_SEASON];
static size_t text_length;
static size_t begins[MOST_DAYS], lengths[MOST_DAYS];
static size_t day_count;

/* Two slots to each train, the trains spread over the slots. */
static void narrow_windows(struct day *d)
{
    for (unsigned i = 0; i < d->trains; i++) {
        d->first[i] = i * (d->slots - 1) / d->trains + 1;
        d->last[i] = d->first[i] + 1;
    }
}

/* Windows of 2 to 4 slots, anywhere in the day's slots. */
static void draw_windows(struct day *d, uint64_t *seed)
{
    for (size_t i = 0; i < d->trains; i++) {
        unsigned length = 2 + (unsigned)(draw(seed) % 3);
        if (length > d->slots)
            length = d->slots;
        d->first[i] = 1 + (unsigned)(draw(seed) % (d->slots - length + 1));
        d->last[i] = d->first[i] + length - 1;
    }
}

/* Not yard_plan, whose calls are counted. */
static int is_overbooked(const struct day *d)
{
    uint64_t numbers[YARD_LONG_NUMBERS];
    uint8_t row[YARD_LONG_MOST_TRAINS];
    size_t trains;
    return yard_long_plan((const uint8_t *)d->text, d->length, 1, row, sizeof row, numbers, YARD_LONG_NUMBERS, &trains) == 9;
}

/* A day that has a plan: 3 or 4 tracks and as many slots as the trains need at least, 8 at most; windows that overbook a stretch are drawn
 * again. */
static void draw_day(struct day *d, enum kind kind, uint64_t seed)
{
    unsigned tracks = 3 + (unsigned)(draw(&seed) % 2), fewest = TRAINS / tracks;
    begin_day(d, kind, seasons[kind], TRAINS, tracks, fewest + (unsigned)(draw(&seed) % (8 - fewest + 1)));
    d->revisit = 100;
    draw_boxes(d, 2 * (1 + (unsigned)(draw(&seed) % 4)), draw(&seed));
    do {
        if (kind == NARROW)
            narrow_windows(d);
        if (kind == DRAWN)
            draw_windows(d, &seed);
        write_text(d);
    } while (is_overbooked(d));
}

/* Puts a day at the end of the text, behind an empty line where it is not the first. */
static void join_day(const struct day *d)
{
    if (sizeof text <= text_length + d->length)
        fail(d->name, "the season is too long");
    if (day_count > 0)
        text[text_length++] = '\n';
    memcpy(text + text_length, d->text, d->length);
    begins[day_count] = text_length;
    lengths[day_count++] = d->length;
    text_length += d->length;
}

/* The kinds in turn where the season is mixed. */
static void draw_season(unsigned season, unsigned days)
{
    static struct day d;
    text_length = day_count = 0;
    for (unsigned k = 0; k < days; k++) {
        draw_day(&d, season == KINDS ? k % KINDS : season, 60000 + k);
        join_day(&d);
    }
}

/* ---- the calls: a report, or one for each day */

struct sums {
    uint64_t answers[REFUSALS];       /* how many days are planned, at 0, and refused under each number */
    uint64_t moves[YARD_NUMBERS];     /* revisits, split moves, direct moves and cost of the planned days */
    uint64_t savings, served_as_come; /* of first come, and on how many days it gives an allowed row */
};

/* No refusal is above 26: REFUSALS is the length of the report's counters. */
static void count_answer(struct sums *s, uint64_t refusal)
{
    if (refusal >= REFUSALS)
        fail("season", "an unknown refusal");
    s->answers[refusal]++;
}

static void plan_days(struct sums *s)
{
    uint64_t numbers[YARD_NUMBERS];
    uint8_t row[YARD_MOST_TRAINS];
    size_t trains;
    for (size_t k = 0; k < day_count; k++) {
        uint64_t refusal = yard_plan(text + begins[k], lengths[k], row, sizeof row, numbers, YARD_NUMBERS, &trains);
        count_answer(s, refusal);
        for (size_t i = 0; i < YARD_NUMBERS && refusal == 0; i++)
            s->moves[i] += numbers[i];
    }
}

static void come_first(struct sums *s)
{
    uint64_t numbers[YARD_NUMBERS];
    int64_t saving;
    for (size_t k = 0; k < day_count; k++) {
        if (yard_first_come_first_served(text + begins[k], lengths[k], numbers, YARD_NUMBERS, &saving) == 0) {
            s->savings += (uint64_t)saving;
            s->served_as_come++;
        }
    }
}

static void report(uint64_t *numbers)
{
    if (yard_season(text, text_length, numbers, YARD_SEASON_NUMBERS) != 0)
        fail("season", "the report was refused");
}

/* ---- the same numbers from both */

static void put_mean(uint64_t *numbers, size_t mean, uint64_t total)
{
    uint64_t planned = numbers[YARD_SEASON_PLANNED];
    numbers[mean] = planned ? total / planned : 0;
    numbers[mean + 1] = planned ? total % planned : 0;
}

/* The report, from what the calls for each day gave. */
static void sum_up(uint64_t *numbers, const struct sums *s)
{
    uint64_t boxes = s->moves[1] + s->moves[2];
    memcpy(numbers, s->answers, sizeof s->answers);
    numbers[YARD_SEASON_REVISITS] = s->moves[0];
    numbers[YARD_SEASON_SPLITS] = s->moves[1];
    numbers[YARD_SEASON_DIRECT] = s->moves[2];
    numbers[YARD_SEASON_BOXES] = boxes;
    numbers[YARD_SEASON_SAVINGS] = s->savings;
    put_mean(numbers, YARD_SEASON_MEAN_REVISITS, s->moves[0]);
    put_mean(numbers, YARD_SEASON_MEAN_SPLITS, s->moves[1]);
    put_mean(numbers, YARD_SEASON_MEAN_DIRECT, s->moves[2]);
    put_mean(numbers, YARD_SEASON_MEAN_BOXES, boxes);
}

static void check_season(void)
{
    struct sums s;
    uint64_t reported[YARD_SEASON_NUMBERS], summed[YARD_SEASON_NUMBERS];
    memset(&s, 0, sizeof s);
    memset(reported, 0xaa, sizeof reported);
    report(reported);
    plan_days(&s);
    come_first(&s);
    sum_up(summed, &s);
    if (memcmp(reported, summed, sizeof reported) != 0)
        fail("season", "the report has other numbers than its days");
    printf("\na season of %zu days, %zu bytes: the same %d numbers from the report and from its days\n", day_count, text_length,
           YARD_SEASON_NUMBERS);
    printf("%u days planned, %u of them with a row by first come; revisits %u, split moves %u, direct moves %u, boxes %u, savings %u\n",
           (unsigned)s.answers[0], (unsigned)s.served_as_come, (unsigned)s.moves[0], (unsigned)s.moves[1], (unsigned)s.moves[2],
           (unsigned)summed[YARD_SEASON_BOXES], (unsigned)s.savings);
}

/* ---- time: the processor's, as of long days */

enum way { REPORT, PLANS, PLANS_AND_SAVINGS, WAYS };

static double time_way(enum way way)
{
    static struct sums s;
    uint64_t numbers[YARD_SEASON_NUMBERS];
    double from = nanoseconds(CLOCK_PROCESS_CPUTIME_ID);
    if (way == REPORT)
        report(numbers);
    else
        plan_days(&s);
    if (way == PLANS_AND_SAVINGS)
        come_first(&s);
    return nanoseconds(CLOCK_PROCESS_CPUTIME_ID) - from;
}

/* In each round every way has its turn; the first one changes. */
static void measure(unsigned rounds)
{
    double least[WAYS];
    for (unsigned round = 0; round < rounds; round++) {
        for (size_t turn = 0; turn < WAYS; turn++) {
            size_t way = (turn + round) % WAYS;
            double t = time_way(way);
            if (round == 0 || t < least[way])
                least[way] = t;
        }
    }
    printf("one report's time, least of %u rounds: %.1f milliseconds, %.3f a day; divided by that of the calls on its days:\n", rounds,
           least[REPORT] / 1e6, least[REPORT] / 1e6 / (double)day_count);
    printf("%-60s %8.3f\n", "yard_plan", least[REPORT] / least[PLANS]);
    printf("%-60s %8.3f\n", "yard_plan and yard_first_come_first_served", least[REPORT] / least[PLANS_AND_SAVINGS]);
}

/* ---- parting: texts in which no day has a plan */

/* Empty lines first, one day more than those; the last day is lines of 63 times x up to the end. */
static const struct parted {
    const char *name;
    size_t bytes, empty_lines;
} parted[] = {
    {"bad-256", 262144, 0},
    {"bad-1024", 1048576, 0},
    {"tail-256", 262144, MOST_DAYS - 1},
    {"tail-1024", 1048576, MOST_DAYS - 1},
    {"over-1024", 1048576, MOST_DAYS},
};

enum { PARTED = sizeof parted / sizeof *parted };

/* Leaves the days of the text in begins and lengths, where a season can have so many. */
static void write_parted(const struct parted *p)
{
    memset(text, '\n', p->empty_lines);
    for (size_t i = p->empty_lines; i < p->bytes; i++)
        text[i] = (i - p->empty_lines) % 64 == 63 ? '\n' : 'x';
    text_length = p->bytes;
    for (day_count = 0; day_count <= p->empty_lines && day_count < MOST_DAYS; day_count++) {
        begins[day_count] = day_count;
        lengths[day_count] = day_count < p->empty_lines ? 0 : p->bytes - day_count;
    }
}

/* Refused with 22 where there is a day too many; else the report of days that yard_plan refuses, each under the same number. */
static void check_parted(const struct parted *p)
{
    struct sums s;
    uint64_t reported[YARD_SEASON_NUMBERS], summed[YARD_SEASON_NUMBERS] = {0};
    uint64_t refusal = yard_season(text, text_length, reported, YARD_SEASON_NUMBERS);
    memset(&s, 0, sizeof s);
    plan_days(&s);
    if (p->empty_lines < MOST_DAYS)
        sum_up(summed, &s);
    if (refusal != (p->empty_lines < MOST_DAYS ? 0 : 22) || s.answers[0] != 0 || memcmp(reported, summed, sizeof reported) != 0)
        fail(p->name, "the report is another than the text was made for");
}

static void measure_parted(const struct parted *p, unsigned rounds)
{
    uint64_t numbers[YARD_SEASON_NUMBERS];
    double least = 0;
    char label[64];
    for (unsigned round = 0; round < rounds; round++) {
        double from = nanoseconds(CLOCK_PROCESS_CPUTIME_ID);
        yard_season(text, text_length, numbers, YARD_SEASON_NUMBERS);
        double t = nanoseconds(CLOCK_PROCESS_CPUTIME_ID) - from;
        if (round == 0 || t < least)
            least = t;
    }
    snprintf(label, sizeof label, "%s: %zu bytes, %zu %s", p->name, p->bytes, p->empty_lines + 1, p->empty_lines ? "days" : "day");
    printf("%-60s %8.3f %12.3f\n", label, least / (double)p->bytes, least / 1e6);
}

static int compare(unsigned rounds)
{
    draw_season(KINDS, MOST_DAYS);
    check_season();
    measure(rounds);
    printf("\n%-60s %8s %12s\n", "parting a text without a plan", "ns/byte", "milliseconds");
    for (size_t k = 0; k < PARTED; k++) {
        write_parted(&parted[k]);
        check_parted(&parted[k]);
        measure_parted(&parted[k], 10 * rounds);
    }
    return 0;
}

/* ---- for the counts */

static int call_once(const char *function)
{
    struct sums s;
    uint64_t numbers[YARD_SEASON_NUMBERS];
    memset(&s, 0, sizeof s);
    if (strcmp(function, "yard_season") == 0)
        yard_season(text, text_length, numbers, YARD_SEASON_NUMBERS);
    else if (strcmp(function, "yard_plan") == 0)
        plan_days(&s);
    else if (strcmp(function, "yard_first_come_first_served") == 0)
        come_first(&s);
    else
        fail(function, "no such function");
    return 0;
}

static int report_once(const char *function, const char *season)
{
    for (unsigned k = 0; k <= KINDS; k++) {
        if (strcmp(seasons[k], season) == 0) {
            draw_season(k, COUNTED_DAYS);
            return call_once(function);
        }
    }
    fail(season, "no such season");
    return 1;
}

static int part_once(const char *function, const char *name)
{
    for (size_t k = 0; k < PARTED; k++) {
        if (strcmp(parted[k].name, name) == 0) {
            write_parted(&parted[k]);
            return call_once(function);
        }
    }
    fail(name, "no such text");
    return 1;
}

int main(int argc, char **argv)
{
    if (argc == 2 && atoi(argv[1]) > 0)
        return compare((unsigned)atoi(argv[1]));
    if (argc == 4 && strcmp(argv[1], "report") == 0)
        return report_once(argv[2], argv[3]);
    if (argc == 4 && strcmp(argv[1], "parting") == 0)
        return part_once(argv[2], argv[3]);
    fprintf(stderr, "usage: season ROUNDS | report FUNCTION SEASON | parting FUNCTION TEXT\n");
    return 2;
}
