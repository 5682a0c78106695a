/* How good the plans of long days are: draws days as section 5.1 of the source does, plans them by yard_long_plan at several widths, and
 * sets the costs beside the exact ones (yard_plan, up to 12 trains), those of first come and the lower figures. It prints tables in
 * Markdown, with the source's own numbers (its Tables 4 and 5) in the last columns.
 *
 *     quality DAYS     DAYS days for each number of trains and each probability (the source: 20)
 *
 * Exit status: 0 planned; 1 where a call contradicts another: a cost below the exact one or the lower figure, a cost that is not the exact
 * one though no slot was full, or another cost where the row is valued. */
#include "days.h"

static const uint32_t widths[] = {1, 5, 10, 30, 64};

enum { WIDTHS = sizeof widths / sizeof *widths, AT_1 = 0, AT_5, AT_10, AT_30, AT_64 };

/* ---- a family of days: with every track taken as in the source, or with slots to spare, or with windows */

struct family {
    const char *title;
    unsigned seed, tracks;
    unsigned trains[4]; /* 0 ends them */
    unsigned slots;     /* 0 for as many as the trains fill */
    int is_windowed, is_small; /* small: planned exactly too */
    double source[4][4][2]; /* what the source's Table 4 or 5 has for its beam search: average and greatest, by trains and probability */
};

static const struct family case_a = {
    "case A: 3 tracks, as many slots as the trains fill", 1, 3, {6, 9, 12, 0}, 0, 0, 1,
    {{{0.0, 0.0}, {0.0, 0.0}, {0.0, 0.0}, {0.0, 0.0}},
     {{0.0, 0.0}, {0.1, 2.3}, {0.4, 3.4}, {0.0, 0.7}},
     {{0.8, 16.7}, {2.2, 5.6}, {0.6, 1.4}, {0.4, 2.3}}}};

static const struct family case_b = {
    "case B: 4 tracks, as many slots as the trains fill", 2, 4, {24, 28, 32, 36}, 0, 0, 0,
    {{{79.8, 91.7}, {47.4, 72.5}, {29.5, 34.8}, {18.2, 21.7}},
     {{80.3, 92.9}, {45.5, 53.5}, {28.0, 31.2}, {18.2, 20.7}},
     {{78.2, 91.4}, {41.9, 51.2}, {25.1, 29.1}, {16.6, 19.5}},
     {{74.6, 87.2}, {39.9, 48.6}, {24.9, 28.2}, {16.1, 19.0}}}};

static const struct family spare = {"slots to spare: 3 tracks, 6 slots", 3, 3, {9, 12, 0}, 6, 0, 1, {{{0}}}};

static const struct family windowed = {"windows of 2 to 4 slots: 3 tracks, 6 slots", 4, 3, {9, 12, 0}, 6, 1, 1, {{{0}}}};

static void draw_windows(struct day *d, uint64_t *seed)
{
    for (size_t i = 0; i < d->trains; i++) {
        unsigned length = 2 + (unsigned)(draw(seed) % 3);
        d->first[i] = 1 + (unsigned)(draw(seed) % (d->slots - length + 1));
        d->last[i] = d->first[i] + length - 1;
    }
}

/* Draws a day that has a row: windows that overbook a stretch are drawn again. */
static void draw_day(struct day *d, const struct family *f, unsigned trains, unsigned tenths, unsigned k)
{
    char name[24];
    uint64_t seed = (uint64_t)f->seed * 1000000 + trains * 10000 + tenths * 1000 + k, window_seed = ~seed;
    uint64_t numbers[YARD_LONG_NUMBERS];
    uint8_t row[YARD_LONG_MOST_TRAINS];
    size_t count;
    snprintf(name, sizeof name, "%u-%u-%u-%u", f->seed, trains, tenths, k);
    begin_day(d, 0, name, trains, f->tracks, f->slots ? f->slots : trains / f->tracks);
    draw_boxes(d, tenths, seed);
    do {
        if (f->is_windowed)
            draw_windows(d, &window_seed);
        write_text(d);
    } while (yard_long_plan((const uint8_t *)d->text, d->length, 1, row, sizeof row, numbers, YARD_LONG_NUMBERS, &count) == 9);
}

/* ---- what comes out for one day */

struct outcome {
    uint64_t cost[WIDTHS], full[WIDTHS], lower;
    double seconds[WIDTHS];
    uint64_t exact;      /* of a small day */
    uint64_t first_come; /* UINT64_MAX where it leaves a train without a slot */
};

static void plan_at(struct outcome *o, const struct day *d, size_t w)
{
    uint64_t numbers[YARD_LONG_NUMBERS], valued[YARD_NUMBERS];
    uint8_t row[YARD_LONG_MOST_TRAINS];
    size_t count;
    double from = nanoseconds(CLOCK_PROCESS_CPUTIME_ID);
    if (yard_long_plan((const uint8_t *)d->text, d->length, widths[w], row, sizeof row, numbers, YARD_LONG_NUMBERS, &count) != 0)
        fail(d->name, "not planned");
    o->seconds[w] = (nanoseconds(CLOCK_PROCESS_CPUTIME_ID) - from) / 1e9;
    o->cost[w] = numbers[3];
    o->full[w] = numbers[4];
    o->lower = numbers[5];
    if (yard_long_value((const uint8_t *)d->text, d->length, row, count, valued, YARD_NUMBERS) != 0 || valued[3] != o->cost[w])
        fail(d->name, "the row's value is another than the plan's");
    if (o->cost[w] < o->lower)
        fail(d->name, "a cost below the lower figure");
}

static void plan_exactly(struct outcome *o, const struct day *d)
{
    uint64_t numbers[YARD_NUMBERS];
    uint8_t row[YARD_MOST_TRAINS];
    size_t count;
    if (yard_plan((const uint8_t *)d->text, d->length, row, sizeof row, numbers, YARD_NUMBERS, &count) != 0)
        fail(d->name, "not planned exactly");
    o->exact = numbers[3];
    for (size_t w = 0; w < WIDTHS; w++)
        if (o->cost[w] < o->exact || (o->full[w] == 0 && o->cost[w] != o->exact))
            fail(d->name, "the beam search contradicts exact planning");
}

/* First come of a small day, as order 1 has it; of a larger one with all windows open, in the order of the trains, track by track. */
static void come_first(struct outcome *o, const struct day *d, int is_small)
{
    uint64_t numbers[YARD_NUMBERS];
    uint8_t row[YARD_LONG_MOST_TRAINS];
    int64_t saving;
    uint64_t refusal;
    if (is_small) {
        refusal = yard_first_come_first_served((const uint8_t *)d->text, d->length, numbers, YARD_NUMBERS, &saving);
    } else {
        for (unsigned i = 0; i < d->trains; i++)
            row[i] = (uint8_t)(i / d->tracks + 1);
        refusal = yard_long_value((const uint8_t *)d->text, d->length, row, d->trains, numbers, YARD_NUMBERS);
    }
    if (refusal != 0 && refusal != 14)
        fail(d->name, "first come is not valued");
    o->first_come = refusal == 0 ? numbers[3] : UINT64_MAX;
}

/* ---- averages over days */

struct mean {
    double sum, greatest;
    unsigned count;
};

static void take(struct mean *m, double x)
{
    if (m->count == 0 || m->greatest < x)
        m->greatest = x;
    m->sum += x;
    m->count++;
}

struct averages {
    unsigned days, free, missed;              /* free: the exact cost is 0; missed: of these, the plan at width 30 costs more */
    struct mean gap[WIDTHS];                  /* to the exact cost, in hundredths of it, where that is not 0 */
    struct mean gain[WIDTHS], room;           /* on first come, in hundredths of its cost; what the lower figure leaves */
    struct mean over[WIDTHS], exact_over;     /* cost divided by the lower figure, where that is not 0 */
    struct mean seconds[WIDTHS];
    unsigned exact[WIDTHS], no_full[WIDTHS];  /* days at the exact cost; days without a full slot */
    unsigned dearer[WIDTHS], beaten;          /* days at which this width costs more than the one before; width 30 more than first come */
};

static void take_width(struct averages *a, const struct outcome *o, size_t w, int is_small)
{
    double cost = (double)o->cost[w];
    if (is_small && o->exact > 0)
        take(&a->gap[w], 100 * (cost / (double)o->exact - 1));
    if (o->first_come != UINT64_MAX && o->first_come > 0)
        take(&a->gain[w], 100 * (1 - cost / (double)o->first_come));
    if (o->lower > 0)
        take(&a->over[w], cost / (double)o->lower);
    take(&a->seconds[w], o->seconds[w]);
    a->exact[w] += is_small && o->cost[w] == o->exact;
    a->no_full[w] += o->full[w] == 0;
    a->dearer[w] += w > 0 && o->cost[w - 1] < o->cost[w];
}

static void take_outcome(struct averages *a, const struct outcome *o, int is_small)
{
    a->days++;
    a->free += is_small && o->exact == 0;
    a->missed += is_small && o->exact == 0 && o->cost[AT_30] > 0;
    if (o->first_come != UINT64_MAX && o->first_come > 0) {
        take(&a->room, 100 * (1 - (double)o->lower / (double)o->first_come));
        a->beaten += o->first_come < o->cost[AT_30];
    }
    if (is_small && o->lower > 0)
        take(&a->exact_over, (double)o->exact / (double)o->lower);
    for (size_t w = 0; w < WIDTHS; w++)
        take_width(a, o, w, is_small);
}

/* ---- the tables */

static void print_mean(struct mean m, int digits)
{
    if (m.count > 0)
        printf(" %.*f |", digits, m.sum / m.count);
    else
        printf(" - |");
}

static void print_pair(struct mean m)
{
    if (m.count > 0)
        printf(" %.1f, %.1f |", m.sum / m.count, m.greatest);
    else
        printf(" - |");
}

static void print_share(unsigned part, unsigned whole)
{
    printf(" %.0f |", 100.0 * part / whole);
}

/* Of a small day: the gap to the exact cost. */
static void print_small(const struct averages *a)
{
    print_pair(a->gap[AT_1]);
    for (size_t w = AT_10; w < WIDTHS; w++)
        print_pair(a->gap[w]);
    print_share(a->exact[AT_30], a->days);
    print_share(a->exact[AT_64], a->days);
    print_share(a->no_full[AT_30], a->days);
    print_share(a->no_full[AT_64], a->days);
    print_mean(a->exact_over, 2);
    print_mean(a->over[AT_30], 2);
    print_pair(a->gain[AT_30]);
    print_mean(a->seconds[AT_30], 4);
}

/* Of a larger one: the gain on first come. */
static void print_large(const struct averages *a)
{
    for (size_t w = 0; w < WIDTHS; w++)
        print_pair(a->gain[w]);
    print_pair(a->room);
    print_mean(a->over[AT_30], 2);
    print_mean(a->over[AT_64], 2);
    print_share(a->no_full[AT_64], a->days);
    print_mean(a->seconds[AT_30], 3);
    print_mean(a->seconds[AT_64], 3);
}

/* A pair is an average and the greatest; a share is in hundredths of the days. */
static const char small_head[] = "| trains | probability | width 1 | width 10 | width 30 | width 64 | exact at 30 | exact at 64 | "
                                 "no full slot at 30 | no full slot at 64 | exact / lower | width 30 / lower | "
                                 "gain on first come at 30 | seconds at 30 |";
static const char large_head[] = "| trains | probability | width 1 | width 5 | width 10 | width 30 | width 64 | any row at most | "
                                 "width 30 / lower | width 64 / lower | no full slot at 64 | seconds at 30 | seconds at 64 |";

static void print_head(const struct family *f)
{
    const char *head = f->is_small ? small_head : large_head;
    printf("\n%s\n\n%s%s\n", f->title, head, f->slots ? "" : " source |");
    for (const char *at = head; at[1]; at++)
        if (*at == '|')
            printf("|---");
    printf("%s|\n", f->slots ? "" : "|---");
}

/* The averages of one number of trains and probability; of all days where source is null. */
static void print_row(const struct family *f, const struct averages *a, unsigned trains, unsigned tenths, const double *source)
{
    if (source)
        printf("| %u | 0.%u |", trains, tenths);
    else
        printf("| all | |");
    if (f->is_small)
        print_small(a);
    else
        print_large(a);
    if (source && !f->slots)
        printf(" %.1f, %.1f |", source[0], source[1]);
    else if (!f->slots)
        printf(" |");
    putchar('\n');
}

/* Plans one day in every way. */
static void plan_day(struct outcome *o, const struct day *d, int is_small)
{
    for (size_t w = 0; w < WIDTHS; w++)
        plan_at(o, d, w);
    if (is_small)
        plan_exactly(o, d);
    come_first(o, d, is_small);
}

static void plan_family(const struct family *f, unsigned days)
{
    static struct averages all;
    static struct day d;
    memset(&all, 0, sizeof all);
    print_head(f);
    for (size_t n = 0; n < 4 && f->trains[n] > 0; n++) {
        for (unsigned p = 0; p < 4; p++) {
            struct averages a;
            memset(&a, 0, sizeof a);
            for (unsigned k = 1; k <= days; k++) {
                struct outcome o;
                draw_day(&d, f, f->trains[n], 2 * p + 2, k);
                plan_day(&o, &d, f->is_small);
                take_outcome(&a, &o, f->is_small);
                take_outcome(&all, &o, f->is_small);
            }
            print_row(f, &a, f->trains[n], 2 * p + 2, f->source[n][p]);
        }
    }
    print_row(f, &all, 0, 0, NULL);
    printf("\n%u days, %u for each line; exact cost 0 on %u, of which width 30 misses %u\n", all.days, days, all.free, all.missed);
    printf("width 30 dearer than first come on %u days\n", all.beaten);
    printf("dearer than the width before: at 5 on %u days, at 10 on %u, at 30 on %u, at 64 on %u\n", all.dearer[AT_5], all.dearer[AT_10],
           all.dearer[AT_30], all.dearer[AT_64]);
}

/* ---- more width may cost more */

static uint64_t cost_at(const struct day *d, uint32_t width)
{
    uint64_t numbers[YARD_LONG_NUMBERS];
    uint8_t row[YARD_LONG_MOST_TRAINS];
    size_t count;
    if (yard_long_plan((const uint8_t *)d->text, d->length, width, row, sizeof row, numbers, YARD_LONG_NUMBERS, &count) != 0)
        fail(d->name, "not planned");
    return numbers[3];
}

static void print_wider(void)
{
    static struct day d;
    begin_day(&d, 0, "wider", 4, 2, 3);
    d.boxes[2][3] = 2;
    write_text(&d);
    printf("4 trains, 2 tracks, 3 slots, 2 boxes to train 3 from train 4: width 1 costs %u, width 2 costs %u\n", (unsigned)cost_at(&d, 1),
           (unsigned)cost_at(&d, 2));
}

int main(int argc, char **argv)
{
    if (argc != 2 || atoi(argv[1]) < 1) {
        fprintf(stderr, "usage: quality DAYS\n");
        return 2;
    }
    unsigned days = (unsigned)atoi(argv[1]);
    print_wider();
    plan_family(&case_a, days);
    plan_family(&case_b, days);
    plan_family(&spare, days);
    plan_family(&windowed, days);
    return 0;
}
