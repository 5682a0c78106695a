/* Holds the proved library and the C programs of bench/plan.c to each other in one process: the same bytes for every day, then the time
 * of the proved answer divided by that of each C program; then a change on a moving day to the plan of its cut day, the same slots and the
 * time. bench/run builds and calls it, with -DCOMPILERS='C(gcc) C(clang)' for the compilers whose same_gcc, plain_gcc, same_clang,
 * plain_clang are linked.
 *
 *     compare ROUNDS                checks all days, measures them in ROUNDS rounds, prints the tables
 *     compare days FOLDER           writes the days as day files, for bench/solver
 *     compare time FILE ROUNDS      prints the nanoseconds of the least proved call on a day file, for bench/solver
 *     compare answer FUNCTION DAY   one call, for instruction counts (bench/run counts)
 *     compare moving FUNCTION STATE the same of a moving day's functions
 */
#include "days.h"

/* ---- the functions: the proved one, then the same algorithm by each compiler, then the plain one by each */

typedef uint64_t answer_function(const uint8_t *text, size_t text_length, uint8_t *out, size_t out_length, size_t *bytes);

#define C(compiler) answer_function same_##compiler, plain_##compiler;
COMPILERS
#undef C

struct function {
    const char *name;
    answer_function *answer;
};

static const struct function functions[] = {
    {"yard_answer", yard_answer},
#define C(compiler) {"same_" #compiler, same_##compiler},
    COMPILERS
#undef C
#define C(compiler) {"plain_" #compiler, plain_##compiler},
    COMPILERS
#undef C
};

enum { FUNCTIONS = sizeof functions / sizeof *functions, COMPILED = (FUNCTIONS - 1) / 2, PROVED = 0, SAME = 1, PLAIN = 1 + COMPILED };

/* ---- the days, as texts */

enum { MOST_DAYS = 64, PER_PROBABILITY = 5 };

enum kind { MAIN, PUBLISHED, GROWTH, WINDOWS, SETS, OVERBOOKED, UNKEPT };

static struct day days[MOST_DAYS];
static size_t day_count;

static struct day *new_day(enum kind kind, const char *name, unsigned trains, unsigned tracks, unsigned slots)
{
    struct day *d = &days[day_count++];
    begin_day(d, kind, name, trains, tracks, slots);
    return d;
}

/* Boxes between all pairs, by a formula in the trains' numbers. */
static void fill_boxes(struct day *d)
{
    d->revisit = 100;
    for (unsigned i = 1; i <= d->trains; i++)
        for (unsigned j = 1; j <= d->trains; j++)
            d->boxes[i - 1][j - 1] = i == j ? 0 : (7 * i * i + 13 * j + 5 * i * j) % 40 + 1;
}

/* Two slots to each train, the trains spread over the slots. */
static void narrow_windows(struct day *d)
{
    for (unsigned i = 0; i < d->trains; i++) {
        d->first[i] = i * (d->slots - 1) / d->trains + 1;
        d->last[i] = d->first[i] + 1;
    }
}

/* Three groups of three trains: 1, 4 and 7 in the first, and so on; the trains from 10 on have none. */
static void group_trains(struct day *d)
{
    for (unsigned i = 0; i < 9; i++)
        d->sets[i] = i % 3 + 1;
}

/* A day with boxes by the formula and three groups. */
static void add_sets(enum kind kind, const char *name, unsigned tracks, unsigned slots)
{
    struct day *d = new_day(kind, name, 12, tracks, slots);
    fill_boxes(d);
    group_trains(d);
}

/* A day with boxes by the formula and both weights 0: all rows cost the same, so the cost alone decides nothing. */
static void add_ties(void)
{
    struct day *d = new_day(MAIN, "ties", 12, 2, 8);
    fill_boxes(d);
    d->revisit = d->split = 0;
}

static void make_days(void)
{
    char name[24];
    fill_boxes(new_day(MAIN, "open", 12, 12, 8));
    fill_boxes(new_day(MAIN, "tight", 12, 2, 8));
    fill_boxes(new_day(MAIN, "paper", 12, 3, 4));
    add_sets(MAIN, "sets", 12, 8);
    add_ties();
    for (unsigned tenths = 2; tenths <= 8; tenths += 2) {
        for (unsigned k = 1; k <= PER_PROBABILITY; k++) {
            snprintf(name, sizeof name, "p%u-%u", tenths, k);
            draw_boxes(new_day(PUBLISHED, name, 12, 3, 4), tenths, 1000 * tenths + k);
        }
    }
    for (unsigned n = 4; n <= 12; n++) {
        snprintf(name, sizeof name, "n%u", n);
        draw_boxes(new_day(GROWTH, name, n, 3, 4), 5, 20000 + n);
    }
    struct day *d = new_day(WINDOWS, "windows", 12, 3, 7);
    draw_boxes(d, 5, 30000);
    narrow_windows(d);
    add_sets(SETS, "paper-sets", 3, 4);
    fill_boxes(new_day(OVERBOOKED, "overbooked", 12, 1, 8));
    add_sets(UNKEPT, "unkept", 2, 8);
    for (size_t k = 0; k < day_count; k++)
        write_text(&days[k]);
}

/* ---- the same bytes from all */

/* Calls a function over an output of one byte value, so that a byte written beyond the answer shows. */
static size_t answer_into(const struct function *f, const struct day *d, uint8_t *out)
{
    size_t bytes = 0;
    memset(out, 0xaa, YARD_ANSWER_BYTES);
    if (f->answer((const uint8_t *)d->text, d->length, out, YARD_ANSWER_BYTES, &bytes) != 0)
        fail(d->name, "an answer was refused");
    return bytes;
}

/* How the answer to a day must begin. */
static const char *expected_start(enum kind kind)
{
    if (kind == OVERBOOKED)
        return "refusal first last trains\n";
    return kind == UNKEPT ? "refusal line\n16 0\n" : "revisits splits direct cost\n";
}

static void check_day(const struct day *d)
{
    uint8_t proved[YARD_ANSWER_BYTES], other[YARD_ANSWER_BYTES];
    char what[64];
    size_t bytes = answer_into(&functions[PROVED], d, proved);
    const char *begin = expected_start(d->kind);
    if (bytes < strlen(begin) || memcmp(proved, begin, strlen(begin)) != 0)
        fail(d->name, "the answer is of another kind than the day was made for");
    for (size_t k = 1; k < FUNCTIONS; k++) {
        snprintf(what, sizeof what, "%s gives another answer", functions[k].name);
        if (answer_into(&functions[k], d, other) != bytes || memcmp(proved, other, sizeof proved) != 0)
            fail(d->name, what);
    }
}

/* ---- time */

static double now(void)
{
    return nanoseconds(CLOCK_MONOTONIC);
}

/* Nanoseconds of a call, over as many calls as the day has in one measurement. */
static double time_call(const struct function *f, const struct day *d)
{
    uint8_t out[YARD_ANSWER_BYTES];
    size_t bytes;
    double from = now();
    for (unsigned k = 0; k < d->calls; k++)
        f->answer((const uint8_t *)d->text, d->length, out, sizeof out, &bytes);
    return (now() - from) / d->calls;
}

/* So many calls that a measurement takes at least a fifth of a millisecond, which the clock's own cost does not touch. */
static void choose_calls(struct day *d)
{
    d->calls = 1;
    while (d->calls < 1000 && time_call(&functions[PROVED], d) * d->calls < 2e5)
        d->calls *= 2;
}

/* In each round every day and function has its turn, so a busy moment of the machine falls on all alike; the first one changes. */
static void measure(unsigned rounds)
{
    for (unsigned round = 0; round < rounds; round++) {
        for (size_t k = 0; k < day_count; k++) {
            for (size_t turn = 0; turn < FUNCTIONS; turn++) {
                size_t f = (turn + round) % FUNCTIONS;
                double t = time_call(&functions[f], &days[k]);
                if (round == 0 || t < days[k].least[f])
                    days[k].least[f] = t;
            }
        }
    }
}

/* ---- the tables */

/* The least times of several days, added for each function. */
struct total {
    double least[FUNCTIONS];
};

static void add_day(struct total *sum, const struct day *d)
{
    for (size_t f = 0; f < FUNCTIONS; f++)
        sum->least[f] += d->least[f];
}

static double fastest(const struct total *sum, size_t from)
{
    double best = sum->least[from];
    for (size_t f = from + 1; f < from + COMPILED; f++)
        if (sum->least[f] < best)
            best = sum->least[f];
    return best;
}

/* The line above a table; its last column, which not every table has, is named by last. */
static void print_head(const char *title, const char *last)
{
    printf("\n%-52s %10s %10s", title, "same C", "plain C");
    for (size_t f = 1; f < FUNCTIONS; f++)
        printf(" %12s", functions[f].name);
    printf("%s\n", last);
}

static void print_ratios(const char *label, const struct total *sum)
{
    double proved = sum->least[PROVED];
    printf("%-52s %10.2f %10.2f", label, proved / fastest(sum, SAME), proved / fastest(sum, PLAIN));
    for (size_t f = 1; f < FUNCTIONS; f++)
        printf(" %12.2f", proved / sum->least[f]);
}

static void print_day(const struct day *d)
{
    char label[64];
    struct total sum = {{0}};
    add_day(&sum, d);
    snprintf(label, sizeof label, "%s: %u trains, %u tracks, %u slots", d->name, d->trains, d->tracks, d->slots);
    print_ratios(label, &sum);
}

static void print_kind(enum kind kind, const char *title)
{
    print_head(title, "");
    for (size_t k = 0; k < day_count; k++) {
        if (days[k].kind == kind) {
            print_day(&days[k]);
            putchar('\n');
        }
    }
}

/* The days of one probability together. */
static void print_published(void)
{
    print_head("source 000, section 5: 12 trains, 3 tracks, 4 slots", "");
    for (unsigned tenths = 2; tenths <= 8; tenths += 2) {
        char label[64];
        struct total sum = {{0}};
        for (size_t k = 0; k < day_count; k++)
            if (days[k].kind == PUBLISHED && days[k].tenths == tenths)
                add_day(&sum, &days[k]);
        snprintf(label, sizeof label, "probability 0.%u, %d days", tenths, PER_PROBABILITY);
        print_ratios(label, &sum);
        putchar('\n');
    }
}

/* How the cost grows with the trains: beside the ratios the proved answer's time, that of the fewest trains being 1. */
static void print_growth(void)
{
    const struct day *fewest = NULL;
    print_head("growth: probability 0.5", "  proved time");
    for (size_t k = 0; k < day_count; k++) {
        if (days[k].kind == GROWTH) {
            if (!fewest)
                fewest = &days[k];
            print_day(&days[k]);
            printf(" %12.1f\n", days[k].least[PROVED] / fewest->least[PROVED]);
        }
    }
}

/* ---- moving days: a changed state against its cut day */

/* A state: a main day that was begun, with its first slots closed. The change sets the boxes of one pair to a number that no pair has. The
 * cut day is what has to be planned then: the changed day, each served train bound to its slot, the windows of the others from the first
 * open slot on. */
enum { CHANGED_TO = 12, CHANGED_FROM = 11, CHANGED_BOXES = 41 };

enum mover { SET_BOXES, CLOSE, PLAN_CUT, MOVERS };

struct state {
    const char *name, *main_day;
    int parted; /* trains 1 to 3 have slot 1 alone, the others the slots after it */
    uint32_t closed;
    struct day day, changed, cut;
    uint8_t row[YARD_MOST_TRAINS];
    unsigned served;
    unsigned calls[MOVERS];
    double least[MOVERS];
};

/* On `open` one slot has room for all trains, and they share it: parted, some stay to be planned. */
static struct state states[] = {
    {.name = "open-0", .main_day = "open", .closed = 0},
    {.name = "open-1", .main_day = "open", .closed = 1},
    {.name = "parted-1", .main_day = "open", .closed = 1, .parted = 1},
    {.name = "tight-1", .main_day = "tight", .closed = 1},
    {.name = "tight-2", .main_day = "tight", .closed = 2},
    {.name = "paper-1", .main_day = "paper", .closed = 1},
    {.name = "paper-2", .main_day = "paper", .closed = 2},
};

enum { STATES = sizeof states / sizeof *states };

/* What is lent to a call, and what it leaves. */
static uint64_t area_cost[YARD_COST_WORDS];
static uint16_t area_choice[YARD_CHOICE_WORDS];

struct left {
    uint8_t text[YARD_DAY_BYTES], row[YARD_MOST_TRAINS];
    uint64_t numbers[YARD_NUMBERS];
    size_t trains;
};

typedef uint64_t mover_function(const struct state *s, struct left *left);

static uint64_t set_boxes(const struct state *s, struct left *left)
{
    return yard_set_boxes((const uint8_t *)s->day.text, s->day.length, s->closed, s->row, s->day.trains, CHANGED_TO, CHANGED_FROM,
                          CHANGED_BOXES, area_cost, YARD_COST_WORDS, area_choice, YARD_CHOICE_WORDS, left->text, sizeof left->text,
                          left->row, sizeof left->row, left->numbers, YARD_NUMBERS);
}

static uint64_t close_slot(const struct state *s, struct left *left)
{
    return yard_close((const uint8_t *)s->day.text, s->day.length, s->closed, s->row, s->day.trains, left->numbers, YARD_NUMBERS);
}

static uint64_t plan_cut(const struct state *s, struct left *left)
{
    return yard_plan_in_workspace((const uint8_t *)s->cut.text, s->cut.length, area_cost, YARD_COST_WORDS, area_choice, YARD_CHOICE_WORDS,
                                  left->row, sizeof left->row, left->numbers, YARD_NUMBERS, &left->trains);
}

static const struct {
    const char *name;
    mover_function *call;
} movers[MOVERS] = {
    [SET_BOXES] = {"yard_set_boxes", set_boxes},
    [CLOSE] = {"yard_close", close_slot},
    [PLAN_CUT] = {"yard_plan_in_workspace", plan_cut},
};

static void part_windows(struct day *d)
{
    for (unsigned i = 0; i < d->trains; i++) {
        if (i < 3)
            d->last[i] = 1;
        else
            d->first[i] = 2;
    }
}

/* Binds the served trains to their slots, and has the other windows begin at the first open slot. */
static void cut_windows(struct state *s)
{
    s->served = 0;
    for (size_t i = 0; i < s->cut.trains; i++) {
        if (s->row[i] <= s->closed) {
            s->cut.first[i] = s->cut.last[i] = s->row[i];
            s->served++;
        } else if (s->cut.first[i] <= s->closed) {
            s->cut.first[i] = s->closed + 1;
        }
    }
}

/* Begins the day. Closing keeps the day and its plan, so no call is made for it here, which the counts would take in; check_state makes
 * them. */
static void make_state(struct state *s)
{
    uint64_t numbers[YARD_NUMBERS];
    for (size_t k = 0; k < day_count; k++)
        if (strcmp(days[k].name, s->main_day) == 0)
            s->day = days[k];
    if (s->parted)
        part_windows(&s->day);
    write_text(&s->day);
    if (yard_begin((const uint8_t *)s->day.text, s->day.length, area_cost, YARD_COST_WORDS, area_choice, YARD_CHOICE_WORDS, s->row,
                   sizeof s->row, numbers, YARD_NUMBERS) != 0)
        fail(s->name, "the day was not begun");
    s->changed = s->day;
    s->changed.boxes[CHANGED_TO - 1][CHANGED_FROM - 1] = CHANGED_BOXES;
    write_text(&s->changed);
    s->cut = s->changed;
    cut_windows(s);
    write_text(&s->cut);
}

/* The slots can be closed up to the state and one more, and the change leaves the changed day and the plan of the cut day. */
static void check_state(const struct state *s)
{
    struct left left, cut;
    struct state before = *s;
    for (before.closed = 0; before.closed <= s->closed; before.closed++)
        if (close_slot(&before, &left) != 0 || left.numbers[0] != before.closed + 1)
            fail(s->name, "a slot was not closed");
    if (set_boxes(s, &left) != 0 || plan_cut(s, &cut) != 0)
        fail(s->name, "a plan was refused");
    if (cut.trains != s->day.trains || left.numbers[1] != cut.trains || memcmp(left.row, cut.row, cut.trains) != 0)
        fail(s->name, "the changed state has another plan than its cut day");
    if (left.numbers[0] != s->closed || left.numbers[2] != s->changed.length || memcmp(left.text, s->changed.text, s->changed.length) != 0)
        fail(s->name, "the changed state has another day");
}

static double time_mover(const struct state *s, size_t f)
{
    struct left left;
    double from = now();
    for (unsigned k = 0; k < s->calls[f]; k++)
        movers[f].call(s, &left);
    return (now() - from) / s->calls[f];
}

static void measure_states(unsigned rounds)
{
    for (size_t k = 0; k < STATES; k++) {
        make_state(&states[k]);
        check_state(&states[k]);
        for (size_t f = 0; f < MOVERS; f++)
            for (states[k].calls[f] = 1; states[k].calls[f] < 1000 && time_mover(&states[k], f) * states[k].calls[f] < 2e5;)
                states[k].calls[f] *= 2;
    }
    for (unsigned round = 0; round < rounds; round++) {
        for (size_t k = 0; k < STATES; k++) {
            for (size_t turn = 0; turn < MOVERS; turn++) {
                size_t f = (turn + round) % MOVERS;
                double t = time_mover(&states[k], f);
                if (round == 0 || t < states[k].least[f])
                    states[k].least[f] = t;
            }
        }
    }
}

static void print_states(void)
{
    printf("\n%-52s %10s %10s\n", "moving days: time, planning the cut day being 1", "set boxes", "close");
    for (size_t k = 0; k < STATES; k++) {
        const struct state *s = &states[k];
        char label[64];
        snprintf(label, sizeof label, "%s: %u of %u slots closed, %u of %u trains served", s->name, s->closed, s->day.slots, s->served,
                 s->day.trains);
        printf("%-52s %10.2f %10.4f\n", label, s->least[SET_BOXES] / s->least[PLAN_CUT], s->least[CLOSE] / s->least[PLAN_CUT]);
    }
}

/* ---- all of it */

static int compare(unsigned rounds)
{
    for (size_t k = 0; k < day_count; k++) {
        check_day(&days[k]);
        choose_calls(&days[k]);
    }
    printf("%zu days: the same bytes from all %d functions\n", day_count, FUNCTIONS);
    measure(rounds);
    measure_states(rounds);
    printf("the proved answer's time divided by C's, least of %u rounds; 'same C' and 'plain C' are the faster compiler's\n", rounds);
    print_kind(MAIN, "main days");
    print_published();
    print_growth();
    print_kind(WINDOWS, "windows of two slots: probability 0.5");
    print_kind(SETS, "three groups of three trains");
    print_states();
    return 0;
}

/* ---- for bench/solver and for the counts */

static int write_days(const char *folder)
{
    char path[512];
    for (size_t k = 0; k < day_count; k++) {
        snprintf(path, sizeof path, "%s/%s.day", folder, days[k].name);
        FILE *file = fopen(path, "wb");
        if (!file || fwrite(days[k].text, 1, days[k].length, file) != days[k].length || fclose(file) != 0)
            fail(path, "not written");
    }
    return 0;
}

static int time_file(const char *path, unsigned rounds)
{
    static struct day d;
    FILE *file = fopen(path, "rb");
    if (!file)
        fail(path, "not read");
    d.length = fread(d.text, 1, sizeof d.text, file);
    fclose(file);
    choose_calls(&d);
    double least = time_call(&functions[PROVED], &d);
    for (unsigned round = 1; round < rounds; round++) {
        double t = time_call(&functions[PROVED], &d);
        least = t < least ? t : least;
    }
    printf("%.0f\n", least);
    return 0;
}

static int answer_once(const char *function, const char *day)
{
    uint8_t out[YARD_ANSWER_BYTES];
    for (size_t f = 0; f < FUNCTIONS; f++)
        for (size_t k = 0; k < day_count; k++)
            if (strcmp(functions[f].name, function) == 0 && strcmp(days[k].name, day) == 0)
                return fwrite(out, 1, answer_into(&functions[f], &days[k], out), stdout) == 0;
    fail(day, "no such function or day");
    return 1;
}

static int move_once(const char *function, const char *state)
{
    struct left left;
    for (size_t f = 0; f < MOVERS; f++) {
        for (size_t k = 0; k < STATES; k++) {
            if (strcmp(movers[f].name, function) == 0 && strcmp(states[k].name, state) == 0) {
                make_state(&states[k]);
                return movers[f].call(&states[k], &left) != 0;
            }
        }
    }
    fail(state, "no such function or state");
    return 1;
}

int main(int argc, char **argv)
{
    make_days();
    if (argc == 2 && atoi(argv[1]) > 0)
        return compare((unsigned)atoi(argv[1]));
    if (argc == 3 && strcmp(argv[1], "days") == 0)
        return write_days(argv[2]);
    if (argc == 4 && strcmp(argv[1], "time") == 0)
        return time_file(argv[2], (unsigned)atoi(argv[3]));
    if (argc == 4 && strcmp(argv[1], "answer") == 0)
        return answer_once(argv[2], argv[3]);
    if (argc == 4 && strcmp(argv[1], "moving") == 0)
        return move_once(argv[2], argv[3]);
    fprintf(stderr, "usage: compare ROUNDS | days FOLDER | time FILE ROUNDS | answer FUNCTION DAY | moving FUNCTION STATE\n");
    return 2;
}
