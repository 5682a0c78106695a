/* The answer to a day file in C: what yard_answer of include/yard.h does, unproved, to measure the proved one against. Reading trusts the
 * text (it is for day files only); planning is the algorithm of crates/planning with its tables and types, step by step; the answer is
 * printed as yard-plan prints it. With -DPLAIN the plain algorithm, which walks every cell of every slot: what the proved call's own
 * steps save.
 *
 * One function, ANSWER, whose name the compiler's command line gives, so that one process can hold this file compiled in several ways.
 */
#include <stddef.h>
#include <stdint.h>
#include <string.h>

#ifndef ANSWER
#define ANSWER c_answer
#endif

enum { WIDTH = 12, SETS = 4096, SLOTS = 8, ANSWER_BYTES = 161 };

#define NONE UINT64_MAX
#define BARRED UINT32_MAX

/* A unit of cost, and a revisit, in a key: the cost stands above the revisits, and these above the sum of slot numbers. */
#define COST_UNIT 2048
#define REVISIT_UNIT 128

/* The proved code's local arrays begin as zeros; the plain program does without, since it writes each word before it reads it. */
#ifdef PLAIN
#define ZEROS
#else
#define ZEROS = {0}
#endif

struct day {
    size_t trains;
    uint32_t tracks;
    uint8_t slots;
    uint32_t revisit, split;
    uint32_t numbers[WIDTH];
    uint8_t first[WIDTH], last[WIDTH];
    uint8_t boxes[WIDTH * WIDTH];
    uint8_t groups[WIDTH]; /* 0 for none */
};

struct value {
    uint64_t revisits, splits, direct, cost;
};

/* ---- soundness, as day::is_sound */

static int is_sound(const struct day *d)
{
    size_t n = d->trains;
    if (n < 1 || n > 12 || d->tracks < 1 || d->tracks > 12 || d->slots < 1 || d->slots > 8 || d->revisit > 65535 || d->split > 65535)
        return 0;
    for (size_t i = 0; i < WIDTH; i++) {
        if (i < n) {
            uint32_t before = i == 0 ? 0 : d->numbers[i - 1];
            if (d->numbers[i] <= before || d->numbers[i] > 99999)
                return 0;
            if (d->first[i] < 1 || d->first[i] > d->last[i] || d->last[i] > d->slots)
                return 0;
        } else if (d->numbers[i] != 0 || d->first[i] != 0 || d->last[i] != 0 || d->groups[i] != 0) {
            return 0;
        }
        if (d->groups[i] > 12)
            return 0;
        for (size_t j = 0; j < WIDTH; j++)
            if (d->boxes[i * WIDTH + j] != 0 && (i >= n || j >= n || i == j))
                return 0;
    }
    return 1;
}

/* ---- feasibility, as feasibility::first_overbooked */

struct interval {
    unsigned first, last;
    uint64_t trains;
};

/* Answers 0 where no stretch of slots is overbooked, else 1 and the first one. */
static int first_overbooked(const struct day *d, struct interval *found)
{
    for (unsigned a = 1; a <= d->slots; a++) {
        for (unsigned b = a; b <= d->slots; b++) {
            uint64_t trains = 0;
            for (size_t i = 0; i < d->trains; i++)
                trains += a <= d->first[i] && d->last[i] <= b;
            if ((uint64_t)d->tracks * (b - a + 1) < trains) {
                *found = (struct interval){a, b, trains};
                return 1;
            }
        }
    }
    return 0;
}

/* ---- the tables, as crates/tables and crates/prices */

static void fill_needing(uint16_t *need, const uint8_t *boxes, size_t n)
{
    size_t size = 1;
    need[0] = 0;
    for (size_t k = 0; k < n; k++) {
        uint16_t more = 0;
        for (size_t i = 0; i < n; i++)
            if (boxes[i * WIDTH + k] > 0)
                more |= (uint16_t)(1u << i);
        for (size_t m = 0; m < size; m++)
            need[size + m] = need[m] | more;
        size += size;
    }
}

static void fill_count(uint8_t *count, size_t n)
{
    size_t size = 1;
    count[0] = 0;
    for (size_t k = 0; k < n; k++) {
        for (size_t m = 0; m < size; m++)
            count[size + m] = (uint8_t)(count[m] + 1);
        size += size;
    }
}

static void fill_late(uint32_t *late, const uint8_t *count, uint32_t revisit, size_t size)
{
    for (size_t m = 0; m < size; m++)
        late[m] = revisit * count[m];
}

static uint32_t received_by(const uint8_t *boxes, size_t n, size_t k)
{
    uint32_t total = 0;
    for (size_t j = 0; j < n; j++)
        total += boxes[k * WIDTH + j];
    return total - boxes[k * WIDTH + k];
}

static void add_train(uint32_t *price, const uint8_t *boxes, size_t n, size_t k, size_t size)
{
    size_t below = 1;
    price[size] = received_by(boxes, n, k);
    for (size_t b = 0; b < k; b++) {
        uint32_t pair = (uint32_t)boxes[k * WIDTH + b] + boxes[b * WIDTH + k];
        for (size_t m = 0; m < below; m++)
            price[size + below + m] = price[below + m] + price[size + m] - (price[m] + pair);
        below += below;
    }
}

static void fill_price(uint32_t *price, const struct day *d, size_t size)
{
    price[0] = 0;
    for (size_t k = 0, below = 1; k < d->trains; k++, below += below)
        add_train(price, d->boxes, d->trains, k, below);
    for (size_t s = 0; s < size; s++)
        price[s] = (uint32_t)__builtin_popcountll(s) <= d->tracks ? d->split * price[s] : BARRED;
}

/* The trains in the group of position i. */
static size_t members_of(const struct day *d, size_t i)
{
    size_t set = 0;
    for (size_t j = 0; j < d->trains; j++)
        if (d->groups[i] == d->groups[j])
            set |= (size_t)1 << j;
    return set;
}

/* Bars the sets that part a group. */
static void bar_groups(uint32_t *price, const struct day *d, size_t size)
{
    for (size_t i = 0; i < d->trains; i++) {
        if (d->groups[i] == 0)
            continue;
        size_t members = members_of(d, i);
        for (size_t s = 0; s < size; s++)
            if ((s & members) != 0 && (s & members) != members)
                price[s] = BARRED;
    }
}

static void fill_open(uint64_t *opens, const struct day *d)
{
    for (size_t j = 0; j < d->slots; j++) {
        opens[j] = 0;
        for (size_t i = 0; i < d->trains; i++)
            if (d->first[i] <= j + 1 && j + 1 <= d->last[i])
                opens[j] |= (uint64_t)1 << i;
    }
}

/* ---- the stages, as crates/cells, crates/solving and crates/tracing */

/* A cell of the table: the least key, and the set that is served for it. */
struct pick {
    uint64_t value;
    uint16_t set;
};

/* The trains of s that revisit where rest remains. */
static size_t late_set(const uint16_t *need, size_t rest, size_t s)
{
    return s & need[rest];
}

/* What a slot costs in which the trains of revisiting revisit and the split moves cost splits: a sum in 32 bits. */
static uint32_t slot_cost(const uint32_t *late, uint32_t splits, size_t revisiting)
{
    return late[revisiting] + splits;
}

static struct pick cheapest(const uint64_t *cost, const uint16_t *need, const uint32_t *late, const uint32_t *price,
                            const uint8_t *count, const uint64_t *opens, size_t j, size_t r)
{
    size_t ready = r & opens[j];
    struct pick p = {NONE, 0};
    for (size_t s = ready;; s = (s - 1) & ready) {
        uint32_t splits = price[s];
        if (splits < BARRED) {
            size_t rest = r - s;
            uint64_t after = cost[rest];
            if (after < NONE) {
                size_t revisiting = late_set(need, rest, s);
                uint64_t total = after + (uint64_t)slot_cost(late, splits, revisiting) * COST_UNIT;
                if (total < p.value) {
                    uint64_t key = total + (uint64_t)count[revisiting] * REVISIT_UNIT;
                    if (key < p.value) {
                        p.value = key;
                        p.set = (uint16_t)s;
                    }
                }
            }
        }
        if (s == 0) {
            if (p.value < NONE)
                p.value += count[r];
            return p;
        }
    }
}

#ifdef PLAIN

/* The plain algorithm: every cell of every slot is walked, over the values where no slot is left. */
static void solve(uint64_t *cost, uint16_t *choice, const uint16_t *need, const uint32_t *late, const uint32_t *price,
                  const uint8_t *count, const uint64_t *opens, uint32_t tracks, size_t slots, size_t size)
{
    (void)tracks;
    for (size_t i = 0; i < size; i++)
        cost[i] = i == 0 ? 0 : NONE;
    for (size_t j = slots; j-- > 0;) {
        for (size_t r = size; r-- > 0;) {
            struct pick p = cheapest(cost, need, late, price, count, opens, j, r);
            cost[r] = p.value;
            choice[j * size + r] = p.set;
        }
    }
}

#else

static void fill_last(uint64_t *cost, uint16_t *choice, const uint16_t *need, const uint32_t *late, const uint32_t *price,
                      const uint8_t *count, const uint64_t *opens, size_t slots, size_t size)
{
    size_t j = slots - 1;
    for (size_t r = size; r-- > 0;) {
        uint32_t splits = price[r];
        struct pick p = {NONE, 0};
        if (splits < BARRED && (r & opens[j]) == r) {
            size_t revisiting = late_set(need, 0, r);
            p.value = (uint64_t)slot_cost(late, splits, revisiting) * COST_UNIT;
            p.value += (uint64_t)count[revisiting] * REVISIT_UNIT + count[r];
            p.set = (uint16_t)r;
        }
        cost[r] = p.value;
        choice[j * size + r] = p.set;
    }
}

static void fill_slot(uint64_t *cost, uint16_t *choice, const uint16_t *need, const uint32_t *late, const uint32_t *price,
                      const uint8_t *count, const uint64_t *opens, uint32_t tracks, size_t later, size_t j, size_t slots, size_t size)
{
    uint32_t room = tracks * (uint32_t)(slots - j);
    uint32_t gone = tracks * (uint32_t)j;
    uint32_t all = (uint32_t)__builtin_popcountll(size - 1);
    for (size_t r = size; r-- > 0;) {
        uint32_t trains = (uint32_t)__builtin_popcountll(r);
        if (all <= trains + gone) {
            struct pick p = {NONE, 0};
            if (trains <= room && (r & later) == r)
                p = cheapest(cost, need, late, price, count, opens, j, r);
            cost[r] = p.value;
            choice[j * size + r] = p.set;
        }
    }
}

static void fill_first(uint64_t *cost, uint16_t *choice, const uint16_t *need, const uint32_t *late, const uint32_t *price,
                       const uint8_t *count, const uint64_t *opens, size_t size)
{
    size_t r = size - 1;
    struct pick p = cheapest(cost, need, late, price, count, opens, 0, r);
    cost[r] = p.value;
    choice[r] = p.set;
}

static void solve(uint64_t *cost, uint16_t *choice, const uint16_t *need, const uint32_t *late, const uint32_t *price,
                  const uint8_t *count, const uint64_t *opens, uint32_t tracks, size_t slots, size_t size)
{
    size_t j = slots - 1;
    size_t later = opens[j];
    fill_last(cost, choice, need, late, price, count, opens, slots, size);
    while (1 < j) {
        j--;
        later |= opens[j];
        fill_slot(cost, choice, need, late, price, count, opens, tracks, later, j, slots, size);
    }
    if (0 < j)
        fill_first(cost, choice, need, late, price, count, opens, size);
}

#endif

static void trace(const uint16_t *choice, uint8_t *row, size_t n, size_t slots, size_t size)
{
    size_t r = size - 1;
    for (size_t j = 0; j < slots; j++) {
        size_t s = choice[j * size + r];
        for (size_t p = 0; p < n; p++)
            if ((s >> p) & 1)
                row[p] = (uint8_t)(j + 1);
        r -= s;
    }
}

/* ---- valuing, as valuing::value_slots */

static struct value value_slots(const struct day *d, const uint8_t *row)
{
    struct value v = {0, 0, 0};
    for (size_t i = 0; i < d->trains; i++) {
        int late = 0;
        for (size_t j = 0; j < d->trains; j++) {
            uint8_t boxes = d->boxes[i * WIDTH + j];
            late |= boxes > 0 && row[i] < row[j];
            v.splits += row[i] == row[j] ? 0 : boxes;
            v.direct += row[i] == row[j] ? boxes : 0;
        }
        v.revisits += late;
    }
    v.cost = d->revisit * v.revisits + d->split * v.splits;
    return v;
}

/* ---- planning, as planning::plan on a day without an overbooked stretch */

/* Answers 0 where no row keeps the groups, else 1, the row and its value. */
static int plan(const struct day *d, uint8_t *row, struct value *v)
{
    uint64_t cost[SETS] ZEROS;
    uint16_t choice[SLOTS * SETS] ZEROS;
    uint16_t need[SETS] ZEROS;
    uint32_t late[SETS] ZEROS, price[SETS] ZEROS;
    uint8_t count[SETS] ZEROS;
    uint64_t opens[SLOTS] ZEROS;
    size_t size = (size_t)1 << d->trains;
    fill_needing(need, d->boxes, d->trains);
    fill_count(count, d->trains);
    fill_late(late, count, d->revisit, size);
    fill_price(price, d, size);
    bar_groups(price, d, size);
    fill_open(opens, d);
    solve(cost, choice, need, late, price, count, opens, d->tracks, d->slots, size);
    if (cost[size - 1] == NONE)
        return 0;
    trace(choice, row, d->trains, d->slots, size);
    *v = value_slots(d, row);
    return 1;
}

/* ---- reading a day file, as dayread::read_day on a text that it accepts */

#include "reading.h"

/* From the names line `group train` to the end. */
static void read_groups(struct day *d, const uint8_t *at, const uint8_t *end)
{
    at = after_line(at);
    while (at < end) {
        uint8_t group = (uint8_t)read_value(&at);
        d->groups[position_of(d, read_value(&at))] = group;
    }
}

static void read_day(struct day *d, const uint8_t *text, size_t length)
{
    const uint8_t *end = text + length;
    const uint8_t *at = read_sections(d, WIDTH, text, end);
    if (at < end)
        read_groups(d, at, end);
}

/* ---- printing, as crates/planfile and crates/answering */

static uint8_t *put_bytes(uint8_t *at, const char *word)
{
    size_t length = strlen(word);
    memcpy(at, word, length);
    return at + length;
}

static uint8_t *put_value(uint8_t *at, uint64_t v, uint8_t end)
{
    uint8_t digits[20];
    size_t count = 0;
    do {
        digits[count++] = (uint8_t)('0' + v % 10);
        v /= 10;
    } while (v > 0);
    while (count > 0)
        *at++ = digits[--count];
    *at++ = end;
    return at;
}

static uint8_t *put_interval(uint8_t *at, struct interval found)
{
    at = put_bytes(at, "refusal first last trains\n");
    at = put_value(at, 9, ' ');
    at = put_value(at, found.first, ' ');
    at = put_value(at, found.last, ' ');
    return put_value(at, found.trains, '\n');
}

static uint8_t *put_unkept(uint8_t *at)
{
    return put_bytes(at, "refusal line\n16 0\n");
}

static uint8_t *put_plan(uint8_t *at, const struct day *d, const uint8_t *row, struct value v)
{
    at = put_bytes(at, "revisits splits direct cost\n");
    at = put_value(at, v.revisits, ' ');
    at = put_value(at, v.splits, ' ');
    at = put_value(at, v.direct, ' ');
    at = put_value(at, v.cost, '\n');
    at = put_bytes(at, "train slot\n");
    for (size_t i = 0; i < d->trains; i++) {
        at = put_value(at, d->numbers[i], ' ');
        at = put_value(at, row[i], '\n');
    }
    return at;
}

/* ---- the answer, as yard_answer: 10 where out is too short, else 0 */

static size_t put_answer(const uint8_t *text, size_t length, uint8_t *reply)
{
    struct day d;
    struct interval found;
    struct value v;
    uint8_t row[WIDTH] = {0};
    read_day(&d, text, length);
    if (!is_sound(&d))
        return 0; /* no day file: outside what this program is for */
    if (first_overbooked(&d, &found))
        return (size_t)(put_interval(reply, found) - reply);
    if (!plan(&d, row, &v))
        return (size_t)(put_unkept(reply) - reply);
    return (size_t)(put_plan(reply, &d, row, v) - reply);
}

uint64_t ANSWER(const uint8_t *text, size_t text_length, uint8_t *out, size_t out_length, size_t *bytes);

uint64_t ANSWER(const uint8_t *text, size_t text_length, uint8_t *out, size_t out_length, size_t *bytes)
{
    uint8_t reply[ANSWER_BYTES] = {0};
    size_t count = put_answer(text, text_length, reply);
    *bytes = 0;
    if (out_length < count)
        return 10;
    memcpy(out, reply, count);
    *bytes = count;
    return 0;
}
