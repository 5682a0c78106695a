/* Planning the long day of a text in C: what yard_long_plan of include/yard.h does, unproved, to measure the proved one against. Reading
 * trusts the text (it is for the files of long days only) and the lent memory is taken to be long enough; planning is the beam search of
 * crates/beam_search with its tables and types, step by step: partial plans of sixteen words in two arrays, each successor priced first,
 * rejected at once where it costs too much, then put beside the others by its place.
 *
 * One function, LONG_PLAN, whose name the compiler's command line gives, so that one process can hold this file compiled in several ways.
 */
#include <stddef.h>
#include <stdint.h>
#include <string.h>

#ifndef LONG_PLAN
#define LONG_PLAN c_long_plan
#endif

enum { COLUMNS = 36, SLOTS = 12, PLAN_WORDS = 16, PLANS = 64, HELD_WORDS = PLANS * PLAN_WORDS };

/* The words of a partial plan: cost, revisits, sum of slots; from FIRST_SET on, for each slot, the trains that are not served in it; the
 * trains that remain. */
enum { COST, REVISITS, SUM, FIRST_SET, REST = 15 };

struct day {
    size_t trains;
    uint32_t tracks;
    uint8_t slots;
    uint32_t revisit, split;
    uint32_t numbers[COLUMNS];
    uint8_t first[COLUMNS], last[COLUMNS];
    uint8_t boxes[COLUMNS * COLUMNS];
};

struct value {
    uint64_t revisits, splits, direct, cost;
};

/* As candidates::Sizes. */
struct sizes {
    size_t trains;
    uint64_t all;
    uint32_t tracks;
    size_t slots;
    uint64_t revisit, split;
    size_t columns, width;
};

static uint32_t ones(uint64_t s)
{
    return (uint32_t)__builtin_popcountll(s);
}

static size_t lowest(uint64_t s)
{
    return (size_t)__builtin_ctzll(s);
}

/* ---- soundness, as long_day::is_long_sound */

static int is_sound(const struct day *d)
{
    size_t n = d->trains;
    if (n < 1 || n > COLUMNS || d->tracks < 1 || d->tracks > 4 || d->slots < 1 || d->slots > SLOTS || d->revisit > 65535 ||
        d->split > 65535)
        return 0;
    for (size_t i = 0; i < COLUMNS; i++) {
        if (i < n) {
            uint32_t before = i == 0 ? 0 : d->numbers[i - 1];
            if (d->numbers[i] <= before || d->numbers[i] > 99999)
                return 0;
            if (d->first[i] < 1 || d->first[i] > d->last[i] || d->last[i] > d->slots)
                return 0;
        } else if (d->numbers[i] != 0 || d->first[i] != 0 || d->last[i] != 0) {
            return 0;
        }
        for (size_t j = 0; j < COLUMNS; j++)
            if (d->boxes[i * COLUMNS + j] != 0 && (i >= n || j >= n || i == j))
                return 0;
    }
    return 1;
}

/* ---- feasibility, as feasibility::first_overbooked */

/* Answers 0 where no stretch of slots is overbooked, else 1 and the first one: its first and last slot and the trains bound inside. */
static int first_overbooked(const struct day *d, uint64_t *found)
{
    for (unsigned a = 1; a <= d->slots; a++) {
        for (unsigned b = a; b <= d->slots; b++) {
            uint64_t trains = 0;
            for (size_t i = 0; i < d->trains; i++)
                trains += a <= d->first[i] && d->last[i] <= b;
            if ((uint64_t)d->tracks * (b - a + 1) < trains) {
                found[0] = a;
                found[1] = b;
                found[2] = trains;
                return 1;
            }
        }
    }
    return 0;
}

/* ---- the tables, as crates/beam_tables */

static void fill_suppliers(uint64_t *suppliers, const uint8_t *boxes, size_t columns, size_t n)
{
    for (size_t i = 0; i < n; i++) {
        suppliers[i] = 0;
        for (size_t j = 0; j < n; j++)
            if (boxes[i * columns + j] > 0)
                suppliers[i] |= (uint64_t)1 << j;
    }
}

static uint64_t incoming_to(const uint8_t *boxes, size_t columns, size_t n, size_t i)
{
    uint64_t total = 0;
    for (size_t j = 0; j < n; j++)
        total += boxes[i * columns + j];
    return total;
}

static void fill_incoming(uint64_t *incoming, const uint8_t *boxes, size_t columns, size_t n)
{
    for (size_t i = 0; i < n; i++)
        incoming[i] = incoming_to(boxes, columns, n, i);
}

static void fill_ends(uint64_t *ends, const uint8_t *last, size_t n, size_t slots)
{
    for (size_t b = 0; b <= slots; b++) {
        ends[b] = 0;
        for (size_t i = 0; i < n; i++)
            if (last[i] <= b)
                ends[b] |= (uint64_t)1 << i;
    }
}

static uint64_t open_in(const uint8_t *first, const uint8_t *last, size_t n, unsigned t)
{
    uint64_t set = 0;
    for (size_t i = 0; i < n; i++)
        if (first[i] <= t && t <= last[i])
            set |= (uint64_t)1 << i;
    return set;
}

/* ---- what a set costs, as crates/set_costs */

static uint64_t boxes_from(const uint8_t *boxes, size_t columns, size_t i, uint64_t s)
{
    uint64_t total = 0;
    for (uint64_t left = s; left != 0; left &= left - 1)
        total += boxes[i * columns + lowest(left)];
    return total;
}

static uint64_t boxes_from_outside(const uint8_t *boxes, size_t columns, const uint64_t *incoming, uint64_t s)
{
    uint64_t total = 0;
    for (uint64_t left = s; left != 0; left &= left - 1) {
        size_t i = lowest(left);
        total += incoming[i] - boxes_from(boxes, columns, i, s);
    }
    return total;
}

static uint64_t late_trains(const uint64_t *suppliers, uint64_t s, uint64_t rest)
{
    uint64_t late = 0;
    for (uint64_t left = s; left != 0; left &= left - 1)
        late += (rest & suppliers[lowest(left)]) != 0;
    return late;
}

/* Whether for some slot from t on more of the trains r that remain after t end by it than the slots up to it have tracks for. */
static int is_discarded(const uint64_t *ends, uint64_t r, size_t t, size_t slots, uint32_t tracks)
{
    for (size_t d = 0; d < slots - t + 1; d++)
        if (tracks * (uint32_t)d < ones(r & ends[t + d]))
            return 1;
    return 0;
}

/* The largest set up to s, of its trains, that has no more than `tracks` of them. */
static uint64_t trimmed(uint64_t s, uint32_t tracks)
{
    for (uint32_t count = ones(s); tracks < count; count--)
        s &= s - 1;
    return s;
}

/* ---- the plans held, as crates/held_plans and crates/offering */

struct held {
    size_t count;
    int dropped;
};

/* Whether the plan of the words x comes before the other, by the first of the words in which they differ. */
static int comes_before(const uint64_t *x, const uint64_t *other, size_t words)
{
    for (size_t c = 0; c < words; c++)
        if (x[c] != other[c])
            return x[c] < other[c];
    return 0;
}

static size_t place_of_rest(const uint64_t *held, size_t count, uint64_t rest)
{
    for (size_t k = 0; k < count; k++)
        if (held[k * PLAN_WORDS + REST] == rest)
            return k;
    return count;
}

static size_t place_of_plan(const uint64_t *held, size_t count, const uint64_t *x, size_t slots)
{
    for (size_t k = 0; k < count; k++)
        if (comes_before(x, held + k * PLAN_WORDS, slots + FIRST_SET))
            return k;
    return count;
}

/* Puts the words x at `place`; the plans from there up to the place `upto` move one further, and what stood behind that is lost. */
static void put(uint64_t *held, const uint64_t *x, size_t place, size_t upto)
{
    for (size_t i = (upto + 1) * PLAN_WORDS; (place + 1) * PLAN_WORDS < i;) {
        i--;
        held[i] = held[i - PLAN_WORDS];
    }
    memcpy(held + place * PLAN_WORDS, x, PLAN_WORDS * sizeof *x);
}

/* Offers the plan of the words x. Of two that leave the same trains the one that comes before the other stays; beyond `width` the last is
 * dropped. */
static struct held offer(uint64_t *held, const uint64_t *x, struct held h, size_t width, size_t slots)
{
    size_t same = place_of_rest(held, h.count, x[REST]);
    size_t place = place_of_plan(held, h.count, x, slots);
    if (same < place)
        return h;
    if (same < h.count) {
        put(held, x, place, same);
        return h;
    }
    if (h.count < width) {
        put(held, x, place, h.count);
        h.count++;
        return h;
    }
    if (place < h.count)
        put(held, x, place, h.count - 1);
    h.dropped = 1;
    return h;
}

/* ---- one set after one plan, as crates/candidates and crates/set_serving */

struct price {
    uint64_t late, cost;
};

static struct price price_of(const uint8_t *boxes, const uint64_t *suppliers, const uint64_t *incoming, const struct sizes *z,
                             uint64_t rest, uint64_t s)
{
    uint64_t late = late_trains(suppliers, s, rest - s);
    uint64_t outside = boxes_from_outside(boxes, z->columns, incoming, s);
    return (struct price){late, z->revisit * late + z->split * outside};
}

/* The words of a plan with the set s in slot j + 1, at its price. */
static void with_set(uint64_t *x, const uint64_t *plan, const struct sizes *z, size_t j, uint64_t s, struct price price)
{
    memcpy(x, plan, PLAN_WORDS * sizeof *x);
    x[COST] += price.cost;
    x[REVISITS] += price.late;
    x[SUM] += (j + 1) * ones(s);
    x[FIRST_SET + j] = z->all - s;
    x[REST] -= s;
}

static struct held serve_set(uint64_t *next, const uint64_t *plan, const uint8_t *boxes, const uint64_t *suppliers,
                             const uint64_t *incoming, const uint64_t *ends, const struct sizes *z, size_t j, uint64_t s, struct held h)
{
    uint64_t x[PLAN_WORDS];
    struct price price = price_of(boxes, suppliers, incoming, z, plan[REST], s);
    int is_full = h.dropped && h.count == z->width;
    if (is_full && next[(h.count - 1) * PLAN_WORDS + COST] < plan[COST] + price.cost)
        return h;
    with_set(x, plan, z, j, s, price);
    if (is_full && !comes_before(x, next + (h.count - 1) * PLAN_WORDS, z->slots + FIRST_SET))
        return h;
    if (is_discarded(ends, plan[REST] - s, j + 1, z->slots, z->tracks))
        return h;
    return offer(next, x, h, z->width, z->slots);
}

/* ---- one slot, as crates/slot_serving */

static struct held serve_plan(uint64_t *next, const uint64_t *plan, const uint8_t *boxes, const uint64_t *suppliers,
                              const uint64_t *incoming, const uint64_t *ends, const struct sizes *z, size_t j, uint64_t ready,
                              struct held h)
{
    uint64_t can = plan[REST] & ready;
    for (uint64_t s = trimmed(can, z->tracks);; s = trimmed((s - 1) & can, z->tracks)) {
        h = serve_set(next, plan, boxes, suppliers, incoming, ends, z, j, s, h);
        if (s == 0)
            return h;
    }
}

static struct held serve_slot(uint64_t *next, const uint64_t *kept, size_t count, const uint8_t *boxes, const uint64_t *suppliers,
                              const uint64_t *incoming, const uint64_t *ends, const struct sizes *z, size_t j, uint64_t ready)
{
    struct held h = {0, 0};
    for (size_t k = 0; k < count; k++)
        h = serve_plan(next, kept + k * PLAN_WORDS, boxes, suppliers, incoming, ends, z, j, ready, h);
    return h;
}

/* ---- the search, as crates/beam_search and crates/plan_rows */

/* The row of the first plan kept after the last slot; the answer is the number of slots after which more plans remained than are kept. */
static uint64_t beam_search(uint8_t *row, const uint8_t *first, const uint8_t *last, const uint8_t *boxes, const struct sizes *z)
{
    uint64_t suppliers[COLUMNS] = {0}, incoming[COLUMNS] = {0}, ends[SLOTS + 1] = {0};
    uint64_t kept[HELD_WORDS] = {0}, next[HELD_WORDS] = {0};
    uint64_t full = 0;
    size_t count = 1;
    fill_suppliers(suppliers, boxes, z->columns, z->trains);
    fill_incoming(incoming, boxes, z->columns, z->trains);
    fill_ends(ends, last, z->trains, z->slots);
    for (size_t c = FIRST_SET; c < PLAN_WORDS; c++)
        kept[c] = z->all;
    for (size_t j = 0; j < z->slots; j++) {
        uint64_t ready = open_in(first, last, z->trains, (unsigned)j + 1);
        struct held h = serve_slot(next, kept, count, boxes, suppliers, incoming, ends, z, j, ready);
        count = h.count;
        full += (uint64_t)h.dropped;
        memcpy(kept, next, sizeof kept);
    }
    for (size_t i = 0; i < z->trains; i++) {
        row[i] = 0;
        for (size_t j = 0; j < z->slots; j++)
            if (((kept[FIRST_SET + j] >> i) & 1) == 0)
                row[i] = (uint8_t)(j + 1);
    }
    return full;
}

/* ---- the lower figure, as crates/lower_figure */

static int surely_revisits(const struct day *d, size_t i)
{
    for (size_t j = 0; j < d->trains; j++)
        if (d->boxes[i * COLUMNS + j] > 0 && d->last[i] < d->first[j])
            return 1;
    return 0;
}

static uint64_t larger(uint64_t a, uint64_t b)
{
    return a < b ? b : a;
}

static uint64_t surely_split(const struct day *d, size_t i)
{
    uint64_t most[4] = {0}; /* the greatest sums of at most none, one, two and three supplies */
    for (size_t j = 0; j < d->trains; j++) {
        uint64_t x = d->boxes[i * COLUMNS + j];
        most[3] = larger(most[3], most[2] + x);
        most[2] = larger(most[2], most[1] + x);
        most[1] = larger(most[1], x);
    }
    return incoming_to(d->boxes, COLUMNS, d->trains, i) - most[d->tracks - 1];
}

static uint64_t lower_figure(const struct day *d)
{
    uint64_t revisits = 0, splits = 0;
    for (size_t i = 0; i < d->trains; i++) {
        revisits += (uint64_t)surely_revisits(d, i);
        splits += surely_split(d, i);
    }
    return d->revisit * revisits + d->split * splits;
}

/* ---- valuing, as counting::value_slots */

static struct value value_slots(const struct day *d, const uint8_t *row)
{
    struct value v = {0, 0, 0, 0};
    for (size_t i = 0; i < d->trains; i++) {
        int late = 0;
        for (size_t j = 0; j < d->trains; j++) {
            uint8_t boxes = d->boxes[i * COLUMNS + j];
            late |= boxes > 0 && row[i] < row[j];
            v.splits += row[i] == row[j] ? 0 : boxes;
            v.direct += row[i] == row[j] ? boxes : 0;
        }
        v.revisits += (uint64_t)late;
    }
    v.cost = d->revisit * v.revisits + d->split * v.splits;
    return v;
}

/* ---- reading a long day's file, as long_read::read_long_day on a text that it accepts */

#include "reading.h"

/* ---- the plan, as yard_long_plan: row, numbers, full slots and lower figure, or 9 */

uint64_t LONG_PLAN(const uint8_t *text, size_t text_length, uint32_t width, uint8_t *row, size_t row_length, uint64_t *numbers,
                   size_t numbers_length, size_t *trains);

uint64_t LONG_PLAN(const uint8_t *text, size_t text_length, uint32_t width, uint8_t *row, size_t row_length, uint64_t *numbers,
                   size_t numbers_length, size_t *trains)
{
    struct day d;
    *trains = 0;
    if (numbers_length < 6)
        return 10;
    memset(numbers, 0, 6 * sizeof *numbers);
    read_sections(&d, COLUMNS, text, text + text_length);
    if (!is_sound(&d))
        return 8; /* no day file: outside what this program is for */
    if (width < 1 || PLANS < width)
        return 21;
    if (row_length < d.trains)
        return 10;
    if (first_overbooked(&d, numbers))
        return 9;
    struct sizes z = {d.trains, ((uint64_t)1 << d.trains) - 1, d.tracks, d.slots, d.revisit, d.split, COLUMNS, width};
    uint64_t full = beam_search(row, d.first, d.last, d.boxes, &z);
    struct value v = value_slots(&d, row);
    numbers[0] = v.revisits;
    numbers[1] = v.splits;
    numbers[2] = v.direct;
    numbers[3] = v.cost;
    numbers[4] = full;
    numbers[5] = lower_figure(&d);
    *trains = d.trains;
    return 0;
}
