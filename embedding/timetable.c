/* Turns a small timetable into the train section of a day file: each train of the date gets its window from its arrival and its departure, and
 * the day as many slots as the date uses.
 *
 *     tools/build yard
 *     cc -Iinclude -o target/timetable_c embedding/timetable.c target/staticlib/libyard.a
 *     target/timetable_c 20261118 > target/wednesday.day
 *
 * What is printed is a whole day file, with no box moved yet, so that yard-plan takes it. Ends with 0 where every train of the date has a window;
 * with 1, and the refusals on standard error, where one has none or the date has no slots or no trains; with 2 where the arguments are wrong or
 * the day cannot be written. */
#include <errno.h>
#include <inttypes.h>
#include <stdio.h>
#include <stdlib.h>

#include "yard.h"

#define CLOCK(hour, minute) ((hour) * 60 + (minute))

/* The yard: hours from Monday to Sunday, slots of 75 minutes, two closed dates, two tracks. Wednesday's eighth slot ends just at closing; on
 * Saturday a half day is worked; on Sunday the yard does not open. */
static const uint32_t hours[YARD_HOURS] = {
    CLOCK(6, 0), CLOCK(18, 0), CLOCK(6, 0), CLOCK(18, 0), CLOCK(8, 0), CLOCK(18, 0), CLOCK(6, 0), CLOCK(18, 0),
    CLOCK(6, 0), CLOCK(16, 0), CLOCK(6, 0), CLOCK(12, 0), 0,           0,
};
static const uint32_t slot_minutes = 75;
static const uint32_t closed[] = {20261225, 20261226};
static const int tracks = 2;

/* By train number, as a day file lists them. */
static const struct train {
    uint32_t number, date, arrival, departure;
} timetable[] = {
    {40011, 20261118, CLOCK(7, 50), CLOCK(11, 45)},  /* at the yard before it opens, away at the end of slot 3 */
    {40012, 20261119, CLOCK(6, 0), CLOCK(9, 0)},
    {40013, 20261118, CLOCK(9, 16), CLOCK(14, 20)},  /* a minute after slot 2 begins */
    {40014, 20261120, CLOCK(9, 0), CLOCK(10, 0)},    /* shorter than a slot */
    {40015, 20261118, CLOCK(15, 0), CLOCK(18, 0)},   /* up to closing */
    {40016, 20261225, CLOCK(7, 0), CLOCK(17, 0)},    /* on a closed date */
};
#define TRAINS (sizeof timetable / sizeof *timetable)

static uint64_t window_of(const struct train *train, uint32_t *first, uint32_t *last)
{
    return yard_window(hours, YARD_HOURS, slot_minutes, closed, sizeof closed / sizeof *closed, train->date, train->arrival, train->departure,
                       first, last);
}

static int date_of(const char *text, uint32_t *date)
{
    char *end;
    errno = 0;
    unsigned long value = strtoul(text, &end, 10);
    if (text[0] < '0' || text[0] > '9' || *end || errno || value > UINT32_MAX)
        return 0;
    *date = (uint32_t)value;
    return 1;
}

int main(int argc, char **argv)
{
    uint32_t date, slots, first, last;
    if (argc != 2 || !date_of(argv[1], &date)) {
        fprintf(stderr, "usage: %s DATE, a number as %d\n", argv[0], YARD_FIRST_DATE);
        return 2;
    }
    uint64_t refusal = yard_slots_on(hours, YARD_HOURS, slot_minutes, closed, sizeof closed / sizeof *closed, date, &slots);
    if (refusal) {
        fprintf(stderr, "refusal %" PRIu64 ": no date of the calendar\n", refusal);
        return 1;
    }

    /* Those with a window are counted first: the day file says in its second line how many there are. */
    int count = 0, refused = 0;
    for (size_t i = 0; i < TRAINS; i++) {
        if (timetable[i].date != date)
            continue;
        refusal = window_of(&timetable[i], &first, &last);
        if (refusal) {
            fprintf(stderr, "train %" PRIu32 ": refusal %" PRIu64 ", no slot between its arrival and its departure\n", timetable[i].number, refusal);
            refused = 1;
        }
        count++;
    }
    if (!count)
        fprintf(stderr, "no train on this date\n");
    if (refused || !count)
        return 1;

    printf("trains tracks slots revisit split\n%d %d %" PRIu32 " 1 1\ntrain first last\n", count, tracks, slots);
    for (size_t i = 0; i < TRAINS; i++)
        if (timetable[i].date == date && !window_of(&timetable[i], &first, &last))
            printf("%" PRIu32 " %" PRIu32 " %" PRIu32 "\n", timetable[i].number, first, last);
    printf("to from boxes\n");
    if (fflush(stdout) || ferror(stdout)) {
        perror("standard output");
        return 2;
    }
    return 0;
}
