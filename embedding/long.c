/* Plans a long day from C: reads a long day's file, prints the slot of each train and what the plan costs, and how far off it may be at
 * most.
 *
 *     tools/build yard
 *     cc -Iinclude -o target/long_c embedding/long.c target/staticlib/libyard.a
 *     target/long_c examples/p01.day        (at width 30, as yard-long)
 *     target/long_c examples/p01.day 64     (the widest search)
 *
 * Ends with 0 where the day has a plan, with 1 where it is refused, with 2 where there is no day to plan. */
#include <inttypes.h>
#include <stdio.h>
#include <stdlib.h>

#include "yard.h"

/* No long day's file has more than YARD_LONG_DAY_BYTES bytes, so the first 32,768 of a longer text are refused as well. */
enum { MOST_TEXT = 32768 };

/* Reads the first MOST_TEXT bytes of a file. Returns 0 where it cannot be read. */
static int read_file(const char *name, uint8_t *text, size_t *length)
{
    FILE *file = fopen(name, "rb");
    if (!file) {
        perror(name);
        return 0;
    }
    *length = fread(text, 1, MOST_TEXT, file);
    int good = !ferror(file);
    if (!good)
        perror(name);
    fclose(file);
    return good;
}

/* Reads a width, digits alone. Returns 0 where it is none; whether it is one of 1 to 64 is the library's to say. */
static int read_width(const char *digits, uint32_t *width)
{
    char *end;
    unsigned long value = strtoul(digits, &end, 10);
    if (digits[0] < '0' || digits[0] > '9' || *end != '\0' || value > UINT32_MAX)
        return 0;
    *width = (uint32_t)value;
    return 1;
}

static void print_refusal(uint64_t refusal, const uint64_t numbers[YARD_LONG_NUMBERS])
{
    if (refusal == 9)
        printf("no plan: %" PRIu64 " trains are bound to the slots %" PRIu64 " to %" PRIu64 "\n", numbers[2], numbers[0], numbers[1]);
    else if (refusal == 21)
        printf("the width is none of 1 to %d\n", YARD_LONG_MOST_WIDTH);
    else
        printf("no long day's file: refusal %" PRIu64 ", line %" PRIu64 "\n", refusal, numbers[0]);
}

/* Where after no slot more partial plans than the width remained, nothing was cut off, and the plan is the cheapest. Else it costs as much as
 * the lower figure at least, and the cheapest does too. */
static void print_distance(const uint64_t numbers[YARD_LONG_NUMBERS])
{
    uint64_t cost = numbers[3], full = numbers[4], lower = numbers[5];
    if (full == 0 || cost == lower)
        printf("cheapest: full slots %" PRIu64 ", lower figure %" PRIu64 "\n", full, lower);
    else
        printf("at most %" PRIu64 " above the cheapest: full slots %" PRIu64 ", lower figure %" PRIu64 "\n", cost - lower, full, lower);
}

int main(int argc, char **argv)
{
    static uint8_t text[MOST_TEXT];
    uint8_t row[YARD_LONG_MOST_TRAINS];
    uint64_t numbers[YARD_LONG_NUMBERS];
    uint32_t width = YARD_LONG_WIDTH;
    size_t length, trains;

    if ((argc != 2 && argc != 3) || (argc == 3 && !read_width(argv[2], &width))) {
        fprintf(stderr, "usage: %s DAY [WIDTH]\n", argv[0]);
        return 2;
    }
    if (!read_file(argv[1], text, &length))
        return 2;

    uint64_t refusal = yard_long_plan(text, length, width, row, sizeof row, numbers, YARD_LONG_NUMBERS, &trains);
    if (refusal != 0) {
        print_refusal(refusal, numbers);
        return 1;
    }
    printf("width %" PRIu32 ": revisits %" PRIu64 ", splits %" PRIu64 ", direct %" PRIu64 ", cost %" PRIu64 "\n", width, numbers[0],
           numbers[1], numbers[2], numbers[3]);
    for (size_t i = 0; i < trains; i++)
        printf("train %zu of the day file: slot %u\n", i + 1, row[i]);
    print_distance(numbers);
    return 0;
}
