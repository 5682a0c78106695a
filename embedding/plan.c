/* Plans a day from C: reads a day file, prints the slot of each train and what the plan costs; then values a row of one's own, every train
 * in slot 1.
 *
 *     tools/build yard
 *     cc -Iinclude -o target/plan_c embedding/plan.c target/staticlib/libyard.a
 *     target/plan_c examples/p01.day
 *
 * Ends with 0 where the day has a plan, with 1 where it is refused, with 2 where there is no day to plan. */
#include <inttypes.h>
#include <stdio.h>
#include <string.h>

#include "yard.h"

/* No day file has more than 2,437 bytes, so the first 4,096 of a longer text are refused as well. */
enum { MOST_TEXT = 4096 };

/* Reads the first MOST_TEXT bytes of a file. Returns 0 where it cannot be read. */
static int read_file(const char *name, uint8_t *text, size_t *length)
{
    FILE *file = fopen(name, "rb");
    if (!file) {
        perror(name);
        return 0;
    }
    *length = fread(text, 1, MOST_TEXT, file);
    int good = !ferror(file);
    if (!good)
        perror(name);
    fclose(file);
    return good;
}

/* Prints a refusal in words: of reading (1 to 7, 15) its line, of planning the stretch of slots that is overbooked, or that there is none
 * and the groups are what cannot be kept. */
static void print_refusal(uint64_t refusal, const uint64_t numbers[YARD_NUMBERS])
{
    if (refusal == 9)
        printf("no plan: %" PRIu64 " trains are bound to the slots %" PRIu64 " to %" PRIu64 "\n", numbers[2], numbers[0], numbers[1]);
    else if (refusal == 16)
        printf("no plan keeps the groups\n");
    else
        printf("no day file: refusal %" PRIu64 ", line %" PRIu64 "\n", refusal, numbers[0]);
}

static void print_numbers(const char *name, const uint64_t numbers[YARD_NUMBERS])
{
    printf("%s: revisits %" PRIu64 ", splits %" PRIu64 ", direct %" PRIu64 ", cost %" PRIu64 "\n", name, numbers[0], numbers[1], numbers[2],
           numbers[3]);
}

int main(int argc, char **argv)
{
    static uint8_t text[MOST_TEXT];
    uint8_t row[YARD_MOST_TRAINS];
    uint64_t numbers[YARD_NUMBERS];
    size_t length, trains;

    if (yard_version() != YARD_VERSION) {
        fprintf(stderr, "the library has version %" PRIu64 ", yard.h %d\n", yard_version(), YARD_VERSION);
        return 2;
    }
    if (argc != 2) {
        fprintf(stderr, "usage: %s DAY\n", argv[0]);
        return 2;
    }
    if (!read_file(argv[1], text, &length))
        return 2;

    uint64_t refusal = yard_plan(text, length, row, sizeof row, numbers, YARD_NUMBERS, &trains);
    if (refusal != 0) {
        print_refusal(refusal, numbers);
        return 1;
    }
    print_numbers("plan", numbers);
    for (size_t i = 0; i < trains; i++)
        printf("train %zu of the day file: slot %u\n", i + 1, row[i]);

    /* a row of one's own: 0 with its numbers, or 12, 13 or 17 with the position, the slot or the group at fault */
    memset(row, 1, trains);
    refusal = yard_value(text, length, row, trains, numbers, YARD_NUMBERS);
    if (refusal == 0)
        print_numbers("all in slot 1", numbers);
    else
        printf("all in slot 1: refusal %" PRIu64 ", %" PRIu64 "\n", refusal, numbers[0]);
    return 0;
}
