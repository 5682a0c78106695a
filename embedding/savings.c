/* What planning saves, from C: reads a day file and prints what first come, first served and the myopic procedure would cost, and the
 * saving.
 *
 *     tools/build yard
 *     cc -Iinclude -o target/savings embedding/savings.c target/staticlib/libyard.a
 *     target/savings < examples/hub-10.day
 */
#include <inttypes.h>
#include <stdio.h>

#include "yard.h"

/* Longer texts are no day files: their first 4,096 bytes are refused too. */
enum { MOST_TEXT = 4096 };

typedef uint64_t procedure(const uint8_t *, size_t, uint64_t *, size_t, int64_t *);

/* Prints a refusal: what concerns groups in words, else its number and the first that it carries. 14 with 0: each train has a slot, but not
 * each group. */
static void print_refusal(const char *name, uint64_t refusal, uint64_t carried)
{
    if (refusal == 16)
        printf("%s: no plan keeps the groups\n", name);
    else if (refusal == 14 && carried == 0)
        printf("%s: parts a group\n", name);
    else
        printf("%s: refusal %" PRIu64 ", %" PRIu64 "\n", name, refusal, carried);
}

static void print_saving(const char *name, procedure *call, const uint8_t *text, size_t length)
{
    uint64_t numbers[YARD_NUMBERS];
    int64_t saving;
    uint64_t refusal = call(text, length, numbers, YARD_NUMBERS, &saving);
    if (refusal == 0)
        printf("%s: revisits %" PRIu64 ", splits %" PRIu64 ", direct %" PRIu64 ", cost %" PRIu64 "; planning saves %" PRId64 "\n", name,
               numbers[0], numbers[1], numbers[2], numbers[3], saving);
    else
        print_refusal(name, refusal, numbers[0]);
}

int main(void)
{
    static uint8_t text[MOST_TEXT];
    size_t length = fread(text, 1, sizeof text, stdin);

    print_saving("first come", yard_first_come_first_served, text, length);
    print_saving("myopic", yard_myopic, text, length);
    return 0;
}
