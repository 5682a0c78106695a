/* Reports over the days of a season from C: joins day files, each followed by an empty line but the last, and prints how many were planned and
 * refused, the totals of those planned and their means.
 *
 *     tools/build yard
 *     cc -Iinclude -o target/season_c embedding/season.c target/staticlib/libyard.a
 *     target/season_c examples/p01.day examples/p09.day examples/p12.day
 *
 * Ends with 0 where there is a report, with 1 where there are too many days, with 2 where a file cannot be read. */
#include <inttypes.h>
#include <stdio.h>
#include <stdlib.h>

#include "yard.h"

/* The day files, joined. */
struct season {
    uint8_t *text;
    size_t length, room;
};

/* Appends a byte. Returns 0 where there is no memory. */
static int append_byte(struct season *season, uint8_t byte)
{
    if (season->length == season->room) {
        size_t room = 2 * season->room + 4096;
        uint8_t *text = realloc(season->text, room);
        if (!text)
            return 0;
        season->text = text;
        season->room = room;
    }
    season->text[season->length++] = byte;
    return 1;
}

/* Appends a file. Returns 0 where it cannot be read. A file that does not end its last line gets the byte 10 that is missing: else it would be one
 * day with the next. */
static int append_file(struct season *season, const char *name)
{
    FILE *file = fopen(name, "rb");
    if (!file) {
        perror(name);
        return 0;
    }
    int byte, last = '\n', good = 1;
    while (good && (byte = getc(file)) != EOF) {
        good = append_byte(season, (uint8_t)byte);
        last = byte;
    }
    if (good && !ferror(file) && last != '\n')
        good = append_byte(season, '\n');
    if (!good || ferror(file)) {
        perror(name);
        good = 0;
    }
    fclose(file);
    return good;
}

/* An empty line parts two files. */
static int join_files(struct season *season, char **names, int count)
{
    for (int i = 0; i < count; i++) {
        if (i > 0 && !append_byte(season, '\n'))
            return 0;
        if (!append_file(season, names[i]))
            return 0;
    }
    return 1;
}

static void print_refused(const uint64_t *numbers)
{
    for (int k = 1; k < YARD_SEASON_REVISITS; k++)
        if (numbers[k] != 0)
            printf("refused with %d: %" PRIu64 "\n", k, numbers[k]);
}

/* A total, and its mean over the planned days with three decimals, cut off: quotient and remainder are exact. */
static void print_figure(const char *name, const uint64_t *numbers, int total, int mean)
{
    uint64_t planned = numbers[YARD_SEASON_PLANNED];
    uint64_t thousandths = planned == 0 ? 0 : numbers[mean + 1] * 1000 / planned;
    printf("%s: %" PRIu64 ", %" PRIu64 ".%03" PRIu64 " a day\n", name, numbers[total], numbers[mean], thousandths);
}

int main(int argc, char **argv)
{
    uint64_t numbers[YARD_SEASON_NUMBERS];
    struct season season = { malloc(4096), 0, 4096 };

    if (!season.text || !join_files(&season, argv + 1, argc - 1))
        return 2;
    uint64_t refusal = yard_season(season.text, season.length, numbers, YARD_SEASON_NUMBERS);
    free(season.text);
    if (refusal != 0) {
        printf("more than %d days\n", YARD_SEASON_MOST_DAYS);
        return 1;
    }
    printf("planned: %" PRIu64 "\n", numbers[YARD_SEASON_PLANNED]);
    print_refused(numbers);
    print_figure("revisits", numbers, YARD_SEASON_REVISITS, YARD_SEASON_MEAN_REVISITS);
    print_figure("split moves", numbers, YARD_SEASON_SPLITS, YARD_SEASON_MEAN_SPLITS);
    print_figure("direct moves", numbers, YARD_SEASON_DIRECT, YARD_SEASON_MEAN_DIRECT);
    print_figure("boxes", numbers, YARD_SEASON_BOXES, YARD_SEASON_MEAN_BOXES);
    printf("saved against first come: %" PRIu64 "\n", numbers[YARD_SEASON_SAVINGS]);
    return 0;
}
