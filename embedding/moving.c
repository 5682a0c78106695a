/* A day that keeps moving, from C: begins a day, then closes slots and changes the day by commands on standard input, one to a line, and
 * prints the plan after each. All that is kept between two commands is the state of yard.h. `save` writes it as a text, so that a program
 * that was stopped can go on the next morning.
 *
 *     tools/build yard
 *     cc -Iinclude -o target/moving embedding/moving.c target/staticlib/libyard.a
 *     target/moving examples/p01.day
 *         close                    closes the first open slot
 *         cancel TRAIN             takes a train out of the day
 *         add TRAIN FIRST LAST     adds a train that may be served in the slots FIRST to LAST
 *         boxes TO FROM COUNT      from now on train TO receives COUNT boxes from train FROM
 *         save FILE                writes the state: the lines `closed N` and `row S1 S2 ..`, then the day file
 *         quit                     the same as the end of the input
 *     target/moving --resume FILE
 *
 * A command that is refused changes nothing. Ends with 0 after the last command, with 1 where the day or the saved state is refused, with 2
 * where there is none to begin with, or where a state or the plans could not be written. */
#include <inttypes.h>
#include <stdio.h>
#include <string.h>

#include "yard.h"

/* No day file has more than 2,437 bytes, so the first 4,096 of a longer one are refused as well, and those of a longer saved state. */
enum { MOST_TEXT = 4096, MOST_LINE = 1024 };

/* The work areas of planning. Nothing in them outlives a call. */
static uint64_t cost[YARD_COST_WORDS];
static uint16_t choice[YARD_CHOICE_WORDS];

/* The state of a moving day: the day file, the number of closed slots, the slot of each train. */
struct state {
    uint8_t text[MOST_TEXT];
    size_t length;
    uint32_t closed;
    uint8_t row[YARD_MOST_TRAINS];
    size_t trains;
};

/* What the functions of yard.h are given: a state, the work areas, room for the new state, room for the numbers. */
#define STATE(s) (s)->text, (s)->length, (s)->closed, (s)->row, (s)->trains
#define AREAS cost, YARD_COST_WORDS, choice, YARD_CHOICE_WORDS
#define ROOM(s) (s)->text, sizeof(s)->text, (s)->row, sizeof(s)->row
#define NUMBERS(numbers) numbers, YARD_NUMBERS

/* ---- reading */

/* Reads the first MOST_TEXT bytes of a file, and puts a zero after them. Returns 0 where it cannot be read. */
static int read_file(const char *name, char text[MOST_TEXT + 1], size_t *length)
{
    FILE *file = fopen(name, "rb");
    *length = file ? fread(text, 1, MOST_TEXT, file) : 0;
    text[*length] = '\0';
    int good = file && !ferror(file);
    if (!good)
        perror(name);
    if (file)
        fclose(file);
    return good;
}

/* Reads a line of standard input without its end; one that is too long or has a zero byte becomes an empty one, which is no command.
 * Returns 0 where there is none. */
static int read_line(char line[MOST_LINE])
{
    size_t length = 0;
    int good = 1, c = getchar();
    if (c == EOF)
        return 0;
    for (; c != EOF && c != '\n'; c = getchar()) {
        good = good && c != '\0' && length < MOST_LINE - 1;
        if (good)
            line[length++] = (char)c;
    }
    line[good ? length : 0] = '\0';
    return 1;
}

/* Reads a line that is a word and at most `most` numbers, each of one to nine digits after one space. Returns their count, or -1 where the
 * line has another form; what follows the line is in *rest. */
static int read_numbers(const char *line, const char *word, uint32_t *numbers, int most, const char **rest)
{
    int count = 0;
    if (strncmp(line, word, strlen(word)) != 0)
        return -1;
    for (line += strlen(word); *line == ' ' && count < most; count++) {
        size_t digits = strspn(++line, "0123456789");
        if (digits < 1 || 9 < digits)
            return -1;
        for (numbers[count] = 0; digits > 0; digits--)
            numbers[count] = 10 * numbers[count] + (uint32_t)(*line++ - '0');
    }
    if (*line != '\n' && *line != '\0')
        return -1;
    *rest = *line == '\n' ? line + 1 : line;
    return count;
}

/* ---- printing */

/* A state's text is a day file: its lines from the fourth on begin with the train numbers. Its row is allowed: yard_value does not refuse
 * it. */
static void print_plan(const struct state *s)
{
    uint64_t numbers[YARD_NUMBERS];
    const char *line = (const char *)s->text;
    for (int k = 0; k < 3; k++)
        line += strcspn(line, "\n") + 1;
    printf("closed slots: %" PRIu32 "\n", s->closed);
    for (size_t i = 0; i < s->trains; i++, line += strcspn(line, "\n") + 1)
        printf("train %.*s: slot %u%s\n", (int)strcspn(line, " "), line, s->row[i], s->row[i] <= s->closed ? ", served" : "");
    yard_value(s->text, s->length, s->row, s->trains, NUMBERS(numbers));
    printf("plan: revisits %" PRIu64 ", splits %" PRIu64 ", direct %" PRIu64 ", cost %" PRIu64 "\n", numbers[0], numbers[1], numbers[2],
           numbers[3]);
}

/* Prints a refusal in words: of a day file its line (in a saved state the third line is the first of them), of an overbooked stretch its
 * slots. 3, 5 and 6 are refusals of day files and of commands: those of day files carry a line. */
static void print_refusal(uint64_t refusal, const uint64_t numbers[YARD_NUMBERS])
{
    static const char *const words[] = {
        [3] = "a train number outside 1 to 99999, a slot that the day does not have, or more than 255 boxes",
        [5] = "the first slot is above the last, or is closed",
        [6] = "a train receives no boxes from itself",
        [8] = "more slots are closed than the day has, or the row is not allowed",
        [16] = "no plan keeps the groups",
        [18] = "a train that is not listed, or one to cancel that is served or the only one",
        [19] = "a train that is listed already, or one more than 12",
        [20] = "no slot is open",
    };
    printf("refused with %" PRIu64 ": ", refusal);
    if (refusal == 9)
        printf("no plan, %" PRIu64 " trains are bound to the slots %" PRIu64 " to %" PRIu64 "\n", numbers[2], numbers[0], numbers[1]);
    else if (numbers[0] > 0)
        printf("no day file, its line %" PRIu64 " is wrong\n", numbers[0]);
    else
        printf("%s\n", refusal < sizeof words / sizeof *words && words[refusal] ? words[refusal] : "not expected");
}

/* ---- a state begun, read again, saved */

static void take_numbers(struct state *s, const uint64_t numbers[YARD_NUMBERS])
{
    s->closed = (uint32_t)numbers[0];
    s->trains = numbers[1];
    s->length = numbers[2];
}

/* Begins the day of the state's text. Returns 0 or the refusal. */
static uint64_t begin_day(struct state *s, uint64_t numbers[YARD_NUMBERS])
{
    uint64_t refusal = yard_begin(s->text, s->length, AREAS, s->row, sizeof s->row, NUMBERS(numbers));
    if (refusal == 0)
        take_numbers(s, numbers);
    return refusal;
}

/* Checks a state that was read. Returns 0 or the refusal. yard_close does not change what it is given, plans nothing, and checks the state:
 * 0, or 20 where every slot is closed, says that it can be gone on with. */
static uint64_t check_state(const struct state *s, uint64_t numbers[YARD_NUMBERS])
{
    uint64_t refusal = yard_close(STATE(s), NUMBERS(numbers));
    return refusal == 20 ? 0 : refusal;
}

/* Reads the first two lines of a saved state. Returns the day file after them, or null where they have another form. */
static const char *read_head(const char *text, struct state *s)
{
    uint32_t slots[YARD_MOST_TRAINS];
    const char *row, *day;
    if (read_numbers(text, "closed", &s->closed, 1, &row) != 1)
        return NULL;
    int count = read_numbers(row, "row", slots, YARD_MOST_TRAINS, &day);
    for (int i = 0; i < count; i++) {
        if (slots[i] > UINT8_MAX)
            return NULL;
        s->row[i] = (uint8_t)slots[i];
    }
    s->trains = count < 0 ? 0 : (size_t)count;
    return count < 0 ? NULL : day;
}

/* Saves a state, under another name first: a text that broke off after a line of boxes would be a state too. Returns 0 where that fails; a
 * file that was there is then still the old one. (That rename replaces a file is POSIX, not C99.) */
static int save(const struct state *s, const char *name)
{
    char beside[MOST_LINE + 8];
    snprintf(beside, sizeof beside, "%s.new", name);
    FILE *file = fopen(beside, "wb");
    if (file) {
        fprintf(file, "closed %" PRIu32 "\nrow", s->closed);
        for (size_t i = 0; i < s->trains; i++)
            fprintf(file, " %u", s->row[i]);
        fputc('\n', file);
        int good = fwrite(s->text, 1, s->length, file) == s->length && !ferror(file);
        if (fclose(file) == 0 && good && rename(beside, name) == 0) {
            printf("saved: %s\n", name);
            return 1;
        }
    }
    perror(name);
    return 0;
}

/* ---- the commands */

/* Calls the function of a command. Returns 0 where the line is none. */
static int call(const char *line, const struct state *s, struct state *next, uint64_t numbers[YARD_NUMBERS], uint64_t *refusal)
{
    uint32_t v[3];
    const char *rest;
    if (read_numbers(line, "close", v, 0, &rest) == 0)
        *refusal = yard_close(STATE(s), NUMBERS(numbers));
    else if (read_numbers(line, "cancel", v, 1, &rest) == 1)
        *refusal = yard_cancel(STATE(s), v[0], AREAS, ROOM(next), NUMBERS(numbers));
    else if (read_numbers(line, "add", v, 3, &rest) == 3)
        *refusal = yard_add(STATE(s), v[0], v[1], v[2], AREAS, ROOM(next), NUMBERS(numbers));
    else if (read_numbers(line, "boxes", v, 3, &rest) == 3)
        *refusal = yard_set_boxes(STATE(s), v[0], v[1], v[2], AREAS, ROOM(next), NUMBERS(numbers));
    else
        return 0;
    return 1;
}

/* Does a command. The new state is written beside the old one and takes its place where nothing is refused; after yard_close only its
 * numbers are others. */
static void change(struct state *s, const char *line)
{
    struct state next = *s;
    uint64_t numbers[YARD_NUMBERS], refusal;
    if (!call(line, s, &next, numbers, &refusal)) {
        printf("no command: close | cancel TRAIN | add TRAIN FIRST LAST | boxes TO FROM COUNT | save FILE | quit\n");
    } else if (refusal != 0) {
        print_refusal(refusal, numbers);
    } else {
        take_numbers(&next, numbers);
        *s = next;
        print_plan(s);
    }
}

/* Prints the plan and does the commands. Returns the status of the program. */
static int run(struct state *s)
{
    char line[MOST_LINE];
    int status = 0;
    print_plan(s);
    while (fflush(stdout) == 0 && read_line(line) && strcmp(line, "quit") != 0) {
        if (strncmp(line, "save ", 5) != 0 || line[5] == '\0')
            change(s, line);
        else if (!save(s, line + 5))
            status = 2;
    }
    return ferror(stdin) || ferror(stdout) ? 2 : status;
}

int main(int argc, char **argv)
{
    static char text[MOST_TEXT + 1];
    static struct state s;
    uint64_t numbers[YARD_NUMBERS];
    int resume = argc == 3 && strcmp(argv[1], "--resume") == 0;

    if (argc != 2 && !resume) {
        fprintf(stderr, "usage: %s DAY | --resume FILE\n", argv[0]);
        return 2;
    }
    if (!read_file(argv[argc - 1], text, &s.length))
        return 2;
    const char *day = resume ? read_head(text, &s) : text;
    if (!day) {
        printf("no saved state: it begins with the lines `closed N` and `row S1 S2 ..`\n");
        return 1;
    }
    s.length -= (size_t)(day - text);
    memcpy(s.text, day, s.length);
    uint64_t refusal = resume ? check_state(&s, numbers) : begin_day(&s, numbers);
    if (refusal != 0) {
        print_refusal(refusal, numbers);
        return 1;
    }
    return run(&s);
}
