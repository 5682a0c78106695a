/* Days for the programs of bench/, ordinary and long ones: their boxes by a formula or drawn, and their texts. Every program that includes
 * this draws the same days. */
#ifndef DAYS_H
#define DAYS_H

#define _POSIX_C_SOURCE 200809L
#include <stdint.h>
#include <stdio.h>
#include <stdlib.h>
#include <string.h>
#include <time.h>

#include "yard.h"

enum { MOST_TRAINS = YARD_LONG_MOST_TRAINS, MOST_TEXT = 32768, MOST_GROUPS = 12, MOST_FUNCTIONS = 8 };

struct day {
    unsigned kind; /* what the program has it for */
    char name[24];
    unsigned trains, tracks, slots, revisit, split;
    unsigned first[MOST_TRAINS], last[MOST_TRAINS];
    unsigned boxes[MOST_TRAINS][MOST_TRAINS];
    unsigned sets[MOST_TRAINS]; /* the group of each train in the file, 0 for none */
    unsigned tenths; /* the probability of a pair's boxes, where they are drawn */
    char text[MOST_TEXT];
    size_t length;
    unsigned calls;               /* in one measurement */
    double least[MOST_FUNCTIONS]; /* nanoseconds of a call */
};

/* Ends with status 1: what is measured must be the same answers. */
static void fail(const char *day, const char *what)
{
    fprintf(stderr, "bench: %s: %s\n", day, what);
    exit(1);
}

static double nanoseconds(clockid_t clock)
{
    struct timespec t;
    clock_gettime(clock, &t);
    return (double)t.tv_sec * 1e9 + (double)t.tv_nsec;
}

/* ---- drawing */

/* Makes d a day without boxes, both weights 1, all windows open. */
static void begin_day(struct day *d, unsigned kind, const char *name, unsigned trains, unsigned tracks, unsigned slots)
{
    memset(d, 0, sizeof *d);
    d->kind = kind;
    snprintf(d->name, sizeof d->name, "%s", name);
    d->trains = trains;
    d->tracks = tracks;
    d->slots = slots;
    d->revisit = d->split = 1;
    for (size_t i = 0; i < trains; i++) {
        d->first[i] = 1;
        d->last[i] = slots;
    }
}

/* The generator splitmix64: the same draws on every machine. */
static uint64_t draw(uint64_t *state)
{
    uint64_t z = *state += 0x9e3779b97f4a7c15u;
    z = (z ^ (z >> 30)) * 0xbf58476d1ce4e5b9u;
    z = (z ^ (z >> 27)) * 0x94d049bb133111ebu;
    return z ^ (z >> 31);
}

/* Boxes as section 5.1 of the source draws them: each ordered pair with a probability, given in tenths, then 1 to 10 alike. */
static void draw_boxes(struct day *d, unsigned tenths, uint64_t seed)
{
    d->tenths = tenths;
    for (size_t i = 0; i < d->trains; i++)
        for (size_t j = 0; j < d->trains; j++)
            if (i != j && draw(&seed) % 10 < tenths)
                d->boxes[i][j] = (unsigned)(draw(&seed) % 10) + 1;
}

/* ---- texts */

static void add_line(struct day *d, const char *line)
{
    size_t length = strlen(line);
    if (sizeof d->text <= d->length + length)
        fail(d->name, "the text is too long");
    memcpy(d->text + d->length, line, length);
    d->length += length;
}

/* The fourth section, where the day has groups. */
static void write_groups(struct day *d)
{
    char line[64];
    const char *names = "group train\n";
    for (unsigned group = 1; group <= MOST_GROUPS; group++) {
        for (unsigned i = 0; i < d->trains; i++) {
            if (d->sets[i] == group) {
                snprintf(line, sizeof line, "%s%u %u\n", names, group, i + 1);
                add_line(d, line);
                names = "";
            }
        }
    }
}

static void write_text(struct day *d)
{
    char line[64];
    d->length = 0;
    add_line(d, "trains tracks slots revisit split\n");
    snprintf(line, sizeof line, "%u %u %u %u %u\n", d->trains, d->tracks, d->slots, d->revisit, d->split);
    add_line(d, line);
    add_line(d, "train first last\n");
    for (unsigned i = 0; i < d->trains; i++) {
        snprintf(line, sizeof line, "%u %u %u\n", i + 1, d->first[i], d->last[i]);
        add_line(d, line);
    }
    add_line(d, "to from boxes\n");
    for (unsigned i = 0; i < d->trains; i++) {
        for (unsigned j = 0; j < d->trains; j++) {
            if (d->boxes[i][j] > 0) {
                snprintf(line, sizeof line, "%u %u %u\n", i + 1, j + 1, d->boxes[i][j]);
                add_line(d, line);
            }
        }
    }
    write_groups(d);
}

#endif
