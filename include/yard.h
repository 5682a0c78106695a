/* The yard slot planner for programs in C: plan a day, check a day file, value a row of slots, see what planning saves, keep a plan while
 * the day changes, plan a long day, report over a season, give a train its window from a timetable.
 *
 * The functions are proved (crates/yard): for every text, every row and all lent memory they return and leave exactly what stands here.
 * They keep no state, allocate nothing, and may be called from several threads at once. Those that plan (yard_answer, yard_plan,
 * yard_first_come_first_served, yard_myopic, yard_season, yard_season_answer) need up to 160 KB of stack: the examples of embedding/ run in
 * 160 KB and not in 140.
 * yard_plan_in_workspace and the functions of a moving day need up to 64 KB: the same days are planned in 56 KB and not in 48. The functions
 * of long days need up to 32 KB: a long day with every box that there can be is planned in 28 KB and not in 24. Those of opening hours and
 * dates need little: the example of a timetable runs in 32 KB, what a C program needs by itself among it.
 *
 * Build the library with the Rattle kit and link it:
 *     tools/build yard                                    (writes target/staticlib/libyard.a)
 *     cc -Iinclude program.c target/staticlib/libyard.a
 *
 * Texts are bytes with a length; no zero byte ends them. Memory that is lent must have the length given beside it, and memory that a
 * function writes must not overlap other memory lent to the same call. A length may be 0; the pointer must then still not be null.
 *
 * Every function returns 0, or the number of a refusal (documents 01 and 02; docs/FORMAT.md says what to do about each):
 *      1  a names line is absent or differs          2  a row is absent or has another form
 *      3  a value is outside its limits              4  a train number isn't above the one before
 *      5  first is above last                        6  a move names an unlisted train, or to equals from
 *      7  a move's pair isn't after the pair before  9  a stretch of slots is overbooked, so no row is allowed
 *     10  lent memory is shorter than needed        11  the row's length isn't the number of trains
 *     12  a slot lies outside its train's window    13  a slot holds more trains than there are tracks
 *     14  first come or the myopic procedure leaves a train without a slot, or parts a group
 *     15  a group's row names an unlisted train or one of an earlier row, or its pair isn't after the pair before
 *     16  no stretch is overbooked, and still no row is allowed, since the groups can't be kept
 *     17  a row parts a group
 * and of a moving day:
 *      8  a state that can't be gone on with        18  a train that is not listed, or can't be cancelled
 *     19  a train that can't be added               20  no slot is open that could be closed
 * and of a long day:
 *     21  the width is none of 1 to 64
 * and of a season:
 *     22  the text has more than 366 days
 * and of opening hours and dates:
 *     23  a date, a minute, the number of closed dates or the slot length is out of range
 *     24  a train has no slot between its arrival and its departure
 * Where yard_answer or yard_long_answer prints a refusal (1 to 7, 9, 15, 16) it returns 0, and so does yard_season_answer where it prints 22.
 */
#ifndef YARD_H
#define YARD_H

#include <stddef.h>
#include <stdint.h>

#ifdef __cplusplus
extern "C" {
#endif

/* The version of this interface. It changes when a size below or the meaning of a number does. yard_version() returns that of the library
 * that is linked: compare the two where header and library may come from different places.
 * Functions that are added do not change it. Since version 3 a row has four numbers, direct moves before the cost, and an answer up to 161
 * bytes. In version 2 it had three, the cost in third place, and 148 bytes sufficed. */
#define YARD_VERSION 3

uint64_t yard_version(void);

/* Bytes of output that suffice for every answer; numbers of a row: revisits, split moves (boxes between trains of different slots), direct
 * moves (boxes between trains of the same slot), cost; trains that a day has at most; words of the two work areas that suffice for every
 * day. */
#define YARD_ANSWER_BYTES 161
#define YARD_NUMBERS 4
#define YARD_MOST_TRAINS 12
#define YARD_COST_WORDS 4096
#define YARD_CHOICE_WORDS 32768

/* Bytes that suffice for every day file. */
#define YARD_DAY_BYTES 2437

/* Plans the day of a text: what the program yard-plan prints for it, byte for byte. That is the plan file; or, for a text that is no day
 * file, the two lines of refusals 1 to 7 and 15; or, for a day without a plan, the two lines of refusal 9 or 16.
 * No allowed row is cheaper than the plan. Of those that cost as much none has fewer revisits; of those with as many revisits none has a
 * smaller sum of slot numbers over all trains; of those with the same sum the plan is first by document 01's set numbers.
 * Where the split weight is 1 and the revisit weight at least the sum of all boxes (33660 always is), the plan has the fewest revisits of
 * all allowed rows, and the fewest split moves of those that share this fewest.
 *
 * text, text_length   the day file. No byte of it changes.
 * out, out_length     the answer goes into its first bytes; bytes beyond stay as they were. YARD_ANSWER_BYTES always suffice.
 * bytes               holds the count of bytes of the answer afterwards.
 *
 * Returns 0, or 10 where out is shorter than the answer: then no byte of out has changed, and *bytes is 0. */
uint64_t yard_answer(const uint8_t *text, size_t text_length, uint8_t *out, size_t out_length, size_t *bytes);

/* Plans the day of a text, for programs that want slots and numbers and no text: the plan that yard_answer prints.
 *
 * text, text_length        the day file. No byte of it changes.
 * row, row_length          room for the slot of each train; YARD_MOST_TRAINS bytes always suffice. Afterwards its first *trains bytes hold
 *                          the slots, in the order of the day file, counted from 1; bytes beyond stay as they were, after a refusal all.
 * numbers, numbers_length  room for at least four numbers. Afterwards the first four hold revisits, split moves, direct moves and cost;
 *                          after a refusal what it carries, then zeros: 1 to 7 and 15 the line; 9 the first and last slot of the
 *                          overbooked stretch and the number of trains bound inside; 10 and 16 four zeros. Numbers beyond stay as
 *                          they were. Split and direct moves add up to all boxes of the day.
 * trains                   holds the number of slots written afterwards: the number of trains of the day, or 0 after any refusal.
 *
 * Returns 0, or the refusal: 10 where numbers_length is below 4 (then no number has changed), else 1 to 7 or 15, else 10 where row_length
 * is below the number of trains, else 9 or 16. */
uint64_t yard_plan(const uint8_t *text, size_t text_length, uint8_t *row, size_t row_length, uint64_t *numbers, size_t numbers_length,
                   size_t *trains);

/* The same with the two work areas of planning lent, for programs that keep them elsewhere than on the stack. For n trains and T slots
 * planning needs 2^n words of cost and T x 2^n words of choice; YARD_COST_WORDS and YARD_CHOICE_WORDS always suffice.
 *
 * cost, cost_length        After 0, 9 and 16 the first 2^n words may hold anything; words beyond, and after any other refusal all, stay.
 * choice, choice_length    The same of the first T x 2^n words.
 *
 * Returns as yard_plan does, with 10 also where an area is too short: 10 where numbers_length is below 4, else 1 to 7 or 15, else 10
 * where an area or the row is too short, else 9 or 16. */
uint64_t yard_plan_in_workspace(const uint8_t *text, size_t text_length, uint64_t *cost, size_t cost_length, uint16_t *choice,
                                size_t choice_length, uint8_t *row, size_t row_length, uint64_t *numbers, size_t numbers_length,
                                size_t *trains);

/* Checks whether a text is a day file.
 *
 * text, text_length   any bytes. None of them changes.
 * line                holds 0 afterwards, or the line of the refusal, counted from 1.
 *
 * Returns 0, or the refusal, 1 to 7 or 15. */
uint64_t yard_check(const uint8_t *text, size_t text_length, uint64_t *line);

/* Values a row of slots on the day of a text.
 *
 * text, text_length        the day file. No byte of it changes.
 * row, row_length          the slot of each train, in the order of the day file, slots counted from 1. No byte of it changes.
 * numbers, numbers_length  room for at least four numbers. Afterwards the first four hold revisits, split moves, direct moves and cost;
 *                          after a refusal what it carries, then zeros: 1 to 7 and 15 the line, 11 four zeros, 12 the lowest position
 *                          outside its window, 13 the lowest slot with too many trains, both counted from 1, 17 the lowest parted
 *                          group. Numbers beyond stay as they were.
 *
 * Returns 0, or the refusal: 10 where numbers_length is below 4 (then no number has changed), else 1 to 7 or 15, else 11, 12, 13
 * or 17. */
uint64_t yard_value(const uint8_t *text, size_t text_length, const uint8_t *row, size_t row_length, uint64_t *numbers, size_t numbers_length);

/* What planning saves on the day of a text, against one of two simple procedures: the four numbers of the procedure's row of slots, and
 * its cost less the planned cost. No saving is below zero.
 *
 * First come, first served: the trains in the order of the day file each take the earliest slot in their window with a track free.
 * Myopic: slot after slot and track after track, of the trains whose window holds the slot that one which adds least to the cost, of
 * equal ones the first in the day file; where there is none the next slot begins. It adds the revisit weight where one of its suppliers
 * has no slot yet, and the split weight for each box from a supplier that is not in this slot. Neither looks at groups.
 *
 * text, text_length        the day file. No byte of it changes.
 * numbers, numbers_length  room for at least four numbers. Afterwards the first four hold revisits, split moves, direct moves and cost of
 *                          the procedure's row; after a refusal what it carries, then zeros: 1 to 7 and 15 the line; 9 the first and
 *                          last slot of the overbooked stretch and the number of trains bound inside; 16 four zeros; 14 the lowest
 *                          position that is left without a slot, counted from 1, or 0 where each train has a slot and a group is
 *                          parted. Numbers beyond stay as they were.
 * saving                   holds the saving afterwards, 0 after any refusal.
 *
 * Each returns 0, or the refusal: 10 where numbers_length is below 4 (then no number has changed), else 1 to 7 or 15, else 9 or 16,
 * else 14. A day with 14 has a plan. */
uint64_t yard_first_come_first_served(const uint8_t *text, size_t text_length, uint64_t *numbers, size_t numbers_length, int64_t *saving);
uint64_t yard_myopic(const uint8_t *text, size_t text_length, uint64_t *numbers, size_t numbers_length, int64_t *saving);

/* ---- a day that keeps moving
 *
 * A day is begun with a plan; then slots are closed one after the other, and between that trains are cancelled, trains are added, and
 * boxes change. Its state is three things that a program can keep, print and read again the next morning:
 *
 *   - the day file of the day as it is now (text, text_length);
 *   - the number of closed slots (closed);
 *   - the plan (row, row_length): the slot of each train, in the order of the day file, one byte each.
 *
 * The row goes by the order of the day file, and positions move when a train is added or cancelled: the train numbers stand first in the
 * lines 4 to 3 + n of the text. A state that was stored and read again is checked by the next call; yard_close tells alone: 0 or 20 where
 * it can be gone on with, and with 8 yard_value says what is wrong with the row (where that gives 0, too many slots are closed). A stored day
 * file that broke off after a row of boxes is a day file too, of a day with fewer boxes: store its length, or write it whole or not at all.
 *
 * A train is served when its planned slot is closed. yard_begin gives the first plan, with no slot closed. yard_close closes the first open
 * slot: the trains planned in it are served, and the plan stays. yard_cancel, yard_add and yard_set_boxes change the day and plan it anew:
 * served trains keep their slots, and all others get open ones. The new plan is the best of all allowed rows that do so, in the order
 * that yard_answer has.
 *
 * The state that is given does not change. The new one is written beside it:
 *
 * day, day_length          room for the new day file, at least YARD_DAY_BYTES. Afterwards its first numbers[2] bytes hold it.
 * next, next_length        room for the new plan, at least YARD_MOST_TRAINS bytes. Afterwards its first numbers[1] bytes hold it.
 * numbers, numbers_length  room for at least four numbers. Afterwards the first four hold the number of closed slots, the number of trains,
 *                          the bytes of the day file, and 0; after a refusal what it carries, then zeros: 1 to 7 and 15 of the text
 *                          the line, 9 the first and last slot of the overbooked stretch and the number of trains bound inside; every
 *                          other refusal four zeros. Numbers beyond stay as they were.
 * cost, choice             the two work areas, at least YARD_COST_WORDS and YARD_CHOICE_WORDS words, whatever the day. Where planning has
 *                          begun (after 0, 9 and 16) the first YARD_COST_WORDS and YARD_CHOICE_WORDS words may hold anything; words
 *                          beyond, and after any other refusal all, stay as they were.
 *
 * Bytes of day and next beyond those stay as they were; after a refusal all of them do, so that the state given is still the state.
 *
 * Each function returns 0, or the first refusal of these:
 *     10  numbers_length is below 4 (then no number has changed), day_length below YARD_DAY_BYTES, or next_length below YARD_MOST_TRAINS
 *     1 to 7, 15  the text is no day file, with the line
 *      8  more slots are closed than the day has, row_length isn't the number of trains, or the row is not allowed (slots outside their
 *         windows, a slot with more trains than tracks, a parted group). The row need not be the best one.
 *     10  a work area is too short
 *      3  a train number outside 1..99999; the first or last slot of an added train outside 1..T; more than 255 boxes. (Where 3, 5 or 6 come
 *         from the text, numbers[0] is the line, which is never 0; from here on it is 0.)
 *     18  a train that is not listed; to be cancelled, also one that is served or is the only one of the day
 *     19  a train to be added that is listed already, or the day has YARD_MOST_TRAINS trains
 *     20  no slot is open that could be closed
 *      5  an added train whose first slot is above its last, or is closed
 *      6  boxes from a train to itself
 *      9, 16  no allowed row keeps the served trains and puts all others into open slots. For 9 a served train is bound to its slot, and the
 *         windows of the others are cut to the open slots. Neither comes from yard_close; from yard_cancel and yard_set_boxes neither
 *         comes, since the plan that was there, without the train that left, is still allowed. */

/* Begins a moving day with the day of a text and every slot open: the plan goes into next. 10 (numbers, next), 1 to 7 or 15, 10 (areas),
 * 9 or 16. The day file of the new state is the text itself, and no slot of it is closed. */
uint64_t yard_begin(const uint8_t *text, size_t text_length, uint64_t *cost, size_t cost_length, uint16_t *choice, size_t choice_length,
                    uint8_t *next, size_t next_length, uint64_t *numbers, size_t numbers_length);

/* Closes the first open slot: the trains planned in it are served. The text and the row of the new state are those that were given.
 * 10 (numbers), 1 to 7 or 15, 8, 20. */
uint64_t yard_close(const uint8_t *text, size_t text_length, uint32_t closed, const uint8_t *row, size_t row_length, uint64_t *numbers,
                    size_t numbers_length);

/* Cancels a train, named by its number: it leaves with its boxes and its place in a group. 10, 1 to 7 or 15, 8, 10 (areas), 3, 18. */
uint64_t yard_cancel(const uint8_t *text, size_t text_length, uint32_t closed, const uint8_t *row, size_t row_length, uint32_t train,
                     uint64_t *cost, size_t cost_length, uint16_t *choice, size_t choice_length, uint8_t *day, size_t day_length,
                     uint8_t *next, size_t next_length, uint64_t *numbers, size_t numbers_length);

/* Adds a train with its window, in no group and without boxes: first and last slot count from 1. 10, 1 to 7 or 15, 8, 10 (areas), 3, 19, 5,
 * 9 or 16. */
uint64_t yard_add(const uint8_t *text, size_t text_length, uint32_t closed, const uint8_t *row, size_t row_length, uint32_t train,
                  uint32_t first, uint32_t last, uint64_t *cost, size_t cost_length, uint16_t *choice, size_t choice_length, uint8_t *day,
                  size_t day_length, uint8_t *next, size_t next_length, uint64_t *numbers, size_t numbers_length);

/* Sets the number of boxes that train `to` receives from train `from`, 0 to 255; served trains too. 10, 1 to 7 or 15, 8, 10 (areas), 3, 18,
 * 6. */
uint64_t yard_set_boxes(const uint8_t *text, size_t text_length, uint32_t closed, const uint8_t *row, size_t row_length, uint32_t to,
                        uint32_t from, uint32_t boxes, uint64_t *cost, size_t cost_length, uint16_t *choice, size_t choice_length,
                        uint8_t *day, size_t day_length, uint8_t *next, size_t next_length, uint64_t *numbers, size_t numbers_length);

/* ---- long days (order 9 of document 02)
 *
 * Big yards have up to 36 trains on at most 4 tracks and 12 slots. Their day file has these limits (trains 1..36, tracks 1..4, slots
 * 1..12; weights 0..65535, train numbers 1..99999, boxes 1..255 as in every day file), the same form and no groups: `group train`
 * among the moves gets 2. They are planned by the beam search of the source's section 4.3, which need not find the cheapest row; how far
 * off it may be is told beside the plan. */
#define YARD_LONG_MOST_TRAINS 36
#define YARD_LONG_DAY_BYTES 20677
#define YARD_LONG_ANSWER_BYTES 367
#define YARD_LONG_NUMBERS 6
#define YARD_LONG_WIDTH 30       /* of yard_long_answer and the program yard-long */
#define YARD_LONG_MOST_WIDTH 64

/* What the program yard-long prints for a text, byte for byte: the plan file of the row that the beam search finds at width 30 (names
 * line `revisits splits direct cost`, as yard-plan), or the two lines of a refusal 1 to 7 or 9.
 * Arguments and return as yard_answer: 0, or 10 where out is shorter than the answer: then no byte of out has changed and *bytes is 0.
 * YARD_LONG_ANSWER_BYTES always suffice. */
uint64_t yard_long_answer(const uint8_t *text, size_t text_length, uint8_t *out, size_t out_length, size_t *bytes);

/* Plans the long day of a text at a width.
 *
 * text, text_length        the day file. No byte of it changes.
 * width                    how many partial plans are kept after each slot, 1 to 64.
 * row, row_length          room for the slot of each train; YARD_LONG_MOST_TRAINS bytes always suffice. Afterwards its first *trains bytes
 *                          hold the slots, counted from 1, in the order of the file's trains; bytes beyond stay as they were, after a
 *                          refusal all.
 * numbers, numbers_length  room for at least six numbers. Afterwards the first six hold revisits, split moves, direct moves, cost, the
 *                          number of slots after which more merged partial plans than the width remained, and the lower figure; after a
 *                          refusal what it carries, then zeros (1 to 7 the line; 9 the first and last slot of the overbooked stretch and
 *                          the number of trains bound inside; 10 and 21 six zeros). Numbers beyond stay as they were.
 * trains                   holds the number of slots written afterwards: the number of trains of the day, or 0 after any refusal.
 *
 * Returns 0, or the refusal: 10 where numbers_length is below 6 (then no number has changed, and *trains is 0), else 1 to 7, else 21 where
 * width is outside 1..64, else 10 where row_length is below the number of trains, else 9. */
uint64_t yard_long_plan(const uint8_t *text, size_t text_length, uint32_t width, uint8_t *row, size_t row_length, uint64_t *numbers,
                        size_t numbers_length, size_t *trains);

/* Checks whether a text is a long day's file: as yard_check. Returns 0, or the refusal, 1 to 7; *line holds 0 or its line. */
uint64_t yard_long_check(const uint8_t *text, size_t text_length, uint64_t *line);

/* Values a row of slots on the long day of a text: as yard_value, four numbers, and after a refusal what it carries there. Returns 0, or
 * the refusal: 10 where numbers_length is below 4 (then no number has changed), else 1 to 7, else 11, 12 or 13. */
uint64_t yard_long_value(const uint8_t *text, size_t text_length, const uint8_t *row, size_t row_length, uint64_t *numbers,
                         size_t numbers_length);

/* ---- the season in exact figures (order 10 of document 02)
 *
 * One report over up to 366 day files, joined in one text with an empty line between. Every empty line parts two days, also at the ends of
 * the text and one after the other; a text that is not empty has one day more than it has empty lines, an empty text has none. Each day is
 * read and planned as yard_plan does it: it is planned, or refused under the number that yard_plan would return. */
#define YARD_SEASON_MOST_DAYS 366
#define YARD_SEASON_ANSWER_BYTES 512
#define YARD_SEASON_NUMBERS 40

/* Where the numbers of a report stand. Days refused under the number k, 1 to 26, stand at k; days planned at 0. Totals are over the planned
 * days; savings are those of first come, first served (its cost less the planned cost), over the planned days on which that procedure gives
 * an allowed row. A mean over the planned days is a quotient at the index named and the remainder behind it, both 0 where no day was
 * planned. */
#define YARD_SEASON_PLANNED 0
#define YARD_SEASON_REVISITS 27
#define YARD_SEASON_SPLITS 28
#define YARD_SEASON_DIRECT 29
#define YARD_SEASON_BOXES 30
#define YARD_SEASON_SAVINGS 31
#define YARD_SEASON_MEAN_REVISITS 32
#define YARD_SEASON_MEAN_SPLITS 34
#define YARD_SEASON_MEAN_DIRECT 36
#define YARD_SEASON_MEAN_BOXES 38

/* The report over the days of a text.
 *
 * text, text_length        the day files, of any length. No byte of it changes.
 * numbers, numbers_length  room for at least YARD_SEASON_NUMBERS numbers. Afterwards the first YARD_SEASON_NUMBERS hold the report, after 22
 *                          zeros. Numbers beyond stay as they were.
 *
 * Returns 0, or the refusal: 10 where numbers_length is below YARD_SEASON_NUMBERS (then no number has changed), else 22 where the text has
 * more than 366 days, bad and empty ones included. A day that is refused refuses no report. */
uint64_t yard_season(const uint8_t *text, size_t text_length, uint64_t *numbers, size_t numbers_length);

/* What the program yard-season prints for a text, byte for byte: the report as lines (docs/FORMAT.md), or the two lines of refusal 22. The text
 * is read whole, whatever its length; the program reads the first 1,048,576 bytes of a longer one.
 * Arguments and return as yard_answer: 0, or 10 where out is shorter than the answer: then no byte of out has changed and *bytes is 0.
 * YARD_SEASON_ANSWER_BYTES always suffice. */
uint64_t yard_season_answer(const uint8_t *text, size_t text_length, uint8_t *out, size_t out_length, size_t *bytes);

/* ---- opening hours and dates (order 11 of document 02)
 *
 * A train's window from a date, an arrival and a departure minute. Minutes count from midnight, 0 to 1439. A date is one number, year x 10000
 * + month x 100 + day (20260704 is 4 July 2026), from YARD_FIRST_DATE to YARD_LAST_DATE in the Gregorian calendar. The yard's calendar is
 * given with each call:
 *
 * hours, hours_length      at least YARD_HOURS minutes: for each weekday from Monday to Sunday that at which the yard opens and that at which
 *                          it closes. Numbers beyond are not looked at.
 * slot_minutes             the length of a slot, 1 to 1440.
 * closed, closed_length    the closed dates, YARD_MOST_CLOSED_DATES at most, in any order; a date may stand there twice.
 *
 * Slots follow each other from opening; one that ends exactly at closing counts, and at most eight are used, the first eight. A closed date,
 * and a weekday that does not close after it opens, has none. */
#define YARD_HOURS 14
#define YARD_MOST_CLOSED_DATES 32
#define YARD_FIRST_DATE 20000101
#define YARD_LAST_DATE 20991231

/* How many slots a date uses: the slots of a day file for that date.
 *
 * slots                    holds the number afterwards, 0 to 8; 0 after a refusal. A day without slots is no refusal.
 *
 * No lent number changes but that one. Returns 0, or the refusal: 10 where hours_length is below YARD_HOURS, else 23 where date or one of
 * closed is no date from YARD_FIRST_DATE to YARD_LAST_DATE, one of the fourteen minutes is above 1439, closed_length is above
 * YARD_MOST_CLOSED_DATES, or slot_minutes is outside 1..1440. */
uint64_t yard_slots_on(const uint32_t *hours, size_t hours_length, uint32_t slot_minutes, const uint32_t *closed, size_t closed_length,
                       uint32_t date, uint32_t *slots);

/* The window of a train that arrives and departs on a date: first is the earliest used slot that starts at or after arrival, last the latest
 * used one that ends at or before departure. The window holds exactly the date's used slots that neither start before arrival nor end after
 * departure, and 1 <= first <= last <= what yard_slots_on gives: in a day file with so many slots it gets neither 3 nor 5.
 *
 * first, last              hold the window afterwards, 0 and 0 after a refusal.
 *
 * No lent number changes but these. Returns 0, or the refusal: 10 where hours_length is below YARD_HOURS, else 23 as yard_slots_on, or where
 * arrival or departure is above 1439, else 24 where no used slot is such. */
uint64_t yard_window(const uint32_t *hours, size_t hours_length, uint32_t slot_minutes, const uint32_t *closed, size_t closed_length,
                     uint32_t date, uint32_t arrival, uint32_t departure, uint32_t *first, uint32_t *last);

#ifdef __cplusplus
}
#endif

#endif
