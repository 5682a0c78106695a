/* The window of a train from a calendar, in C, by the same steps as the proved function: every part of the calendar checked, the weekday by
 * summing up years and months, the slots by a quotient, first and last by walking. Built by each compiler, with WINDOW as its name; also
 * without sums (-DQUOTIENTS), as one would write it: the weekday by a formula, first and last by quotients. */
#include <stddef.h>
#include <stdint.h>

struct date {
    uint32_t year, month, day;
};

static int is_leap(uint32_t year)
{
    return year % 4 == 0 && (year % 100 != 0 || year % 400 == 0);
}

static uint32_t month_days(uint32_t year, uint32_t month)
{
    switch (month) {
    case 2:
        return is_leap(year) ? 29 : 28;
    case 4: case 6: case 9: case 11:
        return 30;
    case 1: case 3: case 5: case 7: case 8: case 10: case 12:
        return 31;
    }
    return 0;
}

static struct date date_of(uint32_t number)
{
    return (struct date){number / 10000, number / 100 % 100, number % 100};
}

static int is_date(struct date d)
{
    return 2000 <= d.year && d.year <= 2099 && 1 <= d.month && d.month <= 12 && 1 <= d.day && d.day <= month_days(d.year, d.month);
}

/* 0 for Monday */
static uint32_t weekday_of(struct date d)
{
#ifdef QUOTIENTS
    static const uint8_t shift[] = {0, 3, 2, 5, 0, 3, 5, 1, 4, 6, 2, 4};
    uint32_t year = d.year - (d.month < 3);
    return (year + year / 4 - year / 100 + year / 400 + shift[d.month - 1] + d.day + 6) % 7;
#else
    uint32_t days = d.day - 1;
    for (uint32_t y = 2000; y < d.year; y++)
        days += is_leap(y) ? 366 : 365;
    for (uint32_t m = 1; m < d.month; m++)
        days += month_days(d.year, m);
    return (5 + days) % 7;
#endif
}

uint64_t WINDOW(const uint32_t *hours, size_t hours_length, uint32_t slot_minutes, const uint32_t *closed, size_t closed_length, uint32_t date,
                uint32_t arrival, uint32_t departure, uint32_t *first, uint32_t *last)
{
    struct date on = date_of(date);
    int is_closed = 0;
    *first = *last = 0;
    if (hours_length < 14)
        return 10;
    if (closed_length > 32 || slot_minutes < 1 || slot_minutes > 1440 || !is_date(on) || arrival > 1439 || departure > 1439)
        return 23;
    for (size_t i = 0; i < 14; i++)
        if (hours[i] > 1439)
            return 23;
    for (size_t i = 0; i < closed_length; i++) {
        if (!is_date(date_of(closed[i])))
            return 23;
        is_closed |= closed[i] == date;
    }
    uint32_t weekday = weekday_of(on), opens = hours[2 * weekday], closes = hours[2 * weekday + 1], used = 0;
    if (!is_closed && opens < closes)
        used = (closes - opens) / slot_minutes;
    if (used > 8)
        used = 8;
#ifdef QUOTIENTS
    uint32_t from = arrival <= opens ? 1 : (arrival - opens + slot_minutes - 1) / slot_minutes + 1;
    uint32_t to = departure <= opens ? 0 : (departure - opens) / slot_minutes;
    if (to > used)
        to = used;
#else
    uint32_t from = 1, to = used;
    while (from <= used && opens + (from - 1) * slot_minutes < arrival)
        from++;
    while (to >= 1 && departure < opens + to * slot_minutes)
        to--;
#endif
    if (to < from)
        return 24;
    *first = from;
    *last = to;
    return 0;
}
