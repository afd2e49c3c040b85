#include "valid_time.h"

#include <inttypes.h>
#include <stdbool.h>
#include <string.h>

#include "products.h"

struct moment {
    uint64_t year;
    unsigned month, day, hour, minute, second;
};

/* Code table 4.4. A unit is so many seconds, or so many months, whose length varies. */
struct unit {
    uint8_t code;
    uint32_t seconds;
    uint32_t months;
};

static const struct unit units[] = {
    {0, 60, 0},  {1, 3600, 0}, {2, 86400, 0},  {3, 0, 1},      {4, 0, 12},     {5, 0, 120},
    {6, 0, 360}, {7, 0, 1200}, {10, 10800, 0}, {11, 21600, 0}, {12, 43200, 0}, {13, 1, 0},
};

enum { UNITS = sizeof units / sizeof units[0], YEAR_MISSING = 65535, DAY = 86400 };

static const struct unit *unit_of(uint8_t code)
{
    int i = 0;
    while (i < UNITS && units[i].code != code) {
        i++;
    }
    return i < UNITS ? &units[i] : NULL;
}

/* --- The calendar --- */

static bool is_leap(uint64_t year)
{
    return year % 4 == 0 && (year % 100 != 0 || year % 400 == 0);
}

static unsigned days_in(uint64_t year, unsigned month)
{
    static const unsigned days[] = {31, 28, 31, 30, 31, 30, 31, 31, 30, 31, 30, 31};
    return days[month - 1] + (month == 2 && is_leap(year) ? 1 : 0);
}

static bool is_moment(const struct moment *m)
{
    return m->year != YEAR_MISSING && m->month >= 1 && m->month <= 12 && m->day >= 1 &&
           m->day <= days_in(m->year, m->month) && m->hour < 24 && m->minute < 60 && m->second < 60;
}

/* Days of 400 years, of a century without a leap day at its end, of four years with one, and of a
   year without. */
enum { DAYS_400 = 146097, DAYS_100 = 36524, DAYS_4 = 1461, DAYS_1 = 365 };

/* Of months that are counted from March on, so that a leap day ends its year: the days before one
   of them. They are 31 and 30 by turns, in fives of 153. */
static unsigned days_before(unsigned month)
{
    return (153 * month + 2) / 5;
}

/* Days since 1 March of the year -400, which is before every reference time. */
static uint64_t day_number(const struct moment *m)
{
    unsigned month = (m->month + 9) % 12;
    uint64_t year = m->year + 400 - (month >= 10 ? 1 : 0);
    return DAYS_1 * year + year / 4 - year / 100 + year / 400 + days_before(month) + m->day - 1;
}

static uint64_t least(uint64_t a, uint64_t b)
{
    return a < b ? a : b;
}

/* The reverse. The last century of 400 years and the last year of four are a day longer than the
   others: on that day the quotient is 4, and 3 is meant. */
static void set_day(struct moment *m, uint64_t number)
{
    uint64_t rest = number % DAYS_400;
    uint64_t century = least(rest / DAYS_100, 3);
    rest -= century * DAYS_100;
    uint64_t four = rest / DAYS_4;
    rest -= four * DAYS_4;
    uint64_t one = least(rest / DAYS_1, 3);
    unsigned day = (unsigned)(rest - one * DAYS_1);
    unsigned month = (5 * day + 2) / 153;
    m->day = day - days_before(month) + 1;
    m->month = month < 10 ? month + 3 : month - 9;
    m->year = number / DAYS_400 * 400 + century * 100 + four * 4 + one + (month < 10 ? 0 : 1) - 400;
}

/* 2^32 times a day are under 2^49 seconds, and 2^32 times a century under 2^43 months: nothing
   overflows. */
static void add_seconds(struct moment *m, uint64_t seconds)
{
    uint64_t sum = day_number(m) * DAY + m->hour * 3600 + m->minute * 60 + m->second + seconds;
    unsigned of_day = (unsigned)(sum % DAY);
    set_day(m, sum / DAY);
    m->hour = of_day / 3600;
    m->minute = of_day / 60 % 60;
    m->second = of_day % 60;
}

/* Whether the month that is reached has the day. */
static bool add_months(struct moment *m, uint64_t months)
{
    uint64_t sum = m->year * 12 + m->month - 1 + months;
    m->year = sum / 12;
    m->month = (unsigned)(sum % 12) + 1;
    return m->day <= days_in(m->year, m->month);
}

/* --- The time of a field --- */

static struct moment reference_of(const struct buttresk_identification_fields *f)
{
    return (struct moment){f->year, f->month, f->day, f->hour, f->minute, f->second};
}

/* Code table 1.2: a forecast time counts from an analysis, the start of a forecast or an
   observation; not from the verifying time of a forecast, nor from a local time. */
static bool counts_from(uint8_t significance)
{
    return significance == 0 || significance == 1 || significance == 3;
}

/* From here on the top bit is set, which the Manual has for a minus sign (regulation 92.1.5); the
   library reads the time without a sign. Where the two differ no time is told. */
static uint32_t signed_from(const struct submessage *s)
{
    return (uint32_t)1 << (8 * time_octets(s) - 1);
}

/* Whether the time can be told. */
static bool moved_on(struct moment *m, const struct submessage *s)
{
    const struct buttresk_time_field *time = &s->product.time;
    const struct unit *unit = unit_of(time->unit);
    if (!time->known || unit == NULL || time->time >= signed_from(s)) {
        return false;
    }
    if (unit->months != 0) {
        return add_months(m, (uint64_t)unit->months * time->time);
    }
    add_seconds(m, (uint64_t)unit->seconds * time->time);
    return true;
}

/* Numbers that are no time have no Z. */
static void add_moment(struct words *text, const struct moment *m, bool is_time)
{
    add(text, "%04" PRIu64 "-%02u-%02u %02u:%02u", m->year, m->month, m->day, m->hour, m->minute);
    if (m->second != 0 || !is_time) {
        add(text, ":%02u", m->second);
    }
    add(text, "%s", is_time ? "Z" : "");
}

/* A template of which the table says nothing has a forecast time that counts from elsewhere. */
static void add_numbers(struct words *text, const struct moment *reference,
                        const struct product *product, const struct buttresk_time_field *time)
{
    add(text, "ref ");
    add_moment(text, reference, is_moment(reference));
    if (product != NULL && time->known) {
        add(text, " +%" PRIu32 " unit %u", time->time, time->unit);
    }
}

void add_valid_time(struct words *text, const struct submessage *s)
{
    const struct buttresk_product_fields *fields = &s->product;
    const struct moment reference = reference_of(&s->identification);
    const struct product *product = fields->known ? product_of(fields->template_number) : NULL;
    struct moment valid = reference;
    if (!s->identification.known) {
        add(text, "-");
    } else if (product != NULL && counts_from(s->identification.significance) &&
               is_moment(&reference) && moved_on(&valid, s)) {
        add(text, "%s", strcmp(product->time, "start") == 0 ? "from " : "");
        add_moment(text, &valid, true);
    } else {
        add_numbers(text, &reference, product, &fields->time);
    }
}
