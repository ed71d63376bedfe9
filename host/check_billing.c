/* Links the archive and checks pupcopper_class and pupcopper_cents against plain C arithmetic: the classes of 2025 against the paper's
   month ends and holidays, those of all years against a walk day by day from 1 June 2025. Exit status 0 if all agree. */
#include "pupcopper.h"

#include <inttypes.h>
#include <stdio.h>

enum { REFUSED = 255 };
enum { SUNDAY, MONDAY, THURSDAY = 4, SATURDAY = 6 };

static const uint64_t month_ends[12] = {720,  1464, 2208, 2928, 3672, 4392,
                                        5136, 5880, 6552, 7296, 8016, 8760};
static const uint64_t holidays[6] = {34, 93, 180, 208, 215, 359};

/* A day of the walk; month 1 is January, weekday 0 Sunday. */
struct day {
    unsigned year, month, date, weekday;
};

static long failures = 0;
static long checks = 0;

/* A day of 2025. */
static int is_working(uint64_t day) {
    for (int i = 0; i < 6; i++) {
        if (holidays[i] == day) {
            return 0;
        }
    }
    uint64_t weekday = (day - 1) % 7; /* day 1 is a Sunday */
    return weekday != 0 && weekday != 6;
}

static int is_peak(int working, uint64_t hour) {
    uint64_t clock = hour % 24;
    return working && clock >= 6 && clock <= 21;
}

static uint8_t expected_class(uint64_t hour) {
    if (hour > 8759) {
        return REFUSED;
    }
    unsigned month = 0;
    while (month_ends[month] <= hour) {
        month++;
    }
    return (uint8_t)(2 * month + (is_peak(is_working(hour / 24 + 1), hour) ? 1 : 0));
}

static unsigned days_of_month(unsigned year, unsigned month) {
    static const unsigned days[12] = {31, 28, 31, 30, 31, 30, 31, 31, 30, 31, 30, 31};
    int leap = (year % 4 == 0 && year % 100 != 0) || year % 400 == 0;
    return month == 2 && leap ? 29 : days[month - 1];
}

static struct day next_day(struct day day) {
    day.weekday = (day.weekday + 1) % 7;
    day.date++;
    if (day.date > days_of_month(day.year, day.month)) {
        day.date = 1;
        day.month++;
    }
    if (day.month > 12) {
        day.month = 1;
        day.year++;
    }
    return day;
}

/* A holiday of this date is kept: on its day, or on the Monday after its Sunday. */
static int is_kept(struct day day, unsigned month, unsigned date) {
    int its_day = day.date == date && day.weekday != SUNDAY;
    return day.month == month && (its_day || (day.date == date + 1 && day.weekday == MONDAY));
}

static int is_holiday(struct day day) {
    return is_kept(day, 1, 1) || is_kept(day, 7, 4) || is_kept(day, 12, 25) ||
           (day.month == 5 && day.weekday == MONDAY && day.date >= 25) ||
           (day.month == 9 && day.weekday == MONDAY && day.date <= 7) ||
           (day.month == 11 && day.weekday == THURSDAY && day.date >= 22 && day.date <= 28);
}

static int64_t expected_cents(int64_t tenths) {
    uint64_t size = tenths < 0 ? (uint64_t)0 - (uint64_t)tenths : (uint64_t)tenths;
    int64_t cents = (int64_t)(size / 10 + (size % 10 >= 5 ? 1 : 0));
    return tenths < 0 ? -cents : cents;
}

static void check_class(uint64_t year, uint64_t hour, uint8_t expected) {
    checks++;
    if (pupcopper_class(year, hour) != expected) {
        failures++;
        printf("class of hour %" PRIu64 " of %" PRIu64 ": %u, expected %u\n", hour, year, pupcopper_class(year, hour), expected);
    }
}

static void check_cents(int64_t tenths) {
    checks++;
    if (pupcopper_cents(tenths) != expected_cents(tenths)) {
        failures++;
        printf("cents of %" PRId64 " tenths: %" PRId64 ", expected %" PRId64 "\n", tenths,
               pupcopper_cents(tenths), expected_cents(tenths));
    }
}

/* The 24 hours of a day of the walk, of which `before` days of the year stand before it. */
static void check_day(uint64_t year, uint64_t before, struct day day) {
    unsigned month = (day.month + 6) % 12;
    int working = day.weekday != SUNDAY && day.weekday != SATURDAY && !is_holiday(day);
    for (uint64_t hour = 24 * before; hour < 24 * (before + 1); hour++) {
        check_class(year, hour, (uint8_t)(2 * month + (is_peak(working, hour) ? 1 : 0)));
    }
}

/* All years, and 255 for hours after each. */
static void check_years(void) {
    struct day day = {.year = PUPCOPPER_FIRST_YEAR, .month = 6, .date = 1, .weekday = SUNDAY};
    for (uint64_t year = PUPCOPPER_FIRST_YEAR; year <= PUPCOPPER_LAST_YEAR; year++) {
        uint64_t before = 0;
        while (before == 0 || day.month != 6 || day.date != 1) {
            check_day(year, before, day);
            before++;
            day = next_day(day);
        }
        for (uint64_t hour = 24 * before; hour <= 24 * PUPCOPPER_MOST_DAYS + 24; hour++) {
            check_class(year, hour, REFUSED);
        }
    }
}

static void check_outside(uint64_t year) {
    for (uint64_t hour = 0; hour <= 24 * PUPCOPPER_MOST_DAYS; hour++) {
        check_class(year, hour, REFUSED);
    }
    check_class(year, UINT64_MAX, REFUSED);
}

static uint64_t draw(uint64_t *state) {
    *state ^= *state << 13;
    *state ^= *state >> 7;
    *state ^= *state << 17;
    return *state;
}

int main(void) {
    for (uint64_t hour = 0; hour <= 8760; hour++) {
        check_class(PUPCOPPER_FIRST_YEAR, hour, expected_class(hour));
    }
    const uint64_t far[] = {8761, 8784, 65536, 1ULL << 32, 1ULL << 63, UINT64_MAX - 1, UINT64_MAX};
    for (unsigned i = 0; i < sizeof far / sizeof far[0]; i++) {
        check_class(PUPCOPPER_FIRST_YEAR, far[i], expected_class(far[i]));
    }
    check_years();
    const uint64_t outside[] = {0, 1, PUPCOPPER_FIRST_YEAR - 1, PUPCOPPER_LAST_YEAR + 1, PUPCOPPER_FIRST_YEAR + (1ULL << 32), UINT64_MAX};
    for (unsigned i = 0; i < sizeof outside / sizeof outside[0]; i++) {
        check_outside(outside[i]);
    }
    for (int64_t tenths = -1000; tenths <= 1000; tenths++) {
        check_cents(tenths);
    }
    for (int64_t step = 0; step < 100; step++) {
        check_cents(INT64_MIN + step);
        check_cents(INT64_MAX - step);
    }
    uint64_t state = 20250601;
    for (int i = 0; i < 1000000; i++) {
        check_cents((int64_t)draw(&state));
        check_cents((int64_t)(draw(&state) >> (draw(&state) % 64)));
    }
    printf("billing host: %ld checks, %ld failures\n", checks, failures);
    return failures == 0 ? 0 : 1;
}
