/* A host whose releaser looks up one owner at a time. It settles June 2025 for two owners and then an hour of July, and prints of each
   owner the month cell, the year cell beside it and both together, the open shortfall: after two short hours, after the month end and
   after the short hour of July. Or R and its number, if a call is refused.

   Owner 7 wants 10,000 cents in a short hour and owner 8 2,500. Hour 0 collects 10,000 and leaves them short of 2,000 and 500; hour 1
   collects 6,250, the half, and leaves 5,000 and 1,250. In the rest of June nothing is wanted, and 3,500 are collected. The month end
   pays these over the 7,000 and 1,750 that are short, 2,800 and 700: the month cells become 0, and the year cells get the 4,200 and
   1,050 that stay unpaid. The hour of July, as hour 0, leaves 2,000 and 500 in the month cells. */
#include "pupcopper.h"

#include <inttypes.h>
#include <stdio.h>

enum { YEAR = 2025, RIGHTS_BYTES = 32, PRICES = 2, JUNE_HOURS = 720 };

/* The book, as the host keeps it from call to call. */
struct book {
    uint64_t counts[PUPCOPPER_COUNTS];
    uint64_t shortfalls[PUPCOPPER_SHORTFALLS];
    int64_t balances[PUPCOPPER_BALANCES];
};

/* Obligations from node 0 to node 1 for all hours, days 1 to 365 (109 + 1 * 256): owner 7 holds 10.0 MW, owner 8 2.5 MW. */
static const uint8_t rights[RIGHTS_BYTES] = {
    7, 0, 0, 0, 1, 0, 0, 2, 100, 0, 0, 0, 1, 0, 109, 1,
    8, 0, 0, 0, 1, 0, 0, 2, 25,  0, 0, 0, 1, 0, 109, 1,
};
static const int32_t apart[PRICES] = {500, 1500};
static const int32_t level[PRICES] = {500, 500};

static uint8_t settle_hour(struct book *book, const int32_t *prices, int64_t collected) {
    int64_t lines[PUPCOPPER_OWNERS], report[PUPCOPPER_SETTLED];
    return pupcopper_hour(book->counts, PUPCOPPER_COUNTS, book->shortfalls, PUPCOPPER_SHORTFALLS, book->balances, PUPCOPPER_BALANCES,
                          rights, RIGHTS_BYTES, prices, PRICES, collected, lines, PUPCOPPER_OWNERS, report, PUPCOPPER_SETTLED);
}

/* Opens the year and settles its first two hours. Gives the first refusal, or 0. */
static uint8_t begin_june(struct book *book) {
    uint8_t refusal = pupcopper_open(YEAR, book->counts, PUPCOPPER_COUNTS, book->shortfalls, PUPCOPPER_SHORTFALLS, book->balances,
                                     PUPCOPPER_BALANCES);
    if (refusal == 0) {
        refusal = settle_hour(book, apart, 10000);
    }
    return refusal == 0 ? settle_hour(book, apart, 6250) : refusal;
}

/* The rest of June, in which hour 2 alone collects, and the month end. Gives the first refusal, or 0. */
static uint8_t close_june(struct book *book) {
    int64_t lines[PUPCOPPER_OWNERS], report[PUPCOPPER_SETTLED];
    uint8_t refusal = settle_hour(book, level, 3500);
    while (refusal == 0 && book->counts[0] < JUNE_HOURS) {
        refusal = settle_hour(book, level, 0);
    }
    if (refusal != 0) {
        return refusal;
    }
    return pupcopper_month_end(book->counts, PUPCOPPER_COUNTS, book->shortfalls, PUPCOPPER_SHORTFALLS, book->balances,
                               PUPCOPPER_BALANCES, lines, PUPCOPPER_OWNERS, report, PUPCOPPER_SETTLED);
}

/* All that is open for an owner stands in two neighbouring words. */
static void print_owner(const struct book *book, int owner) {
    uint64_t month = book->shortfalls[2 * owner], year = book->shortfalls[2 * owner + 1];
    printf("  owner %d: month %" PRIu64 ", year %" PRIu64 ", open %" PRIu64 "\n", owner, month, year, month + year);
}

static void print_owners(const char *when, const struct book *book) {
    printf("%s\n", when);
    print_owner(book, 7);
    print_owner(book, 8);
}

int main(void) {
    struct book book;
    uint8_t refusal = begin_june(&book);
    if (refusal == 0) {
        print_owners("after two short hours", &book);
        refusal = close_june(&book);
    }
    if (refusal == 0) {
        print_owners("after the month end", &book);
        refusal = settle_hour(&book, apart, 10000);
    }
    if (refusal != 0) {
        printf("R %d\n", refusal);
        return 1;
    }
    print_owners("after a short hour of July", &book);
    return 0;
}
