/* A host that settles the printed case of the scope paper: two rights, two hours. It prints each line that is not zero (H, M or Y, the
   hour or the month, the owner, the cents) and last F and both balances; or R and its number, if a call is refused. */
#include "pupcopper.h"

#include <inttypes.h>
#include <stdio.h>

enum { YEAR = 2025, RIGHTS = 2, RIGHT_BYTES = 16, PRICES = 1024, HOURS = 2, OUT_OF_TURN = 3 };

struct right {
    uint16_t owner, source, sink;
    uint8_t kind, class;  /* 0 obligation, 1 option; 0 peak, 1 off-peak, 2 all hours */
    uint32_t size;        /* tenths of a megawatt */
    uint16_t first, last; /* days, 1 to 365 in the year settled */
};

/* What an hour is lent: its rights as the bytes of their records, its prices, and the amount collected. */
struct hour {
    uint8_t rights[RIGHTS * RIGHT_BYTES];
    int32_t prices[PRICES];
    int64_t collected;
};

/* The book, as the host keeps it from call to call. */
struct book {
    uint64_t counts[PUPCOPPER_COUNTS];
    uint64_t shortfalls[PUPCOPPER_SHORTFALLS];
    int64_t balances[PUPCOPPER_BALANCES];
};

/* Writes a number, low byte first. */
static void put(uint8_t *to, uint32_t number, int bytes) {
    for (int i = 0; i < bytes; i++) {
        to[i] = (uint8_t)(number >> (8 * i));
    }
}

static void put_right(uint8_t *record, struct right right) {
    put(record, right.owner, 2);
    put(record + 2, right.source, 2);
    put(record + 4, right.sink, 2);
    put(record + 6, right.kind, 1);
    put(record + 7, right.class, 1);
    put(record + 8, right.size, 4);
    put(record + 12, right.first, 2);
    put(record + 14, right.last, 2);
}

static void print_lines(char event, uint64_t number, const int64_t *lines) {
    for (int owner = 0; owner < PUPCOPPER_OWNERS; owner++) {
        if (lines[owner] != 0) {
            printf("%c %" PRIu64 " %d %" PRId64 "\n", event, number, owner, lines[owner]);
        }
    }
}

static uint8_t open_book(struct book *book) {
    return pupcopper_open(YEAR, book->counts, PUPCOPPER_COUNTS, book->shortfalls, PUPCOPPER_SHORTFALLS, book->balances,
                          PUPCOPPER_BALANCES);
}

static uint8_t settle_hour(struct book *book, const struct hour *hour) {
    int64_t lines[PUPCOPPER_OWNERS] = {0};
    int64_t report[PUPCOPPER_SETTLED] = {0};
    uint64_t number = book->counts[0];
    uint8_t refusal = pupcopper_hour(book->counts, PUPCOPPER_COUNTS, book->shortfalls, PUPCOPPER_SHORTFALLS, book->balances,
                                     PUPCOPPER_BALANCES, hour->rights, sizeof hour->rights, hour->prices, PRICES, hour->collected,
                                     lines, PUPCOPPER_OWNERS, report, PUPCOPPER_SETTLED);
    if (refusal == 0) {
        print_lines('H', number, lines);
    }
    return refusal;
}

/* Closes the month if that is due. Out of turn means that it is not: then nothing is changed, and the host goes on. */
static uint8_t close_month(struct book *book) {
    int64_t lines[PUPCOPPER_OWNERS] = {0};
    int64_t report[PUPCOPPER_SETTLED] = {0};
    uint64_t number = book->counts[1];
    uint8_t refusal = pupcopper_month_end(book->counts, PUPCOPPER_COUNTS, book->shortfalls, PUPCOPPER_SHORTFALLS, book->balances,
                                          PUPCOPPER_BALANCES, lines, PUPCOPPER_OWNERS, report, PUPCOPPER_SETTLED);
    if (refusal == 0) {
        print_lines('M', number, lines);
    }
    return refusal == OUT_OF_TURN ? 0 : refusal;
}

/* Ends the year if that is due. */
static uint8_t end_year(struct book *book) {
    int64_t lines[PUPCOPPER_OWNERS] = {0};
    int64_t report[PUPCOPPER_SETTLED] = {0};
    uint8_t refusal = pupcopper_year_end(book->counts, PUPCOPPER_COUNTS, book->shortfalls, PUPCOPPER_SHORTFALLS, book->balances,
                                         PUPCOPPER_BALANCES, lines, PUPCOPPER_OWNERS, report, PUPCOPPER_SETTLED);
    if (refusal == 0) {
        print_lines('Y', 0, lines);
    }
    return refusal == OUT_OF_TURN ? 0 : refusal;
}

/* An hour and what falls due with it. Gives the first refusal, or 0. */
static uint8_t settle(struct book *book, const struct hour *hour) {
    uint8_t refusal = settle_hour(book, hour);
    if (refusal == 0) {
        refusal = close_month(book);
    }
    if (refusal == 0) {
        refusal = end_year(book);
    }
    return refusal;
}

/* The case's hours, on a fresh book. Gives the first refusal, or 0. */
static uint8_t settle_case(struct book *book) {
    const struct right rights[RIGHTS] = {
        {.owner = 0, .source = 0, .sink = 1, .kind = 0, .class = 2, .size = 100, .first = 1, .last = 365},
        {.owner = 1, .source = 1, .sink = 0, .kind = 0, .class = 2, .size = 25, .first = 1, .last = 365},
    };
    const int64_t collected[HOURS] = {6000, 9000};
    struct hour hour = {.prices = {500, 1500}}; /* all other prices are 0 */
    for (int i = 0; i < RIGHTS; i++) {
        put_right(hour.rights + i * RIGHT_BYTES, rights[i]);
    }
    uint8_t refusal = open_book(book);
    for (int i = 0; i < HOURS && refusal == 0; i++) {
        hour.collected = collected[i];
        refusal = settle(book, &hour);
    }
    return refusal;
}

int main(void) {
    struct book book = {0};
    uint8_t refusal = settle_case(&book);
    if (refusal == 0) {
        printf("F %" PRId64 " %" PRId64 "\n", book.balances[0], book.balances[1]);
    } else {
        printf("R %u\n", (unsigned)refusal);
    }
    int unprinted = fflush(stdout) != 0 || ferror(stdout);
    return refusal != 0 || unprinted;
}
