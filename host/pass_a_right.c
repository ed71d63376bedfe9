/* A host whose releaser passes a right from one owner to another. It settles hour 0 of 2025 for owners 7 and 9, passes one of owner 7's
   rights to owner 9 and settles hour 1, and prints both owners' lines in each hour and what is open for them at the end. Then it prints
   two refused writes. Or R and its number, if a call is refused that should not be.

   Owner 7 has rights of 10.0 and 5.0 MW, owner 9 has one of 2.5 MW; 17,500 cents are wanted in an hour, and 14,000 of them collected:
   everyone is paid four fifths. In hour 0 owner 7 wants 15,000 and owner 9 2,500, and they stay short of 3,000 and 500. In hour 1 the
   right of 5.0 MW is owner 9's: they want 10,000 and 7,500 and stay short of 2,000 and 1,500 more. */
#include "pupcopper.h"

#include <inttypes.h>
#include <stdio.h>
#include <string.h>

enum { YEAR = 2025, RECORDS = 3, RECORD_BYTES = 16, RIGHTS_BYTES = RECORDS * RECORD_BYTES, PRICES = 2 };

/* The book, as the host keeps it from call to call. */
struct book {
    uint64_t counts[PUPCOPPER_COUNTS];
    uint64_t shortfalls[PUPCOPPER_SHORTFALLS];
    int64_t balances[PUPCOPPER_BALANCES];
};

/* The bytes of ftr.bin: obligations from node 0 to node 1 for all hours, days 1 to 365 (109 + 1 * 256). A host that reads them from the
   file also saves them after a write, as README.md tells: a write changes these bytes, and no file. */
static uint8_t rights[RIGHTS_BYTES] = {
    7, 0, 0, 0, 1, 0, 0, 2, 100, 0, 0, 0, 1, 0, 109, 1,
    7, 0, 0, 0, 1, 0, 0, 2, 50,  0, 0, 0, 1, 0, 109, 1,
    9, 0, 0, 0, 1, 0, 0, 2, 25,  0, 0, 0, 1, 0, 109, 1,
};
static const int32_t prices[PRICES] = {500, 1500};

/* Settles the next hour and prints the lines of owners 7 and 9. Gives the refusal, or 0. */
static uint8_t settle_hour(struct book *book) {
    int64_t lines[PUPCOPPER_OWNERS], report[PUPCOPPER_SETTLED];
    uint8_t refusal = pupcopper_hour(book->counts, PUPCOPPER_COUNTS, book->shortfalls, PUPCOPPER_SHORTFALLS, book->balances,
                                     PUPCOPPER_BALANCES, rights, RIGHTS_BYTES, prices, PRICES, 14000, lines, PUPCOPPER_OWNERS, report,
                                     PUPCOPPER_SETTLED);
    if (refusal == 0) {
        printf("hour %" PRIu64 ": owner 7 %" PRId64 ", owner 9 %" PRId64 "\n", book->counts[0] - 1, lines[7], lines[9]);
    }
    return refusal;
}

/* Reads the right of a record number, changes the owner and writes it back. Gives the refusal, or 0. */
static uint8_t pass_on(uint64_t record, uint64_t owner) {
    uint64_t right[PUPCOPPER_RIGHT];
    uint8_t refusal = pupcopper_read(YEAR, rights, RIGHTS_BYTES, record, right, PUPCOPPER_RIGHT);
    if (refusal != 0) {
        return refusal;
    }
    printf("record %" PRIu64 ": from owner %" PRIu64 " to owner %" PRIu64 "\n", record, right[0], owner);
    right[0] = owner;
    return pupcopper_write(YEAR, rights, RIGHTS_BYTES, record, right, PUPCOPPER_RIGHT);
}

/* What stays unpaid stays with the owner who was short of it. */
static void print_open(const struct book *book, int owner) {
    printf("owner %d: open %" PRIu64 "\n", owner, book->shortfalls[2 * owner] + book->shortfalls[2 * owner + 1]);
}

/* Writes a right of this owner at a record number, where that is refused. Gives 1 if the file has changed, or 0. */
static int print_refused_write(uint64_t record, uint64_t owner) {
    const uint64_t right[PUPCOPPER_RIGHT] = {owner, 0, 1, 0, 2, 50, 1, 365};
    uint8_t before[RIGHTS_BYTES];
    memcpy(before, rights, RIGHTS_BYTES);
    uint8_t refusal = pupcopper_write(YEAR, rights, RIGHTS_BYTES, record, right, PUPCOPPER_RIGHT);
    int changed = memcmp(before, rights, RIGHTS_BYTES) != 0;
    const char *file = changed ? "has changed" : "is as it was";
    printf("owner %" PRIu64 " at record %" PRIu64 ": R %d, the file %s\n", owner, record, refusal, file);
    return changed;
}

int main(void) {
    struct book book;
    uint8_t refusal = pupcopper_open(YEAR, book.counts, PUPCOPPER_COUNTS, book.shortfalls, PUPCOPPER_SHORTFALLS, book.balances,
                                     PUPCOPPER_BALANCES);
    if (refusal == 0) {
        refusal = settle_hour(&book);
    }
    if (refusal == 0) {
        refusal = pass_on(1, 9);
    }
    if (refusal == 0) {
        refusal = settle_hour(&book);
    }
    if (refusal != 0) {
        printf("R %d\n", refusal);
        return 1;
    }
    print_open(&book, 7);
    print_open(&book, 9);
    int changed = print_refused_write(1, PUPCOPPER_OWNERS);
    changed += print_refused_write(RECORDS, 7);
    return changed > 0;
}
