/* A host that settles two hours of 2025, of which the first collects less than nothing. Owner 7 wants 10,000 cents in each, and owner 8
   is charged 2,500. It prints of each hour both lines, F and D, and then owner 7's month shortfall and the month balance; or R and its
   number, if a call is refused. */
#include "pupcopper.h"

#include <inttypes.h>
#include <stdio.h>

enum { YEAR = 2025, RIGHTS_BYTES = 32, PRICES = 2, HOURS = 2 };

/* Obligations for all hours, days 1 to 365 (109 + 1 * 256): owner 7 holds 10.0 MW from node 0 to node 1, owner 8 2.5 MW back. */
static const uint8_t rights[RIGHTS_BYTES] = {
    7, 0, 0, 0, 1, 0, 0, 2, 100, 0, 0, 0, 1, 0, 109, 1,
    8, 0, 1, 0, 0, 0, 0, 2, 25,  0, 0, 0, 1, 0, 109, 1,
};
static const int32_t prices[PRICES] = {500, 1500};

/* F is what is collected plus the 2,500: -500, and then 10,700. */
static const int64_t collected[HOURS] = {-3000, 8200};

int main(void) {
    uint64_t counts[PUPCOPPER_COUNTS], shortfalls[PUPCOPPER_SHORTFALLS];
    int64_t balances[PUPCOPPER_BALANCES], lines[PUPCOPPER_OWNERS], report[PUPCOPPER_SETTLED];
    uint8_t refusal = pupcopper_open(YEAR, counts, PUPCOPPER_COUNTS, shortfalls, PUPCOPPER_SHORTFALLS, balances, PUPCOPPER_BALANCES);
    for (int hour = 0; hour < HOURS && refusal == 0; hour++) {
        refusal = pupcopper_hour(counts, PUPCOPPER_COUNTS, shortfalls, PUPCOPPER_SHORTFALLS, balances, PUPCOPPER_BALANCES, rights,
                                 RIGHTS_BYTES, prices, PRICES, collected[hour], lines, PUPCOPPER_OWNERS, report, PUPCOPPER_SETTLED);
        if (refusal == 0) {
            printf("hour %d: owner 7 %" PRId64 ", owner 8 %" PRId64 "; F %" PRId64 ", D %" PRId64, hour, lines[7], lines[8], report[1],
                   report[2]);
            printf("; owner 7 short of %" PRIu64 ", month balance %" PRId64 "\n", shortfalls[14], balances[0]);
        }
    }
    if (refusal != 0) {
        printf("R %d\n", refusal);
        return 1;
    }
    return 0;
}
