/* A host that shows members their rights one by one: it prints each record's row in hour 0 of 2025, and what each owner's rows add up
   to, which is its target. Or R and its number, if a call is refused. */
#include "pupcopper.h"

#include <inttypes.h>
#include <stdio.h>

enum { YEAR = 2025, RECORDS = 4, RECORD_BYTES = 16, PRICES = 2 };

/* From node 0 to node 1, days 1 to 365 (109 + 1 * 256). Owner 7 has two obligations of 0.1 MW for all hours and one for peak hours; hour 0
   is off-peak. Owner 9 has one of 0.3 MW. */
static const uint8_t rights[RECORDS * RECORD_BYTES] = {
    7, 0, 0, 0, 1, 0, 0, 2, 1, 0, 0, 0, 1, 0, 109, 1,
    7, 0, 0, 0, 1, 0, 0, 2, 1, 0, 0, 0, 1, 0, 109, 1,
    7, 0, 0, 0, 1, 0, 0, 0, 1, 0, 0, 0, 1, 0, 109, 1,
    9, 0, 0, 0, 1, 0, 0, 2, 3, 0, 0, 0, 1, 0, 109, 1,
};

/* 0.1 MW come to 5 tenths of a cent. */
static const int32_t prices[PRICES] = {0, 5};

int main(void) {
    int64_t rows[RECORDS], targets[PUPCOPPER_OWNERS], sums[PUPCOPPER_OWNERS] = {0};
    uint64_t report[PUPCOPPER_OUTCOME];
    uint8_t refusal = pupcopper_rows(YEAR, rights, sizeof rights, prices, PRICES, 0, rows, RECORDS, report, PUPCOPPER_OUTCOME);
    if (refusal == 0) {
        refusal = pupcopper_targets(YEAR, rights, sizeof rights, prices, PRICES, 0, targets, PUPCOPPER_OWNERS, report,
                                    PUPCOPPER_OUTCOME);
    }
    if (refusal != 0) {
        printf("R %d\n", refusal);
        return 1;
    }
    for (int record = 0; record < RECORDS; record++) {
        int owner = rights[record * RECORD_BYTES];
        printf("record %d, owner %d: %" PRId64 "\n", record, owner, rows[record]);
        sums[owner] += rows[record];
    }
    for (int owner = 0; owner < PUPCOPPER_OWNERS; owner++) {
        if (sums[owner] != 0) {
            printf("owner %d: %" PRId64 "\n", owner, sums[owner]);
        }
        if (sums[owner] != targets[owner]) {
            printf("owner %d has another target: %" PRId64 "\n", owner, targets[owner]);
            return 1;
        }
    }
    return 0;
}
