/* A host that asks for the days of 2027, a year with a 29 February: it prints how many they are, how many of them are working days, and
   what the table has of 29 February 2028. Or R and its number, if the call is refused. */
#include "pupcopper.h"

#include <inttypes.h>
#include <stdio.h>

/* 29 February 2028 is day 274 of the year: 245 days from June to January stand before its month, and 28 in it. */
enum { YEAR = 2027, BEFORE_THE_29TH = 245 + 28 };

int main(void) {
    uint8_t table[PUPCOPPER_MOST_DAYS];
    uint64_t report[PUPCOPPER_TABLE];
    uint8_t refusal = pupcopper_days(YEAR, table, sizeof table, report, PUPCOPPER_TABLE);
    if (refusal != 0) {
        printf("R %d\n", refusal);
        return 1;
    }
    int working_days = 0;
    for (uint64_t day = 0; day < report[0]; day++) {
        working_days += table[day] % 2;
    }
    printf("days: %" PRIu64 "\n", report[0]);
    printf("working days: %d\n", working_days);
    int entry = table[BEFORE_THE_29TH];
    printf("29 February 2028: month %d, %s\n", entry / 2, entry % 2 == 1 ? "a working day" : "no working day");
    return 0;
}
