/* Measures the door: settles the year of ftr.bin and hours.bin in the current folder through the calls of host/pupcopper.h, and prints
   how many hours a second that is. Both files are read before. One argument: how many times the year is settled for the time, after a
   first run that prints and is not timed; the best time counts, processor time of the calls alone. Standard output has the lines of the year, as `clearing` prints them, so that they can be compared;
   the hours a second and the seconds of a year go to standard error. A refused call, or a book that ends otherwise in a later run, is a
   failure. */
#include "pupcopper.h"

#include <inttypes.h>
#include <stdio.h>
#include <stdlib.h>
#include <string.h>
#include <time.h>

enum { YEAR = 2025, HOURS = 8760, MONTHS = 12, PRICES = 1024, MOST_FILE = 65536 };
static const size_t month_ends[MONTHS] = {720, 1464, 2208, 2928, 3672, 4392, 5136, 5880, 6552, 7296, 8016, 8760};

/* The book, as the host keeps it from call to call. */
struct book {
    uint64_t counts[PUPCOPPER_COUNTS];
    uint64_t shortfalls[PUPCOPPER_SHORTFALLS];
    int64_t balances[PUPCOPPER_BALANCES];
};

/* An hour as its bytes stand in the file: low byte first, as every x86-64 has them. */
struct hour {
    int64_t collected;
    int32_t prices[PRICES];
};
_Static_assert(sizeof(struct hour) == PUPCOPPER_BLOCK, "no gaps");

static uint8_t rights[MOST_FILE];
static size_t rights_bytes;
static struct hour hours[HOURS];

static void fail(const char *what) {
    fprintf(stderr, "door: %s\n", what);
    exit(1);
}

static size_t read_file(const char *name, void *to, size_t most) {
    FILE *file = fopen(name, "rb");
    if (file == NULL) {
        fail(name);
    }
    size_t bytes = fread(to, 1, most, file);
    if (ferror(file) || getc(file) != EOF) {
        fail(name);
    }
    fclose(file);
    return bytes;
}

static void print_lines(char event, uint64_t number, const int64_t *lines) {
    for (int owner = 0; owner < PUPCOPPER_OWNERS; owner++) {
        if (lines[owner] != 0) {
            printf("%c %" PRIu64 " %d %" PRId64 "\n", event, number, owner, lines[owner]);
        }
    }
}

static uint8_t settle_hour(struct book *book, const struct hour *hour, int64_t *lines) {
    int64_t report[PUPCOPPER_SETTLED];
    return pupcopper_hour(book->counts, PUPCOPPER_COUNTS, book->shortfalls, PUPCOPPER_SHORTFALLS, book->balances,
                          PUPCOPPER_BALANCES, rights, rights_bytes, hour->prices, PRICES, hour->collected, lines,
                          PUPCOPPER_OWNERS, report, PUPCOPPER_SETTLED);
}

static uint8_t close_month(struct book *book, int64_t *lines) {
    int64_t report[PUPCOPPER_SETTLED];
    return pupcopper_month_end(book->counts, PUPCOPPER_COUNTS, book->shortfalls, PUPCOPPER_SHORTFALLS, book->balances,
                               PUPCOPPER_BALANCES, lines, PUPCOPPER_OWNERS, report, PUPCOPPER_SETTLED);
}

static uint8_t end_year(struct book *book, int64_t *lines) {
    int64_t report[PUPCOPPER_SETTLED];
    return pupcopper_year_end(book->counts, PUPCOPPER_COUNTS, book->shortfalls, PUPCOPPER_SHORTFALLS, book->balances,
                              PUPCOPPER_BALANCES, lines, PUPCOPPER_OWNERS, report, PUPCOPPER_SETTLED);
}

/* An event's answer: every call must be accepted. Only that first run prints. */
static void take_answer(uint8_t refusal, int prints, char event, uint64_t number, const int64_t *lines) {
    if (refusal != 0) {
        fail("a call is refused");
    }
    if (prints) {
        print_lines(event, number, lines);
    }
}

/* The whole year on a fresh book: each hour, each month end after its last hour, and the year end. */
static void settle_year(struct book *book, int prints) {
    int64_t lines[PUPCOPPER_OWNERS];
    uint64_t month = 0;
    uint8_t refusal = pupcopper_open(YEAR, book->counts, PUPCOPPER_COUNTS, book->shortfalls, PUPCOPPER_SHORTFALLS, book->balances,
                                     PUPCOPPER_BALANCES);
    if (refusal != 0) {
        fail("the book is not opened");
    }
    for (uint64_t hour = 0; hour < HOURS; hour++) {
        take_answer(settle_hour(book, &hours[hour], lines), prints, 'H', hour, lines);
        if (hour + 1 == month_ends[month]) {
            take_answer(close_month(book, lines), prints, 'M', month, lines);
            month++;
        }
    }
    take_answer(end_year(book, lines), prints, 'Y', 0, lines);
}

static double seconds(void) {
    struct timespec now;
    clock_gettime(CLOCK_PROCESS_CPUTIME_ID, &now);
    return (double)now.tv_sec + (double)now.tv_nsec / 1e9;
}

int main(int argc, char **argv) {
    struct book first, book;
    int runs = argc == 2 ? atoi(argv[1]) : 0;
    if (runs < 1) {
        fail("one argument: the number of runs");
    }
    rights_bytes = read_file("ftr.bin", rights, sizeof rights);
    if (read_file("hours.bin", hours, sizeof hours) != sizeof hours) {
        fail("hours.bin has no whole year");
    }
    settle_year(&first, 1);
    printf("F %" PRId64 " %" PRId64 "\n", first.balances[0], first.balances[1]);
    double best = 0;
    for (int run = 0; run < runs; run++) {
        double start = seconds();
        settle_year(&book, 0);
        double taken = seconds() - start;
        if (memcmp(&book, &first, sizeof book) != 0) {
            fail("two runs end with two books");
        }
        best = run == 0 || taken < best ? taken : best;
    }
    fprintf(stderr, "%.0f %.4f\n", HOURS / best, best);
    return fflush(stdout) != 0 || ferror(stdout);
}
