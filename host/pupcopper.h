/* What a host in C or Rust is given by crates/pupcopper/out/libpupcopper.a.

   Every number and every length is allowed: a call refuses what it cannot settle, by a number, and never stops the host. A call gives
   its refusal number, 0 if it is accepted (README.md has the table); pupcopper_class, pupcopper_cents and pupcopper_sentence give
   their value instead. A refused call writes nothing but its report; only an opening refused with 15 writes a book all zeros, and only
   where the slices have their words.

   A slice is lent as a pointer to its first element and its number of elements. The pointer is aligned and not null, also where there
   are none; what is written overlaps nothing else that is lent. Amounts are cents, a credit positive and a charge negative; prices are
   cents per megawatt hour.

   An operating year is named by the year in which its June starts, 2025 to 2099; it ends on 31 May of the next. It has 365 days and
   8,760 hours, or 366 days and 8,784 hours where the next year has a 29 February: days are 1 to 365 or 366, hour numbers 0 to 8,759 or
   8,783. A year outside 2025 to 2099 is refused with 15 before all else, in a call that is given a year and in an event or a step on a
   book of such a year.

   After that a report, a book, or the right of a write, of another number of words than named below is refused with 4 before all else;
   in an event or a step the 4 for counts of another number of words comes before 15, since they have no year to look at. A report that
   has its words is always written. In a refused call it is zeros, with two exceptions: the record number of 7 and 8 in an hour, a target
   call and a row call, which is that of the first record with that fault (7 names the first bad right, also where an unpriced node
   stands before it), and the next record number in a reader's step, which is always given. In an accepted one of these three calls the
   record number is 0. The calls of a run, at the end of this file, say themselves what they write. */
#ifndef PUPCOPPER_H
#define PUPCOPPER_H

#include <stddef.h>
#include <stdint.h>

#ifdef __cplusplus
extern "C" {
#endif

enum {
    PUPCOPPER_FIRST_YEAR = 2025, /* the first operating year */
    PUPCOPPER_LAST_YEAR = 2099,  /* the last one */
    PUPCOPPER_MOST_DAYS = 366,   /* days of the longest year, and bytes of a day table that fits every year */
    PUPCOPPER_OWNERS = 64,      /* lines of an event or a target call */
    PUPCOPPER_COUNTS = 4,       /* words of a book: hours settled, months closed, 1 if it is ended and else 0, the year */
    PUPCOPPER_SHORTFALLS = 128, /* words of a book: owner i's month shortfall at 2 * i, its year shortfall at 2 * i + 1 */
    PUPCOPPER_BALANCES = 2,     /* words of a book: the month balance, the year balance; either sign */
    PUPCOPPER_SETTLED = 3,      /* words of an event's report: the record number of 7 and 8, F (the fund, of either sign), D (the sum of
                                   the wants) */
    PUPCOPPER_OUTCOME = 1,      /* words of a target call's and a row call's report: the record number of 7 and 8 */
    PUPCOPPER_ALLOCATION = 1,   /* words of a split's report: what is left of the fund */
    PUPCOPPER_HOUR = 3,         /* words of a calendar call's report: day, month, 1 in a peak hour and else 0 */
    PUPCOPPER_TABLE = 1,        /* words of a day table's report: the number of days, 365 or 366 */
    PUPCOPPER_RIGHT = 8,        /* words of a read's report, and of the right that a write is lent: owner, source, sink, kind, class,
                                   size, first day, last day */
    PUPCOPPER_STEP = 10,        /* words of a reader's report: those of a read's, the next record number, 1 if there was no record left
                                   to give and else 0 */
    PUPCOPPER_STEPPED = 5,      /* words of a step's report: 1 if the text had too little room and else 0, the end of the text, the
                                   letter and the number of the refused event (0 for none), the record number of 7 and 8 */
    PUPCOPPER_CLOSED = 2,       /* words of a closing's report: 1 if the text had too little room and else 0, the end of the text */
    PUPCOPPER_BLOCK = 4104,     /* bytes of a block of the program's input */
    PUPCOPPER_STEP_ROOM = 12480,   /* bytes behind the end of the text that a step asks for: three events of 64 lines */
    PUPCOPPER_CLOSING_ROOM = 65,   /* bytes behind the end of the text that a closing asks for: one line */
    PUPCOPPER_SENTENCE_ROOM = 112  /* bytes behind a place of the text that a sentence asks for */
};

/* Twice the month (0 June to 11 May) of an hour of the year, plus 1 in a peak hour; 255 for an hour number above the year's last and for
   a year outside 2025 to 2099. */
uint8_t pupcopper_class(uint64_t year, uint64_t hour);

/* Tenths of a cent to whole cents, halves away from zero. */
int64_t pupcopper_cents(int64_t tenths);

/* The day (1 to 365 or 366) and the month (0 to 11) of an hour of the year, and whether it is peak; 3 for an hour number above the
   year's last. */
uint8_t pupcopper_calendar(uint64_t year, uint64_t hour, uint64_t *report, size_t report_words);

/* Writes the day table of the year: entry d, from 0, is that of the day with d days before it, twice the month, plus 1 on a working day.
   4 for a table that is shorter than the year's days. Of a longer one the entries past the year's days stay as they are, so that one of
   PUPCOPPER_MOST_DAYS bytes fits every year; the report says how many days the year has. */
uint8_t pupcopper_days(uint64_t year, uint8_t *table, size_t table_bytes, uint64_t *report, size_t report_words);

/* The right of a record number, from 0, for the year, whose last day is the last that a right may name; 4 if there is none, 7 if it is
   bad. */
uint8_t pupcopper_read(uint64_t year, const uint8_t *rights, size_t rights_bytes, uint64_t record, uint64_t *report,
                       size_t report_words);

/* Writes a right over the record of a record number, from 0, for the year: the record's 16 bytes are then the right's, low byte first,
   and every other byte of the file stays as it is. The right is lent as the words that a read gives, so that a host reads a right,
   changes the owner's word and writes the same words back. There is no report. The first of these that applies is the refusal, and then
   nothing is written:

   15  the year is outside 2025 to 2099;
   4   the right has another number of words;
   4   the file is of wrong length, or there is no such record: a write adds none;
   7   a word is outside the values of its field in the year, also one that the field cannot hold: 65,536 + 7 is not owner 7. */
uint8_t pupcopper_write(uint64_t year, uint8_t *rights, size_t rights_bytes, uint64_t record, const uint64_t *right,
                        size_t right_words);

/* A reader's step from a record number, at first 0: what stands there, and the record number to go on with, which is one more after a
   good record and after a bad one, 7. Where no record is left the call is accepted, the last word is 1, and the number stays, as it
   does after 4, a file of wrong length, and after 15, which is all that a year outside 2025 to 2099 gives. */
uint8_t pupcopper_next(uint64_t year, const uint8_t *rights, size_t rights_bytes, uint64_t next, uint64_t *report,
                       size_t report_words);

/* Writes all 64 targets of an hour of the year: an owner's is the sum of the cents of its live rights, each right's rounded by itself,
   halves away from zero. 3 for an hour number above the year's last. */
uint8_t pupcopper_targets(uint64_t year, const uint8_t *rights, size_t rights_bytes, const int32_t *prices, size_t prices_count,
                          uint64_t hour, int64_t *lines, size_t lines_count, uint64_t *report, size_t report_words);

/* Writes the rows of an hour of the year: line i is the cents of record i, 0 where that right is not live. There are rights_bytes / 16
   lines, at most 4,096; another number is 4. In all else it is refused as the target call is, 3 before 4. The rows of an owner add up to
   its target; an hour's line is what is paid of that. Neither call looks at a book or gives 9 or 10. */
uint8_t pupcopper_rows(uint64_t year, const uint8_t *rights, size_t rights_bytes, const int32_t *prices, size_t prices_count,
                       uint64_t hour, int64_t *lines, size_t lines_count, uint64_t *report, size_t report_words);

/* The proportional split of a fund over wants, within the limits of the caller's pool: at most `owners` wants, which come to at most
   `total` cents. `owners` is 1 to 64 and `total` 1 to 4,000,000,000; the hall's own limits are 64 and 4,000,000,000. The wants are any
   64-bit numbers: their true sum decides, also where it passes 64 bits. Writes as many payments. The first of these that applies is the
   refusal:

   4   there are not as many payments as wants, there are more than 64 wants, or a limit is outside its range;
   16  there are more wants than `owners`;
   11  the wants come to more than 4,000,000,000;
   17  they come to more than `total`, but not to more than 4,000,000,000.

   A municipal pool of at most 16 owners, with a total of at most 100,000,000 cents:

       #include "pupcopper.h"
       #include <inttypes.h>
       #include <stdio.h>

       int main(void) {
           uint64_t wants[17] = {50, 50, 50}, paid[17] = {0}, left[PUPCOPPER_ALLOCATION];
           int refusal = pupcopper_split(16, 100000000, 100, wants, 3, paid, 3, left, PUPCOPPER_ALLOCATION);
           printf("%d: %" PRIu64 " %" PRIu64 " %" PRIu64 ", left %" PRIu64, refusal, paid[0], paid[1], paid[2], left[0]);
           refusal = pupcopper_split(16, 100000000, 100, wants, 17, paid, 17, left, PUPCOPPER_ALLOCATION);
           printf("; 17 wants: %d", refusal);
           wants[0] = 100000001 - wants[1] - wants[2];
           refusal = pupcopper_split(16, 100000000, 100, wants, 3, paid, 3, left, PUPCOPPER_ALLOCATION);
           printf("; 100000001 cents wanted: %d\n", refusal);
           return 0;
       }

   It prints `0: 34 33 33, left 0; 17 wants: 16; 100000001 cents wanted: 17`. */
uint8_t pupcopper_split(size_t owners, uint64_t total, uint64_t fund, const uint64_t *wants, size_t wants_count, uint64_t *payments,
                        size_t payments_count, uint64_t *report, size_t report_words);

/* A book crosses as three slices, which the host keeps from call to call. It opens with its year and keeps it: month ends, the last day
   and the last hour are those of that year. In an event and in a step 4 comes first for counts of another number of words, which have no
   year to look at; then 15 for the year, their fourth word; then 4 for shortfalls or balances of another number of words; then 4 for a
   report of another number of words; then 1, a spoiled book, for a mark that is neither 0 nor 1; then what the call itself refuses,
   lowest first.

   The 128 shortfalls are the book's own cells, laid out by owner: an owner's two stand side by side, in the places named above, and
   their sum is its open shortfall. A call takes them and gives them back in these places, so that a host can look up an owner between
   any two calls.

   Any two balances are those of a book. An event, and the hour of a step, refuse it with 1 unless each balance, and the two together,
   lie between the hours settled times -4,000,000,000 and the hours settled times 4,004,000,000,000. */

/* Writes a fresh book of the year, all zeros but for the year, over any words. A year outside 2025 to 2099 is refused with 15, and the
   book is written all zeros, the year included. 15 comes before 4, a slice of another number of words; where one has another number,
   nothing is written, with 15 as with 4. */
uint8_t pupcopper_open(uint64_t year, uint64_t *counts, size_t counts_words, uint64_t *shortfalls, size_t shortfalls_words,
                       int64_t *balances, size_t balances_words);

/* The three events. On an ended book each is 2.

   F is at an hour the amount collected plus all charges, at a month end the month balance, at a year end the year balance. Where it is
   below 0 nobody is paid, every want goes where an unpaid one goes, and F itself where what is left of a fund goes: an hour's to the
   month balance, a month's to the year balance, while a year's stays as it is. D is the sum of the wants, also then. */

/* Settles the next hour and writes its 64 lines; 3 while a month end is due, and after the year's last; 6 for an amount collected below
   -4,000,000,000 or above 4,000,000,000,000. */
uint8_t pupcopper_hour(uint64_t *counts, size_t counts_words, uint64_t *shortfalls, size_t shortfalls_words, int64_t *balances,
                       size_t balances_words, const uint8_t *rights, size_t rights_bytes, const int32_t *prices,
                       size_t prices_count, int64_t collected, int64_t *lines, size_t lines_count, int64_t *report,
                       size_t report_words);

/* Closes the month whose last hour is settled, and writes its 64 lines; 3 if there is none. */
uint8_t pupcopper_month_end(uint64_t *counts, size_t counts_words, uint64_t *shortfalls, size_t shortfalls_words,
                            int64_t *balances, size_t balances_words, int64_t *lines, size_t lines_count, int64_t *report,
                            size_t report_words);

/* Ends the year and writes its 64 lines; 3 before all twelve months are closed. */
uint8_t pupcopper_year_end(uint64_t *counts, size_t counts_words, uint64_t *shortfalls, size_t shortfalls_words,
                           int64_t *balances, size_t balances_words, int64_t *lines, size_t lines_count, int64_t *report,
                           size_t report_words);

/* The calls of a run, as the program makes them: on a fresh book and a text whose end is 0 a step for each block of the input, and
   after the last one, or after one that is refused, the closing. A text is lent bytes and their end, any number; what a call writes
   is appended behind the end, and the other bytes stay as they are. Without the room named above a call does nothing, is accepted,
   and says so in its report; once the text is written out it can be made again with the end 0.

   A report or a book of another number of words is refused with 4 here too, in a step a book of a year outside 2025 to 2099 with 15, and
   a mark that is neither 0 nor 1 with 1, in the order told above and before the room is looked at. Then nothing is written but the
   report, if it has its words: the end that was given and else zeros. */

/* One block: the amount collected (64 bits signed), then 1,024 prices (32 bits signed), low byte first. Settles the next hour, and
   after it the month end and the year end that are due, and appends `H`, `M` and `Y` lines as the program prints them. Gives the
   refusal that stops the run, 0 if it goes on. A refused event prints no line and leaves the book as it was; what the block settled
   before it stands. Its letter is that of its lines (72, 77, 89), its number the hours settled, the months closed, or 0. In 7 the
   record number is that of the first bad right, else it is 0. A block of another length than PUPCOPPER_BLOCK is an hour refused
   with 4, on any book of a year from 2025 to 2099. Where the refusal is found in the words of the book or the report (4, 15, or 1 for
   the mark), no event is named and the letter is 0: a host that prints a sentence for such a refusal passes the letter itself, 72, as 0
   would name the rights file. */
uint8_t pupcopper_step(uint64_t *counts, size_t counts_words, uint64_t *shortfalls, size_t shortfalls_words, int64_t *balances,
                       size_t balances_words, const uint8_t *rights, size_t rights_bytes, const uint8_t *block,
                       size_t block_bytes, uint8_t *text, size_t text_bytes, size_t end, uint64_t *report,
                       size_t report_words);

/* The last line of a statement: `F` and both balances, with a minus sign where one is below 0, if `refusal` is 0; else `R` and
   `refusal`. The book is only read: its year and the bounds of its balances are not looked at, so that a run whose step gave 15 can be
   closed. */
uint8_t pupcopper_closing(const uint64_t *counts, size_t counts_words, const uint64_t *shortfalls, size_t shortfalls_words,
                          const int64_t *balances, size_t balances_words, uint8_t refusal, uint8_t *text, size_t text_bytes,
                          size_t end, uint64_t *report, size_t report_words);

/* The sentence and its newline that the program writes to standard error on a refusal, such as
   "Hour 17 is refused: 7, bad right, record 3.": the event by its letter (72 hour, 77 month end, 89 year end, any other the rights
   file, which has no number) and its number, the refusal, its word, and in 7 and 8 the record number. It is empty for refusal 0. Gives
   the place behind it; without the room it gives `at` and writes nothing. */
size_t pupcopper_sentence(uint8_t letter, uint64_t number, uint8_t refusal, uint64_t record, uint8_t *text, size_t text_bytes,
                          size_t at);

#ifdef __cplusplus
}
#endif

#endif
