/* A host that settles a year as the program `clearing` does: rights from ftr.bin, hours from standard input, a step for each block, the
   closing, and on a refusal its sentence on standard error. Its exit status is 0 for a statement that ends in F, 1 for one that ends in
   R, and 2 for one that could not be written. */
#include "pupcopper.h"

#include <stdio.h>

enum { YEAR = 2025, RIGHTS_ROOM = 65537, WRONG_LENGTH = 4, NOT_WRITTEN = 2 };

/* The book, as the host keeps it from call to call. */
struct book {
    uint64_t counts[PUPCOPPER_COUNTS];
    uint64_t shortfalls[PUPCOPPER_SHORTFALLS];
    int64_t balances[PUPCOPPER_BALANCES];
};

/* What stopped the run: the refusal, or 0; the refused event's letter and number; the record of 7 and 8. */
struct stop {
    uint8_t refusal, letter;
    uint64_t number, record;
};

/* The bytes of ftr.bin, one byte more than the longest file at most; too many, if it can't be read. */
static size_t read_rights(uint8_t *rights) {
    FILE *file = fopen("ftr.bin", "rb");
    if (file == NULL) {
        return RIGHTS_ROOM;
    }
    size_t bytes = fread(rights, 1, RIGHTS_ROOM, file);
    int failed = ferror(file);
    fclose(file);
    return failed ? RIGHTS_ROOM : bytes;
}

/* One block. The text is empty before it and printed after it, so that there is always room. */
static struct stop settle_block(struct book *book, const uint8_t *rights, size_t rights_bytes, const uint8_t *block, size_t bytes) {
    static uint8_t text[PUPCOPPER_STEP_ROOM];
    uint64_t report[PUPCOPPER_STEPPED] = {0};
    uint8_t refusal = pupcopper_step(book->counts, PUPCOPPER_COUNTS, book->shortfalls, PUPCOPPER_SHORTFALLS, book->balances,
                                     PUPCOPPER_BALANCES, rights, rights_bytes, block, bytes, text, sizeof text, 0, report,
                                     PUPCOPPER_STEPPED);
    fwrite(text, 1, report[1], stdout);
    return (struct stop){.refusal = refusal, .letter = (uint8_t)report[2], .number = report[3], .record = report[4]};
}

static struct stop settle_blocks(struct book *book, const uint8_t *rights, size_t rights_bytes) {
    uint8_t block[PUPCOPPER_BLOCK];
    struct stop stop = {0};
    size_t bytes = fread(block, 1, sizeof block, stdin);
    while (stop.refusal == 0 && bytes != 0) {
        stop = settle_block(book, rights, rights_bytes, block, bytes);
        bytes = fread(block, 1, sizeof block, stdin);
    }
    return stop;
}

static void print_last_line(const struct book *book, uint8_t refusal) {
    uint8_t text[PUPCOPPER_CLOSING_ROOM];
    uint64_t report[PUPCOPPER_CLOSED] = {0};
    pupcopper_closing(book->counts, PUPCOPPER_COUNTS, book->shortfalls, PUPCOPPER_SHORTFALLS, book->balances, PUPCOPPER_BALANCES,
                      refusal, text, sizeof text, 0, report, PUPCOPPER_CLOSED);
    fwrite(text, 1, report[1], stdout);
}

static void print_sentence(struct stop stop) {
    uint8_t text[PUPCOPPER_SENTENCE_ROOM];
    size_t end = pupcopper_sentence(stop.letter, stop.number, stop.refusal, stop.record, text, sizeof text, 0);
    fwrite(text, 1, end, stderr);
}

int main(void) {
    static uint8_t rights[RIGHTS_ROOM];
    size_t rights_bytes = read_rights(rights);
    struct book book;
    pupcopper_open(YEAR, book.counts, PUPCOPPER_COUNTS, book.shortfalls, PUPCOPPER_SHORTFALLS, book.balances,
                   PUPCOPPER_BALANCES);
    struct stop stop = {.refusal = WRONG_LENGTH};
    if (rights_bytes < RIGHTS_ROOM) {
        stop = settle_blocks(&book, rights, rights_bytes);
    }
    print_last_line(&book, stop.refusal);
    if (fflush(stdout) != 0 || ferror(stdout)) {
        return NOT_WRITTEN;
    }
    print_sentence(stop);
    return stop.refusal != 0;
}
