/* A plain C program that does what `clearing` does, with the same checks in every hour: what it is measured against. It is written to
   be fast with gcc and clang at -O3, in plain C: no intrinsics, and nothing of the rights or the prices is kept from one hour to the
   next. Two things are not in the C standard and save time, and both compilers have them: a number of 128 bits, and that one function
   is kept apart and aligned. Rights from ftr.bin, hours from standard input, lines to standard output. */
#include <fcntl.h>
#include <stdint.h>
#include <stdio.h>
#include <string.h>
#include <unistd.h>

enum { OWNERS = 64, NODES = 1024, RECORD = 16, MOST_FILE = 65536, HOURS = 8760, MONTHS = 12 };
static const uint64_t MOST_CENTS = 4000000000u;
static const int64_t LEAST_AMOUNT = -4000000000, MOST_AMOUNT = 4000000000000;
/* the bounds of a balance, for each hour settled */
static const int64_t LEAST_BALANCE = -4000000000, MOST_BALANCE = 4004000000000;
static const uint64_t month_ends[MONTHS] = {720, 1464, 2208, 2928, 3672, 4392, 5136, 5880, 6552, 7296, 8016, 8760};

struct book {
    uint64_t hours, months;
    int ended;
    uint64_t month_short[OWNERS], year_short[OWNERS];
    int64_t month_balance, year_balance;
};

/* A right and an hour as their bytes stand in the files: low byte first, as every x86-64 has them. */
struct right {
    uint16_t owner, source, sink;
    uint8_t kind, class;
    uint32_t size;
    uint16_t first, last;
};
struct hour {
    int64_t collected;
    int32_t prices[NODES];
};
_Static_assert(sizeof(struct right) == RECORD && sizeof(struct hour) == 8 + 4 * NODES, "no gaps");

static struct right rights[MOST_FILE / RECORD + 1];
static size_t rights_bytes;
static struct hour hours[16]; /* as many as one read asks for, so that there are few of them */
static char text[65536];
static size_t text_used;

static void flush_text(void) {
    size_t done = 0;
    while (done < text_used) {
        ssize_t n = write(1, text + done, text_used - done);
        if (n <= 0) {
            break;
        }
        done += (size_t)n;
    }
    text_used = 0;
}

/* Room for the lines of one event, of less than 64 bytes each. */
static void make_room(void) {
    if (text_used + OWNERS * 64 > sizeof text) {
        flush_text();
    }
}

/* The eight digits of a number below 100,000,000, one in each byte, the first in the lowest: split into halves of four digits, these into
   pairs, and these into digits, all halves and all pairs at once. A product and a shift are the division by 100 and by 10. */
static uint64_t eight_digits(uint32_t n) {
    uint64_t fours = n / 10000 | (uint64_t)(n % 10000) << 32;
    uint64_t hundreds = fours * 10486 >> 20 & 0x7f0000007f;
    uint64_t pairs = hundreds | (fours - 100 * hundreds) << 16;
    uint64_t tens = pairs * 103 >> 10 & 0xf000f000f000f;
    return tens | (pairs - 10 * tens) << 8;
}

/* Writes always 8 bytes at least, without a loop whose length nobody can foresee. Gives the place behind the number. */
static char *put_number(char *to, uint64_t n) {
    static const uint64_t zeros = 0x3030303030303030; /* eight times '0' */
    if (n >= 100000000) {
        to = put_number(to, n / 100000000);
        uint64_t digits = eight_digits((uint32_t)(n % 100000000)) + zeros;
        memcpy(to, &digits, sizeof digits);
        return to + sizeof digits;
    }
    int length = n < 10000 ? 1 + (n >= 10) + (n >= 100) + (n >= 1000) : 5 + (n >= 100000) + (n >= 1000000) + (n >= 10000000);
    uint64_t digits = (eight_digits((uint32_t)n) + zeros) >> (64 - 8 * length);
    memcpy(to, &digits, sizeof digits);
    return to + length;
}

/* An event's lines: all of them start with the same tag and number. */
static void put_lines(char tag, uint64_t number, const int64_t *lines) {
    make_room();
    char start[32] = {tag, ' '}, *to = text + text_used;
    char *end = put_number(start + 2, number);
    *end++ = ' ';
    size_t length = (size_t)(end - start);
    for (unsigned i = 0; i < OWNERS; i++) {
        if (lines[i] == 0) {
            continue;
        }
        memcpy(to, start, sizeof start);
        to += length;
        if (i >= 10) {
            *to++ = (char)('0' + i / 10);
        }
        *to++ = (char)('0' + i % 10);
        *to++ = ' ';
        uint64_t cents = (uint64_t)lines[i];
        if (lines[i] < 0) {
            *to++ = '-';
            cents = 0 - cents;
        }
        to = put_number(to, cents);
        *to++ = '\n';
    }
    text_used = (size_t)(to - text);
}

static int is_working(uint64_t day) {
    uint64_t weekday = (day - 1) % 7;
    return weekday >= 1 && weekday <= 5 && day != 34 && day != 93 && day != 180 && day != 208 && day != 215 && day != 359;
}

/* The bits that are 0 in the first 8 bytes of a good right: owner below 64, nodes below 1,024 (so that each has a price), kind 0 or 1,
   class below 4. */
static const uint64_t NO_BITS = 0xffc0u | (uint64_t)0xfc00 << 16 | (uint64_t)0xfc00 << 32 | (uint64_t)0xfe << 48 | (uint64_t)0xfc << 56;

/* Where the rights that are live in this hour stand in the file, gathered anew in each hour. */
static uint16_t live[MOST_FILE / RECORD];

/* Whole cents, halves away from zero: a tenth of 2^64, rounded up, times the tenths, to the nearest multiple of 2^64. It is a little too
   far from zero, which decides the halves and nothing else for sums of this size. */
static int64_t to_cents(int64_t tenths) {
    return (int64_t)(((__int128)tenths * 0x199999999999999a + ((__int128)1 << 63)) >> 64);
}

/* One pass over the rights: 0, or the refusal that the whole file calls for. The checks are branches, since a good file never takes them.
   Whether a right is live is none, nor is the sign of a spread, since nobody can foresee them: the place of every right is written
   behind those of the live ones, and stays if it is counted. Not inlined, so that the loops have all registers, and aligned: some
   processors are slow at a jump across a multiple of 32 bytes, and with the checks in this order gcc 12 and clang 14 put none there. */
__attribute__((noinline, aligned(64))) static int add_rights(const int32_t *prices, uint64_t hour, int64_t *sums) {
    static const int32_t least[2] = {INT32_MIN, 0}; /* by kind: an option's spread counts as 0 at least */
    const uint32_t no_day = 1000;                   /* later than the last day of every right */
    uint32_t before = (uint32_t)(hour / 24);
    int peak = is_working(before + 1) && hour % 24 >= 6 && hour % 24 <= 21;
    /* by class: the days before this one, if its rights count in this hour */
    const uint32_t days[4] = {peak ? before : no_day, peak ? no_day : before, before, no_day};
    const char *file = (const char *)rights;
    size_t count = 0;
    for (size_t at = 0; at < rights_bytes; at += RECORD) {
        const struct right *r = (const struct right *)(file + at);
        uint64_t front;
        memcpy(&front, r, sizeof front);
        uint32_t class = r->class, first = r->first - 1u, last = r->last;
        /* first and size - 1 are the largest numbers where the first day or the size is 0 */
        if (first >= last || (front & NO_BITS) != 0 || r->sink == r->source || r->size - 1 >= 100000 || last > 365 || class == 3) {
            return 7;
        }
        live[count] = (uint16_t)at;
        count += days[class] - first < last - first; /* days before the first are the largest numbers */
    }
    for (size_t i = 0; i < count; i++) {
        const struct right *r = (const struct right *)(file + live[i]);
        int32_t spread = prices[r->sink] - prices[r->source], floor = least[r->kind];
        sums[r->owner] += to_cents((int64_t)r->size * (spread > floor ? spread : floor));
    }
    return 0;
}

static uint64_t sum(const uint64_t *cells) {
    uint64_t total = 0;
    for (int i = 0; i < OWNERS; i++) {
        total += cells[i];
    }
    return total;
}

/* The cents that are still unpaid go to the largest rests, among equal ones to the first. */
static void pay_cents(uint64_t unpaid, const uint32_t *rests, const uint8_t *owners, unsigned count, uint64_t *paid) {
    for (unsigned i = 0; i < count; i++) {
        uint32_t place = 0; /* no early way out, so that four rests are compared at a time */
        for (unsigned j = 0; j < count; j++) {
            place += (rests[j] > rests[i]) | ((rests[j] == rests[i]) & (j < i));
        }
        paid[owners[i]] += place < unpaid;
    }
}

/* What the fund pays of each want, and what it leaves. */
static uint64_t split(uint64_t fund, const uint64_t *wants, uint64_t *paid) {
    uint64_t demand = sum(wants), unpaid = fund;
    if (fund >= demand) {
        memcpy(paid, wants, OWNERS * sizeof *paid);
        return fund - demand;
    }
    uint8_t owners[OWNERS]; /* those who want something, gathered without a branch, as the rights are */
    unsigned count = 0;
    for (unsigned i = 0; i < OWNERS; i++) {
        paid[i] = 0;
        owners[count] = (uint8_t)i;
        count += wants[i] > 0;
    }
    uint32_t rests[OWNERS]; /* of those, below the demand, which has 32 bits */
    double fraction = (double)(int64_t)fund / (double)(int64_t)demand;
    for (unsigned i = 0; i < count; i++) {
        /* no division: below the exact share, by less than one cent, and the rest tells whether the last whole cent is missing */
        uint64_t want = wants[owners[i]];
        uint64_t payment = (uint64_t)(int64_t)(fraction * (double)(int64_t)want - 0.00001);
        uint64_t rest = fund * want - payment * demand;
        uint64_t missing = rest >= demand;
        paid[owners[i]] = payment + missing;
        rests[i] = (uint32_t)(rest - (missing ? demand : 0));
        unpaid -= payment + missing;
    }
    pay_cents(unpaid, rests, owners, count, paid);
    return 0;
}

/* What any fund pays, and what it leaves: a negative one pays nobody and is left as it is. */
static int64_t pay_out(int64_t fund, const uint64_t *wants, uint64_t *paid) {
    if (fund < 0) {
        memset(paid, 0, OWNERS * sizeof *paid);
        return fund;
    }
    return (int64_t)split((uint64_t)fund, wants, paid);
}

static int is_outside(int64_t balance, uint64_t hours) {
    return balance < (int64_t)hours * LEAST_BALANCE || balance > (int64_t)hours * MOST_BALANCE;
}

static int is_spoiled(const struct book *b) {
    if (b->hours > HOURS || b->months > MONTHS) {
        return 1;
    }
    uint64_t last = b->months == 0 ? 0 : month_ends[b->months - 1];
    if (b->months < MONTHS && (b->hours < last || b->hours > month_ends[b->months])) {
        return 1;
    }
    if ((b->months == MONTHS && b->hours != HOURS) || (b->ended && b->months < MONTHS)) {
        return 1;
    }
    /* no sum may wrap: cells of more than 32 bits are too large alone, and 128 others cannot wrap 64 bits */
    uint64_t bits = 0;
    for (int i = 0; i < OWNERS; i++) {
        bits |= b->month_short[i] | b->year_short[i];
    }
    if (bits >> 32 != 0 || sum(b->month_short) + sum(b->year_short) > MOST_CENTS) {
        return 1;
    }
    /* nor the sum of two balances that lie within the bounds */
    return is_outside(b->month_balance, b->hours) || is_outside(b->year_balance, b->hours) ||
           is_outside(b->month_balance + b->year_balance, b->hours);
}

/* The refusals that come before the rights are looked at: 1 to 6, or 0. */
static int early_refusal(const struct book *b, const int32_t *prices, int64_t collected) {
    if (is_spoiled(b)) {
        return 1;
    }
    if (b->ended) {
        return 2;
    }
    if (b->hours >= HOURS || (b->months < MONTHS && b->hours == month_ends[b->months])) {
        return 3;
    }
    if (rights_bytes % RECORD != 0) {
        return 4;
    }
    int wild = 0; /* no early way out, so that four prices are compared at a time */
    for (int i = 0; i < NODES; i++) {
        wild |= (prices[i] < -500000) | (prices[i] > 500000);
    }
    if (wild) {
        return 5;
    }
    return collected < LEAST_AMOUNT || collected > MOST_AMOUNT ? 6 : 0;
}

static int settle_hour(struct book *b, const int32_t *prices, int64_t collected, int64_t *lines) {
    int64_t sums[OWNERS] = {0};
    int refusal = early_refusal(b, prices, collected);
    if (refusal == 0) {
        refusal = add_rights(prices, b->hours, sums);
    }
    if (refusal != 0) {
        return refusal;
    }
    uint64_t wants[OWNERS], paid[OWNERS], demand = 0, charges = 0;
    for (int i = 0; i < OWNERS; i++) {
        int64_t target = sums[i];
        lines[i] = target;
        wants[i] = target > 0 ? (uint64_t)target : 0;
        demand += wants[i];
        charges += target < 0 ? (uint64_t)-target : 0;
    }
    if (demand > MOST_CENTS || charges > MOST_CENTS) {
        return 9;
    }
    int64_t left = pay_out(collected + (int64_t)charges, wants, paid);
    uint64_t unpaid = demand - sum(paid);
    if (sum(b->month_short) + sum(b->year_short) + unpaid > MOST_CENTS) {
        return 10;
    }
    for (int i = 0; i < OWNERS; i++) {
        if (lines[i] > 0) {
            lines[i] = (int64_t)paid[i];
        }
        b->month_short[i] += wants[i] - paid[i];
    }
    b->month_balance += left;
    b->hours++;
    return 0;
}

static void close_month(struct book *b, int64_t *lines) {
    uint64_t paid[OWNERS];
    int64_t left = pay_out(b->month_balance, b->month_short, paid);
    for (int i = 0; i < OWNERS; i++) {
        lines[i] = (int64_t)paid[i];
        b->year_short[i] += b->month_short[i] - paid[i];
        b->month_short[i] = 0;
    }
    b->year_balance += left;
    b->month_balance = 0;
    b->months++;
}

static void close_year(struct book *b, int64_t *lines) {
    uint64_t paid[OWNERS];
    int64_t left = pay_out(b->year_balance, b->year_short, paid);
    for (int i = 0; i < OWNERS; i++) {
        lines[i] = (int64_t)paid[i];
        b->year_short[i] -= paid[i];
    }
    b->year_balance = left;
    b->ended = 1;
}

static size_t read_full(int fd, uint8_t *to, size_t most) {
    size_t got = 0;
    while (got < most) {
        ssize_t n = read(fd, to + got, most - got);
        if (n <= 0) {
            break;
        }
        got += (size_t)n;
    }
    return got;
}

static int refuse(int number) {
    make_room();
    text_used += (size_t)sprintf(text + text_used, "R %d\n", number);
    flush_text();
    return 0;
}

/* An hour, and the month end and the year end that are due after it: 0, or the hour's refusal. */
static int settle_next(struct book *b, const struct hour *next) {
    int64_t lines[OWNERS];
    int refusal = settle_hour(b, next->prices, next->collected, lines);
    if (refusal != 0) {
        return refusal;
    }
    put_lines('H', b->hours - 1, lines);
    if (b->months < MONTHS && b->hours == month_ends[b->months]) {
        close_month(b, lines);
        put_lines('M', b->months - 1, lines);
    }
    if (b->months == MONTHS && !b->ended) {
        close_year(b, lines);
        put_lines('Y', 0, lines);
    }
    return 0;
}

int main(void) {
    static struct book b;
    int fd = open("ftr.bin", O_RDONLY);
    rights_bytes = fd < 0 ? MOST_FILE + 1 : read_full(fd, (uint8_t *)rights, MOST_FILE + 1);
    if (rights_bytes > MOST_FILE) {
        return refuse(4);
    }
    size_t got;
    do {
        got = read_full(0, (uint8_t *)hours, sizeof hours);
        for (size_t i = 0; i < got / sizeof *hours; i++) {
            int refusal = settle_next(&b, &hours[i]);
            if (refusal != 0) {
                return refuse(refusal);
            }
        }
        if (got % sizeof *hours != 0) {
            return refuse(4);
        }
    } while (got == sizeof hours);
    make_room();
    text_used += (size_t)sprintf(text + text_used, "F %lld %lld\n", (long long)b.month_balance, (long long)b.year_balance);
    flush_text();
    return 0;
}
