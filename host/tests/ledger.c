/* The ride ledger as a C program calls it: the request's list, a full ledger, ledgers that are not sound, malformed values, and two faults at once. */
#include "cases.h"

enum { PASSES = MYRTHAKEL_PASSES, COLUMNS = 4 };

/* A place more than is lent stands behind each column. */
typedef struct {
    uint32_t passes[PASSES + 1];
    uint8_t rides_left[PASSES + 1];
    uint16_t last_days[PASSES + 1];
    uint32_t last_scans[PASSES + 1];
    uint32_t count;
} ledger;

/* A fresh ledger's places are all alike: one pass 256 times, with 238 rides left. */
static void make_unsold(ledger *l)
{
    memset(l, 0xee, sizeof *l);
    l->count = 0;
}

/* The next place, written by the test. */
static void place(ledger *l, uint32_t pass, uint8_t rides_left, uint16_t last_day, uint32_t last_scan)
{
    l->passes[l->count] = pass;
    l->rides_left[l->count] = rides_left;
    l->last_days[l->count] = last_day;
    l->last_scans[l->count++] = last_scan;
}

static void make_full(ledger *l)
{
    make_unsold(l);
    for (uint32_t i = 0; i < PASSES; i++)
        place(l, 7 * i, (uint8_t)(1 + i % 40), (uint16_t)i, 0);
}

/* Enters a value with the columns as long as is said. */
static uint32_t enter_lent(ledger *l, const uint8_t *value, size_t length, const size_t lent[COLUMNS])
{
    ledger kept;
    memcpy(&kept, l, sizeof kept);
    uint32_t answer = myrthakel_ledger_enter(value, length, l->passes, lent[0], l->rides_left, lent[1], l->last_days, lent[2], l->last_scans, lent[3],
                                             &l->count);
    if (answer != MYRTHAKEL_SOLD && answer != MYRTHAKEL_BOARDED)
        expect(memcmp(l, &kept, sizeof kept) == 0, "what is refused or skipped leaves every byte as it came");
    return answer;
}

static const size_t whole[COLUMNS] = {PASSES, PASSES, PASSES, PASSES};

static uint32_t enter(ledger *l, const uint8_t *value)
{
    return enter_lent(l, value, 16, whole);
}

/* A value, and one byte more than that is lent. */
typedef struct {
    uint8_t bytes[17];
} value;

/* By its digits, with zeros behind them. */
static value from(const char *digits)
{
    value v = {{0}};
    for (size_t i = 0; digits[2 * i]; i++)
        sscanf(digits + 2 * i, "%2hhx", &v.bytes[i]);
    return v;
}

static uint32_t sell(ledger *l, uint32_t pass, uint8_t rides, uint16_t last_day)
{
    char digits[33];
    snprintf(digits, sizeof digits, "01%02x%08x%04x", rides, (unsigned)pass, last_day);
    return enter(l, from(digits).bytes);
}

static uint32_t board(ledger *l, uint32_t pass, uint16_t day, uint32_t scan)
{
    char digits[33];
    snprintf(digits, sizeof digits, "0200%08x%04x%08x", (unsigned)pass, day, (unsigned)scan);
    return enter(l, from(digits).bytes);
}

typedef struct {
    const char *digits, *what;
    uint32_t answer;
} entry_row;

static const entry_row list[] = {
    {"0101000003e9012c0000000000000000", "sale, pass 1001, 1 ride, last day 300", MYRTHAKEL_SOLD},
    {"0200000003e9012c0000000100000000", "boarding on day 300, scan 1", MYRTHAKEL_BOARDED},
    {"0200000003e9012c0000000100000000", "the same again", MYRTHAKEL_SCAN_NOT_NEWER},
    {"0200000003e9012c0000000200000000", "a second pupil, scan 2", MYRTHAKEL_NO_RIDE_LEFT},
    {"0200000003e9012d0000000100000000", "day 301, old scan, no ride", MYRTHAKEL_DAY_PAST},
    {"00000000000000000000000000000000", "null", MYRTHAKEL_SKIPPED},
    {"0128000003e901900000000000000000", "sold again, 40 rides", MYRTHAKEL_PASS_EXISTS},
    {"0200000003ea00010000000100000000", "pass 1002, never sold", MYRTHAKEL_UNKNOWN_PASS},
    {"0129000003ea012c0000000000000000", "a sale of 41 rides", MYRTHAKEL_MALFORMED_ENTRY},
    {"0100000003ea012c0000000000000000", "a sale of 0 rides", MYRTHAKEL_MALFORMED_ENTRY},
    {"0128000003ea012c0000000100000000", "a sale with scan 1", MYRTHAKEL_MALFORMED_ENTRY},
    {"0128000003ea012c0000000000000000", "sale, pass 1002, 40 rides", MYRTHAKEL_SOLD},
    {"0200000003ea00000000000000000000", "boarding with scan 0", MYRTHAKEL_SCAN_NOT_NEWER},
    {"0201000003ea00000000000100000000", "a boarding with rides 1", MYRTHAKEL_MALFORMED_ENTRY},
    {"0200000003ea00000000000100000001", "a boarding with last byte 1", MYRTHAKEL_MALFORMED_ENTRY},
    {"0300000003ea00000000000500000000", "kind 3", MYRTHAKEL_MALFORMED_ENTRY},
    {"00000000000000000000000000000001", "kind 0, not null", MYRTHAKEL_MALFORMED_ENTRY},
    {"0200000003ea0000ffffffff00000000", "boarding on day 0, the last scan number", MYRTHAKEL_BOARDED},
    {"0200000003ea0000ffffffff00000000", "again the last scan number", MYRTHAKEL_SCAN_NOT_NEWER},
    {"0102ffffffffffff0000000000000000", "sale, pass 4294967295, last day 65535", MYRTHAKEL_SOLD},
    {"0200ffffffffffff0000000700000000", "its boarding on day 65535", MYRTHAKEL_BOARDED},
    {"01030000000000000000000000000000", "sale, pass 0, 3 rides, last day 0", MYRTHAKEL_SOLD},
};

static uint32_t all_left(const ledger *l)
{
    uint32_t left = 0;
    for (uint32_t i = 0; i < l->count; i++)
        left += l->rides_left[i];
    return left;
}

static void list_cases(void)
{
    ledger l, wanted;
    uint32_t sold = 0, boarded = 0;
    make_unsold(&l);
    for (size_t i = 0; i < sizeof list / sizeof *list; i++) {
        value v = from(list[i].digits);
        uint32_t answer = enter(&l, v.bytes);
        expect(answer == list[i].answer, list[i].what);
        sold += answer == MYRTHAKEL_SOLD ? v.bytes[1] : 0;
        boarded += answer == MYRTHAKEL_BOARDED;
        expect(sold == boarded + all_left(&l), "at each moment the rides sold are those boarded and those left");
    }
    expect(sold == 46 && boarded == 3 && all_left(&l) == 43, "sold 46 = boarded 3 + left 43");
    make_unsold(&wanted);
    place(&wanted, 1001, 0, 300, 1);
    place(&wanted, 1002, 39, 300, UINT32_C(4294967295));
    place(&wanted, UINT32_C(4294967295), 1, 65535, 7);
    place(&wanted, 0, 3, 0, 0);
    expect(memcmp(&l, &wanted, sizeof l) == 0, "the table at the end, with nothing written past the count");
}

static void full_cases(void)
{
    ledger l, full;
    make_unsold(&l);
    make_full(&full);
    for (uint32_t i = 0; i < PASSES; i++)
        expect(sell(&l, full.passes[i], full.rides_left[i], full.last_days[i]) == MYRTHAKEL_SOLD, "256 sales are taken");
    expect(memcmp(&l, &full, sizeof l) == 0, "in their order, with nothing written behind the columns");
    expect(sell(&l, 5, 1, 300) == MYRTHAKEL_LEDGER_FULL, "the 257th is refused by 33");
    expect(sell(&l, 0, 1, 300) == MYRTHAKEL_PASS_EXISTS && sell(&l, 7 * 255, 1, 300) == MYRTHAKEL_PASS_EXISTS, "32 before 33: a known pass, sold again");
    expect(board(&l, 7 * 255, 255, 9) == MYRTHAKEL_BOARDED, "the pass at the last place is boarded");
    full.rides_left[255]--;
    full.last_scans[255] = 9;
    expect(memcmp(&l, &full, sizeof l) == 0, "and no other place is written");
}

/* The values are a sale, null, one of kind 3, and no bytes at all. */
static void expect_unsound(ledger *l, const size_t lent[COLUMNS], const char *what)
{
    static const char *const values[] = {"0101000003e9012c", "", "0300000003ea"};
    for (size_t i = 0; i < sizeof values / sizeof *values; i++)
        expect(enter_lent(l, from(values[i]).bytes, 16, lent) == MYRTHAKEL_UNSOUND_LEDGER, what);
    expect(enter_lent(l, from("").bytes, 0, lent) == MYRTHAKEL_UNSOUND_LEDGER, what);
}

static void size_cases(void)
{
    static const size_t lengths[] = {0, PASSES - 1, PASSES + 1};
    static const uint32_t counts[] = {PASSES + 1, UINT32_C(4294967295)};
    ledger l;
    make_unsold(&l);
    for (size_t i = 0; i < sizeof lengths / sizeof *lengths; i++)
        for (int column = 0; column < COLUMNS; column++) {
            size_t lent[COLUMNS] = {PASSES, PASSES, PASSES, PASSES};
            lent[column] = lengths[i];
            expect_unsound(&l, lent, "a column not of 256 is refused by 30");
        }
    make_full(&l);
    place(&l, 5, 1, 300, 0);
    for (size_t i = 0; i < sizeof counts / sizeof *counts; i++) {
        l.count = counts[i];
        expect_unsound(&l, whole, "a count above 256 is refused by 30");
    }
}

/* A fault at a place is seen where the place is in use, and is not looked at where the count ends before it. */
static void expect_seen_in_use(ledger *l, uint32_t at, const char *what)
{
    expect_unsound(l, whole, what);
    l->count = at;
    expect(enter(l, from("").bytes) == MYRTHAKEL_SKIPPED, "the same past the count is not looked at");
    expect(sell(l, 5, 2, 300) == MYRTHAKEL_SOLD, "and is written over by the next sale");
}

static void content_cases(void)
{
    static const uint32_t twins[][2] = {{0, 1}, {100, 101}, {254, 255}, {0, 255}, {1, 200}}, places[] = {0, 1, 128, 255};
    ledger l;
    for (size_t i = 0; i < sizeof twins / sizeof *twins; i++) {
        make_full(&l);
        l.passes[twins[i][1]] = l.passes[twins[i][0]];
        expect_seen_in_use(&l, twins[i][1], "a pass twice is refused by 30");
    }
    for (size_t i = 0; i < sizeof places / sizeof *places; i++) {
        make_full(&l);
        l.rides_left[places[i]] = 40;
        expect(enter(&l, from("").bytes) == MYRTHAKEL_SKIPPED, "40 rides left are allowed");
        l.rides_left[places[i]] = 255;
        expect_unsound(&l, whole, "255 rides left are refused by 30");
        l.rides_left[places[i]] = 41;
        expect_seen_in_use(&l, places[i], "41 rides left are refused by 30");
    }
}

/* Each byte of these values that is to be 0, set; and the value shorter and longer. */
static void malformed_cases(void)
{
    static const struct {
        const char *digits;
        size_t zeros; /* from here on */
    } rows[] = {{"00", 1}, {"0101000003e9012c", 8}, {"0200000003e9012c00000001", 12}};
    ledger l;
    make_unsold(&l);
    for (size_t i = 0; i < sizeof rows / sizeof *rows; i++) {
        value v = from(rows[i].digits);
        for (size_t at = rows[i].zeros; at < 16; at++) {
            v.bytes[at] = 1;
            expect(enter(&l, v.bytes) == MYRTHAKEL_MALFORMED_ENTRY, "a byte that is to be 0 and is not is refused by 31");
            v.bytes[at] = 0;
        }
        expect(enter_lent(&l, v.bytes, 0, whole) == MYRTHAKEL_MALFORMED_ENTRY && enter_lent(&l, v.bytes, 15, whole) == MYRTHAKEL_MALFORMED_ENTRY
                   && enter_lent(&l, v.bytes, 17, whole) == MYRTHAKEL_MALFORMED_ENTRY,
               "0, 15 and 17 bytes are refused by 31");
        v.bytes[0] = 255;
        expect(enter(&l, v.bytes) == MYRTHAKEL_MALFORMED_ENTRY, "another kind is refused by 31");
    }
}

static void order_cases(void)
{
    ledger l;
    make_unsold(&l);
    place(&l, 1001, 0, 300, 5);
    expect(enter(&l, from("0129000003e9012c").bytes) == MYRTHAKEL_MALFORMED_ENTRY, "31 before 32: 41 rides of a known pass");
    expect(enter(&l, from("0201000003ea012c00000006").bytes) == MYRTHAKEL_MALFORMED_ENTRY, "31 before 34: rides 1 of an unknown pass");
    expect(board(&l, 1002, 301, 0) == MYRTHAKEL_UNKNOWN_PASS, "34 before all others: an unknown pass, a late day, scan 0");
    expect(board(&l, 1001, 301, 5) == MYRTHAKEL_DAY_PAST, "35 before 36: the day after the last, the last scan");
    expect(board(&l, 1001, 301, 6) == MYRTHAKEL_DAY_PAST, "35 before 37: the day after the last, no ride left");
    expect(board(&l, 1001, 300, 5) == MYRTHAKEL_SCAN_NOT_NEWER, "36 before 37: the last scan, no ride left");
    expect(board(&l, 1001, 300, 6) == MYRTHAKEL_NO_RIDE_LEFT && board(&l, 1001, 300, 6) == MYRTHAKEL_NO_RIDE_LEFT, "37, and again: its scan is not kept");
    l.rides_left[0] = 1;
    expect(board(&l, 1001, 300, 6) == MYRTHAKEL_BOARDED && l.last_days[0] == 300, "without a fault it is boarded, on the last day too");
}

int main(void)
{
    list_cases();
    full_cases();
    size_cases();
    content_cases();
    malformed_cases();
    order_cases();
    return told();
}
