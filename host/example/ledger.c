/* Entries and the ledger: where the bytes of an entry stand, and the call with its columns. */
#include "ledger.h"

#include "frames.h"

#include <stdio.h>

enum { KIND = 0, RIDES = 1, PASS = 2, DAY = 6, SCAN = 8 };

entry sale(uint32_t pass, uint8_t rides, uint16_t last_day)
{
    entry made = {{[KIND] = MYRTHAKEL_SALE, [RIDES] = rides}};
    put_number(made.bytes + PASS, 4, pass);
    put_number(made.bytes + DAY, 2, last_day);
    return made;
}

entry boarding(uint32_t pass, uint16_t day, uint32_t scan)
{
    entry made = {{[KIND] = MYRTHAKEL_BOARDING}};
    put_number(made.bytes + PASS, 4, pass);
    put_number(made.bytes + DAY, 2, day);
    put_number(made.bytes + SCAN, 4, scan);
    return made;
}

uint32_t enter(ledger *rides, const uint8_t *value)
{
    return myrthakel_ledger_enter(value, MYRTHAKEL_VALUE_LENGTH, rides->passes, MYRTHAKEL_PASSES, rides->rides_left, MYRTHAKEL_PASSES,
                                  rides->last_days, MYRTHAKEL_PASSES, rides->last_scans, MYRTHAKEL_PASSES, &rides->count);
}

uint32_t rides_sold(const uint8_t *value)
{
    return value[RIDES];
}

const char *value_in_words(const uint8_t *value)
{
    static char words[32];
    unsigned pass = (unsigned)get_number(value + PASS, 4), scan = (unsigned)get_number(value + SCAN, 4);
    if (value[KIND] == MYRTHAKEL_SALE)
        snprintf(words, sizeof words, "sale of %u", pass);
    else if (value[KIND] == MYRTHAKEL_BOARDING)
        snprintf(words, sizeof words, "scan %u of %u", scan, pass);
    else
        return "null";
    return words;
}

const char *answer_in_words(uint32_t answer)
{
    static char words[32];
    if (answer == MYRTHAKEL_SOLD)
        return "sold";
    if (answer == MYRTHAKEL_BOARDED)
        return "boarded";
    if (answer == MYRTHAKEL_SKIPPED)
        return "skipped";
    snprintf(words, sizeof words, "refused by %u", (unsigned)answer);
    return words;
}
