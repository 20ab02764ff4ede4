/* The ride ledger that a learner feeds, and its entries, which are the values of this host. */
#ifndef LEDGER_H
#define LEDGER_H

#include "../myrthakel.h"

/* A sale, a boarding, or null, which fills a hole. */
typedef struct {
    uint8_t bytes[MYRTHAKEL_VALUE_LENGTH];
} entry;

#define NULL_ENTRY ((entry){{0}})

entry sale(uint32_t pass, uint8_t rides, uint16_t last_day);
entry boarding(uint32_t pass, uint16_t day, uint32_t scan);

/* Places below the count are in use. A ledger begins with count 0. */
typedef struct {
    uint32_t passes[MYRTHAKEL_PASSES];
    uint8_t rides_left[MYRTHAKEL_PASSES];
    uint16_t last_days[MYRTHAKEL_PASSES];
    uint32_t last_scans[MYRTHAKEL_PASSES];
    uint32_t count;
} ledger;

/* Enters a value of the delivered list, and answers as the call does. */
uint32_t enter(ledger *rides, const uint8_t *value);

/* The rides of a sale. */
uint32_t rides_sold(const uint8_t *value);

/* A value, and what a ledger answered to one, in words that are good until the next call. */
const char *value_in_words(const uint8_t *value);
const char *answer_in_words(uint32_t answer);

#endif
