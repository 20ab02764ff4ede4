/* What the tests in C share: counting, and packets made and read by the library's calls. M = 3, N = 8; v is the value that ends in 2a. */
#ifndef CASES_H
#define CASES_H

#include "../myrthakel.h"

#include <stdio.h>
#include <string.h>

enum { M = 3, N = 8 };

static int passed, failed;

static inline void expect(int holds, const char *what)
{
    if (holds) {
        passed++;
    } else {
        failed++;
        printf("FAILED: %s\n", what);
    }
}

/* A packet's fields. */
typedef struct {
    uint32_t kind, switch_number, instance, round, vote_round;
    uint64_t value_high, value_low;
} fields;

static inline uint32_t write_fields(const fields *f, uint8_t *packet, size_t length)
{
    return myrthakel_packet_write(f->kind, f->switch_number, f->instance, f->round, f->vote_round, f->value_high, f->value_low, packet, length);
}

static inline uint32_t read_fields(const uint8_t *packet, size_t length, fields *f)
{
    return myrthakel_packet_read(packet, length, &f->kind, &f->switch_number, &f->instance, &f->round, &f->vote_round, &f->value_high, &f->value_low);
}

static inline int same_fields(const fields *one, const fields *other)
{
    return one->kind == other->kind && one->switch_number == other->switch_number && one->instance == other->instance && one->round == other->round
           && one->vote_round == other->vote_round && one->value_high == other->value_high && one->value_low == other->value_low;
}

/* A packet whose value has the lower half given, and no upper one. One that the writer refuses is a slip of the test. */
static inline void make(uint8_t *packet, uint32_t kind, uint32_t switch_number, uint32_t instance, uint32_t round, uint32_t vote_round, uint64_t low)
{
    if (myrthakel_packet_write(kind, switch_number, instance, round, vote_round, 0, low, packet, MYRTHAKEL_PACKET_LENGTH) != MYRTHAKEL_DONE)
        expect(0, "a packet of the test's is written");
}

static inline int is_packet(const uint8_t *packet, uint32_t kind, uint32_t switch_number, uint32_t instance, uint32_t round, uint32_t vote_round, uint64_t low)
{
    fields f = {0}, wanted = {kind, switch_number, instance, round, vote_round, 0, low};
    return read_fields(packet, MYRTHAKEL_PACKET_LENGTH, &f) == MYRTHAKEL_DONE && same_fields(&f, &wanted);
}

/* The answer of a call that sets tables fresh. A test that wants others fills them behind it. */
static inline void fresh(uint32_t answer)
{
    expect(answer == MYRTHAKEL_DONE, "tables set fresh");
}

static inline int told(void)
{
    printf("%d passed, %d failed\n", passed, failed);
    return failed != 0;
}

#endif
