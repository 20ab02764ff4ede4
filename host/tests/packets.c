/* Packets by call: fields are judged as they are given, and what one call writes the other reads. */
#include "cases.h"

enum { LENGTH = MYRTHAKEL_PACKET_LENGTH };

#define HIGH UINT64_C(0xfedcba9876543210)
#define LOW UINT64_C(0x8000000000000001)
#define MOST UINT32_C(4294967295)
#define LAST_ROUND UINT32_C(4294967293) /* backup 1's */

/* Bytes and numbers that a call could have left, to be seen to stay. */
static const fields lent = {11, 12, 13, 14, 15, 16, 17};

static void fill(uint8_t *packet)
{
    memset(packet, 0xee, LENGTH + 1);
}

/* Written over any bytes, these fields are read as they are, and written again they are the same bytes; the byte behind them stays. */
static void goes_round(fields f, const char *what)
{
    uint8_t packet[LENGTH + 1], again[LENGTH + 1] = {0};
    fields read = lent;
    fill(packet);
    expect(write_fields(&f, packet, LENGTH) == MYRTHAKEL_DONE && read_fields(packet, LENGTH, &read) == MYRTHAKEL_DONE && same_fields(&read, &f)
               && write_fields(&read, again, LENGTH) == MYRTHAKEL_DONE && memcmp(again, packet, LENGTH) == 0 && packet[LENGTH] == 0xee && again[LENGTH] == 0,
           what);
}

/* Refused by the number, over bytes that stay. */
static void not_written(fields f, uint32_t number, const char *what)
{
    uint8_t packet[LENGTH + 1], before[LENGTH + 1];
    fill(packet);
    fill(before);
    expect(write_fields(&f, packet, LENGTH) == number && memcmp(packet, before, sizeof packet) == 0, what);
}

/* A good packet with one byte overwritten, or of another length, is refused by the number, and the numbers lent stay. */
static void not_read(fields good, size_t at, uint8_t byte, size_t length, uint32_t number, const char *what)
{
    uint8_t packet[LENGTH + 1] = {0};
    fields read = lent;
    expect(write_fields(&good, packet, LENGTH) == MYRTHAKEL_DONE, what);
    packet[at] = byte;
    expect(read_fields(packet, length, &read) == number && same_fields(&read, &lent), what);
}

static const fields request = {MYRTHAKEL_REQUEST, 9, 0, 0, MYRTHAKEL_NONE, HIGH, LOW};
static const fields prepare = {MYRTHAKEL_PREPARE, 2, 7, 6, MYRTHAKEL_NONE, 0, 0};
static const fields promise = {MYRTHAKEL_PROMISE, 6, 7, 6, 5, HIGH, LOW};
static const fields propose = {MYRTHAKEL_PROPOSE, 2, 7, 6, MYRTHAKEL_NONE, HIGH, LOW};
static const fields vote = {MYRTHAKEL_VOTE, 6, 7, 6, 6, HIGH, LOW};

/* The good fields with one of them given otherwise. */
static fields with_kind(fields f, uint32_t kind) { f.kind = kind; return f; }
static fields with_switch(fields f, uint32_t switch_number) { f.switch_number = switch_number; return f; }
static fields with_instance(fields f, uint32_t instance) { f.instance = instance; return f; }
static fields with_round(fields f, uint32_t round) { f.round = round; return f; }
static fields with_vote_round(fields f, uint32_t vote_round) { f.vote_round = vote_round; return f; }
static fields with_value(fields f, uint64_t high, uint64_t low) { f.value_high = high; f.value_low = low; return f; }

static void taken(void)
{
    goes_round(request, "a request");
    goes_round(prepare, "a prepare");
    goes_round(promise, "a promise");
    goes_round(propose, "a propose");
    goes_round(vote, "a vote");
    goes_round(with_switch(request, 0), "a request's switch number 0");
    goes_round(with_switch(request, 65535), "a request's switch number 65,535");
    goes_round(with_value(request, UINT64_MAX, UINT64_MAX), "the greatest value");
    goes_round(with_value(request, UINT64_C(1) << 63, 0), "a value whose top bit alone is set");
    goes_round(with_value(request, 0, 1), "a value whose last bit alone is set");
    goes_round(with_value(propose, 0, 0), "a propose of null");
    goes_round(with_value(vote, 0, 0), "a vote for null");
    goes_round(with_value(with_vote_round(promise, MYRTHAKEL_NONE), 0, 0), "a promise of no vote");
    goes_round(with_value(promise, 0, 0), "a promise of a vote for null");
    goes_round(with_vote_round(promise, 0), "a promise of a vote in round 0");
    goes_round(with_vote_round(promise, 6), "a promise of a vote in its own round");
    goes_round(with_instance(vote, MOST), "the greatest instance");
    goes_round(with_switch(with_round(propose, 0), 0), "a propose in round 0");
    goes_round(with_vote_round(with_round(vote, 0), 0), "a vote in round 0");
    goes_round(with_switch(with_round(prepare, LAST_ROUND), 1), "a prepare in a last round");
    goes_round(with_vote_round(with_round(vote, LAST_ROUND), LAST_ROUND), "a vote in a last round");
}

/* Many fields of each type: what differs by one bit stands in its own place. */
static void bits_taken(void)
{
    for (int bit = 0; bit < 64; bit++) {
        goes_round(with_value(promise, UINT64_C(1) << bit, 0), "a bit of the upper half");
        goes_round(with_value(vote, 0, UINT64_C(1) << bit), "a bit of the lower half");
    }
    for (int bit = 0; bit < 32; bit++) {
        uint32_t number = UINT32_C(1) << bit, round = number | 1;
        goes_round(with_instance(propose, number), "a bit of the instance");
        goes_round(with_switch(with_round(prepare, round), round % 4), "a bit of the round");
        goes_round(with_vote_round(with_round(promise, LAST_ROUND), round), "a bit of the vote round");
    }
    for (int bit = 0; bit < 16; bit++)
        goes_round(with_switch(request, UINT32_C(1) << bit), "a bit of the switch number");
}

static void types_refused(void)
{
    uint32_t unknown[] = {5, 44, 255, 256, 260, 65536, MOST};
    for (size_t i = 0; i < sizeof unknown / sizeof *unknown; i++)
        not_written(with_kind(vote, unknown[i]), MYRTHAKEL_UNKNOWN_TYPE, "an unknown type is refused by 4, however wide");
}

static void switches_refused(void)
{
    uint32_t beyond[] = {65536, 65537, 131071, MOST};
    const fields *good[] = {&request, &prepare, &promise, &propose, &vote};
    for (size_t i = 0; i < sizeof beyond / sizeof *beyond; i++)
        for (int kind = 0; kind < 5; kind++)
            not_written(with_switch(*good[kind], beyond[i]), MYRTHAKEL_BROKEN_FIELD, "a switch number over 65,535 is refused by 5");
    for (int kind = 1; kind < 5; kind++)
        not_written(with_switch(*good[kind], 65536 + good[kind]->switch_number), MYRTHAKEL_BROKEN_FIELD, "and is not cut off to a right one");
}

static void fields_refused(void)
{
    not_written(with_instance(request, 1), 5, "a request for an instance");
    not_written(with_round(request, 1), 5, "a request in a round");
    not_written(with_vote_round(request, 0), 5, "a request with a vote round");
    not_written(with_value(request, 0, 0), 5, "a request of null");
    not_written(with_switch(prepare, 1), 5, "a prepare in another's round");
    not_written(with_switch(with_round(prepare, 0), 0), 5, "a prepare in round 0");
    not_written(with_switch(with_round(prepare, 4), 4), 5, "a prepare in nobody's round");
    not_written(with_vote_round(prepare, 6), 5, "a prepare with a vote round");
    not_written(with_value(prepare, HIGH, 0), 5, "a prepare with the upper half of a value");
    not_written(with_value(prepare, 0, LOW), 5, "a prepare with the lower half of a value");
    not_written(with_switch(promise, 7), 5, "a promise of sender 7");
    not_written(with_round(promise, 0), 5, "a promise in round 0");
    not_written(with_vote_round(promise, 7), 5, "a promise of a vote above its round");
    not_written(with_vote_round(promise, 4), 5, "a promise of a vote in nobody's round");
    not_written(with_vote_round(promise, MYRTHAKEL_NONE), 5, "a promise of a value without a vote");
    not_written(with_switch(propose, 0), 5, "a propose in another's round");
    not_written(with_round(propose, 8), 5, "a propose in nobody's round");
    not_written(with_round(propose, MYRTHAKEL_NONE), 5, "a propose in no round");
    not_written(with_vote_round(propose, 6), 5, "a propose with a vote round");
    not_written(with_switch(vote, 7), 5, "a vote of sender 7");
    not_written(with_round(vote, 2), 5, "a vote with another vote round");
    not_written(with_vote_round(vote, MYRTHAKEL_NONE), 5, "a vote without a vote round");
}

static void packets_refused(void)
{
    not_read(request, LENGTH, 0, LENGTH - 1, MYRTHAKEL_WRONG_LENGTH, "35 bytes");
    not_read(request, LENGTH, 0, LENGTH + 1, MYRTHAKEL_WRONG_LENGTH, "37 bytes");
    not_read(request, LENGTH, 0, 0, MYRTHAKEL_WRONG_LENGTH, "no bytes");
    for (size_t at = 0; at < 3; at++)
        not_read(vote, at, 'X', LENGTH, MYRTHAKEL_WRONG_MARK, "another mark");
    not_read(vote, 4, 1, LENGTH, MYRTHAKEL_WRONG_VERSION, "version 257");
    not_read(vote, 5, 0, LENGTH, MYRTHAKEL_WRONG_VERSION, "version 0");
    not_read(vote, 5, 2, LENGTH, MYRTHAKEL_WRONG_VERSION, "version 2");
    not_read(vote, 3, 5, LENGTH, MYRTHAKEL_UNKNOWN_TYPE, "type 5");
    not_read(vote, 3, 255, LENGTH, MYRTHAKEL_UNKNOWN_TYPE, "type 255");
    not_read(vote, 7, 7, LENGTH, MYRTHAKEL_BROKEN_FIELD, "a vote of sender 7");
    not_read(vote, 6, 1, LENGTH, MYRTHAKEL_BROKEN_FIELD, "a vote of sender 262");
    not_read(vote, 15, 2, LENGTH, MYRTHAKEL_BROKEN_FIELD, "a vote with another vote round");
    not_read(prepare, 35, 1, LENGTH, MYRTHAKEL_BROKEN_FIELD, "a prepare with a value");
    not_read(request, 11, 1, LENGTH, MYRTHAKEL_BROKEN_FIELD, "a request for an instance");
}

static void lengths_refused(void)
{
    for (size_t length = 0; length < 80; length++) {
        uint8_t packet[80], before[80];
        memset(packet, 0xee, sizeof packet);
        memset(before, 0xee, sizeof before);
        if (length != LENGTH)
            expect(write_fields(&vote, packet, length) == MYRTHAKEL_WRONG_LENGTH && memcmp(packet, before, sizeof packet) == 0, "another length is refused by 1");
    }
}

int main(void)
{
    taken();
    bits_taken();
    types_refused();
    switches_refused();
    fields_refused();
    packets_refused();
    lengths_refused();
    return told();
}
