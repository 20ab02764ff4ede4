/*
 * Each name of the header, with its number in the paper, and as what a call answers or takes: a name of another number and a call that answers another number
 * both fail here. host/tests/header-names holds the rows to the header: no name is left out.
 */
#include "cases.h"

#define NUMBER(name, number) expect((name) == UINT64_C(number), #name " is " #number)
#define ANSWER(name, call) expect((call) == (name), #name " is answered by " #call)
#define TAKEN(name, holds) expect((holds), #name " is taken by the calls")

/* The paper's numbers; where the paper has none, for verdicts, those of docs/DECISIONS.md. */
static void numbers(void)
{
    NUMBER(MYRTHAKEL_NONE, 4294967295);
    NUMBER(MYRTHAKEL_PACKET_LENGTH, 36);
    NUMBER(MYRTHAKEL_FRAME_LENGTH, 78);
    NUMBER(MYRTHAKEL_VALUE_LENGTH, 16);
    NUMBER(MYRTHAKEL_SAVED_LENGTH(1), 29);
    NUMBER(MYRTHAKEL_SAVED_LENGTH(1024), 21512);
    NUMBER(MYRTHAKEL_PASSES, 256);
    NUMBER(MYRTHAKEL_REQUEST, 0);
    NUMBER(MYRTHAKEL_PREPARE, 1);
    NUMBER(MYRTHAKEL_PROMISE, 2);
    NUMBER(MYRTHAKEL_PROPOSE, 3);
    NUMBER(MYRTHAKEL_VOTE, 4);
    NUMBER(MYRTHAKEL_SALE, 1);
    NUMBER(MYRTHAKEL_BOARDING, 2);
    NUMBER(MYRTHAKEL_TO_ACCEPTORS, 101);
    NUMBER(MYRTHAKEL_TO_LEADER, 102);
    NUMBER(MYRTHAKEL_TO_LEARNERS, 103);
    NUMBER(MYRTHAKEL_HOLD, 104);
    NUMBER(MYRTHAKEL_DECIDED, 105);
    NUMBER(MYRTHAKEL_DONE, 106);
    NUMBER(MYRTHAKEL_NOT_YET, 107);
    NUMBER(MYRTHAKEL_NO_HOLE, 108);
    NUMBER(MYRTHAKEL_SOLD, 109);
    NUMBER(MYRTHAKEL_BOARDED, 110);
    NUMBER(MYRTHAKEL_SKIPPED, 111);
    NUMBER(MYRTHAKEL_WRONG_LENGTH, 1);
    NUMBER(MYRTHAKEL_WRONG_MARK, 2);
    NUMBER(MYRTHAKEL_WRONG_VERSION, 3);
    NUMBER(MYRTHAKEL_UNKNOWN_TYPE, 4);
    NUMBER(MYRTHAKEL_BROKEN_FIELD, 5);
    NUMBER(MYRTHAKEL_WRONG_KIND, 6);
    NUMBER(MYRTHAKEL_NOT_ALLOWED, 7);
    NUMBER(MYRTHAKEL_INSTANCE_BEYOND, 8);
    NUMBER(MYRTHAKEL_SENDER_BEYOND, 9);
    NUMBER(MYRTHAKEL_ROUND_BELOW, 10);
    NUMBER(MYRTHAKEL_NOT_ASKED, 11);
    NUMBER(MYRTHAKEL_NO_INSTANCE_LEFT, 12);
    NUMBER(MYRTHAKEL_OTHER_VALUE, 13);
    NUMBER(MYRTHAKEL_ALREADY_DECIDED, 14);
    NUMBER(MYRTHAKEL_ALREADY_COUNTED, 15);
    NUMBER(MYRTHAKEL_NO_ROUND_LEFT, 16);
    NUMBER(MYRTHAKEL_IMPOSSIBLE_CELL, 17);
    NUMBER(MYRTHAKEL_WRONG_FRAME_LENGTH, 21);
    NUMBER(MYRTHAKEL_WRONG_FRAME_HEADER, 22);
    NUMBER(MYRTHAKEL_WRONG_IPV4_CHECKSUM, 23);
    NUMBER(MYRTHAKEL_WRONG_UDP_HEADER, 24);
    NUMBER(MYRTHAKEL_WRONG_UDP_CHECKSUM, 25);
    NUMBER(MYRTHAKEL_UNSOUND_LEDGER, 30);
    NUMBER(MYRTHAKEL_MALFORMED_ENTRY, 31);
    NUMBER(MYRTHAKEL_PASS_EXISTS, 32);
    NUMBER(MYRTHAKEL_LEDGER_FULL, 33);
    NUMBER(MYRTHAKEL_UNKNOWN_PASS, 34);
    NUMBER(MYRTHAKEL_DAY_PAST, 35);
    NUMBER(MYRTHAKEL_SCAN_NOT_NEWER, 36);
    NUMBER(MYRTHAKEL_NO_RIDE_LEFT, 37);
}

/* One depot, all players fresh. */

static uint32_t next, acceptor_rounds[N], vote_rounds[N], backup_rounds[N], best_vote_rounds[N], learner_rounds[N];
static uint64_t acceptor_values[2 * N], best_values[2 * N], own_values[2 * N], learner_values[2 * N];
static uint8_t phases[N], promisers[N], voters[N], packet[MYRTHAKEL_PACKET_LENGTH];

static void make_fresh(void)
{
    ANSWER(MYRTHAKEL_DONE, myrthakel_primary_fresh(M, N, &next, 1));
    ANSWER(MYRTHAKEL_DONE, myrthakel_acceptor_fresh(M, N, acceptor_rounds, N, vote_rounds, N, acceptor_values, 2 * N));
    ANSWER(MYRTHAKEL_DONE, myrthakel_backup_fresh(M, N, backup_rounds, N, phases, N, promisers, N, best_vote_rounds, N, best_values, 2 * N, own_values, 2 * N));
    ANSWER(MYRTHAKEL_DONE, myrthakel_learner_fresh(M, N, learner_rounds, N, voters, N, learner_values, 2 * N));
}

/* The type, byte 3, of a packet of this kind from number 1. */
static int type_written(uint32_t kind, uint32_t round, uint32_t vote_round, uint64_t low)
{
    memset(packet, 0xee, sizeof packet);
    return myrthakel_packet_write(kind, 1, 0, round, vote_round, 0, low, packet, MYRTHAKEL_PACKET_LENGTH) == 106 ? packet[3] : -1;
}

static void kinds(void)
{
    TAKEN(MYRTHAKEL_REQUEST, type_written(MYRTHAKEL_REQUEST, 0, MYRTHAKEL_NONE, 0x2a) == 0);
    TAKEN(MYRTHAKEL_PREPARE, type_written(MYRTHAKEL_PREPARE, 1, MYRTHAKEL_NONE, 0) == 1);
    TAKEN(MYRTHAKEL_PROMISE, type_written(MYRTHAKEL_PROMISE, 1, 0, 0x2a) == 2);
    TAKEN(MYRTHAKEL_PROPOSE, type_written(MYRTHAKEL_PROPOSE, 1, MYRTHAKEL_NONE, 0x2a) == 3);
    TAKEN(MYRTHAKEL_VOTE, type_written(MYRTHAKEL_VOTE, 1, 1, 0x2a) == 4);
}

/* The packet as one byte of it is set, to the primary of M acceptors. */
static uint32_t request(uint32_t acceptors, size_t at, uint8_t byte)
{
    make(packet, 0, 9, 0, 0, MYRTHAKEL_NONE, 0x2a);
    packet[at] = byte;
    return myrthakel_primary_step(acceptors, N, packet, MYRTHAKEL_PACKET_LENGTH, &next, 1);
}

static uint32_t good_request(uint32_t record)
{
    next = record;
    return request(M, 35, 0x2a);
}

static uint32_t to_acceptor(size_t length)
{
    return myrthakel_acceptor_step(M, N, 0, packet, length, acceptor_rounds, N, vote_rounds, N, acceptor_values, 2 * N);
}

static uint32_t propose(uint32_t instance, size_t length)
{
    make(packet, 3, 0, instance, 0, MYRTHAKEL_NONE, 0x2a);
    return to_acceptor(length);
}

static uint32_t prepare(void)
{
    make(packet, 1, 1, 0, 1, MYRTHAKEL_NONE, 0);
    return to_acceptor(MYRTHAKEL_PACKET_LENGTH);
}

static uint32_t start(uint32_t floor)
{
    return myrthakel_backup_start(M, N, 1, 0, floor, 0, 0x2a, packet, MYRTHAKEL_PACKET_LENGTH, backup_rounds, N, phases, N, promisers, N,
                                  best_vote_rounds, N, best_values, 2 * N, own_values, 2 * N);
}

static uint32_t promise(void)
{
    make(packet, 2, 0, 0, 1, MYRTHAKEL_NONE, 0);
    return myrthakel_backup_step(M, N, 1, packet, MYRTHAKEL_PACKET_LENGTH, backup_rounds, N, phases, N, promisers, N,
                                 best_vote_rounds, N, best_values, 2 * N, own_values, 2 * N);
}

static uint32_t vote(uint32_t sender, uint8_t last)
{
    make(packet, 4, sender, 0, 0, 0, last);
    return myrthakel_learner_step(M, N, packet, MYRTHAKEL_PACKET_LENGTH, learner_rounds, N, voters, N, learner_values, 2 * N);
}

static uint32_t answer(uint32_t instance)
{
    uint64_t high, low;
    return myrthakel_learner_answer(M, N, instance, learner_rounds, N, voters, N, learner_values, 2 * N, &high, &low);
}

static uint32_t first_hole(void)
{
    uint32_t instance;
    return myrthakel_learner_first_hole(M, N, learner_rounds, N, voters, N, learner_values, 2 * N, &instance);
}

static uint32_t deliver(size_t length)
{
    uint8_t buffer[16 * N];
    uint32_t count;
    return myrthakel_learner_deliver(M, N, learner_rounds, N, voters, N, learner_values, 2 * N, buffer, length, &count);
}

static uint32_t save(size_t length)
{
    uint8_t buffer[8 + 21 * N];
    return myrthakel_learner_save(M, N, learner_rounds, N, voters, N, learner_values, 2 * N, buffer, length);
}

/* A framed prepare to port 7, as one byte of it is set and the checksums are not. */
static uint32_t check(size_t length, size_t at, uint8_t byte)
{
    uint8_t frame[MYRTHAKEL_FRAME_LENGTH] = {0};
    make(packet, 1, 1, 0, 1, MYRTHAKEL_NONE, 0);
    uint32_t framed = myrthakel_frame_prepare(packet, MYRTHAKEL_PACKET_LENGTH, (uint8_t[6]){2}, (uint8_t[6]){2, 1}, 1, 2, 3, 7, frame, MYRTHAKEL_FRAME_LENGTH);
    frame[at] = byte;
    return framed == 106 ? myrthakel_frame_check(7, frame, length) : framed;
}

static void frame_answers(void)
{
    ANSWER(MYRTHAKEL_WRONG_FRAME_LENGTH, check(77, 0, 2));
    ANSWER(MYRTHAKEL_WRONG_FRAME_HEADER, check(78, 12, 9));
    ANSWER(MYRTHAKEL_WRONG_IPV4_CHECKSUM, check(78, 26, 9));
    ANSWER(MYRTHAKEL_WRONG_UDP_HEADER, check(78, 37, 9));
    ANSWER(MYRTHAKEL_WRONG_UDP_CHECKSUM, check(78, 77, 9));
    TAKEN(MYRTHAKEL_FRAME_LENGTH, check(MYRTHAKEL_FRAME_LENGTH, 0, 2) == 106);
}

static uint32_t passes[256], last_scans[256], passes_in_use;
static uint16_t last_days[256];
static uint8_t rides_left[256];

static uint32_t enter(uint8_t kind, uint8_t rides, uint32_t pass, uint8_t day, uint8_t scan)
{
    uint8_t value[16] = {kind, rides, 0, 0, (uint8_t)(pass >> 8), (uint8_t)pass, 0, day, 0, 0, 0, scan};
    return myrthakel_ledger_enter(value, 16, passes, 256, rides_left, 256, last_days, 256, last_scans, 256, &passes_in_use);
}

/* The answer to the last of so many sales, from a fresh ledger on. */
static uint32_t sales(uint32_t count)
{
    uint32_t answered = 0;
    passes_in_use = 0;
    for (uint32_t i = 0; i < count; i++)
        answered = enter(1, 1, i, 5, 0);
    return answered;
}

static void ledger_answers(void)
{
    ANSWER(MYRTHAKEL_SKIPPED, enter(0, 0, 0, 0, 0));
    ANSWER(MYRTHAKEL_MALFORMED_ENTRY, enter(3, 0, 9, 5, 1));
    ANSWER(MYRTHAKEL_UNKNOWN_PASS, enter(2, 0, 9, 5, 1));
    TAKEN(MYRTHAKEL_SALE, enter(MYRTHAKEL_SALE, 2, 9, 5, 0) == 109);
    ANSWER(MYRTHAKEL_PASS_EXISTS, enter(1, 2, 9, 5, 0));
    ANSWER(MYRTHAKEL_BOARDED, enter(2, 0, 9, 5, 1));
    ANSWER(MYRTHAKEL_DAY_PAST, enter(2, 0, 9, 6, 2));
    ANSWER(MYRTHAKEL_SCAN_NOT_NEWER, enter(2, 0, 9, 5, 1));
    TAKEN(MYRTHAKEL_BOARDING, enter(MYRTHAKEL_BOARDING, 0, 9, 5, 2) == 110);
    ANSWER(MYRTHAKEL_NO_RIDE_LEFT, enter(2, 0, 9, 5, 3));
    ANSWER(MYRTHAKEL_SOLD, sales(1));
    TAKEN(MYRTHAKEL_PASSES, sales(MYRTHAKEL_PASSES) == 109);
    ANSWER(MYRTHAKEL_LEDGER_FULL, sales(257));
    passes[0] = passes[1];
    ANSWER(MYRTHAKEL_UNSOUND_LEDGER, enter(0, 0, 0, 0, 0));
}

static void answers(void)
{
    make_fresh();
    ANSWER(MYRTHAKEL_WRONG_MARK, request(M, 0, 0));
    ANSWER(MYRTHAKEL_WRONG_VERSION, request(M, 5, 2));
    ANSWER(MYRTHAKEL_UNKNOWN_TYPE, request(M, 3, 5));
    ANSWER(MYRTHAKEL_BROKEN_FIELD, request(M, 11, 1));
    ANSWER(MYRTHAKEL_NOT_ALLOWED, request(4, 35, 0x2a));
    ANSWER(MYRTHAKEL_TO_ACCEPTORS, good_request(0));
    ANSWER(MYRTHAKEL_NO_INSTANCE_LEFT, good_request(N));
    ANSWER(MYRTHAKEL_IMPOSSIBLE_CELL, good_request(N + 1));
    ANSWER(MYRTHAKEL_WRONG_LENGTH, propose(0, 35));
    ANSWER(MYRTHAKEL_INSTANCE_BEYOND, propose(N, 36));
    ANSWER(MYRTHAKEL_TO_LEADER, prepare());
    TAKEN(MYRTHAKEL_NONE, packet[16] == 255 && packet[17] == 255 && packet[18] == 255 && packet[19] == 255);
    ANSWER(MYRTHAKEL_ROUND_BELOW, propose(0, 36));
    ANSWER(MYRTHAKEL_TO_LEARNERS, propose(1, 36));
    ANSWER(MYRTHAKEL_WRONG_KIND, to_acceptor(36));
    ANSWER(MYRTHAKEL_NOT_ASKED, promise());
    ANSWER(MYRTHAKEL_NO_ROUND_LEFT, start(MYRTHAKEL_NONE));
    ANSWER(MYRTHAKEL_NOT_YET, answer(0));
    ANSWER(MYRTHAKEL_NO_HOLE, first_hole());
    ANSWER(MYRTHAKEL_HOLD, vote(0, 0x2a));
    ANSWER(MYRTHAKEL_SENDER_BEYOND, vote(M, 0x2a));
    ANSWER(MYRTHAKEL_OTHER_VALUE, vote(1, 0x2b));
    ANSWER(MYRTHAKEL_ALREADY_COUNTED, vote(0, 0x2a));
    ANSWER(MYRTHAKEL_DECIDED, vote(2, 0x2a));
    ANSWER(MYRTHAKEL_ALREADY_DECIDED, vote(1, 0x2a));
    ANSWER(MYRTHAKEL_DONE, answer(0));
    TAKEN(MYRTHAKEL_PACKET_LENGTH, propose(2, MYRTHAKEL_PACKET_LENGTH) == 103);
    TAKEN(MYRTHAKEL_VALUE_LENGTH, deliver(MYRTHAKEL_VALUE_LENGTH * N) == 106);
    TAKEN(MYRTHAKEL_SAVED_LENGTH, save(MYRTHAKEL_SAVED_LENGTH(N)) == 106);
}

int main(void)
{
    numbers();
    kinds();
    answers();
    frame_answers();
    ledger_answers();
    return told();
}
