/* The players as a C program calls them, on cases of the paper: M = 3, N = 8, v is the value that ends in 2a. */
#include "cases.h"

typedef struct {
    uint32_t rounds[N], vote_rounds[N];
    uint64_t values[2 * N];
} acceptor;

static void make_fresh(acceptor *a)
{
    memset(a, 0xee, sizeof *a);
    fresh(myrthakel_acceptor_fresh(M, N, a->rounds, N, a->vote_rounds, N, a->values, 2 * N));
}

static uint32_t acceptor_step(acceptor *a, uint8_t *packet, size_t length)
{
    return myrthakel_acceptor_step(M, N, 0, packet, length, a->rounds, N, a->vote_rounds, N, a->values, 2 * N);
}

static int is_cell(const acceptor *a, int i, uint32_t round, uint32_t vote_round, uint64_t low)
{
    return a->rounds[i] == round && a->vote_rounds[i] == vote_round && a->values[2 * i] == 0 && a->values[2 * i + 1] == low;
}

static void acceptor_cases(void)
{
    uint8_t packet[MYRTHAKEL_PACKET_LENGTH + 1] = {0}, before[MYRTHAKEL_PACKET_LENGTH];
    acceptor a, kept;
    make_fresh(&a);
    make(packet, MYRTHAKEL_PROPOSE, 0, 0, 0, MYRTHAKEL_NONE, 0x2a);
    expect(acceptor_step(&a, packet, 36) == MYRTHAKEL_TO_LEARNERS, "fresh acceptor, propose round 0, v: vote");
    expect(is_packet(packet, MYRTHAKEL_VOTE, 0, 0, 0, 0, 0x2a), "the vote carries v");
    expect(is_cell(&a, 0, 0, 0, 0x2a), "cell 0, 0, v");

    make(packet, MYRTHAKEL_PREPARE, 1, 0, 1, MYRTHAKEL_NONE, 0);
    expect(acceptor_step(&a, packet, 36) == MYRTHAKEL_TO_LEADER, "then prepare round 1: promise");
    expect(is_packet(packet, MYRTHAKEL_PROMISE, 0, 0, 1, 0, 0x2a), "the promise carries vote round 0 and v");
    expect(is_cell(&a, 0, 1, 0, 0x2a), "the cell's round is 1");

    make(packet, MYRTHAKEL_PROPOSE, 0, 0, 0, MYRTHAKEL_NONE, 0x2a);
    memcpy(before, packet, sizeof before);
    kept = a;
    expect(acceptor_step(&a, packet, 36) == MYRTHAKEL_ROUND_BELOW, "then propose round 0: refusal 10");
    expect(memcmp(packet, before, sizeof before) == 0 && memcmp(&a, &kept, sizeof a) == 0, "the refusal changes nothing");

    make_fresh(&a);
    make(packet, MYRTHAKEL_PREPARE, 1, 0, 1, MYRTHAKEL_NONE, 0);
    expect(acceptor_step(&a, packet, 36) == MYRTHAKEL_TO_LEADER, "fresh acceptor, prepare round 1: promise");
    expect(is_packet(packet, MYRTHAKEL_PROMISE, 0, 0, 1, MYRTHAKEL_NONE, 0), "the promise carries none and null");

    make(packet, MYRTHAKEL_PROPOSE, 0, 7, 0, MYRTHAKEL_NONE, 0x2a);
    expect(acceptor_step(&a, packet, 36) == MYRTHAKEL_TO_LEARNERS, "instance 7 is taken");
    expect(is_cell(&a, 7, 0, 0, 0x2a) && is_cell(&a, 6, 0, MYRTHAKEL_NONE, 0), "in its own cell");
    make(packet, MYRTHAKEL_PROPOSE, 0, 8, 0, MYRTHAKEL_NONE, 0x2a);
    expect(acceptor_step(&a, packet, 36) == MYRTHAKEL_INSTANCE_BEYOND, "instance 8 is refused");
    make(packet, MYRTHAKEL_PROPOSE, 0, 1, 0, MYRTHAKEL_NONE, 0x2a);
    expect(acceptor_step(&a, packet, 35) == MYRTHAKEL_WRONG_LENGTH, "35 bytes are refused");
    expect(acceptor_step(&a, packet, 37) == MYRTHAKEL_WRONG_LENGTH, "37 bytes are refused");
    expect(myrthakel_acceptor_step(4, N, 0, packet, 36, a.rounds, N, a.vote_rounds, N, a.values, 2 * N) == MYRTHAKEL_NOT_ALLOWED, "M = 4 is refused");
    expect(myrthakel_acceptor_step(M, N, 3, packet, 36, a.rounds, N, a.vote_rounds, N, a.values, 2 * N) == MYRTHAKEL_NOT_ALLOWED, "own number 3 is refused");
    expect(myrthakel_acceptor_step(M, N, 0, packet, 36, a.rounds, N, a.vote_rounds, N, a.values, N) == MYRTHAKEL_NOT_ALLOWED, "a table of another size is refused");
    a.vote_rounds[1] = 5;
    expect(acceptor_step(&a, packet, 36) == MYRTHAKEL_IMPOSSIBLE_CELL, "a vote round above the round is refused");
}

static void primary_cases(void)
{
    uint8_t packet[MYRTHAKEL_PACKET_LENGTH];
    uint32_t next = 99;
    fresh(myrthakel_primary_fresh(M, N, &next, 1));
    make(packet, MYRTHAKEL_REQUEST, 9, 0, 0, MYRTHAKEL_NONE, 0x2a);
    expect(myrthakel_primary_step(M, N, packet, 36, &next, 1) == MYRTHAKEL_TO_ACCEPTORS, "a request becomes a propose");
    expect(is_packet(packet, MYRTHAKEL_PROPOSE, 0, 0, 0, MYRTHAKEL_NONE, 0x2a), "with instance 0, round 0, switch number 0 and its value");
    make(packet, MYRTHAKEL_REQUEST, 9, 0, 0, MYRTHAKEL_NONE, 0x2a);
    expect(myrthakel_primary_step(M, N, packet, 36, &next, 1) == MYRTHAKEL_TO_ACCEPTORS, "a repeated request is taken");
    expect(is_packet(packet, MYRTHAKEL_PROPOSE, 0, 1, 0, MYRTHAKEL_NONE, 0x2a) && next == 2, "and gets a second instance");
    expect(myrthakel_primary_step(M, N, packet, 36, &next, 1) == MYRTHAKEL_WRONG_KIND, "a propose is refused");

    fresh(myrthakel_primary_fresh(M, N, &next, 1));
    make(packet, MYRTHAKEL_REQUEST, 9, 0, 0, MYRTHAKEL_NONE, 0x2a);
    expect(myrthakel_primary_step(M, 1, packet, 36, &next, 1) == MYRTHAKEL_TO_ACCEPTORS, "N = 1: the first request is taken");
    make(packet, MYRTHAKEL_REQUEST, 9, 0, 0, MYRTHAKEL_NONE, 0x2a);
    expect(myrthakel_primary_step(M, 1, packet, 36, &next, 1) == MYRTHAKEL_NO_INSTANCE_LEFT && next == 1, "N = 1: the second is refused");
    next = 2;
    expect(myrthakel_primary_step(M, 1, packet, 36, &next, 1) == MYRTHAKEL_IMPOSSIBLE_CELL && next == 2, "next above N is impossible");
    fresh(myrthakel_primary_fresh(M, N, &next, 1));
    expect(myrthakel_primary_step(2, N, packet, 36, &next, 1) == MYRTHAKEL_NOT_ALLOWED, "M = 2 is refused");
    expect(myrthakel_primary_step(M, 0, packet, 36, &next, 1) == MYRTHAKEL_NOT_ALLOWED, "N = 0 is refused");
    expect(myrthakel_primary_step(M, 1025, packet, 36, &next, 1) == MYRTHAKEL_NOT_ALLOWED, "N = 1,025 is refused");
    expect(myrthakel_primary_step(M, N, packet, 36, &next, 0) == MYRTHAKEL_NOT_ALLOWED, "a record of no number is refused");
    expect(myrthakel_primary_step(M, 1024, packet, 36, &next, 1) == MYRTHAKEL_TO_ACCEPTORS && next == 1, "N = 1,024 is allowed");
    fresh(myrthakel_primary_fresh(M, N, &next, 1));
    make(packet, MYRTHAKEL_REQUEST, 9, 0, 0, MYRTHAKEL_NONE, 0x2a);
    packet[35] = 0;
    expect(myrthakel_primary_step(M, N, packet, 36, &next, 1) == MYRTHAKEL_BROKEN_FIELD && next == 0, "a null request is refused");
}

static void request_cases(void)
{
    uint8_t packet[MYRTHAKEL_PACKET_LENGTH + 1] = {0}, before[MYRTHAKEL_PACKET_LENGTH];
    struct myrthakel_primary primary = {99};
    fresh(myrthakel_primary_fresh(M, N, &primary.next, 1));
    make(packet, MYRTHAKEL_REQUEST, 9, 0, 0, MYRTHAKEL_NONE, 0x2a);
    expect(myrthakel_primary_request(M, N, packet, 36, &primary) == MYRTHAKEL_TO_ACCEPTORS, "by reference: a request becomes a propose");
    expect(is_packet(packet, MYRTHAKEL_PROPOSE, 0, 0, 0, MYRTHAKEL_NONE, 0x2a), "by reference: with instance 0, round 0, switch number 0 and its value");
    make(packet, MYRTHAKEL_REQUEST, 9, 0, 0, MYRTHAKEL_NONE, 0x2a);
    expect(myrthakel_primary_request(M, N, packet, 36, &primary) == MYRTHAKEL_TO_ACCEPTORS, "by reference: a repeated request is taken");
    expect(is_packet(packet, MYRTHAKEL_PROPOSE, 0, 1, 0, MYRTHAKEL_NONE, 0x2a) && primary.next == 2, "by reference: and gets a second instance");
    memcpy(before, packet, sizeof before);
    expect(myrthakel_primary_request(M, N, packet, 36, &primary) == MYRTHAKEL_WRONG_KIND, "by reference: a propose is refused");
    expect(memcmp(packet, before, sizeof before) == 0 && primary.next == 2, "by reference: the refusal changes nothing");

    fresh(myrthakel_primary_fresh(M, N, &primary.next, 1));
    make(packet, MYRTHAKEL_REQUEST, 9, 0, 0, MYRTHAKEL_NONE, 0x2a);
    expect(myrthakel_primary_request(M, 1, packet, 36, &primary) == MYRTHAKEL_TO_ACCEPTORS, "by reference: N = 1: the first request is taken");
    make(packet, MYRTHAKEL_REQUEST, 9, 0, 0, MYRTHAKEL_NONE, 0x2a);
    memcpy(before, packet, sizeof before);
    expect(myrthakel_primary_request(M, 1, packet, 36, &primary) == MYRTHAKEL_NO_INSTANCE_LEFT && primary.next == 1, "by reference: N = 1: the second is refused");
    primary.next = 2;
    expect(myrthakel_primary_request(M, 1, packet, 36, &primary) == MYRTHAKEL_IMPOSSIBLE_CELL && primary.next == 2, "by reference: next above N is impossible");
    fresh(myrthakel_primary_fresh(M, N, &primary.next, 1));
    expect(myrthakel_primary_request(2, N, packet, 36, &primary) == MYRTHAKEL_NOT_ALLOWED, "by reference: M = 2 is refused");
    expect(myrthakel_primary_request(M, 0, packet, 36, &primary) == MYRTHAKEL_NOT_ALLOWED, "by reference: N = 0 is refused");
    expect(myrthakel_primary_request(M, 1025, packet, 36, &primary) == MYRTHAKEL_NOT_ALLOWED, "by reference: N = 1,025 is refused");
    expect(myrthakel_primary_request(M, N, packet, 35, &primary) == MYRTHAKEL_WRONG_LENGTH, "by reference: 35 bytes are refused");
    expect(myrthakel_primary_request(M, N, packet, 37, &primary) == MYRTHAKEL_WRONG_LENGTH, "by reference: 37 bytes are refused");
    expect(memcmp(packet, before, sizeof before) == 0 && primary.next == 0, "by reference: no refusal changes anything");
    expect(myrthakel_primary_request(M, 1024, packet, 36, &primary) == MYRTHAKEL_TO_ACCEPTORS && primary.next == 1, "by reference: N = 1,024 is allowed");
    fresh(myrthakel_primary_fresh(M, N, &primary.next, 1));
    make(packet, MYRTHAKEL_REQUEST, 9, 0, 0, MYRTHAKEL_NONE, 0x2a);
    packet[35] = 0;
    expect(myrthakel_primary_request(M, N, packet, 36, &primary) == MYRTHAKEL_BROKEN_FIELD && primary.next == 0, "by reference: a null request is refused");
}

typedef struct {
    uint32_t rounds[N], best_vote_rounds[N];
    uint8_t phases[N], sets[N];
    uint64_t best_values[2 * N], own_values[2 * N];
} backup;

static void make_idle(backup *b)
{
    memset(b, 0xee, sizeof *b);
    fresh(myrthakel_backup_fresh(M, N, b->rounds, N, b->phases, N, b->sets, N, b->best_vote_rounds, N, b->best_values, 2 * N, b->own_values, 2 * N));
}

static uint32_t start(backup *b, uint32_t own, uint32_t instance, uint32_t floor, uint64_t low, uint8_t *buffer, size_t length)
{
    return myrthakel_backup_start(M, N, own, instance, floor, 0, low, buffer, length, b->rounds, N, b->phases, N, b->sets, N,
                                  b->best_vote_rounds, N, b->best_values, 2 * N, b->own_values, 2 * N);
}

static uint32_t backup_step(backup *b, uint32_t own, uint8_t *packet)
{
    return myrthakel_backup_step(M, N, own, packet, 36, b->rounds, N, b->phases, N, b->sets, N,
                                 b->best_vote_rounds, N, b->best_values, 2 * N, b->own_values, 2 * N);
}

static void backup_cases(void)
{
    uint8_t packet[MYRTHAKEL_PACKET_LENGTH] = {0}, zeros[MYRTHAKEL_PACKET_LENGTH] = {0}, before[MYRTHAKEL_PACKET_LENGTH];
    backup b, kept;
    make_idle(&b);
    expect(start(&b, 1, 0, 0, 0x2a, packet, 36) == MYRTHAKEL_TO_ACCEPTORS, "backup 1, floor 0: a prepare");
    expect(is_packet(packet, MYRTHAKEL_PREPARE, 1, 0, 1, MYRTHAKEL_NONE, 0), "of round 1");
    expect(start(&b, 1, 0, 0, 0x2a, packet, 36) == MYRTHAKEL_TO_ACCEPTORS && is_packet(packet, MYRTHAKEL_PREPARE, 1, 0, 5, MYRTHAKEL_NONE, 0), "started again: round 5");

    make_idle(&b);
    expect(start(&b, 3, 0, UINT32_C(4294967290), 0x2a, packet, 36) == MYRTHAKEL_TO_ACCEPTORS && b.rounds[0] == UINT32_C(4294967291),
           "backup 3, floor 4,294,967,290: round 4,294,967,291");
    memset(packet, 0, sizeof packet);
    kept = b;
    expect(start(&b, 3, 0, UINT32_C(4294967291), 0x2a, packet, 36) == MYRTHAKEL_NO_ROUND_LEFT, "floor 4,294,967,291: refusal 16");
    expect(memcmp(packet, zeros, sizeof zeros) == 0 && memcmp(&b, &kept, sizeof b) == 0, "the refusal changes nothing");
    make_idle(&b);
    expect(start(&b, 2, 0, UINT32_C(4294967293), 0x2a, packet, 36) == MYRTHAKEL_TO_ACCEPTORS && b.rounds[0] == UINT32_C(4294967294), "backup 2's last round");
    expect(start(&b, 1, 1, UINT32_C(4294967295), 0x2a, packet, 36) == MYRTHAKEL_NO_ROUND_LEFT, "floor 4,294,967,295: refusal 16");
    expect(start(&b, 1, 3, 0, 0, packet, 36) == MYRTHAKEL_TO_ACCEPTORS && is_packet(packet, MYRTHAKEL_PREPARE, 1, 3, 1, MYRTHAKEL_NONE, 0), "a start with null asks like any other");
    expect(start(&b, 1, 8, 0, 0x2a, packet, 36) == MYRTHAKEL_INSTANCE_BEYOND, "a start on instance 8 is refused");
    expect(start(&b, 1, 8, 0, 0x2a, packet, 35) == MYRTHAKEL_WRONG_LENGTH, "a buffer of 35 bytes is refused first");
    expect(start(&b, 0, 1, 0, 0x2a, packet, 36) == MYRTHAKEL_NOT_ALLOWED && start(&b, 4, 1, 0, 0x2a, packet, 36) == MYRTHAKEL_NOT_ALLOWED, "own numbers 0 and 4 are refused");
    expect(start(&b, 3, 0, 0, 0x2a, packet, 36) == MYRTHAKEL_IMPOSSIBLE_CELL, "backup 2's cell lent to backup 3 is impossible");

    make_idle(&b);
    expect(start(&b, 1, 0, 0, 0x2b, packet, 36) == MYRTHAKEL_TO_ACCEPTORS, "a backup asks with own value w");
    make(packet, MYRTHAKEL_PROMISE, 0, 0, 1, MYRTHAKEL_NONE, 0);
    memcpy(before, packet, sizeof before);
    expect(backup_step(&b, 1, packet) == MYRTHAKEL_HOLD && memcmp(packet, before, sizeof before) == 0, "a promise with none is held");
    expect(backup_step(&b, 1, packet) == MYRTHAKEL_ALREADY_COUNTED, "the same again is refusal 15");
    make(packet, MYRTHAKEL_PROMISE, 3, 0, 1, MYRTHAKEL_NONE, 0);
    expect(backup_step(&b, 1, packet) == MYRTHAKEL_SENDER_BEYOND, "sender 3 is refusal 9");
    make(packet, MYRTHAKEL_PROMISE, 1, 0, 5, MYRTHAKEL_NONE, 0);
    expect(backup_step(&b, 1, packet) == MYRTHAKEL_NOT_ASKED, "another round is refusal 11");
    make(packet, MYRTHAKEL_PROMISE, 1, 0, 1, 0, 0x2a);
    expect(backup_step(&b, 1, packet) == MYRTHAKEL_TO_ACCEPTORS && is_packet(packet, MYRTHAKEL_PROPOSE, 1, 0, 1, MYRTHAKEL_NONE, 0x2a), "a promise with (0, v) makes it propose v");
    make(packet, MYRTHAKEL_PROMISE, 2, 0, 1, MYRTHAKEL_NONE, 0);
    expect(backup_step(&b, 1, packet) == MYRTHAKEL_NOT_ASKED, "a third promise is refusal 11");
    expect(backup_step(&b, 1, zeros) == MYRTHAKEL_WRONG_MARK, "zeros are refusal 2");

    make_idle(&b);
    start(&b, 1, 2, 0, 0x2b, packet, 36);
    make(packet, MYRTHAKEL_PROMISE, 0, 2, 1, 0, 0);
    backup_step(&b, 1, packet);
    make(packet, MYRTHAKEL_PROMISE, 1, 2, 1, MYRTHAKEL_NONE, 0);
    expect(backup_step(&b, 1, packet) == MYRTHAKEL_TO_ACCEPTORS && is_packet(packet, MYRTHAKEL_PROPOSE, 1, 2, 1, MYRTHAKEL_NONE, 0), "a vote for null is proposed, not the own value");
    b.phases[3] = 3;
    expect(start(&b, 1, 3, 0, 0x2b, packet, 36) == MYRTHAKEL_IMPOSSIBLE_CELL, "phase 3 is impossible");
}

enum { nobody = 4 };

/* The table of crates/proved_cases/specs/Rounds.antt: a round, or any number; its owner; the next round of backups 1, 2 and 3 above it, or the refusal 16. */
static const struct {
    uint32_t number, owner, next[3];
} round_rows[] = {
    {0, 0, {1, 2, 3}},
    {1, 1, {5, 2, 3}},
    {2, 2, {5, 6, 3}},
    {3, 3, {5, 6, 7}},
    {4, nobody, {5, 6, 7}},
    {4294967288, nobody, {4294967289, 4294967290, 4294967291}},
    {4294967290, 2, {4294967293, 4294967294, 4294967291}},
    {4294967291, 3, {4294967293, 4294967294, 16}},
    {4294967293, 1, {16, 4294967294, 16}},
    {4294967294, 2, {16, 16, 16}},
    {4294967295, nobody, {16, 16, 16}},
};

/* A propose is written with its round's owner for a switch, and with no other. */
static void owner_is(uint32_t round, uint32_t owner)
{
    uint8_t packet[MYRTHAKEL_PACKET_LENGTH];
    char what[80];
    int only = 1;
    for (uint32_t switch_number = 0; switch_number <= 65535; switch_number++) {
        uint32_t answer = myrthakel_packet_write(MYRTHAKEL_PROPOSE, switch_number, 0, round, MYRTHAKEL_NONE, 0, 0x2a, packet, sizeof packet);
        only &= answer == (owner != nobody && switch_number == owner ? MYRTHAKEL_DONE : MYRTHAKEL_BROKEN_FIELD);
    }
    snprintf(what, sizeof what, "round %u: owner %u, or nobody where it is 4", (unsigned)round, (unsigned)owner);
    expect(only, what);
}

/* A start on a fresh cell takes the next round and asks with it, or is refused. */
static void next_is(uint32_t own, uint32_t floor, uint32_t next)
{
    uint8_t packet[MYRTHAKEL_PACKET_LENGTH] = {0};
    char what[80];
    backup b;
    make_idle(&b);
    uint32_t answer = start(&b, own, 0, floor, 0x2a, packet, sizeof packet);
    snprintf(what, sizeof what, "backup %u, floor %u: round %u, or refusal 16", (unsigned)own, (unsigned)floor, (unsigned)next);
    if (next == MYRTHAKEL_NO_ROUND_LEFT)
        expect(answer == next && b.rounds[0] == 0, what);
    else
        expect(answer == MYRTHAKEL_TO_ACCEPTORS && b.rounds[0] == next && is_packet(packet, MYRTHAKEL_PREPARE, own, 0, next, MYRTHAKEL_NONE, 0), what);
}

static void round_cases(void)
{
    for (size_t i = 0; i < sizeof round_rows / sizeof *round_rows; i++) {
        owner_is(round_rows[i].number, round_rows[i].owner);
        for (uint32_t own = 1; own <= 3; own++)
            next_is(own, round_rows[i].number, round_rows[i].next[own - 1]);
    }
}

int main(void)
{
    acceptor_cases();
    primary_cases();
    request_cases();
    backup_cases();
    round_cases();
    return told();
}
