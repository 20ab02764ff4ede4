/*
 * The orders of refusal as a C program meets them, row by row as in crates/proved_cases/specs/Orders.antt: an input that has two faults is answered by the number
 * that comes first, and is left as it came. N = 8, all cells of a table are alike, and values are null unless said.
 */
#include "cases.h"

/* What the call at hand was lent, to be compared with what it leaves. */
typedef struct {
    uint8_t bytes[8 + 21 * N + 1];
    size_t length;
} buffer;

static const char *call;

static void row(const char *faults, uint32_t answer, uint32_t number)
{
    char what[160];
    snprintf(what, sizeof what, "%s, %s, answered by %u", call, faults, (unsigned)answer);
    expect(answer == number, what);
}

/* A refusal leaves what was lent as it came: a call that does not is answered by 0 here. */
static uint32_t unless_changed(uint32_t answer, const void *before, const void *after, size_t size)
{
    return memcmp(before, after, size) == 0 ? answer : 0;
}

/* Packets. */

static buffer packet(uint32_t kind, uint32_t switch_number, uint32_t instance, uint32_t round, uint32_t vote_round, uint64_t low)
{
    buffer p = {{0}, MYRTHAKEL_PACKET_LENGTH};
    make(p.bytes, kind, switch_number, instance, round, vote_round, low);
    return p;
}

static buffer request(void) { return packet(MYRTHAKEL_REQUEST, 9, 0, 0, MYRTHAKEL_NONE, 0x2a); }
static buffer prepare(void) { return packet(MYRTHAKEL_PREPARE, 1, 0, 1, MYRTHAKEL_NONE, 0); }
static buffer promise(uint32_t sender, uint32_t instance, uint32_t round) { return packet(MYRTHAKEL_PROMISE, sender, instance, round, MYRTHAKEL_NONE, 0); }
static buffer propose(uint32_t instance, uint32_t round) { return packet(MYRTHAKEL_PROPOSE, round % 4, instance, round, MYRTHAKEL_NONE, 0); }
static buffer vote(uint32_t sender, uint32_t instance, uint32_t round, uint64_t low) { return packet(MYRTHAKEL_VOTE, sender, instance, round, round, low); }

static buffer set(buffer p, size_t at, uint8_t byte)
{
    p.bytes[at] = byte;
    return p;
}

/* With a zero before it. */
static buffer shifted(buffer p)
{
    memmove(p.bytes + 1, p.bytes, p.length);
    p.bytes[0] = 0;
    p.length++;
    return p;
}

/* With a zero behind it. */
static buffer longer(buffer p)
{
    p.bytes[p.length++] = 0;
    return p;
}

static buffer zeros(size_t length)
{
    buffer b = {{0}, length};
    return b;
}

/* All calls that take a packet begin alike. The packet is one that the player takes, the other one is of another kind. */
typedef uint32_t step(uint32_t acceptors, buffer packet);

static void reading(step *give, uint32_t acceptors, buffer p, buffer other)
{
    row("7 before 1: M is 4, 37 bytes", give(4, shifted(p)), 7);
    row("1 before 2: 37 bytes, the mark from the second on", give(acceptors, shifted(p)), 1);
    row("2 before 3: another mark, version 2", give(acceptors, set(set(p, 0, 0), 5, 2)), 2);
    row("3 before 4: version 2, type 5", give(acceptors, set(set(p, 5, 2), 3, 5)), 3);
    row("4 before 5: type 5, round 4, which is nobody's", give(acceptors, set(set(p, 3, 5), 15, 4)), 4);
    row("5 before 6: another kind, in round 4", give(acceptors, set(other, 15, 4)), 5);
}

/* The primary, by a slice and by reference. */

typedef uint32_t primary_call(uint32_t next, uint32_t acceptors, buffer packet);

static uint32_t by_slice(uint32_t next, uint32_t acceptors, buffer p)
{
    buffer lent = p;
    uint32_t record = next, answer = myrthakel_primary_step(acceptors, N, lent.bytes, lent.length, &record, 1);
    return record == next ? unless_changed(answer, p.bytes, lent.bytes, sizeof p.bytes) : 0;
}

static uint32_t by_reference(uint32_t next, uint32_t acceptors, buffer p)
{
    buffer lent = p;
    struct myrthakel_primary record = {next};
    uint32_t answer = myrthakel_primary_request(acceptors, N, lent.bytes, lent.length, &record);
    return record.next == next ? unless_changed(answer, p.bytes, lent.bytes, sizeof p.bytes) : 0;
}

static uint32_t fresh_next(void)
{
    uint32_t next = 99;
    fresh(myrthakel_primary_fresh(M, N, &next, 1));
    return next;
}

static uint32_t fresh_by_slice(uint32_t acceptors, buffer p) { return by_slice(fresh_next(), acceptors, p); }
static uint32_t fresh_by_reference(uint32_t acceptors, buffer p) { return by_reference(fresh_next(), acceptors, p); }

static void primary_order(primary_call *give, step *give_fresh)
{
    reading(give_fresh, 3, request(), vote(0, 0, 0, 0));
    row("6 before 17: another kind, next above N", give(9, 3, vote(0, 0, 0, 0)), 6);
    row("6 before 12: another kind, next equals N", give(8, 5, vote(0, 0, 0, 0)), 6);
    row("17 and not 12: next above N", give(9, 7, request()), 17);
    row("12 and not 17: next equals N", give(8, 7, request()), 12);
}

/* Acceptor 0. */

static uint32_t acceptor(uint32_t round, uint32_t vote_round, uint32_t acceptors, buffer p)
{
    struct {
        buffer packet;
        uint32_t rounds[N], vote_rounds[N];
        uint64_t values[2 * N];
    } before, lent;
    memset(&before, 0xee, sizeof before);
    before.packet = p;
    fresh(myrthakel_acceptor_fresh(M, N, before.rounds, N, before.vote_rounds, N, before.values, 2 * N));
    for (int i = 0; i < N; i++) {
        before.rounds[i] = round;
        before.vote_rounds[i] = vote_round;
    }
    memcpy(&lent, &before, sizeof lent);
    uint32_t answer = myrthakel_acceptor_step(acceptors, N, 0, lent.packet.bytes, p.length, lent.rounds, N, lent.vote_rounds, N, lent.values, 2 * N);
    return unless_changed(answer, &before, &lent, sizeof lent);
}

static uint32_t fresh_acceptor(uint32_t acceptors, buffer p) { return acceptor(0, 0, acceptors, p); }

static void acceptor_order(void)
{
    reading(fresh_acceptor, 5, propose(0, 0), vote(0, 0, 0, 0));
    row("6 before 8: a vote, instance 8", acceptor(0, 0, 3, vote(0, 8, 0, 0)), 6);
    row("6 before 17: a vote, a vote round above the round", acceptor(1, 5, 5, vote(0, 0, 0, 0)), 6);
    row("8 before 17: instance 8, a vote round above the round", acceptor(1, 5, 5, propose(8, 1)), 8);
    row("8 before 10: instance 8, a round below", acceptor(5, 1, 7, propose(8, 1)), 8);
    row("17 before 10: a vote round above the round, a round below", acceptor(5, 9, 7, propose(0, 1)), 17);
    row("10: a round below", acceptor(5, 1, 3, propose(0, 1)), 10);
}

/* Backup 1, in round 1, with no vote told of. */

typedef struct {
    buffer packet;
    uint32_t rounds[N], best_vote_rounds[N];
    uint8_t phases[N], sets[N];
    uint64_t best_values[2 * N], own_values[2 * N];
} lent_to_backup;

static void lend_to_backup(lent_to_backup *b, buffer p, uint8_t phase, uint8_t set)
{
    memset(b, 0xee, sizeof *b);
    b->packet = p;
    fresh(myrthakel_backup_fresh(M, N, b->rounds, N, b->phases, N, b->sets, N, b->best_vote_rounds, N, b->best_values, 2 * N, b->own_values, 2 * N));
    for (int i = 0; i < N; i++) {
        b->rounds[i] = 1;
        b->phases[i] = phase;
        b->sets[i] = set;
    }
}

static uint32_t backup(uint8_t phase, uint8_t set, uint32_t acceptors, buffer p)
{
    lent_to_backup before, b;
    lend_to_backup(&before, p, phase, set);
    memcpy(&b, &before, sizeof b);
    uint32_t answer = myrthakel_backup_step(acceptors, N, 1, b.packet.bytes, p.length, b.rounds, N, b.phases, N, b.sets, N,
                                            b.best_vote_rounds, N, b.best_values, 2 * N, b.own_values, 2 * N);
    return unless_changed(answer, &before, &b, sizeof b);
}

static uint32_t asking_backup(uint32_t acceptors, buffer p) { return backup(1, 0, acceptors, p); }

static void backup_order(void)
{
    reading(asking_backup, 7, promise(0, 0, 1), vote(0, 0, 0, 0));
    row("6 before 8: a vote, instance 8", backup(1, 0, 3, vote(0, 8, 0, 0)), 6);
    row("6 before 17: a vote, phase 3", backup(3, 0, 7, vote(0, 0, 0, 0)), 6);
    row("8 before 9: instance 8, sender M", backup(1, 0, 3, promise(3, 8, 1)), 8);
    row("8 before 9: instance 8, sender M", backup(1, 0, 5, promise(5, 8, 1)), 8);
    row("9 before 17: sender M, phase 3", backup(3, 0, 3, promise(3, 0, 1)), 9);
    row("9 before 17: sender M, phase 3", backup(3, 0, 5, promise(5, 0, 1)), 9);
    row("8 before 17: instance 8, phase 3", backup(3, 0, 7, promise(6, 8, 1)), 8);
    row("5 and not 9: M is 7, sender 7", backup(3, 0, 7, set(promise(6, 8, 1), 7, 7)), 5);
    row("17 before 11: asking with majority, another round", backup(1, 3, 3, promise(2, 0, 5)), 17);
    row("17 before 11: asking with majority, another round", backup(1, 7, 5, promise(4, 0, 5)), 17);
    row("17 before 11: asking with majority, another round", backup(1, 15, 7, promise(6, 0, 5)), 17);
    row("17 before 11: not asking, phase 3", backup(3, 1, 3, promise(2, 0, 1)), 17);
    row("11 before 15: another round, sender in the set", backup(1, 1, 3, promise(0, 0, 5)), 11);
    row("11 before 15: another round, sender in the set", backup(1, 3, 5, promise(1, 0, 5)), 11);
    row("11 before 15: another round, sender in the set", backup(1, 7, 7, promise(2, 0, 5)), 11);
    row("11 before 15: proposed, sender in the set", backup(2, 3, 3, promise(0, 0, 1)), 11);
    row("11 before 15: proposed, sender in the set", backup(2, 7, 5, promise(1, 0, 1)), 11);
    row("11 before 15: proposed, sender in the set", backup(2, 15, 7, promise(2, 0, 1)), 11);
    row("15: sender in the set", backup(1, 7, 7, promise(2, 0, 1)), 15);
}

static uint32_t start(uint8_t phase, uint32_t acceptors, uint32_t instance, uint32_t floor, size_t length)
{
    lent_to_backup before, b;
    lend_to_backup(&before, zeros(length), phase, 0);
    memcpy(&b, &before, sizeof b);
    uint32_t answer = myrthakel_backup_start(acceptors, N, 1, instance, floor, 0, 0, b.packet.bytes, length, b.rounds, N, b.phases, N, b.sets, N,
                                             b.best_vote_rounds, N, b.best_values, 2 * N, b.own_values, 2 * N);
    return unless_changed(answer, &before, &b, sizeof b);
}

static void start_order(void)
{
    row("7 before 1: M is 4, 35 bytes", start(1, 4, 0, 0, 35), 7);
    row("1 before 8: 35 bytes, instance 8", start(1, 3, 8, 0, 35), 1);
    row("1 before 17: 35 bytes, phase 3", start(3, 5, 0, 0, 35), 1);
    row("8 before 17: instance 8, phase 3", start(3, 5, 8, 0, 36), 8);
    row("8 before 16: instance 8, no round above the floor", start(1, 7, 8, UINT32_C(4294967295), 36), 8);
    row("17 before 16: phase 3, no round above the floor", start(3, 7, 0, UINT32_C(4294967295), 36), 17);
    row("16: no round above the floor", start(1, 7, 0, UINT32_C(4294967295), 36), 16);
}

/* The learner, in round 5; without voters its cells are impossible. */

typedef struct {
    buffer bytes;
    uint32_t rounds[N];
    uint8_t sets[N];
    uint64_t values[2 * N];
} lent_to_learner;

static void lend_to_learner(lent_to_learner *l, buffer bytes, uint8_t set)
{
    memset(l, 0xee, sizeof *l);
    l->bytes = bytes;
    fresh(myrthakel_learner_fresh(M, N, l->rounds, N, l->sets, N, l->values, 2 * N));
    for (int i = 0; i < N; i++) {
        l->rounds[i] = 5;
        l->sets[i] = set;
    }
}

static uint32_t learner(uint8_t set, uint32_t acceptors, buffer p)
{
    lent_to_learner before, l;
    lend_to_learner(&before, p, set);
    memcpy(&l, &before, sizeof l);
    uint32_t answer = myrthakel_learner_step(acceptors, N, l.bytes.bytes, p.length, l.rounds, N, l.sets, N, l.values, 2 * N);
    return unless_changed(answer, &before, &l, sizeof l);
}

static uint32_t hearing_learner(uint32_t acceptors, buffer p) { return learner(1, acceptors, p); }

static void learner_order(void)
{
    reading(hearing_learner, 3, vote(1, 0, 5, 0), promise(1, 0, 5));
    row("6 before 8: a promise, instance 8", learner(1, 5, promise(1, 8, 5)), 6);
    row("6 before 17: a promise, no voters", learner(0, 7, promise(1, 0, 5)), 6);
    row("8 before 9: instance 8, sender M", learner(1, 3, vote(3, 8, 5, 0)), 8);
    row("8 before 9: instance 8, sender M", learner(1, 5, vote(5, 8, 5, 0)), 8);
    row("9 before 17: sender M, no voters", learner(0, 3, vote(3, 0, 5, 0)), 9);
    row("9 before 17: sender M, no voters", learner(0, 5, vote(5, 0, 5, 0)), 9);
    row("8 before 17: instance 8, no voters", learner(0, 7, vote(6, 8, 5, 0)), 8);
    row("5 and not 9: M is 7, sender 7", learner(0, 7, set(vote(6, 8, 5, 0), 7, 7)), 5);
    row("17 before 14: more voters than majority", learner(7, 3, vote(0, 0, 5, 0)), 17);
    row("17 before 14: more voters than majority", learner(15, 5, vote(0, 0, 5, 0)), 17);
    row("17 before 14: more voters than majority", learner(31, 7, vote(0, 0, 5, 0)), 17);
    row("14 before 10: decided, a round below", learner(3, 3, vote(2, 0, 1, 0)), 14);
    row("14 before 10: decided, a round below", learner(7, 5, vote(4, 0, 1, 0)), 14);
    row("14 before 10: decided, a round below", learner(15, 7, vote(6, 0, 1, 0)), 14);
    row("14 before 13: decided, another value", learner(3, 3, vote(2, 0, 5, 0x2a)), 14);
    row("14 before 13: decided, another value", learner(7, 5, vote(4, 0, 5, 0x2a)), 14);
    row("14 before 13: decided, another value", learner(15, 7, vote(6, 0, 5, 0x2a)), 14);
    row("10 and not 13: a round below, another value", learner(1, 3, vote(2, 0, 1, 0x2a)), 10);
    row("13 and not 10: the same round, another value", learner(1, 3, vote(2, 0, 5, 0x2a)), 13);
    row("10 before 15: a round below, sender in the set", learner(1, 3, vote(0, 0, 1, 0)), 10);
    row("10 before 15: a round below, sender in the set", learner(3, 5, vote(1, 0, 1, 0)), 10);
    row("10 before 15: a round below, sender in the set", learner(7, 7, vote(2, 0, 1, 0)), 10);
    row("13 before 15: another value, sender in the set", learner(1, 3, vote(0, 0, 5, 0x2a)), 13);
    row("13 before 15: another value, sender in the set", learner(3, 5, vote(1, 0, 5, 0x2a)), 13);
    row("13 before 15: another value, sender in the set", learner(7, 7, vote(2, 0, 5, 0x2a)), 13);
    row("15: sender in the set", learner(7, 7, vote(2, 0, 5, 0)), 15);
}

static uint32_t answer(uint8_t set, uint32_t acceptors, uint32_t instance)
{
    lent_to_learner l;
    uint64_t before[2] = {1, 2}, lent[2] = {1, 2};
    lend_to_learner(&l, zeros(0), set);
    uint32_t answered = myrthakel_learner_answer(acceptors, N, instance, l.rounds, N, l.sets, N, l.values, 2 * N, &lent[0], &lent[1]);
    return unless_changed(answered, before, lent, sizeof lent);
}

static void answer_order(void)
{
    row("7 before 8: M is 4, instance 8", answer(1, 4, 8), 7);
    row("7 before 17: M is 4, no voters", answer(0, 4, 0), 7);
    row("8 before 17: instance 8, no voters", answer(0, 5, 8), 8);
    row("17: no voters", answer(0, 7, 0), 17);
}

static uint32_t delivery(uint8_t set, uint32_t acceptors, size_t length)
{
    lent_to_learner before, l;
    uint32_t count = 99;
    lend_to_learner(&before, zeros(length), set);
    memcpy(&l, &before, sizeof l);
    uint32_t answered = myrthakel_learner_deliver(acceptors, N, l.rounds, N, l.sets, N, l.values, 2 * N, l.bytes.bytes, length, &count);
    return count == 99 ? unless_changed(answered, &before, &l, sizeof l) : 0;
}

static uint32_t hole(uint8_t set, uint32_t acceptors)
{
    lent_to_learner l;
    uint32_t before = 99, lent = 99;
    lend_to_learner(&l, zeros(0), set);
    uint32_t answered = myrthakel_learner_first_hole(acceptors, N, l.rounds, N, l.sets, N, l.values, 2 * N, &lent);
    return unless_changed(answered, &before, &lent, sizeof lent);
}

static uint32_t saving(uint8_t set, uint32_t acceptors, size_t length)
{
    lent_to_learner before, l;
    lend_to_learner(&before, zeros(length), set);
    memcpy(&l, &before, sizeof l);
    uint32_t answered = myrthakel_learner_save(acceptors, N, l.rounds, N, l.sets, N, l.values, 2 * N, l.bytes.bytes, length);
    return unless_changed(answered, &before, &l, sizeof l);
}

static void walk_orders(void)
{
    row("delivery, 7 before 1: M is 4, 127 bytes", delivery(1, 4, 127), 7);
    row("delivery, 1 before 17: 127 bytes, no voters", delivery(0, 5, 127), 1);
    row("delivery, 17: no voters", delivery(0, 7, 128), 17);
    row("holes, 7 before 17: M is 4, no voters", hole(0, 4), 7);
    row("holes, 17: no voters", hole(0, 5), 17);
    row("saving, 7 before 1: M is 4, 175 bytes", saving(1, 4, 175), 7);
    row("saving, 1 before 17: 175 bytes, no voters", saving(0, 5, 175), 1);
    row("saving, 17: no voters", saving(0, 7, 176), 17);
}

/* A header for M = 5 and N = 8, and cells of round 0 without voters. */
static buffer saved(void)
{
    buffer b = {{'R', 'D', 'T', 0, 1, 5, 0, 8}, 176};
    return b;
}

static uint32_t reading_back(uint32_t acceptors, buffer bytes)
{
    lent_to_learner before, l;
    lend_to_learner(&before, bytes, 1);
    memcpy(&l, &before, sizeof l);
    uint32_t answered = myrthakel_learner_read_saved(acceptors, N, l.bytes.bytes, bytes.length, l.rounds, N, l.sets, N, l.values, 2 * N);
    return unless_changed(answered, &before, &l, sizeof l);
}

static void reading_back_order(void)
{
    row("7 before 1: M is 4, 7 bytes", reading_back(4, zeros(7)), 7);
    row("1 before 2: 7 bytes, another mark", reading_back(5, zeros(7)), 1);
    row("2 before 3: another mark, version 2", reading_back(5, set(set(saved(), 0, 0), 4, 2)), 2);
    row("3 before 7: version 2, M saved is 7", reading_back(5, set(set(saved(), 4, 2), 5, 7)), 3);
    row("7 before 1: M saved is 7, 177 bytes", reading_back(5, longer(set(saved(), 5, 7))), 7);
    row("7 before 1: N saved is 9, 177 bytes", reading_back(5, longer(set(saved(), 7, 9))), 7);
    row("1 before 17: 177 bytes, no voters", reading_back(5, longer(saved())), 1);
    row("17: no voters", reading_back(5, saved()), 17);
}

/* Writing a packet of value v over zeros, and reading one into numbers. */

static uint32_t writing(uint32_t kind, uint32_t switch_number, uint32_t round, size_t length)
{
    buffer before = zeros(length), lent = zeros(length);
    uint32_t answered = myrthakel_packet_write(kind, switch_number, 0, round, MYRTHAKEL_NONE, 0, 0x2a, lent.bytes, length);
    return unless_changed(answered, before.bytes, lent.bytes, sizeof before.bytes);
}

static void writing_order(void)
{
    row("1 before 4: 35 bytes, type 5", writing(5, 9, 0, 35), 1);
    row("1 before 5: 37 bytes, switch number 65,536", writing(0, 65536, 0, 37), 1);
    row("4 before 5: type 5, switch number 65,536", writing(5, 65536, 0, 36), 4);
    row("4 before 5: type 256, a round that a request has not", writing(256, 9, 1, 36), 4);
    row("5: a request's switch number 65,536", writing(0, 65536, 0, 36), 5);
    row("5: a round that a request has not", writing(0, 9, 1, 36), 5);
}

static uint32_t reading_into(buffer p)
{
    buffer lent = p;
    fields before = {11, 12, 13, 14, 15, 16, 17}, f = before;
    uint32_t answered = read_fields(lent.bytes, lent.length, &f);
    return same_fields(&f, &before) ? unless_changed(answered, p.bytes, lent.bytes, sizeof p.bytes) : 0;
}

static void reading_into_order(void)
{
    row("1 before 2: 37 bytes, the mark from the second on", reading_into(shifted(request())), 1);
    row("2 before 3: another mark, version 2", reading_into(set(set(request(), 0, 0), 5, 2)), 2);
    row("3 before 4: version 2, type 5", reading_into(set(set(request(), 5, 2), 3, 5)), 3);
    row("4 before 5: type 5, round 4, which is nobody's", reading_into(set(set(request(), 3, 5), 15, 4)), 4);
    row("5: round 4, which is nobody's", reading_into(set(request(), 15, 4)), 5);
}

/* Frames from 192.0.2.1:40001 to 192.0.2.10:47036, both checksums right whatever the packet says. */

enum { PORT = 47036, PACKET = 42 };

static buffer frame_with(buffer p)
{
    buffer f = {{0x02, 0x00, 0x00, 0x00, 0x00, 0x0a, 0x02, 0x00, 0x00, 0x00, 0x00, 0x01, 0x08, 0x00, 0x45, 0x00, 0x00, 0x40, 0x00, 0x00, 0x00, 0x00, 0x40, 0x11,
                 0x00, 0x00, 0xc0, 0x00, 0x02, 0x01, 0xc0, 0x00, 0x02, 0x0a, 0x9c, 0x41, 0xb7, 0xbc, 0x00, 0x2c, 0x00, 0x00}, MYRTHAKEL_FRAME_LENGTH};
    memcpy(f.bytes + PACKET, p.bytes, MYRTHAKEL_PACKET_LENGTH);
    expect(myrthakel_frame_seal(f.bytes, f.length) == MYRTHAKEL_DONE, "a frame of the test's is sealed");
    return f;
}

/* All that judge a frame do it alike. A byte that is changed alone leaves the checksum over it wrong. */
static void judging(step *give, buffer f)
{
    row("21 before 22: 79 bytes, the EtherType from the second on", give(3, shifted(f)), 21);
    row("22 before 23: total length 65, and so another IPv4 checksum", give(3, set(f, 17, 65)), 22);
    row("23 before 24: another IPv4 checksum, another port", give(3, set(set(f, 25, 0), 37, 0)), 23);
    row("24 before 25: another port, and so another UDP checksum", give(3, set(f, 37, 0)), 24);
    row("24 before 25: UDP length 45, and so another UDP checksum", give(3, set(f, 39, 45)), 24);
    row("25 before 2: another mark, and so another UDP checksum", give(3, set(f, 42, 0)), 25);
}

/* The check has no settings, and is given its frame read-only. */
static uint32_t checking(uint32_t acceptors, buffer f)
{
    (void)acceptors;
    return myrthakel_frame_check(PORT, f.bytes, f.length);
}

static uint32_t sealing(buffer f)
{
    buffer lent = f;
    uint32_t answered = myrthakel_frame_seal(lent.bytes, lent.length);
    return unless_changed(answered, f.bytes, lent.bytes, sizeof f.bytes);
}

static void sealing_order(void)
{
    row("21 before 22: 79 bytes, the EtherType from the second on", sealing(shifted(frame_with(request()))), 21);
    row("22 before 24: another EtherType, UDP length 45", sealing(set(set(frame_with(request()), 13, 1), 39, 45)), 22);
    row("24: UDP length 45", sealing(set(frame_with(request()), 39, 45)), 24);
}

/* Framing into 77 bytes, which is a fault of every row. */
static uint32_t framing(buffer p)
{
    static const uint8_t address[6];
    buffer before = zeros(77), lent = zeros(77);
    uint32_t answered = myrthakel_frame_prepare(p.bytes, p.length, address, address, 0, 0, 0, 0, lent.bytes, lent.length);
    return unless_changed(answered, before.bytes, lent.bytes, sizeof before.bytes);
}

static void framing_order(void)
{
    row("1 before 2: 37 bytes, the mark from the second on", framing(shifted(prepare())), 1);
    row("2 before 3: another mark, version 2", framing(set(set(prepare(), 0, 0), 5, 2)), 2);
    row("3 before 4: version 2, type 5", framing(set(set(prepare(), 5, 2), 3, 5)), 3);
    row("4 before 5: type 5, round 4, which is nobody's", framing(set(set(prepare(), 3, 5), 15, 4)), 4);
    row("5 before 6: another kind, in round 4", framing(set(request(), 15, 4)), 5);
    row("6 before 21: another kind", framing(request()), 6);
    row("21: 77 bytes", framing(prepare()), 21);
}

/* The players' calls on frames. */

static void on_frames(step *give, buffer p)
{
    row("7 before 21: M is 4, 79 bytes", give(4, shifted(frame_with(p))), 7);
    judging(give, frame_with(p));
    row("2 before 3: another mark, version 2", give(3, frame_with(set(set(p, 0, 0), 5, 2))), 2);
}

static uint32_t to_primary(uint32_t acceptors, buffer f)
{
    buffer lent = f;
    uint32_t next = 0, answered = myrthakel_primary_frame(acceptors, N, PORT, lent.bytes, lent.length, &next, 1);
    return next == 0 ? unless_changed(answered, f.bytes, lent.bytes, sizeof f.bytes) : 0;
}

static uint32_t to_acceptor(uint32_t acceptors, buffer f)
{
    struct {
        buffer frame;
        uint32_t rounds[N], vote_rounds[N];
        uint64_t values[2 * N];
    } before, lent;
    memset(&before, 0, sizeof before);
    before.frame = f;
    memcpy(&lent, &before, sizeof lent);
    uint32_t answered = myrthakel_acceptor_frame(acceptors, N, 0, PORT, lent.frame.bytes, f.length, lent.rounds, N, lent.vote_rounds, N, lent.values, 2 * N);
    return unless_changed(answered, &before, &lent, sizeof lent);
}

static uint32_t to_backup(uint32_t acceptors, buffer f)
{
    lent_to_backup before, b;
    lend_to_backup(&before, f, 1, 0);
    memcpy(&b, &before, sizeof b);
    uint32_t answered = myrthakel_backup_frame(acceptors, N, 1, PORT, b.packet.bytes, f.length, b.rounds, N, b.phases, N, b.sets, N,
                                               b.best_vote_rounds, N, b.best_values, 2 * N, b.own_values, 2 * N);
    return unless_changed(answered, &before, &b, sizeof b);
}

static uint32_t to_learner(uint32_t acceptors, buffer f)
{
    lent_to_learner before, l;
    lend_to_learner(&before, f, 1);
    memcpy(&l, &before, sizeof l);
    uint32_t answered = myrthakel_learner_frame(acceptors, N, PORT, l.bytes.bytes, f.length, l.rounds, N, l.sets, N, l.values, 2 * N);
    return unless_changed(answered, &before, &l, sizeof l);
}

/* Entering a value in a ledger. */

typedef struct {
    uint32_t passes[MYRTHAKEL_PASSES], last_scans[MYRTHAKEL_PASSES], count;
    uint16_t last_days[MYRTHAKEL_PASSES];
    uint8_t rides_left[MYRTHAKEL_PASSES];
} lent_to_ledger;

/* The passes 0, 1, .. in use, so many, each with so many rides left, last day 300 and last scan 5. */
static uint32_t entering(uint32_t count, uint8_t rides_left, buffer value)
{
    lent_to_ledger before, l;
    memset(&before, 0, sizeof before);
    for (uint32_t i = 0; i < MYRTHAKEL_PASSES; i++) {
        before.passes[i] = i;
        before.rides_left[i] = rides_left;
        before.last_days[i] = 300;
        before.last_scans[i] = 5;
    }
    before.count = count;
    memcpy(&l, &before, sizeof l);
    uint32_t answered = myrthakel_ledger_enter(value.bytes, value.length, l.passes, MYRTHAKEL_PASSES, l.rides_left, MYRTHAKEL_PASSES,
                                               l.last_days, MYRTHAKEL_PASSES, l.last_scans, MYRTHAKEL_PASSES, &l.count);
    return unless_changed(answered, &before, &l, sizeof l);
}

static buffer entry(uint8_t kind, uint8_t rides, uint32_t pass, uint32_t day, uint8_t scan)
{
    return (buffer){{kind, rides, 0, 0, (uint8_t)(pass >> 8), (uint8_t)pass, (uint8_t)(day >> 8), (uint8_t)day, 0, 0, 0, scan}, MYRTHAKEL_VALUE_LENGTH};
}

static buffer sale(uint8_t rides, uint32_t pass) { return entry(MYRTHAKEL_SALE, rides, pass, 300, 0); }
static buffer boarding(uint8_t rides, uint32_t pass, uint32_t day, uint8_t scan) { return entry(MYRTHAKEL_BOARDING, rides, pass, day, scan); }

static void entering_order(void)
{
    row("30 before null: 41 rides left, null", entering(1, 41, zeros(16)), 30);
    row("30 before 31: 41 rides left, 17 bytes", entering(1, 41, zeros(17)), 30);
    row("null before 31: kind 0", entering(1, 0, zeros(16)), 111);
    row("31 before 32: 41 rides, a known pass", entering(1, 0, sale(41, 0)), 31);
    row("32 before 33: a known pass, 256 in use", entering(256, 0, sale(1, 255)), 32);
    row("33: an unknown pass, 256 in use", entering(256, 0, sale(1, 256)), 33);
    row("31 before 34: a boarding with rides 1, an unknown pass", entering(1, 0, boarding(1, 1, 300, 6)), 31);
    row("34: an unknown pass", entering(1, 0, boarding(0, 1, 301, 5)), 34);
    row("35 before 36: the day after the last, the last scan", entering(1, 1, boarding(0, 0, 301, 5)), 35);
    row("35 before 37: the day after the last, no ride left", entering(1, 0, boarding(0, 0, 301, 6)), 35);
    row("36 before 37: the last scan, no ride left", entering(1, 0, boarding(0, 0, 300, 5)), 36);
    row("37: no ride left", entering(1, 0, boarding(0, 0, 300, 6)), 37);
}

int main(void)
{
    call = "primary by a slice";
    primary_order(by_slice, fresh_by_slice);
    call = "primary by reference";
    primary_order(by_reference, fresh_by_reference);
    call = "acceptor";
    acceptor_order();
    call = "backup";
    backup_order();
    call = "start";
    start_order();
    call = "learner";
    learner_order();
    call = "answer";
    answer_order();
    call = "walks";
    walk_orders();
    call = "reading back";
    reading_back_order();
    call = "writing a packet";
    writing_order();
    call = "reading a packet";
    reading_into_order();
    call = "checking a frame";
    judging(checking, frame_with(request()));
    call = "sealing a frame";
    sealing_order();
    call = "framing a prepare";
    framing_order();
    call = "primary on frames";
    on_frames(to_primary, request());
    call = "acceptor on frames";
    on_frames(to_acceptor, propose(0, 0));
    call = "backup on frames";
    on_frames(to_backup, promise(0, 0, 1));
    call = "learner on frames";
    on_frames(to_learner, vote(1, 0, 5, 0));
    call = "entering a value";
    entering_order();
    return told();
}
