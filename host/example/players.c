/*
 * The players' processes. Each does what the verdicts of its own player's calls say: the library sends nothing and waits for nothing.
 *
 * What the host owes by myrthakel.h holds by construction: each table is an array of its own in one process without threads, so none overlap and each
 * is lent to one call at a time, and each length is its array's. A ledger is its learner's: it begins with count 0 and reads on as the delivered list grows.
 *
 * The tables live as long as the process. An acceptor that ended must not come back with fresh ones, which would have forgotten its promises and
 * votes; nor a primary, which would propose for instances that it has used; nor a backup, which would propose another value in a round that it has
 * used; nor a learner, which would say "not yet" of what it reported. This host therefore never restarts a player.
 */
#define _POSIX_C_SOURCE 200809L
#include "players.h"

#include <errno.h>
#include <poll.h>
#include <string.h>
#include <sys/socket.h>
#include <unistd.h>

/* One byte more than a frame, so that a datagram that is too long is seen to be, and refused by its length. */
typedef struct {
    uint8_t bytes[MYRTHAKEL_FRAME_LENGTH + 1];
    size_t length;
} datagram;

static void tell_operator(const place *here, const report *what)
{
    /* The operator may be gone; the next wait sees that. */
    (void)send(here->control, what, sizeof *what, MSG_NOSIGNAL);
}

/* A frame still has the addresses that it came with, so each copy is addressed anew and sealed. It is as a call left it, so none that is damaged is sealed. */
static void forward(const place *here, int to, const uint8_t *frame)
{
    uint8_t copy[MYRTHAKEL_FRAME_LENGTH];
    memcpy(copy, frame, sizeof copy);
    if (address_frame(copy, here->player, to))
        send_frame(here->socket, here->ports[to], copy);
}

/* Sends where the verdict says, which is nowhere for hold, decided and every refusal, and reports. */
static void carry_out(const place *here, uint32_t verdict, const uint8_t *frame)
{
    report what = {.verdict = verdict};
    if (verdict == MYRTHAKEL_TO_ACCEPTORS)
        for (int i = 0; i < ACCEPTORS; i++)
            forward(here, i, frame);
    else if (verdict == MYRTHAKEL_TO_LEADER)
        forward(here, BACKUP, frame);
    else if (verdict == MYRTHAKEL_TO_LEARNERS)
        for (int i = LEARNER_1; i <= LEARNER_2; i++)
            forward(here, i, frame);
    memcpy(what.frame, frame, sizeof what.frame);
    tell_operator(here, &what);
}

/* Reads a command for this player and answers 1. A roll call is answered here; the process ends where the operator is gone. */
static int read_command(const place *here, command *order)
{
    ssize_t length = recv(here->control, order, sizeof *order, 0);
    if (length <= 0)
        _exit(0);
    if (length != (ssize_t)sizeof *order)
        return 0;
    if (order->kind == ROLL_CALL)
        tell_operator(here, &(report){.verdict = MYRTHAKEL_DONE});
    return order->kind != ROLL_CALL;
}

/* Waits for a frame or a command. Answers 1 for a command. Where a frame cannot be recorded the process ends: the file would tell less than what passed. */
static int next(const place *here, datagram *frame, command *order)
{
    for (;;) {
        struct pollfd waiting[2] = {{.fd = here->control, .events = POLLIN}, {.fd = here->socket, .events = POLLIN}};
        if (poll(waiting, 2, -1) < 0) {
            if (errno != EINTR)
                _exit(1);
            continue;
        }
        if (waiting[0].revents && read_command(here, order))
            return 1;
        if (waiting[1].revents) {
            memset(frame, 0, sizeof *frame);
            ssize_t length = recv(here->socket, frame->bytes, sizeof frame->bytes, MSG_DONTWAIT);
            if (length >= 0) {
                frame->length = (size_t)length;
                if (!record_frame(here->capture, frame->bytes, frame->length))
                    _exit(1);
                return 0;
            }
        }
    }
}

/* Tables begin fresh, by the player's own call and this once. Where that is refused the process ends, and the operator misses it at the roll call. */
static void begin(uint32_t answer)
{
    if (answer != MYRTHAKEL_DONE)
        _exit(1);
}

static _Noreturn void play_primary(const place *here)
{
    uint32_t next_instance;
    datagram frame;
    command order;
    begin(myrthakel_primary_fresh(ACCEPTORS, INSTANCES, &next_instance, 1));
    for (;;)
        if (!next(here, &frame, &order))
            carry_out(here, myrthakel_primary_frame(ACCEPTORS, INSTANCES, FRAME_PORT, frame.bytes, frame.length, &next_instance, 1), frame.bytes);
}

static _Noreturn void play_acceptor(const place *here)
{
    uint32_t own = (uint32_t)here->player, rounds[INSTANCES], vote_rounds[INSTANCES];
    uint64_t values[2 * INSTANCES];
    datagram frame;
    command order;
    begin(myrthakel_acceptor_fresh(ACCEPTORS, INSTANCES, rounds, INSTANCES, vote_rounds, INSTANCES, values, 2 * INSTANCES));
    for (;;)
        if (!next(here, &frame, &order))
            carry_out(here, myrthakel_acceptor_frame(ACCEPTORS, INSTANCES, own, FRAME_PORT, frame.bytes, frame.length, rounds, INSTANCES,
                                                     vote_rounds, INSTANCES, values, 2 * INSTANCES), frame.bytes);
}

/* Frames a started prepare, for the first acceptor: each acceptor's copy is addressed anew. Of a start that was refused there is none. */
static void frame_started(const place *here, uint32_t verdict, const uint8_t *prepare, uint8_t *frame)
{
    address own = address_of(here->player), to = address_of(0);
    memset(frame, 0, MYRTHAKEL_FRAME_LENGTH);
    if (verdict == MYRTHAKEL_TO_ACCEPTORS)
        (void)myrthakel_frame_prepare(prepare, MYRTHAKEL_PACKET_LENGTH, to.ethernet, own.ethernet, own.ip, to.ip, FRAME_PORT, FRAME_PORT,
                                      frame, MYRTHAKEL_FRAME_LENGTH);
}

static _Noreturn void play_backup(const place *here)
{
    uint32_t rounds[INSTANCES], best_vote_rounds[INSTANCES];
    uint8_t phases[INSTANCES], sets[INSTANCES];
    uint64_t best_values[2 * INSTANCES], own_values[2 * INSTANCES];
    uint8_t prepare[MYRTHAKEL_PACKET_LENGTH];
    datagram frame;
    command order;
    begin(myrthakel_backup_fresh(ACCEPTORS, INSTANCES, rounds, INSTANCES, phases, INSTANCES, sets, INSTANCES, best_vote_rounds, INSTANCES,
                                 best_values, 2 * INSTANCES, own_values, 2 * INSTANCES));
    for (;;) {
        uint32_t verdict;
        if (next(here, &frame, &order)) {
            verdict = myrthakel_backup_start(ACCEPTORS, INSTANCES, BACKUP_NUMBER, order.instance, order.floor, order.value_high, order.value_low,
                                             prepare, sizeof prepare, rounds, INSTANCES, phases, INSTANCES, sets, INSTANCES,
                                             best_vote_rounds, INSTANCES, best_values, 2 * INSTANCES, own_values, 2 * INSTANCES);
            frame_started(here, verdict, prepare, frame.bytes);
        } else {
            verdict = myrthakel_backup_frame(ACCEPTORS, INSTANCES, BACKUP_NUMBER, FRAME_PORT, frame.bytes, frame.length,
                                             rounds, INSTANCES, phases, INSTANCES, sets, INSTANCES,
                                             best_vote_rounds, INSTANCES, best_values, 2 * INSTANCES, own_values, 2 * INSTANCES);
        }
        carry_out(here, verdict, frame.bytes);
    }
}

typedef struct {
    uint32_t rounds[INSTANCES];
    uint8_t sets[INSTANCES];
    uint64_t values[2 * INSTANCES];
} learner_tables;

/* What the delivered list has gained goes to the ledger, each value once and in order. Answers as delivery does. */
static uint32_t read_on(const learner_tables *tables, learned *known)
{
    uint32_t before = known->delivered_count;
    uint32_t answer = myrthakel_learner_deliver(ACCEPTORS, INSTANCES, tables->rounds, INSTANCES, tables->sets, INSTANCES, tables->values, 2 * INSTANCES,
                                                known->delivered, sizeof known->delivered, &known->delivered_count);
    for (uint32_t i = before; i < known->delivered_count; i++)
        known->entered[i] = enter(&known->rides, known->delivered + i * MYRTHAKEL_VALUE_LENGTH);
    return answer;
}

static void answer_question(const place *here, const learner_tables *tables, learned *known)
{
    for (uint32_t i = 0; i < INSTANCES; i++) {
        uint64_t high = 0, low = 0;
        known->answers[i] = myrthakel_learner_answer(ACCEPTORS, INSTANCES, i, tables->rounds, INSTANCES, tables->sets, INSTANCES,
                                                     tables->values, 2 * INSTANCES, &high, &low);
        put_number(known->values + i * MYRTHAKEL_VALUE_LENGTH, 8, high);
        put_number(known->values + i * MYRTHAKEL_VALUE_LENGTH + 8, 8, low);
    }
    known->hole_answer = myrthakel_learner_first_hole(ACCEPTORS, INSTANCES, tables->rounds, INSTANCES, tables->sets, INSTANCES,
                                                      tables->values, 2 * INSTANCES, &known->hole);
    /* Where the list is refused the answer as a whole is not done, and the operator misses it. */
    uint32_t verdict = read_on(tables, known);
    tell_operator(here, &(report){.verdict = verdict, .learned = *known});
}

/* The ledger begins with count 0, as the list does. */
static _Noreturn void play_learner(const place *here)
{
    learner_tables tables;
    learned known = {0};
    datagram frame;
    command order;
    begin(myrthakel_learner_fresh(ACCEPTORS, INSTANCES, tables.rounds, INSTANCES, tables.sets, INSTANCES, tables.values, 2 * INSTANCES));
    for (;;) {
        if (next(here, &frame, &order)) {
            answer_question(here, &tables, &known);
            continue;
        }
        uint32_t verdict = myrthakel_learner_frame(ACCEPTORS, INSTANCES, FRAME_PORT, frame.bytes, frame.length, tables.rounds, INSTANCES,
                                                   tables.sets, INSTANCES, tables.values, 2 * INSTANCES);
        if (verdict == MYRTHAKEL_DECIDED)
            (void)read_on(&tables, &known);
        carry_out(here, verdict, frame.bytes);
    }
}

_Noreturn void play(const place *here)
{
    if (here->player == PRIMARY)
        play_primary(here);
    if (here->player == BACKUP)
        play_backup(here);
    if (here->player >= LEARNER_1)
        play_learner(here);
    play_acceptor(here);
}
