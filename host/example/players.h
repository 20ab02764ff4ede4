/* The players as processes: what each is given, and the records between it and the operator. */
#ifndef PLAYERS_H
#define PLAYERS_H

#include "frames.h"
#include "ledger.h"

/* M and N, the same in every call of the run, and the backup's own number. */
enum { ACCEPTORS = 3, INSTANCES = 8, BACKUP_NUMBER = 1 };

/* Player i below ACCEPTORS is acceptor i. Behind the players, among the boxes that frames go between, stands the clients'. */
enum { PRIMARY = ACCEPTORS, BACKUP, LEARNER_1, LEARNER_2, PLAYERS, CLIENT = PLAYERS };

/* What a player is given: its own number and UDP socket, its line to the operator, the file for frames that arrive, and the ports that lead to others. */
typedef struct {
    int player, socket, control, capture;
    uint16_t ports[PLAYERS];
} place;

/* From the operator, one datagram each. Every player answers a roll call; the backup takes a start, a learner a question. */
enum { ROLL_CALL, START, QUESTION };

typedef struct {
    uint32_t kind;
    uint32_t instance, floor; /* these and the value are for a start */
    uint64_t value_high, value_low;
} command;

/* What a learner says when asked. */
typedef struct {
    uint32_t answers[INSTANCES]; /* for each instance: done, with its value, or not yet */
    uint8_t values[INSTANCES * MYRTHAKEL_VALUE_LENGTH];
    uint32_t delivered_count;
    uint8_t delivered[INSTANCES * MYRTHAKEL_VALUE_LENGTH];
    uint32_t entered[INSTANCES]; /* for each delivered value: what the ledger answered */
    ledger rides;
    uint32_t hole_answer, hole;
} learned;

/* To the operator, one datagram for each step or start: its answer, and the frame as it left it. Roll call and question are answered by done. */
typedef struct {
    uint32_t verdict;
    uint8_t frame[MYRTHAKEL_FRAME_LENGTH];
    learned learned;
} report;

/* Plays until the operator's end of the control line is closed, and then ends the process. */
_Noreturn void play(const place *here);

#endif
