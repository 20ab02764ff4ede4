/* What the operator has in hand: the players' processes, the wires between them, and what is heard from both. */
#ifndef OPERATOR_H
#define OPERATOR_H

#include "players.h"

typedef struct {
    uint32_t kind, instance, round, vote_round;
    entry value;
} message;

/* The wires from the primary to acceptor i, and from acceptor i to learner 1, pass through the operator's hands; the others are whole. */
enum { PROPOSE_WIRE, VOTE_WIRE = ACCEPTORS, WIRES = 2 * ACCEPTORS };

/* What a wire did with a frame. Numbers that no call answers, since a wire is heard like a player. */
enum { PASSED_ON = 200, LOST, HELD_BACK };

/* Players and wires are heard alike: sources below PLAYERS are the players, WIRE(i) is wire i. */
#define WIRE(wire) (PLAYERS + (wire))
enum { SOURCES = PLAYERS + WIRES };

/* Opens PLAYERS + WIRES ports from the first on and the file for frames that reach a player, and starts the players, or ends the program with a message. */
void start_players(uint16_t first_port, const char *capture_path);
void end_players(void);

/* Kills a player's process. Answers whether it was running until then. */
int kill_player(int player);

/* The wire will lose or hold back the next packet of the instance; all others pass. */
void arrange(int wire, uint32_t instance, uint32_t what);

/* Lets the packets of the instance that were held back go on. */
void release(uint32_t instance);

void send_request(entry value);
void send_command(int player, uint32_t kind, uint32_t instance, entry value);

/* Whether the source is heard with this verdict on this message (whatever its switch number), now or within the time that the operator waits. */
int await(int source, uint32_t verdict, const message *wanted);

/* Asks a learner. Answers null where it does not answer. */
const learned *ask_learner(int learner);

/* Listens for so long, and names the processes, so that a user can stop one and watch. */
void listen_for(int milliseconds);
void name_processes(void);

/* A player's name, good until the next call. */
const char *player_name(int player);

#endif
