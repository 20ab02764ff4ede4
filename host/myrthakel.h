/*
 * The exported calls of the proved players, and of the ride ledger above them, for a host in C or C++.
 *
 * A call takes whatever packet, tables and settings it is given, and answers a verdict or a refusal. It does no input or output, keeps nothing, and
 * never blocks. A refusal leaves every byte that was lent as it came.
 *
 * What the host owes: each pointer refers to as many elements as the length after it says (where the length is 0, the pointer is not null all the
 * same), what is lent to one call does not overlap, and a table is lent to one call at a time. No call can check these.
 *
 * For agreement it owes more, and no call can check that either:
 * - all calls have the same settings; each acceptor's number, 0 to M - 1, and each backup's, 1 to 3, is given to one box, and there is one primary;
 * - all tables begin fresh, as the calls below whose names end in fresh set them, and from then on nothing but their own player's steps and starts writes
 *   them. None is reset or restored, not after a restart either: an acceptor would forget its promises and votes, a primary would use instances again, a
 *   backup rounds, and a learner would take back what it said;
 * - what is handed over is a request, a malformed packet, or a copy of a packet that a call said to send: lost, doubled or late, but not changed. In a frame
 *   that is owed of the packet: a copy is one of the 36 bytes, in whatever frame, and a frame refused by 21 to 25 counts as malformed.
 * Nothing is claimed of a run in which a saved table was read back.
 *
 * For a ledger it owes that the table begins with count 0, that nothing but the ledger's call writes it from then on, and that this call is given the values
 * of one learner's delivered list: from the first on, in order, each once. Then, of two ledgers in a run, one is what the other was after as many values. A
 * ledger that was lost is made again from count 0, by the list from its first value on.
 *
 * Settings, the same in every call of a run: acceptors (M) is 3, 5 or 7; instances (N) is 1 to 1024. A packet is 36 bytes. A value in a table is two
 * numbers: the first eight of its sixteen bytes as one big-endian number, then the last eight.
 *
 * A frame is 78 bytes, as a switch port sees them: Ethernet II in 14 (destination, source, EtherType), IPv4 without options in 20, UDP in 8, and the packet in
 * the 36 from byte 42 on. The UDP port that frames go to is a setting as well. It is a uint16_t, unlike M and N, which C could cut to allowed ones: each
 * number of 16 bits is a port, so that refusal 7 has nothing to judge.
 */
#ifndef MYRTHAKEL_H
#define MYRTHAKEL_H

#include <stddef.h>
#include <stdint.h>

#ifdef __cplusplus
extern "C" {
#endif

/* The mark "none" among rounds: a fresh acceptor's vote round, a fresh learner's round. */
#define MYRTHAKEL_NONE UINT32_C(4294967295)

#define MYRTHAKEL_PACKET_LENGTH 36
#define MYRTHAKEL_FRAME_LENGTH 78

/* A delivered value, and a table saved for N instances, in bytes. */
#define MYRTHAKEL_VALUE_LENGTH 16
#define MYRTHAKEL_SAVED_LENGTH(instances) (8 + 21 * (size_t)(instances))

/* The passes that a ledger has room for: the length of each of its columns. */
#define MYRTHAKEL_PASSES 256

/* Verdicts: what to do with the packet as the call left it. The last three are for calls that send nothing: done; not decided yet; no hole. */
enum {
    MYRTHAKEL_TO_ACCEPTORS = 101,
    MYRTHAKEL_TO_LEADER = 102,
    MYRTHAKEL_TO_LEARNERS = 103,
    MYRTHAKEL_HOLD = 104,
    MYRTHAKEL_DECIDED = 105,
    MYRTHAKEL_DONE = 106,
    MYRTHAKEL_NOT_YET = 107,
    MYRTHAKEL_NO_HOLE = 108
};

/* What the ledger did with a value. */
enum {
    MYRTHAKEL_SOLD = 109,
    MYRTHAKEL_BOARDED = 110,
    MYRTHAKEL_SKIPPED = 111
};

/* Refusals, in the paper's numbers; those from 21 on are of frames, those from 30 on of the ledger. */
enum {
    MYRTHAKEL_WRONG_LENGTH = 1,
    MYRTHAKEL_WRONG_MARK = 2,
    MYRTHAKEL_WRONG_VERSION = 3,
    MYRTHAKEL_UNKNOWN_TYPE = 4,
    MYRTHAKEL_BROKEN_FIELD = 5,
    MYRTHAKEL_WRONG_KIND = 6,
    MYRTHAKEL_NOT_ALLOWED = 7,
    MYRTHAKEL_INSTANCE_BEYOND = 8,
    MYRTHAKEL_SENDER_BEYOND = 9,
    MYRTHAKEL_ROUND_BELOW = 10,
    MYRTHAKEL_NOT_ASKED = 11,
    MYRTHAKEL_NO_INSTANCE_LEFT = 12,
    MYRTHAKEL_OTHER_VALUE = 13,
    MYRTHAKEL_ALREADY_DECIDED = 14,
    MYRTHAKEL_ALREADY_COUNTED = 15,
    MYRTHAKEL_NO_ROUND_LEFT = 16,
    MYRTHAKEL_IMPOSSIBLE_CELL = 17,
    MYRTHAKEL_WRONG_FRAME_LENGTH = 21,
    MYRTHAKEL_WRONG_FRAME_HEADER = 22,
    MYRTHAKEL_WRONG_IPV4_CHECKSUM = 23,
    MYRTHAKEL_WRONG_UDP_HEADER = 24,
    MYRTHAKEL_WRONG_UDP_CHECKSUM = 25,
    MYRTHAKEL_UNSOUND_LEDGER = 30,
    MYRTHAKEL_MALFORMED_ENTRY = 31,
    MYRTHAKEL_PASS_EXISTS = 32,
    MYRTHAKEL_LEDGER_FULL = 33,
    MYRTHAKEL_UNKNOWN_PASS = 34,
    MYRTHAKEL_DAY_PAST = 35,
    MYRTHAKEL_SCAN_NOT_NEWER = 36,
    MYRTHAKEL_NO_RIDE_LEFT = 37
};

/* Types of packets, in the paper's numbers. */
enum {
    MYRTHAKEL_REQUEST = 0,
    MYRTHAKEL_PREPARE = 1,
    MYRTHAKEL_PROMISE = 2,
    MYRTHAKEL_PROPOSE = 3,
    MYRTHAKEL_VOTE = 4
};

/* Kinds of entries in a ledger, in the request's numbers. */
enum {
    MYRTHAKEL_SALE = 1,
    MYRTHAKEL_BOARDING = 2
};

/*
 * Packets. Writes one of these fields over the packet, whatever it holds: done. All fields are judged as they are given, those too that the type's row of
 * the packet table fixes: 0 as a request's instance and round, its owner's number as the switch number of a prepare or a propose, none as the vote round of
 * all three, null as a prepare's value, and a vote's own round as its vote round. In a run a host writes requests alone: all others are the players' to send.
 * Refusals: 1, 4, 5 (a switch number over 65535 too).
 */
uint32_t myrthakel_packet_write(uint32_t kind, uint32_t switch_number, uint32_t instance, uint32_t round, uint32_t vote_round,
                                uint64_t value_high, uint64_t value_low,
                                uint8_t *packet, size_t packet_length);

/*
 * Reads a packet's fields into the numbers lent: done. Only those of a packet that keeps the packet table are written over them. Refusals: 1 to 5.
 */
uint32_t myrthakel_packet_read(const uint8_t *packet, size_t packet_length,
                               uint32_t *kind, uint32_t *switch_number, uint32_t *instance, uint32_t *round, uint32_t *vote_round,
                               uint64_t *value_high, uint64_t *value_low);

/*
 * Fresh tables, one call for each player, for the beginning of a run only: in mid-run, and after a restart, it would be a table reset. Done, whatever the
 * columns held; 7 where the settings are not allowed or a column is not as long as N asks for, and then nothing is written.
 *
 * The primary's record: one number (0), which may be that of the struct below.
 */
uint32_t myrthakel_primary_fresh(uint32_t acceptors, uint32_t instances,
                                 uint32_t *next, size_t next_length);

/*
 * An acceptor's tables: N rounds (0), N vote rounds (none) and 2N numbers of values (0).
 */
uint32_t myrthakel_acceptor_fresh(uint32_t acceptors, uint32_t instances,
                                  uint32_t *rounds, size_t rounds_length,
                                  uint32_t *vote_rounds, size_t vote_rounds_length,
                                  uint64_t *values, size_t values_length);

/*
 * A backup's tables: N rounds (0), N phases (0), N sets (0), N best vote rounds (none), 2N numbers of best values and 2N of own values (0).
 */
uint32_t myrthakel_backup_fresh(uint32_t acceptors, uint32_t instances,
                                uint32_t *rounds, size_t rounds_length,
                                uint8_t *phases, size_t phases_length,
                                uint8_t *sets, size_t sets_length,
                                uint32_t *best_vote_rounds, size_t best_vote_rounds_length,
                                uint64_t *best_values, size_t best_values_length,
                                uint64_t *own_values, size_t own_values_length);

/*
 * A learner's tables: N rounds (none), N sets of voters (0) and 2N numbers of values (0).
 */
uint32_t myrthakel_learner_fresh(uint32_t acceptors, uint32_t instances,
                                 uint32_t *rounds, size_t rounds_length,
                                 uint8_t *sets, size_t sets_length,
                                 uint64_t *values, size_t values_length);

/*
 * The primary. Reads a request from the packet and writes a propose over it, for the acceptors. The record is a slice of one number, the next
 * instance, fresh 0; it rises by 1 with each request obeyed. Refusals: 7, 1 to 5, 6, 17, 12.
 */
uint32_t myrthakel_primary_step(uint32_t acceptors, uint32_t instances,
                                uint8_t *packet, size_t packet_length,
                                uint32_t *next, size_t next_length);

/*
 * The same with the record lent by reference, as a struct of the next instance, fresh 0. Refusals: 7, 1 to 5, 6, 17, 12.
 */
struct myrthakel_primary {
    uint32_t next;
};

uint32_t myrthakel_primary_request(uint32_t acceptors, uint32_t instances,
                                   uint8_t *packet, size_t packet_length,
                                   struct myrthakel_primary *primary);

/*
 * An acceptor, with its own number below M. Reads a prepare or a propose from the packet and writes a promise over it, for the leader, or a vote, for the
 * learners. Tables: N rounds (fresh 0), N vote rounds (fresh none) and 2N numbers of values (fresh 0); the cell of the packet's instance changes
 * alone. Refusals: 7, 1 to 5, 6, 8, 17, 10.
 */
uint32_t myrthakel_acceptor_step(uint32_t acceptors, uint32_t instances, uint32_t own,
                                 uint8_t *packet, size_t packet_length,
                                 uint32_t *rounds, size_t rounds_length,
                                 uint32_t *vote_rounds, size_t vote_rounds_length,
                                 uint64_t *values, size_t values_length);

/*
 * A backup, with its own number 1 to 3. Tables, for both calls: N rounds (fresh 0), N phases (0 idle, 1 asking, 2 proposed; fresh 0), N sets (bit i for
 * acceptor i; fresh 0), N best vote rounds (fresh none), 2N numbers of best values and 2N of own values (fresh 0).
 *
 * A start takes an instance, any floor, and a value as two halves, and writes a prepare over the buffer of 36 bytes, which it does not read, for the
 * acceptors. Refusals: 7, 1, 8, 17, 16.
 */
uint32_t myrthakel_backup_start(uint32_t acceptors, uint32_t instances, uint32_t own,
                                uint32_t instance, uint32_t floor, uint64_t value_high, uint64_t value_low,
                                uint8_t *buffer, size_t buffer_length,
                                uint32_t *rounds, size_t rounds_length,
                                uint8_t *phases, size_t phases_length,
                                uint8_t *sets, size_t sets_length,
                                uint32_t *best_vote_rounds, size_t best_vote_rounds_length,
                                uint64_t *best_values, size_t best_values_length,
                                uint64_t *own_values, size_t own_values_length);

/*
 * Reads a promise from the packet. It is held, with the packet unchanged, or, where it makes a majority, a propose is written over it, for the
 * acceptors. Refusals: 7, 1 to 5, 6, 8, 9, 17, 11, 15.
 */
uint32_t myrthakel_backup_step(uint32_t acceptors, uint32_t instances, uint32_t own,
                               uint8_t *packet, size_t packet_length,
                               uint32_t *rounds, size_t rounds_length,
                               uint8_t *phases, size_t phases_length,
                               uint8_t *sets, size_t sets_length,
                               uint32_t *best_vote_rounds, size_t best_vote_rounds_length,
                               uint64_t *best_values, size_t best_values_length,
                               uint64_t *own_values, size_t own_values_length);

/*
 * A learner. Tables, for all its calls: N rounds (fresh none), N sets of voters (bit i for acceptor i; fresh 0) and 2N numbers of values (fresh 0).
 *
 * Reads a vote from the packet, which it never writes. The vote is held, or decides its instance; the cell of that instance changes alone. Refusals: 7,
 * 1 to 5, 6, 8, 9, 17, 14, 10, 13, 15.
 */
uint32_t myrthakel_learner_step(uint32_t acceptors, uint32_t instances,
                                const uint8_t *packet, size_t packet_length,
                                uint32_t *rounds, size_t rounds_length,
                                uint8_t *sets, size_t sets_length,
                                uint64_t *values, size_t values_length);

/*
 * The answer for an instance: done, with its value in the two numbers lent, or not yet. Only a decided value is written over them. Refusals: 7, 8, 17.
 */
uint32_t myrthakel_learner_answer(uint32_t acceptors, uint32_t instances, uint32_t instance,
                                  const uint32_t *rounds, size_t rounds_length,
                                  const uint8_t *sets, size_t sets_length,
                                  const uint64_t *values, size_t values_length,
                                  uint64_t *value_high, uint64_t *value_low);

/*
 * The delivered list: the values of instances 0, 1, .. before the first undecided one go to the front of a buffer of 16N bytes, the rest of which stays,
 * and their count to the number lent. Looks at every cell. Refusals: 7, 1, 17.
 */
uint32_t myrthakel_learner_deliver(uint32_t acceptors, uint32_t instances,
                                   const uint32_t *rounds, size_t rounds_length,
                                   const uint8_t *sets, size_t sets_length,
                                   const uint64_t *values, size_t values_length,
                                   uint8_t *buffer, size_t buffer_length,
                                   uint32_t *count);

/*
 * The first hole, an undecided instance below the highest decided one or with a vote in its set: done, with its number in the one lent, or no hole. Only a
 * hole that is found is written over it. A hole may be a scan that is still on its way: a repair is safe at any time, and a second's patience saves it.
 * Looks at every cell. Refusals: 7, 17.
 */
uint32_t myrthakel_learner_first_hole(uint32_t acceptors, uint32_t instances,
                                      const uint32_t *rounds, size_t rounds_length,
                                      const uint8_t *sets, size_t sets_length,
                                      const uint64_t *values, size_t values_length,
                                      uint32_t *instance);

/*
 * Writes the tables to a buffer of 8 + 21N bytes: mark "RDT", version, M, N, and the cells. Refusals: 7, 1, 17.
 */
uint32_t myrthakel_learner_save(uint32_t acceptors, uint32_t instances,
                                const uint32_t *rounds, size_t rounds_length,
                                const uint8_t *sets, size_t sets_length,
                                const uint64_t *values, size_t values_length,
                                uint8_t *buffer, size_t buffer_length);

/*
 * Reads saved bytes over the tables, whose cells are replaced whatever they hold; every saved cell is judged before the first is stored. Refusals: 7, 1, 2,
 * 3, 7 (M or N saved are others), 1 (of the whole length), 17.
 */
uint32_t myrthakel_learner_read_saved(uint32_t acceptors, uint32_t instances,
                                      const uint8_t *saved, size_t saved_length,
                                      uint32_t *rounds, size_t rounds_length,
                                      uint8_t *sets, size_t sets_length,
                                      uint64_t *values, size_t values_length);

/*
 * Frames, one call for each player: its step on the packet, and then both checksums set anew. The other header fields stay, so that what is sent is still to be
 * addressed, and sealed, by the host. Tables and answers are the step's; what is refused, held or decides leaves the frame byte for byte. Refusals: 7, then
 * - 21 not 78 bytes;
 * - 22 EtherType not 0800 hex, first byte of IPv4 not 45 hex, total length not 64, a fragment (more follow, or an offset), or protocol not 17;
 * - 23 an IPv4 checksum other than the computed one, also ffff hex where that is 0;
 * - 24 UDP length not 44, or another destination port;
 * - 25 a UDP checksum other than the computed one, which is ffff hex where the complement is 0: a received 0 is refused;
 * in that order, then the step's from 2 on: 1 never occurs. Of a frame that passes 21 to 25, any one byte changed from byte 12 on, by one bit or more, is refused
 * by one of them; the Ethernet addresses, bytes 0 to 11, are in neither checksum.
 */
uint32_t myrthakel_primary_frame(uint32_t acceptors, uint32_t instances, uint16_t port,
                                 uint8_t *frame, size_t frame_length,
                                 uint32_t *next, size_t next_length);

uint32_t myrthakel_acceptor_frame(uint32_t acceptors, uint32_t instances, uint32_t own, uint16_t port,
                                  uint8_t *frame, size_t frame_length,
                                  uint32_t *rounds, size_t rounds_length,
                                  uint32_t *vote_rounds, size_t vote_rounds_length,
                                  uint64_t *values, size_t values_length);

uint32_t myrthakel_backup_frame(uint32_t acceptors, uint32_t instances, uint32_t own, uint16_t port,
                                uint8_t *frame, size_t frame_length,
                                uint32_t *rounds, size_t rounds_length,
                                uint8_t *phases, size_t phases_length,
                                uint8_t *sets, size_t sets_length,
                                uint32_t *best_vote_rounds, size_t best_vote_rounds_length,
                                uint64_t *best_values, size_t best_values_length,
                                uint64_t *own_values, size_t own_values_length);

/*
 * The learner's never writes the frame.
 */
uint32_t myrthakel_learner_frame(uint32_t acceptors, uint32_t instances, uint16_t port,
                                 const uint8_t *frame, size_t frame_length,
                                 uint32_t *rounds, size_t rounds_length,
                                 uint8_t *sets, size_t sets_length,
                                 uint64_t *values, size_t values_length);

/*
 * Frames a prepare that a start wrote: every byte of the buffer of 78 is written, done. An Ethernet address is lent as its 6 bytes; an IPv4 address is
 * the big-endian number of its 4. Time to live is 64; type of service, identification, flags and fragment offset are 0. Refusals: 1 to 5 of the packet, 6
 * unless it is a prepare, 21 of the buffer.
 */
uint32_t myrthakel_frame_prepare(const uint8_t *packet, size_t packet_length,
                                 const uint8_t ethernet_to[6], const uint8_t ethernet_from[6],
                                 uint32_t ip_from, uint32_t ip_to, uint16_t port_from, uint16_t port_to,
                                 uint8_t *frame, size_t frame_length);

/*
 * Whether a player's call would take the frame, for a host that sorts frames before it hands them on: done. Refusals: 21 to 25.
 */
uint32_t myrthakel_frame_check(uint16_t port, const uint8_t *frame, size_t frame_length);

/*
 * Sets both checksums anew, for a host that has addressed a frame which it forwards, or has written one: done. Whatever the packet holds then passes, so a host
 * owes that it seals only what a call left or the check passed: a damaged packet would be taken for a copy. Refusals: 21, 22, 24 (UDP length alone).
 */
uint32_t myrthakel_frame_seal(uint8_t *frame, size_t frame_length);

/*
 * The ride ledger: the passes that were sold, in the order of their sales. Tables: four columns of 256, which hold a pass's number, its rides left, its last
 * day and its last scan, and the count of places in use. Places past the count are not looked at, and a sale alone writes the first of them; so count 0 is a
 * fresh ledger, whatever the columns hold. A value of the delivered list is an entry, big-endian:
 *
 *     byte        0    1          2 to 5    6 and 7     8 to 11    12 to 15
 *     sale        1    1 to 40    pass      last day    0          0
 *     boarding    2    0          pass      day         scan       0
 *
 * Enters one value. Null, 16 zero bytes, is skipped. A sale is sold: its pass, rides and last day, and 0 as the last scan, go to the place of the count, which
 * rises by 1. A boarding is boarded: its pass has one ride less left, and this scan as its last; the day is not kept. No other place changes, and what is
 * skipped or refused leaves all as it came. Refusals:
 * - 30 a column not of 256, a count above 256, a pass twice among those in use, or more than 40 rides left in one in use: judged before the value, null too;
 * - 31 a value not of 16 bytes, or neither null nor as the table says;
 * - of a sale: 32 the pass is known, be it used up or expired; 33 all 256 places are in use, for no pass is ever removed;
 * - of a boarding: 34 the pass is unknown; 35 the day is after its last, which itself is allowed; 36 the scan is not above its last; 37 it has no ride left;
 * in that order.
 */
uint32_t myrthakel_ledger_enter(const uint8_t *value, size_t value_length,
                                uint32_t *passes, size_t passes_length,
                                uint8_t *rides_left, size_t rides_left_length,
                                uint16_t *last_days, size_t last_days_length,
                                uint32_t *last_scans, size_t last_scans_length,
                                uint32_t *count);

#ifdef __cplusplus
}
#endif

#endif
