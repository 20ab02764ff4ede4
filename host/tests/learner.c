/* A learner as a C program calls it: votes, answers, delivery, holes and the saved table. */
#include "cases.h"

typedef struct {
    uint32_t rounds[N];
    uint8_t sets[N];
    uint64_t values[2 * N];
} learner;

static void make_unheard(learner *l)
{
    memset(l, 0xee, sizeof *l);
    fresh(myrthakel_learner_fresh(M, N, l->rounds, N, l->sets, N, l->values, 2 * N));
}

static uint32_t vote(learner *l, uint32_t acceptors, uint32_t sender, uint32_t instance, uint32_t round, uint8_t last)
{
    uint8_t packet[MYRTHAKEL_PACKET_LENGTH];
    make(packet, MYRTHAKEL_VOTE, sender, instance, round, round, last);
    uint32_t answer = myrthakel_learner_step(acceptors, N, packet, 36, l->rounds, N, l->sets, N, l->values, 2 * N);
    expect(is_packet(packet, MYRTHAKEL_VOTE, sender, instance, round, round, last), "a learner leaves the packet as it came");
    return answer;
}

static uint32_t answer(const learner *l, uint32_t instance, uint64_t *high, uint64_t *low)
{
    return myrthakel_learner_answer(M, N, instance, l->rounds, N, l->sets, N, l->values, 2 * N, high, low);
}

static uint32_t deliver(const learner *l, uint8_t *buffer, size_t length, uint32_t *count)
{
    return myrthakel_learner_deliver(M, N, l->rounds, N, l->sets, N, l->values, 2 * N, buffer, length, count);
}

static uint32_t first_hole(const learner *l, uint32_t *instance)
{
    return myrthakel_learner_first_hole(M, N, l->rounds, N, l->sets, N, l->values, 2 * N, instance);
}

static void decide(learner *l, uint32_t instance, uint8_t last)
{
    vote(l, M, 0, instance, 0, last);
    expect(vote(l, M, 1, instance, 0, last) == MYRTHAKEL_DECIDED, "two votes of three decide");
}

static void vote_cases(void)
{
    learner l, kept;
    uint64_t high = 7, low = 7;
    make_unheard(&l);
    expect(vote(&l, M, 0, 0, 1, 0x2a) == MYRTHAKEL_HOLD && vote(&l, M, 2, 0, 2, 0x2a) == MYRTHAKEL_HOLD, "votes of rounds 1 and 2 are held");
    expect(l.rounds[0] == 2 && l.sets[0] == 4, "the higher round replaces the set");
    kept = l;
    expect(vote(&l, M, 1, 0, 1, 0x2a) == MYRTHAKEL_ROUND_BELOW, "then round 1 is refusal 10");
    expect(answer(&l, 0, &high, &low) == MYRTHAKEL_NOT_YET && high == 7 && low == 7, "not yet decided, and the numbers lent stay");
    expect(vote(&l, M, 2, 0, 2, 0x2a) == MYRTHAKEL_ALREADY_COUNTED, "the same vote again is refusal 15");
    expect(vote(&l, M, 2, 0, 2, 0x2b) == MYRTHAKEL_OTHER_VALUE, "the same sender with another value is refusal 13");
    expect(vote(&l, M, 3, 0, 2, 0x2a) == MYRTHAKEL_SENDER_BEYOND, "sender 3 is refusal 9");
    expect(vote(&l, M, 0, 8, 2, 0x2a) == MYRTHAKEL_INSTANCE_BEYOND, "instance 8 is refusal 8");
    expect(memcmp(&l, &kept, sizeof l) == 0, "refusals change nothing");
    expect(vote(&l, M, 0, 0, 2, 0x2a) == MYRTHAKEL_DECIDED, "a second voter of round 2 decides");
    kept = l;
    expect(vote(&l, M, 1, 0, 5, 0x2b) == MYRTHAKEL_ALREADY_DECIDED && memcmp(&l, &kept, sizeof l) == 0, "a decided cell never moves");
    expect(answer(&l, 0, &high, &low) == MYRTHAKEL_DONE && high == 0 && low == 0x2a, "the answer is v");
    expect(answer(&l, 8, &high, &low) == MYRTHAKEL_INSTANCE_BEYOND, "the answer for instance 8 is refused");

    make_unheard(&l);
    expect(vote(&l, 5, 0, 0, 0, 0x2a) == MYRTHAKEL_HOLD && vote(&l, 5, 1, 0, 0, 0x2a) == MYRTHAKEL_HOLD, "M = 5: two equal votes hold");
    expect(vote(&l, 5, 2, 0, 0, 0x2a) == MYRTHAKEL_DECIDED, "the third decides");
    expect(vote(&l, M, 0, 0, 0, 0x2a) == MYRTHAKEL_IMPOSSIBLE_CELL, "three voters are impossible where M is 3");

    make_unheard(&l);
    l.sets[3] = 0x18;
    expect(vote(&l, M, 0, 3, 1, 0x2a) == MYRTHAKEL_IMPOSSIBLE_CELL, "a set of voters past M is impossible");
    expect(answer(&l, 3, &high, &low) == MYRTHAKEL_IMPOSSIBLE_CELL && answer(&l, 2, &high, &low) == MYRTHAKEL_NOT_YET, "the answer judges its own cell alone");
}

static void delivery_cases(void)
{
    learner l;
    uint8_t buffer[16 * N + 1], wanted[16 * N];
    uint32_t count = 99, hole = 99;
    make_unheard(&l);
    memset(buffer, 0xee, sizeof buffer);
    memset(wanted, 0xee, sizeof wanted);
    expect(deliver(&l, buffer, 16 * N, &count) == MYRTHAKEL_DONE && count == 0 && memcmp(buffer, wanted, sizeof wanted) == 0, "nothing decided: nothing delivered");
    expect(first_hole(&l, &hole) == MYRTHAKEL_NO_HOLE && hole == 99, "and no hole");
    decide(&l, 0, 0x2a);
    decide(&l, 1, 0);
    expect(first_hole(&l, &hole) == MYRTHAKEL_NO_HOLE && hole == 99, "untouched instances with none decided above are no holes");
    decide(&l, 3, 0x2b);
    memset(wanted, 0, 32);
    wanted[15] = 0x2a;
    expect(deliver(&l, buffer, 16 * N, &count) == MYRTHAKEL_DONE && count == 2, "the list ends before the first undecided one");
    expect(memcmp(buffer, wanted, sizeof wanted) == 0, "null is delivered, and the rest of the buffer stays");
    expect(first_hole(&l, &hole) == MYRTHAKEL_DONE && hole == 2, "the first hole is 2");
    expect(deliver(&l, buffer, 16 * N + 1, &count) == MYRTHAKEL_WRONG_LENGTH && count == 2, "a longer buffer is refused");
    for (uint32_t i = 0; i < N; i++)
        if (l.sets[i] == 0)
            decide(&l, i, 0x2c);
    expect(deliver(&l, buffer, 16 * N, &count) == MYRTHAKEL_DONE && count == N && buffer[16 * N - 1] == 0x2c, "N decided of N: the buffer is full");
    expect(first_hole(&l, &hole) == MYRTHAKEL_NO_HOLE, "and there is no hole");
    make_unheard(&l);
    l.rounds[7] = 4;
    count = hole = 99;
    expect(deliver(&l, buffer, 16 * N, &count) == MYRTHAKEL_IMPOSSIBLE_CELL && count == 99, "an impossible cell past the list is seen by delivery");
    expect(first_hole(&l, &hole) == MYRTHAKEL_IMPOSSIBLE_CELL && hole == 99, "and by the walk for holes");
    expect(myrthakel_learner_deliver(M, N, l.rounds, N, l.sets, N - 1, l.values, 2 * N, buffer, 1, &count) == MYRTHAKEL_NOT_ALLOWED, "a table of another size is refused before the buffer");
}

/* Cells in words and by their sets; one with a vote is of round 0. Where there is no hole, the number lent stays as it was. */
enum { AS_LENT = 99 };

typedef struct {
    const char *cells;
    uint32_t acceptors, instances;
    uint8_t sets[N], value;
    uint32_t first_hole;
} hole_row;

static const hole_row hole_rows[] = {
    {"all fresh", M, N, {0}, 0x2a, AS_LENT},
    {"1 vote in 0", M, N, {1}, 0x2a, 0},
    {"0 and 1 decided, one vote in 2", M, N, {3, 3, 1}, 0x2a, 2},
    {"5 untouched, one vote in 6, nothing decided", M, N, {0, 0, 0, 0, 0, 0, 1}, 0x2a, 6},
    {"5 untouched, 6 decided", M, N, {0, 0, 0, 0, 0, 0, 3}, 0x2a, 0},
    {"5 untouched, 0 to 4 and 6 decided", M, N, {3, 3, 3, 3, 3, 0, 3}, 0x2a, 5},
    {"0 and 2 decided, 1 untouched, one vote in 3", M, N, {3, 0, 3, 1}, 0x2a, 1},
    {"0 untouched, one vote in 1, 3 decided", M, N, {0, 1, 0, 3}, 0x2a, 0},
    {"all but 7 decided, one vote in 7", M, N, {3, 3, 3, 3, 3, 3, 3, 1}, 0x2a, 7},
    {"all decided", M, N, {3, 3, 3, 3, 3, 3, 3, 3}, 0x2a, AS_LENT},
    {"N = 1, one vote", M, 1, {1}, 0x2a, 0},
    {"N = 1, decided", M, 1, {3}, 0x2a, AS_LENT},
    {"M = 5, two votes in 0", 5, N, {3}, 0x2a, 0},
    {"M = 5, three votes in 0", 5, N, {7}, 0x2a, AS_LENT},
    {"a vote for null, one of three, in 0", M, N, {1}, 0, 0},
};

static void hole_cases(void)
{
    for (size_t i = 0; i < sizeof hole_rows / sizeof *hole_rows; i++) {
        const hole_row *row = &hole_rows[i];
        const uint32_t instances = row->instances;
        uint32_t lent = AS_LENT;
        learner l;
        make_unheard(&l);
        for (uint32_t cell = 0; cell < instances; cell++)
            if (row->sets[cell] != 0) {
                l.rounds[cell] = 0;
                l.sets[cell] = row->sets[cell];
                l.values[2 * cell + 1] = row->value;
            }
        uint32_t answered = myrthakel_learner_first_hole(row->acceptors, instances, l.rounds, instances, l.sets, instances, l.values, 2 * instances, &lent);
        expect(answered == (row->first_hole == AS_LENT ? MYRTHAKEL_NO_HOLE : MYRTHAKEL_DONE) && lent == row->first_hole, row->cells);
    }
}

enum { SAVED = MYRTHAKEL_SAVED_LENGTH(N) };

static uint32_t save(const learner *l, uint8_t *buffer, size_t length)
{
    return myrthakel_learner_save(M, N, l->rounds, N, l->sets, N, l->values, 2 * N, buffer, length);
}

static uint32_t read_saved(const uint8_t *saved, size_t length, learner *l)
{
    return myrthakel_learner_read_saved(M, N, saved, length, l->rounds, N, l->sets, N, l->values, 2 * N);
}

static void saved_cases(void)
{
    static const uint8_t header[8] = {'R', 'D', 'T', 0, 1, M, 0, N};
    static const uint8_t fresh[21] = {0xff, 0xff, 0xff, 0xff};
    static const uint8_t heard[21] = {0, 0, 0, 5, 4, 0, 0, 0, 0, 0, 0, 0, 0, 0, 0, 0, 0, 0, 0, 0, 0x2a};
    uint8_t saved[SAVED + 1], again[SAVED];
    learner l, read, kept;
    make_unheard(&l);
    vote(&l, M, 2, 1, 5, 0x2a);
    expect(save(&l, saved, SAVED) == MYRTHAKEL_DONE, "a table is saved");
    expect(memcmp(saved, header, 8) == 0 && memcmp(saved + 8, fresh, 21) == 0 && memcmp(saved + 29, heard, 21) == 0, "as the bytes that the paper gives");
    memset(&read, 0x11, sizeof read);
    expect(read_saved(saved, SAVED, &read) == MYRTHAKEL_DONE && memcmp(read.rounds, l.rounds, sizeof l.rounds) == 0
               && memcmp(read.sets, l.sets, sizeof l.sets) == 0 && memcmp(read.values, l.values, sizeof l.values) == 0,
           "and read back over impossible cells, which are not judged");
    expect(save(&read, again, SAVED) == MYRTHAKEL_DONE && memcmp(again, saved, SAVED) == 0, "reading and saving gives the bytes");

    kept = read;
    expect(read_saved(saved, 7, &read) == MYRTHAKEL_WRONG_LENGTH, "7 bytes are refused by 1");
    expect(read_saved(saved, 8, &read) == MYRTHAKEL_WRONG_LENGTH && read_saved(saved, SAVED + 1, &read) == MYRTHAKEL_WRONG_LENGTH, "and so are a header alone and a byte too many");
    saved[2] = 'E';
    expect(read_saved(saved, 9, &read) == MYRTHAKEL_WRONG_MARK, "9 bytes with another mark are refused by 2");
    saved[2] = 'T';
    saved[4] = 2;
    expect(read_saved(saved, 9, &read) == MYRTHAKEL_WRONG_VERSION, "another version is refused by 3");
    saved[4] = 1;
    saved[7] = 5;
    expect(read_saved(saved, 9, &read) == MYRTHAKEL_NOT_ALLOWED, "another N is refused by 7 before the length");
    saved[7] = N;
    saved[5] = 5;
    expect(read_saved(saved, SAVED, &read) == MYRTHAKEL_NOT_ALLOWED, "and so is another M");
    saved[5] = M;
    saved[SAVED - 21 + 4] = 1;
    expect(read_saved(saved, SAVED, &read) == MYRTHAKEL_IMPOSSIBLE_CELL, "a voter without a round in the last cell is refused by 17");
    expect(memcmp(&read, &kept, sizeof read) == 0, "and refusals leave every lent cell as it came");
    l.sets[7] = 1;
    expect(save(&l, again, SAVED) == MYRTHAKEL_IMPOSSIBLE_CELL && save(&l, again, SAVED - 1) == MYRTHAKEL_WRONG_LENGTH, "an impossible cell is not saved, and 1 comes before 17");
}

int main(void)
{
    vote_cases();
    delivery_cases();
    hole_cases();
    saved_cases();
    return told();
}
