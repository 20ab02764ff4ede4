/*
 * Calls whose packets, tables and answers are all written out in numbers, as in crates/proved_cases/specs/WrittenOut.antt. M = 3, N = 2, instance 1, and the value has the
 * bytes 1 to 16. Backup 1's round is 16,909,061, which has the bytes 1, 2, 3, 5.
 */
#include "cases.h"

/* Mark, type, version, switch number; instance; round; vote round; value. */
#define VALUE 1, 2, 3, 4, 5, 6, 7, 8, 9, 10, 11, 12, 13, 14, 15, 16
static const uint8_t request[36] = {82, 68, 69, 0, 0, 1, 0, 9, 0, 0, 0, 0, 0, 0, 0, 0, 255, 255, 255, 255, VALUE};
static const uint8_t null_request[36] = {82, 68, 69, 0, 0, 1, 0, 9, 0, 0, 0, 0, 0, 0, 0, 0, 255, 255, 255, 255, 0};
static const uint8_t prepare[36] = {82, 68, 69, 1, 0, 1, 0, 1, 0, 0, 0, 1, 1, 2, 3, 5, 255, 255, 255, 255, 0};
static const uint8_t promise_of_none[36] = {82, 68, 69, 2, 0, 1, 0, 2, 0, 0, 0, 1, 1, 2, 3, 5, 255, 255, 255, 255, 0};
static const uint8_t promise_of_vote[36] = {82, 68, 69, 2, 0, 1, 0, 0, 0, 0, 0, 1, 1, 2, 3, 5, 0, 0, 0, 0, VALUE};
static const uint8_t promise_of_tie[36] = {82, 68, 69, 2, 0, 1, 0, 2, 0, 0, 0, 1, 1, 2, 3, 5, 0, 0, 0, 0, 16, 15, 14, 13, 12, 11, 10, 9, 8, 7, 6, 5, 4, 3, 2, 1};
static const uint8_t propose_of_primary[36] = {82, 68, 69, 3, 0, 1, 0, 0, 0, 0, 0, 1, 0, 0, 0, 0, 255, 255, 255, 255, VALUE};
static const uint8_t propose_of_backup[36] = {82, 68, 69, 3, 0, 1, 0, 1, 0, 0, 0, 1, 1, 2, 3, 5, 255, 255, 255, 255, VALUE};
static const uint8_t vote[36] = {82, 68, 69, 4, 0, 1, 0, 2, 0, 0, 0, 1, 1, 2, 3, 5, 1, 2, 3, 5, VALUE};

/* Type, switch number, instance, round, vote round, and the two halves of the value. */
#define HALVES UINT64_C(0x0102030405060708), UINT64_C(0x090a0b0c0d0e0f10)
static const fields request_fields = {MYRTHAKEL_REQUEST, 9, 0, 0, 4294967295, HALVES};
static const fields prepare_fields = {MYRTHAKEL_PREPARE, 1, 1, 16909061, 4294967295, 0, 0};
static const fields promise_fields = {MYRTHAKEL_PROMISE, 0, 1, 16909061, 0, HALVES};
static const fields propose_fields = {MYRTHAKEL_PROPOSE, 1, 1, 16909061, 4294967295, HALVES};
static const fields vote_fields = {MYRTHAKEL_VOTE, 2, 1, 16909061, 16909061, HALVES};
static const fields null_fields = {MYRTHAKEL_REQUEST, 9, 0, 0, 4294967295, 0, 0};
static const fields some_fields = {11, 12, 13, 14, 15, 16, 17};

/* Mark, version, M, N; then for each cell its round, set and value. */
static const uint8_t saved[50] = {82, 68, 84, 0, 1, 3, 0, 2, 255, 255, 255, 255, 0, 0, 0, 0, 0, 0, 0, 0, 0, 0, 0, 0, 0, 0, 0, 0, 0, 1, 2, 3, 5, 4, VALUE};

/* Tables, whose cell 0 is fresh. A value is two numbers, of the bytes 1 to 8 and 9 to 16. */
#define VALUES {0, 0, HALVES}

typedef struct {
    uint32_t rounds[2], vote_rounds[2];
    uint64_t values[4];
} acceptor;

static const acceptor never_voted = {{0, 0}, {4294967295, 4294967295}, {0}};
static const acceptor promised = {{0, 16909061}, {4294967295, 4294967295}, {0}};
static const acceptor voted = {{0, 16909061}, {4294967295, 16909061}, VALUES};

/* The phases are 0 idle, 1 asking, 2 proposed. */
typedef struct {
    uint32_t rounds[2];
    uint8_t phases[2], sets[2];
    uint32_t best_vote_rounds[2];
    uint64_t best_values[4], own_values[4];
} backup;

static const backup idle = {{0, 0}, {0, 0}, {0, 0}, {4294967295, 4294967295}, {0}, {0}};
static const backup asking = {{0, 16909061}, {0, 1}, {0, 0}, {4294967295, 4294967295}, {0}, {0, 0, 7, 8}};
static const backup told_of_vote = {{0, 16909061}, {0, 1}, {0, 1}, {4294967295, 0}, VALUES, {0, 0, 7, 8}};
static const backup proposed = {{0, 16909061}, {0, 2}, {0, 5}, {4294967295, 0}, VALUES, {0, 0, 7, 8}};
static const backup best_of_empty_set = {{0, 16909061}, {0, 1}, {0, 0}, {4294967295, 0}, VALUES, {0, 0, 7, 8}};

typedef struct {
    uint32_t rounds[2];
    uint8_t sets[2];
    uint64_t values[4];
} learner;

static const learner unheard = {{4294967295, 4294967295}, {0, 0}, {0}};
static const learner heard_of_0 = {{4294967295, 16909061}, {0, 1}, VALUES};
static const learner heard = {{4294967295, 16909061}, {0, 4}, VALUES};
static const learner decided = {{4294967295, 16909061}, {0, 5}, VALUES};

static void packet_is(const fields *f, const uint8_t *packet, const char *what)
{
    uint8_t written[36] = {0};
    fields read = some_fields;
    expect(write_fields(f, written, 36) == 106 && memcmp(written, packet, 36) == 0, what);
    expect(read_fields(packet, 36, &read) == 106 && same_fields(&read, f), what);
}

static void null_is_refused(void)
{
    uint8_t written[36];
    fields read = some_fields;
    memcpy(written, vote, 36);
    expect(write_fields(&null_fields, written, 36) == 5 && memcmp(written, vote, 36) == 0, "a request of null is not written");
    expect(read_fields(null_request, 36, &read) == 5 && same_fields(&read, &some_fields), "a request of null is not read");
}

static void primary_is(const uint8_t *given, uint32_t next, uint32_t answer, const uint8_t *left, uint32_t next_left, const char *what)
{
    uint8_t packet[36];
    memcpy(packet, given, 36);
    expect(myrthakel_primary_step(3, 2, packet, 36, &next, 1) == answer && memcmp(packet, left, 36) == 0 && next == next_left, what);
}

static void acceptor_is(const uint8_t *given, const acceptor *before, uint32_t answer, const uint8_t *left, const acceptor *after, const char *what)
{
    uint8_t packet[36];
    acceptor a = *before;
    memcpy(packet, given, 36);
    expect(myrthakel_acceptor_step(3, 2, 2, packet, 36, a.rounds, 2, a.vote_rounds, 2, a.values, 4) == answer && memcmp(packet, left, 36) == 0
               && memcmp(&a, after, sizeof a) == 0,
           what);
}

static int is_backup(const backup *b, const backup *wanted)
{
    return memcmp(b->rounds, wanted->rounds, sizeof b->rounds) == 0 && memcmp(b->phases, wanted->phases, sizeof b->phases) == 0
           && memcmp(b->sets, wanted->sets, sizeof b->sets) == 0 && memcmp(b->best_vote_rounds, wanted->best_vote_rounds, sizeof b->best_vote_rounds) == 0
           && memcmp(b->best_values, wanted->best_values, sizeof b->best_values) == 0 && memcmp(b->own_values, wanted->own_values, sizeof b->own_values) == 0;
}

static void backup_is(const uint8_t *given, const backup *before, uint32_t answer, const uint8_t *left, const backup *after, const char *what)
{
    uint8_t packet[36];
    backup b = *before;
    memcpy(packet, given, 36);
    expect(myrthakel_backup_step(3, 2, 1, packet, 36, b.rounds, 2, b.phases, 2, b.sets, 2, b.best_vote_rounds, 2, b.best_values, 4, b.own_values, 4) == answer
               && memcmp(packet, left, 36) == 0 && is_backup(&b, after),
           what);
}

static void start_is_asking(void)
{
    uint8_t packet[36] = {0};
    backup b = idle;
    expect(myrthakel_backup_start(3, 2, 1, 1, 16909060, 7, 8, packet, 36, b.rounds, 2, b.phases, 2, b.sets, 2, b.best_vote_rounds, 2, b.best_values, 4, b.own_values, 4) == 101
               && memcmp(packet, prepare, 36) == 0 && is_backup(&b, &asking),
           "a start writes a prepare, and asks");
}

static int is_learner(const learner *l, const learner *wanted)
{
    return memcmp(l->rounds, wanted->rounds, sizeof l->rounds) == 0 && memcmp(l->sets, wanted->sets, sizeof l->sets) == 0
           && memcmp(l->values, wanted->values, sizeof l->values) == 0;
}

static void answer_is(const learner *l, uint32_t answer, uint64_t high_left, uint64_t low_left, const char *what)
{
    uint64_t high = 7, low = 8;
    expect(myrthakel_learner_answer(3, 2, 1, l->rounds, 2, l->sets, 2, l->values, 4, &high, &low) == answer && high == high_left && low == low_left, what);
}

static void hole_is(const learner *l, uint32_t answer, uint32_t left, const char *what)
{
    uint32_t instance = 9;
    expect(myrthakel_learner_first_hole(3, 2, l->rounds, 2, l->sets, 2, l->values, 4, &instance) == answer && instance == left, what);
}

static void learner_cases(void)
{
    uint8_t buffer[50] = {0};
    learner l = unheard;
    expect(myrthakel_learner_step(3, 2, vote, 36, l.rounds, 2, l.sets, 2, l.values, 4) == 104 && is_learner(&l, &heard), "a vote is held");
    expect(myrthakel_learner_save(3, 2, l.rounds, 2, l.sets, 2, l.values, 4, buffer, 50) == 106 && memcmp(buffer, saved, 50) == 0, "a table is saved as these bytes");
    l = heard_of_0;
    expect(myrthakel_learner_step(3, 2, vote, 36, l.rounds, 2, l.sets, 2, l.values, 4) == 105 && is_learner(&l, &decided), "a vote decides");
    answer_is(&decided, 106, HALVES, "a decided value is answered");
    answer_is(&heard, 107, 7, 8, "not yet is answered");
    hole_is(&decided, 106, 0, "a hole is found below a decided instance");
    hole_is(&heard, 106, 1, "a hole is found that has one vote");
    hole_is(&unheard, 108, 9, "no hole is found");
    l = unheard;
    expect(myrthakel_learner_read_saved(3, 2, saved, 50, l.rounds, 2, l.sets, 2, l.values, 4) == 106 && is_learner(&l, &heard), "and these bytes are read as that table");
}

/* Tables are set fresh, whatever they held; 7 where M is 4, N is 1 of tables for 2, or the record has two numbers. */
static void fresh_cases(void)
{
    uint32_t next[2] = {2, 3};
    acceptor a = voted;
    backup b = proposed;
    learner l = decided;
    expect(myrthakel_primary_fresh(3, 2, next, 2) == 7 && next[0] == 2 && next[1] == 3, "a record of two numbers is not set fresh");
    expect(myrthakel_primary_fresh(3, 2, next, 1) == 106 && next[0] == 0 && next[1] == 3, "the record is set fresh");
    expect(myrthakel_acceptor_fresh(4, 2, a.rounds, 2, a.vote_rounds, 2, a.values, 4) == 7 && memcmp(&a, &voted, sizeof a) == 0, "an acceptor of 4 is not set fresh");
    expect(myrthakel_acceptor_fresh(3, 2, a.rounds, 2, a.vote_rounds, 2, a.values, 4) == 106 && memcmp(&a, &never_voted, sizeof a) == 0, "an acceptor is set fresh");
    expect(myrthakel_backup_fresh(3, 1, b.rounds, 2, b.phases, 2, b.sets, 2, b.best_vote_rounds, 2, b.best_values, 4, b.own_values, 4) == 7 && is_backup(&b, &proposed),
           "a backup with tables for 2 is not set fresh for 1");
    expect(myrthakel_backup_fresh(3, 2, b.rounds, 2, b.phases, 2, b.sets, 2, b.best_vote_rounds, 2, b.best_values, 4, b.own_values, 4) == 106 && is_backup(&b, &idle),
           "a backup is set fresh");
    expect(myrthakel_learner_fresh(3, 1, l.rounds, 2, l.sets, 2, l.values, 4) == 7 && is_learner(&l, &decided), "a learner with tables for 2 is not set fresh for 1");
    expect(myrthakel_learner_fresh(3, 2, l.rounds, 2, l.sets, 2, l.values, 4) == 106 && is_learner(&l, &unheard), "a learner is set fresh");
}

int main(void)
{
    fresh_cases();
    packet_is(&request_fields, request, "a request's fields and bytes");
    packet_is(&prepare_fields, prepare, "a prepare's fields and bytes");
    packet_is(&promise_fields, promise_of_vote, "a promise's fields and bytes");
    packet_is(&propose_fields, propose_of_backup, "a propose's fields and bytes");
    packet_is(&vote_fields, vote, "a vote's fields and bytes");
    null_is_refused();
    primary_is(request, 1, 101, propose_of_primary, 2, "a request is proposed");
    primary_is(null_request, 1, 5, null_request, 1, "a null request is refused by 5");
    acceptor_is(prepare, &never_voted, 102, promise_of_none, &promised, "a prepare is promised");
    acceptor_is(propose_of_backup, &promised, 103, vote, &voted, "a propose is voted for");
    start_is_asking();
    backup_is(promise_of_vote, &asking, 104, promise_of_vote, &told_of_vote, "a promise is held");
    backup_is(promise_of_none, &told_of_vote, 101, propose_of_backup, &proposed, "a majority proposes");
    backup_is(promise_of_tie, &told_of_vote, 101, propose_of_backup, &proposed, "of two equal vote rounds the first stays the best");
    backup_is(promise_of_none, &best_of_empty_set, 17, promise_of_none, &best_of_empty_set, "a best vote that nobody told is refused by 17");
    learner_cases();
    return told();
}
