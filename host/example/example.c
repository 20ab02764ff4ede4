/*
 * An example host: acceptors 0 to 2, the primary, backup 1 and two learners, each a process with a UDP socket on loopback, which stands for its port on a
 * switch: what goes over it are whole frames. Passes are sold at an office and scanned at two readers; learner 1 keeps the ledger of reader 1, and learner 2
 * that of reader 2. This process plays these clients, the operator who chooses the leader, and the wires, which can lose a frame or hold it back. It prints
 * what happened line by line, and counts whether it is what should have happened. The frames that reached a player are left in a file.
 *
 * host/example/run [FIRST_PORT [PAUSE]] builds and runs it; with a pause in milliseconds it waits at each heading.
 */
#define _POSIX_C_SOURCE 200809L
#include "operator.h"

#include <stdarg.h>
#include <stdio.h>
#include <stdlib.h>
#include <string.h>

enum { FIRST_PORT = 47001, PORTS = PLAYERS + WIRES };

static int passed, failed, pause_milliseconds;

static void heading(const char *text)
{
    printf("\n%s\n", text);
    listen_for(pause_milliseconds);
}

static _Noreturn void end_story(void)
{
    end_players();
    printf("\n%d passed, %d failed\n", passed, failed);
    exit(failed != 0);
}

static void judge(int holds, const char *expected)
{
    if (holds) {
        passed++;
    } else {
        failed++;
        printf("FAILED: expected: %s\n", expected);
    }
}

/* A line of the story, printed when it happened as expected. Answers whether it did. */
static int expect(int holds, const char *who, const char *format, ...)
{
    char line[128];
    int used = snprintf(line, sizeof line, holds ? "  %-19s" : "%s ", who);
    va_list rest;
    va_start(rest, format);
    vsnprintf(line + used, sizeof line - (size_t)used, format, rest);
    va_end(rest);
    if (holds)
        puts(line);
    judge(holds, line);
    return holds;
}

/* For what the rest of the story is built on. */
static void need(int holds)
{
    if (!holds)
        end_story();
}

/* Acceptors, or learners, from one to another are to do the same. Where one does not, the story goes on: a majority is enough. Answers whether all did. */
static int expect_alike(int from, int to, uint32_t verdict, const message *wanted, const char *did)
{
    const int acceptors = from < ACCEPTORS;
    char numbers[32] = "", who[48];
    int count = 0;
    for (int i = from; i <= to; i++)
        if (await(i, verdict, wanted)) {
            size_t used = strlen(numbers);
            snprintf(numbers + used, sizeof numbers - used, count++ ? ", %d" : " %d", acceptors ? i : i - LEARNER_1 + 1);
        } else {
            expect(0, player_name(i), "%s", did);
        }
    if (count > 0) {
        passed += count;
        snprintf(who, sizeof who, "%s%s%s", acceptors ? "acceptor" : "learner", count > 1 ? "s" : "", numbers);
        printf("  %-19s%s\n", who, did);
    }
    return count == to - from + 1;
}

static void expect_decided(int from, int to, uint32_t instance, uint32_t round, entry value)
{
    message vote = {MYRTHAKEL_VOTE, instance, round, round, value};
    char did[64];
    snprintf(did, sizeof did, "decided instance %u: %s", instance, value_in_words(value.bytes));
    need(expect_alike(from, to, MYRTHAKEL_DECIDED, &vote, did));
}

static void request(const char *client, uint32_t instance, entry value)
{
    message propose = {MYRTHAKEL_PROPOSE, instance, 0, MYRTHAKEL_NONE, value};
    printf("  %-19sasked for %s\n", client, value_in_words(value.bytes));
    send_request(value);
    need(expect(await(PRIMARY, MYRTHAKEL_TO_ACCEPTORS, &propose), "primary", "proposed it for instance %u in round 0", instance));
}

static void request_decided(const char *client, uint32_t instance, entry value)
{
    message vote = {MYRTHAKEL_VOTE, instance, 0, 0, value};
    request(client, instance, value);
    expect_alike(0, 2, MYRTHAKEL_TO_LEARNERS, &vote, "voted for it");
    expect_decided(LEARNER_1, LEARNER_2, instance, 0, value);
}

/* No acceptor gets this propose in time: one is lost, and two, which would be a majority, still travel. */
static void request_not_heard(const char *client, uint32_t instance, entry value)
{
    message propose = {MYRTHAKEL_PROPOSE, instance, 0, MYRTHAKEL_NONE, value};
    arrange(PROPOSE_WIRE + 0, instance, LOST);
    arrange(PROPOSE_WIRE + 1, instance, HELD_BACK);
    arrange(PROPOSE_WIRE + 2, instance, HELD_BACK);
    request(client, instance, value);
    need(expect(await(WIRE(PROPOSE_WIRE + 0), LOST, &propose), "wire", "lost the propose to acceptor 0"));
    need(expect(await(WIRE(PROPOSE_WIRE + 1), HELD_BACK, &propose), "wire", "held back the propose to acceptor 1, which still travels"));
    need(expect(await(WIRE(PROPOSE_WIRE + 2), HELD_BACK, &propose), "wire", "held back the propose to acceptor 2, which still travels"));
}

/* Two acceptors vote, so the value is chosen; but one of the votes is lost on its way to learner 1, which cannot know. */
static void request_chosen_unknown(const char *client, uint32_t instance, entry value)
{
    message propose = {MYRTHAKEL_PROPOSE, instance, 0, MYRTHAKEL_NONE, value}, vote = {MYRTHAKEL_VOTE, instance, 0, 0, value};
    arrange(PROPOSE_WIRE + 2, instance, HELD_BACK);
    arrange(VOTE_WIRE + 1, instance, LOST);
    request(client, instance, value);
    need(expect(await(WIRE(PROPOSE_WIRE + 2), HELD_BACK, &propose), "wire", "held back the propose to acceptor 2, which still travels"));
    expect_alike(0, 1, MYRTHAKEL_TO_LEARNERS, &vote, "voted for it");
    expect(await(WIRE(VOTE_WIRE + 1), LOST, &vote), "wire", "lost acceptor 1's vote to learner 1");
    expect(await(LEARNER_1, MYRTHAKEL_HOLD, &vote), "learner 1", "held one vote: not yet decided");
    expect_decided(LEARNER_2, LEARNER_2, instance, 0, value);
}

/* Starts backup 1 on an instance with one value; it proposes that, or the value that it finds by the promises, which learner 2 has decided before. */
static void take_over(uint32_t instance, entry own, const entry *found)
{
    entry proposed = found ? *found : own;
    message prepare = {MYRTHAKEL_PREPARE, instance, 1, MYRTHAKEL_NONE, NULL_ENTRY}, propose = {MYRTHAKEL_PROPOSE, instance, 1, MYRTHAKEL_NONE, proposed};
    message no_vote = {MYRTHAKEL_PROMISE, instance, 1, MYRTHAKEL_NONE, NULL_ENTRY}, vote = {MYRTHAKEL_VOTE, instance, 1, 1, proposed};
    printf("  %-19sstarted backup 1 on instance %u with %s\n", "operator", instance, value_in_words(own.bytes));
    send_command(BACKUP, START, instance, own);
    need(expect(await(BACKUP, MYRTHAKEL_TO_ACCEPTORS, &prepare), "backup 1", "asked for promises in round 1"));
    if (found) {
        message with_vote = {MYRTHAKEL_PROMISE, instance, 1, 0, proposed};
        expect_alike(0, 1, MYRTHAKEL_TO_LEADER, &with_vote, "promised, and told of the vote in round 0");
        expect_alike(2, 2, MYRTHAKEL_TO_LEADER, &no_vote, "promised: no vote so far");
    } else {
        expect_alike(0, 2, MYRTHAKEL_TO_LEADER, &no_vote, "promised: no vote so far");
    }
    need(expect(await(BACKUP, MYRTHAKEL_TO_ACCEPTORS, &propose), "backup 1", "proposed %s in round 1", value_in_words(proposed.bytes)));
    expect_alike(0, 2, MYRTHAKEL_TO_LEARNERS, &vote, "voted for it");
    expect_decided(LEARNER_1, found ? LEARNER_1 : LEARNER_2, instance, 1, proposed);
}

/* Words, with commas between what is added. */
typedef struct {
    char words[256];
} list;

static void add(list *to, const char *format, ...)
{
    size_t used = strlen(to->words);
    va_list rest;
    if (used > 0)
        used += (size_t)snprintf(to->words + used, sizeof to->words - used, ", ");
    va_start(rest, format);
    vsnprintf(to->words + used, sizeof to->words - used, format, rest);
    va_end(rest);
}

static void print_answer(const char *what, const char *answer, const char *expected)
{
    printf("    %-17s%s\n", what, answer);
    judge(strcmp(answer, expected) == 0, expected);
}

/* What a learner answers, good until it is asked again. */
static const learned *answer_of(int learner)
{
    const learned *now = ask_learner(learner);
    need(expect(now != NULL, player_name(learner), "was asked, and answered"));
    return now;
}

/* Asks a learner and prints what it answers: the decided instances with their values, the delivered list, what its ledger said to that, and the first hole. */
static void ask(int learner, const char *expected_decided, const char *expected_list, const char *expected_ledger, const char *expected_hole)
{
    const learned *now = answer_of(learner);
    list decided = {""}, delivered = {""}, entered = {""}, hole = {""};
    for (int i = 0; i < INSTANCES; i++)
        if (now->answers[i] == MYRTHAKEL_DONE)
            add(&decided, "%d: %s", i, value_in_words(now->values + i * MYRTHAKEL_VALUE_LENGTH));
    for (uint32_t i = 0; i < now->delivered_count; i++) {
        add(&delivered, "%s", value_in_words(now->delivered + i * MYRTHAKEL_VALUE_LENGTH));
        add(&entered, "%s", answer_in_words(now->entered[i]));
    }
    if (now->hole_answer == MYRTHAKEL_DONE)
        add(&hole, "instance %u", now->hole);
    else if (now->hole_answer == MYRTHAKEL_NO_HOLE)
        add(&hole, "none");
    else
        add(&hole, "refused by %u", now->hole_answer);
    print_answer("decided", decided.words, expected_decided);
    print_answer("delivered list", delivered.words, expected_list);
    print_answer("ledger said", entered.words, expected_ledger);
    print_answer("first hole", hole.words, expected_hole);
}

static void print_pass(const ledger *rides, uint32_t at, const char *expected)
{
    list pass = {""}, rest = {""};
    add(&pass, "pass %u", rides->passes[at]);
    add(&rest, "rides left %u", rides->rides_left[at]);
    add(&rest, "last day %u", rides->last_days[at]);
    add(&rest, "last scan %u", rides->last_scans[at]);
    print_answer(pass.words, rest.words, expected);
}

/* What the accepted sales of the list opened, what was boarded of it, and what the ledger has left. */
static void print_sum(const learned *now, const char *expected)
{
    uint32_t sold = 0, boarded = 0, left = 0;
    list sum = {""};
    for (uint32_t i = 0; i < now->delivered_count; i++) {
        sold += now->entered[i] == MYRTHAKEL_SOLD ? rides_sold(now->delivered + i * MYRTHAKEL_VALUE_LENGTH) : 0;
        boarded += now->entered[i] == MYRTHAKEL_BOARDED;
    }
    for (uint32_t i = 0; i < now->rides.count; i++)
        left += now->rides.rides_left[i];
    add(&sum, "sold %u = boarded %u + left %u", sold, boarded, left);
    print_answer("all rides", sum.words, expected);
}

/* Asks a learner for its ledger: both passes, in the order of their sales, and the sum of all rides. */
static void ask_for_ledger(int learner, const char *expected_first, const char *expected_second, const char *expected_sum)
{
    const learned *now = answer_of(learner);
    print_pass(&now->rides, 0, expected_first);
    print_pass(&now->rides, 1, expected_second);
    print_sum(now, expected_sum);
}

/* All scans are of one day. Pass 1001 is for a single ride on it, pass 1002 for 40 rides until a month later. */
enum { SINGLE = 1001, FORTY = 1002, TODAY = 300 };

static entry scan_of(uint32_t pass, uint32_t scan)
{
    return boarding(pass, TODAY, scan);
}

static void until_the_stop(void)
{
    heading("The primary leads: two passes are sold, 1001 for a single ride");
    request_decided("office", 0, sale(SINGLE, 1, TODAY));
    request_decided("office", 1, sale(FORTY, 40, TODAY + 30));

    heading("Packets get lost: a hole arises at instance 2");
    request_not_heard("reader 1", 2, scan_of(SINGLE, 1));
    request_decided("reader 2", 3, scan_of(FORTY, 1));

    heading("A value is chosen for instance 4 by two votes, but learner 1 hears of one");
    request_chosen_unknown("reader 2", 4, scan_of(SINGLE, 2));

    heading("Before the repair");
    ask(LEARNER_1, "0: sale of 1001, 1: sale of 1002, 3: scan 1 of 1002", "sale of 1001, sale of 1002", "sold, sold", "instance 2");

    heading("The primary is stopped, while three of its proposes still travel");
    need(expect(kill_player(PRIMARY), "operator", "killed the primary's process"));
}

static void until_the_old_packets(void)
{
    entry chosen = scan_of(SINGLE, 2);
    message old_hole = {MYRTHAKEL_PROPOSE, 2, 0, MYRTHAKEL_NONE, scan_of(SINGLE, 1)}, old_chosen = {MYRTHAKEL_PROPOSE, 4, 0, MYRTHAKEL_NONE, chosen};

    heading("Backup 1 takes over by hand: the hole is filled with null");
    take_over(2, NULL_ENTRY, NULL);

    heading("The last hole of the evening: learner 1 lacks a ride that learner 2 has");
    ask(LEARNER_1, "0: sale of 1001, 1: sale of 1002, 2: null, 3: scan 1 of 1002", "sale of 1001, sale of 1002, null, scan 1 of 1002",
        "sold, sold, skipped, boarded", "instance 4");
    ask(LEARNER_2, "0: sale of 1001, 1: sale of 1002, 2: null, 3: scan 1 of 1002, 4: scan 2 of 1001",
        "sale of 1001, sale of 1002, null, scan 1 of 1002, scan 2 of 1001", "sold, sold, skipped, boarded, boarded", "none");

    heading("Where a value may have been chosen, the backup finds it and keeps it");
    take_over(4, NULL_ENTRY, &chosen);

    heading("The old packets arrive at last");
    release(2);
    expect_alike(1, 2, MYRTHAKEL_ROUND_BELOW, &old_hole, "refused the old propose for instance 2 (10: round below)");
    release(4);
    expect_alike(2, 2, MYRTHAKEL_ROUND_BELOW, &old_chosen, "refused the old propose for instance 4 (10: round below)");
}

static void to_the_end(void)
{
    heading("Pass 1001 is scanned again at reader 1: backup 1 leads");
    take_over(5, scan_of(SINGLE, 3), NULL);

    heading("Pass 1001 is scanned again at reader 2");
    take_over(6, scan_of(SINGLE, 4), NULL);

    heading("After the repair: pass 1001 was boarded once, and is refused at both readers (37: no ride left)");
    for (int learner = LEARNER_1; learner <= LEARNER_2; learner++)
        ask(learner, "0: sale of 1001, 1: sale of 1002, 2: null, 3: scan 1 of 1002, 4: scan 2 of 1001, 5: scan 3 of 1001, 6: scan 4 of 1001",
            "sale of 1001, sale of 1002, null, scan 1 of 1002, scan 2 of 1001, scan 3 of 1001, scan 4 of 1001",
            "sold, sold, skipped, boarded, boarded, refused by 37, refused by 37", "none");

    heading("The ledgers at the end");
    for (int learner = LEARNER_1; learner <= LEARNER_2; learner++)
        ask_for_ledger(learner, "rides left 0, last day 300, last scan 2", "rides left 39, last day 330, last scan 1", "sold 41 = boarded 2 + left 39");
}

static _Noreturn void tell_usage(void)
{
    fprintf(stderr, "usage: host/example/run [FIRST_PORT [PAUSE]], with a port from 1024 to %d and a pause of up to 60000 milliseconds\n",
            65536 - PORTS);
    exit(2);
}

/* A number from low to high in decimal, or the program ends with its usage. */
static int read_argument(const char *text, long low, long high)
{
    char *end;
    long number = strtol(text, &end, 10);
    if (*text == '\0' || *end != '\0' || number < low || number > high)
        tell_usage();
    return (int)number;
}

/* The first argument, the file for frames, is given by host/example/run. */
int main(int count, char **arguments)
{
    if (count < 2)
        tell_usage();
    int first_port = count > 2 ? read_argument(arguments[2], 1024, 65536 - PORTS) : FIRST_PORT;
    pause_milliseconds = count > 3 ? read_argument(arguments[3], 0, 60000) : 0;
    setvbuf(stdout, NULL, _IOLBF, 0);
    start_players((uint16_t)first_port, arguments[1]);
    printf("The frames that reach a player go to %s, which packet analysers open.\n", arguments[1]);
    printf("Acceptors 0 to 2, the primary, backup 1 and learners 1 and 2 run, each a process with its own UDP port.\n");
    printf("Learner 1 keeps the ledger of reader 1, and learner 2 that of reader 2.\n");
    if (pause_milliseconds > 0)
        name_processes();
    until_the_stop();
    until_the_old_packets();
    to_the_end();
    end_story();
}
