/*
 * Frames from C: those of the change request byte for byte, and what the calls refuse, in which order, leaving all that they were lent as it came. M = 3,
 * N = 8, acceptor 0, backup 1, port 47036. A frame with a wrong field has right sums although none is taken here: what one word gains another loses.
 */
#include "cases.h"

enum { LENGTH = MYRTHAKEL_FRAME_LENGTH, LONGEST = 100, PORT = 47036 };

/* Where the fields of a frame stand. */
enum {
    ETHER_TYPE = 12, FIRST_BYTE = 14, TOTAL_LENGTH = 16, IDENTIFICATION = 18, FRAGMENT = 20, TIME_AND_PROTOCOL = 22, IPV4_CHECKSUM = 24,
    FROM_PORT = 34, TO_PORT = 36, UDP_LENGTH = 38, UDP_CHECKSUM = 40, PACKET = 42
};

#define HEADER_A "02000000000a0200000000010800" "45000040000000004011f6a1c0000201c000020a"
#define FRAME_A HEADER_A "9c41b7bc002c9043" "52444501000100010000000000000001ffffffff" "00000000000000000000000000000000"
#define HEADER_B "02000000000a0200000000010800" "45b800401c4640003f119aa3c0000201c000020a" "9c41b7bc002c"
#define FRAME_B HEADER_B "9019" "52444503000100000000000000000000ffffffff" "0000000000000000000000000000002a"
#define VOTE_OF_B HEADER_B "9018" "5244450400010000000000000000000000000000" "0000000000000000000000000000002a"
#define FRAME_C HEADER_A "9c41b7bc002c" "ffff" "52444503000100000000000300000000ffffffff" "00000000000000000000000000009040"
#define VOTE_OF_C HEADER_A "9c41b7bc002c" "fffe" "5244450400010000000000030000000000000000" "00000000000000000000000000009040"

typedef struct {
    uint8_t bytes[LONGEST];
    size_t length;
} frame;

static int digit_of(char digit)
{
    return digit <= '9' ? digit - '0' : digit - 'a' + 10;
}

static frame from_digits(const char *digits)
{
    frame f = {{0}, strlen(digits) / 2};
    for (size_t i = 0; i < f.length; i++)
        f.bytes[i] = (uint8_t)(digit_of(digits[2 * i]) << 4 | digit_of(digits[2 * i + 1]));
    return f;
}

static unsigned word_at(const frame *f, size_t at)
{
    return (unsigned)f->bytes[at] << 8 | f->bytes[at + 1];
}

static frame with_word(frame f, size_t at, unsigned word)
{
    f.bytes[at] = (uint8_t)(word >> 8);
    f.bytes[at + 1] = (uint8_t)word;
    return f;
}

/* One word gains what another loses, so that a sum over both stays. */
static frame moved(frame f, size_t from, size_t to, int by)
{
    f = with_word(f, to, word_at(&f, to) + (unsigned)by);
    return with_word(f, from, word_at(&f, from) - (unsigned)by);
}

static frame of_length(frame f, size_t length)
{
    f.length = length;
    return f;
}

static frame sealed(frame f)
{
    expect(myrthakel_frame_seal(f.bytes, f.length) == MYRTHAKEL_DONE, "a frame of the test's is sealed");
    return f;
}

static frame with_packet(uint32_t kind, uint32_t switch_number, uint32_t instance, uint32_t round, uint32_t vote_round, uint64_t low)
{
    frame f = from_digits(FRAME_B);
    make(f.bytes + PACKET, kind, switch_number, instance, round, vote_round, low);
    return sealed(f);
}

static int same_frame(const frame *one, const frame *other)
{
    return one->length == other->length && memcmp(one->bytes, other->bytes, sizeof one->bytes) == 0;
}

static uint32_t check(const frame *f)
{
    return myrthakel_frame_check(PORT, f->bytes, f->length);
}

/* One depot, and each player's call on it. */

typedef struct {
    uint32_t next, acceptor_rounds[N], vote_rounds[N], backup_rounds[N], best_vote_rounds[N], learner_rounds[N];
    uint64_t acceptor_values[2 * N], best_values[2 * N], own_values[2 * N], learner_values[2 * N];
    uint8_t phases[N], promisers[N], voters[N];
} depot;

static depot fresh_depot(void)
{
    depot d;
    memset(&d, 0xee, sizeof d);
    fresh(myrthakel_primary_fresh(M, N, &d.next, 1));
    fresh(myrthakel_acceptor_fresh(M, N, d.acceptor_rounds, N, d.vote_rounds, N, d.acceptor_values, 2 * N));
    fresh(myrthakel_backup_fresh(M, N, d.backup_rounds, N, d.phases, N, d.promisers, N, d.best_vote_rounds, N, d.best_values, 2 * N, d.own_values, 2 * N));
    fresh(myrthakel_learner_fresh(M, N, d.learner_rounds, N, d.voters, N, d.learner_values, 2 * N));
    return d;
}

static uint32_t to_primary(depot *d, uint32_t acceptors, frame *f)
{
    return myrthakel_primary_frame(acceptors, N, PORT, f->bytes, f->length, &d->next, 1);
}

static uint32_t to_acceptor(depot *d, uint32_t acceptors, frame *f)
{
    return myrthakel_acceptor_frame(acceptors, N, 0, PORT, f->bytes, f->length, d->acceptor_rounds, N, d->vote_rounds, N, d->acceptor_values, 2 * N);
}

static uint32_t to_backup(depot *d, uint32_t acceptors, frame *f)
{
    return myrthakel_backup_frame(acceptors, N, 1, PORT, f->bytes, f->length, d->backup_rounds, N, d->phases, N, d->promisers, N,
                                  d->best_vote_rounds, N, d->best_values, 2 * N, d->own_values, 2 * N);
}

static uint32_t to_learner(depot *d, uint32_t acceptors, frame *f)
{
    return myrthakel_learner_frame(acceptors, N, PORT, f->bytes, f->length, d->learner_rounds, N, d->voters, N, d->learner_values, 2 * N);
}

typedef uint32_t player_call(depot *d, uint32_t acceptors, frame *f);

static player_call *const players[] = {to_primary, to_acceptor, to_backup, to_learner};

/* Whether the player answers this number, and leaves the frame and all tables as they came. */
static int leaves_all(player_call *give, uint32_t acceptors, frame f, uint32_t number)
{
    depot before = fresh_depot(), lent;
    frame given = f;
    memcpy(&lent, &before, sizeof lent);
    return give(&lent, acceptors, &given) == number && same_frame(&given, &f) && memcmp(&lent, &before, sizeof lent) == 0;
}

/* Every player refuses the frame by the number. */
static void players_refuse(uint32_t acceptors, frame f, uint32_t number, const char *what)
{
    for (size_t i = 0; i < sizeof players / sizeof *players; i++)
        expect(leaves_all(players[i], acceptors, f, number), what);
}

/* And so does the check, as only of a frame's own refusals. */
static void all_refuse(frame f, uint32_t number, const char *what)
{
    expect(check(&f) == number, what);
    players_refuse(M, f, number, what);
}

/* The frames of the request. */

static void frame_a(void)
{
    static const uint8_t to[6] = {2, 0, 0, 0, 0, 10}, from[6] = {2, 0, 0, 0, 0, 1};
    uint8_t prepare[MYRTHAKEL_PACKET_LENGTH];
    frame wanted = from_digits(FRAME_A), f = of_length(wanted, LENGTH);
    memset(f.bytes, 0xee, LENGTH);
    make(prepare, MYRTHAKEL_PREPARE, 1, 0, 1, MYRTHAKEL_NONE, 0);
    expect(myrthakel_frame_prepare(prepare, sizeof prepare, to, from, 0xc0000201, 0xc000020a, 40001, PORT, f.bytes, LENGTH) == MYRTHAKEL_DONE, "A is framed");
    expect(same_frame(&f, &wanted), "as the bytes of the request, whatever the buffer held");
    expect(check(&f) == MYRTHAKEL_DONE, "and passes");
}

static void voted_for(const char *propose, const char *vote, uint32_t instance, uint64_t low, const char *what)
{
    depot d = fresh_depot();
    frame f = from_digits(propose), wanted = from_digits(vote);
    expect(check(&f) == MYRTHAKEL_DONE, what);
    expect(to_acceptor(&d, M, &f) == MYRTHAKEL_TO_LEARNERS && same_frame(&f, &wanted), what);
    expect(d.vote_rounds[instance] == 0 && d.acceptor_values[2 * instance] == 0 && d.acceptor_values[2 * instance + 1] == low, what);
    expect(check(&f) == MYRTHAKEL_DONE, what);
}

/* A sum has two forms of zero, and each field takes one of them. */
static void forms_of_zero(void)
{
    frame zero = with_word(from_digits(FRAME_C), UDP_CHECKSUM, 0);
    frame d = with_word(with_word(from_digits(FRAME_B), IDENTIFICATION, 0xb6e9), IPV4_CHECKSUM, 0);
    frame ones = with_word(d, IPV4_CHECKSUM, 0xffff);
    depot depot = fresh_depot();
    all_refuse(zero, MYRTHAKEL_WRONG_UDP_CHECKSUM, "C with its checksum as 0");
    all_refuse(ones, MYRTHAKEL_WRONG_IPV4_CHECKSUM, "D with its IPv4 checksum as ffff");
    expect(check(&d) == MYRTHAKEL_DONE, "D passes, its IPv4 checksum 0");
    expect(to_acceptor(&depot, M, &d) == MYRTHAKEL_TO_LEARNERS && word_at(&d, IPV4_CHECKSUM) == 0 && word_at(&d, UDP_CHECKSUM) == 0x9018, "and is voted for");
}

/* Refusals, each by itself. */

static void lengths(void)
{
    frame f = from_digits(FRAME_B);
    for (size_t length = 0; length <= LONGEST; length++)
        if (length != LENGTH)
            all_refuse(of_length(f, length), MYRTHAKEL_WRONG_FRAME_LENGTH, "another length, and 1 never");
    all_refuse(of_length(f, LENGTH - 1), 21, "77 bytes");
    all_refuse(of_length(f, LENGTH + 4), 21, "82 bytes, with the frame's check sequence");
}

static void headers(void)
{
    frame b = from_digits(FRAME_B);
    all_refuse(with_word(b, ETHER_TYPE, 0x86dd), MYRTHAKEL_WRONG_FRAME_HEADER, "another EtherType");
    all_refuse(with_word(b, ETHER_TYPE, 0x0801), 22, "another EtherType by its last bit");
    all_refuse(moved(b, IDENTIFICATION, FIRST_BYTE, 0x0100), 22, "IPv4 with options");
    all_refuse(moved(b, IDENTIFICATION, FIRST_BYTE, 0x1000), 22, "version 5");
    all_refuse(moved(b, IDENTIFICATION, TOTAL_LENGTH, 1), 22, "total length 65");
    all_refuse(moved(b, IDENTIFICATION, TOTAL_LENGTH, 0x0100), 22, "total length 320");
    all_refuse(moved(b, IDENTIFICATION, FRAGMENT, 0x2000), 22, "more fragments follow");
    all_refuse(moved(b, IDENTIFICATION, FRAGMENT, 1), 22, "a fragment by its offset");
    all_refuse(moved(b, IDENTIFICATION, FRAGMENT, 0x1000), 22, "a fragment by the offset's top bit");
    all_refuse(moved(b, IDENTIFICATION, TIME_AND_PROTOCOL, 1), 22, "protocol 18");
    all_refuse(moved(b, IDENTIFICATION, TIME_AND_PROTOCOL, 6 - 17), 22, "TCP");
    all_refuse(moved(b, FROM_PORT, TO_PORT, 1), MYRTHAKEL_WRONG_UDP_HEADER, "port 47037");
    all_refuse(with_word(with_word(b, FROM_PORT, PORT), TO_PORT, 40001), 24, "the ports in each other's place");
    all_refuse(with_word(with_word(b, UDP_LENGTH, 45), FROM_PORT, 40001 - 2), 24, "UDP length 45, which is in the sum twice");
}

/* With the same way of changing them, the fields that are free. */
static void free_fields(void)
{
    frame b = from_digits(FRAME_B);
    frame passing[] = {
        moved(b, IDENTIFICATION, FIRST_BYTE, 1), moved(b, IDENTIFICATION, TIME_AND_PROTOCOL, 0x0100), moved(b, FRAGMENT, IDENTIFICATION, 0x4000),
        sealed(with_word(b, FRAGMENT, 0x8000)), sealed(with_word(b, FRAGMENT, 0xc000)), sealed(with_word(b, FROM_PORT, 0)),
    };
    for (size_t i = 0; i < sizeof passing / sizeof *passing; i++) {
        depot d = fresh_depot();
        frame before = passing[i];
        expect(check(&passing[i]) == MYRTHAKEL_DONE, "type of service, identification, two flags, time to live and source port are free");
        expect(to_acceptor(&d, M, &passing[i]) == MYRTHAKEL_TO_LEARNERS && memcmp(passing[i].bytes, before.bytes, UDP_CHECKSUM) == 0, "and stay");
    }
}

/* Refusals, in their order: a frame with two faults is refused by the first. */
static void orders(void)
{
    frame b = from_digits(FRAME_B), no_sum = with_word(b, UDP_CHECKSUM, 0), no_mark = b;
    no_mark.bytes[PACKET] = 0;
    players_refuse(4, of_length(b, LENGTH - 1), MYRTHAKEL_NOT_ALLOWED, "7 before 21: M is 4, 77 bytes");
    all_refuse(of_length(with_word(b, ETHER_TYPE, 0x86dd), LENGTH - 1), 21, "21 before 22: 77 bytes, another EtherType");
    all_refuse(with_word(b, TOTAL_LENGTH, 65), 22, "22 before 23: another total length, which the IPv4 checksum does not know");
    all_refuse(with_word(with_word(b, IPV4_CHECKSUM, 0), TO_PORT, 1), 23, "23 before 24: another IPv4 checksum and port");
    all_refuse(with_word(no_sum, TO_PORT, 1), 24, "24 before 25: another port, no UDP checksum");
    all_refuse(with_word(no_sum, UDP_LENGTH, 8), 24, "24 before 25: another UDP length, no UDP checksum");
    all_refuse(no_mark, 25, "25 before 2: another mark, which the UDP checksum does not know");
    players_refuse(M, sealed(no_mark), 2, "and then 2, as of a packet");
}

static void packets(void)
{
    static const struct { size_t at; uint8_t byte; uint32_t number; } wrong[] = {{2, 'T', 2}, {5, 2, 3}, {3, 5, 4}, {15, 4, 5}};
    for (size_t i = 0; i < sizeof wrong / sizeof *wrong; i++) {
        frame f = from_digits(FRAME_B);
        f.bytes[PACKET + wrong[i].at] = wrong[i].byte;
        f = sealed(f);
        expect(check(&f) == MYRTHAKEL_DONE, "the check does not read the packet");
        players_refuse(M, f, wrong[i].number, "2 to 5 as of a packet");
    }
    frame vote = with_packet(MYRTHAKEL_VOTE, 0, 8, 0, 0, 0x2a), propose = with_packet(MYRTHAKEL_PROPOSE, 0, 8, 0, MYRTHAKEL_NONE, 0x2a);
    for (size_t i = 0; i < sizeof players / sizeof *players; i++)
        expect(leaves_all(players[i], M, players[i] == to_learner ? propose : vote, 6), "6 as of a packet");
    expect(leaves_all(to_acceptor, M, propose, 8) && leaves_all(to_learner, M, vote, 8), "8 as of a packet");
}

/* Any one bit of B: from the EtherType on it is refused, by one of 21 to 25; in the Ethernet addresses nobody sees it. */
static void bits(void)
{
    frame b = from_digits(FRAME_B);
    for (size_t bit = 0; bit < 8 * LENGTH; bit++) {
        frame flipped = b;
        flipped.bytes[bit / 8] ^= (uint8_t)(1 << bit % 8);
        uint32_t number = check(&flipped);
        if (bit / 8 < ETHER_TYPE)
            expect(number == MYRTHAKEL_DONE, "a bit of the Ethernet addresses is not seen");
        else
            expect(number >= 22 && number <= 25 && leaves_all(to_acceptor, M, flipped, number), "one bit flipped is refused, and nothing is written");
    }
}

/* Framing, sealing and the players. */

static uint32_t frame_prepare(const uint8_t *packet, size_t packet_length, frame *f)
{
    static const uint8_t to[6] = {1, 2, 3, 4, 5, 6}, from[6] = {7, 8, 9, 10, 11, 12};
    return myrthakel_frame_prepare(packet, packet_length, to, from, 0x0d0e0f10, 0x11121314, 0x1516, 0x1718, f->bytes, f->length);
}

static void framing_places(void)
{
    uint8_t prepare[MYRTHAKEL_PACKET_LENGTH];
    frame wanted = sealed(from_digits("0102030405060708090a0b0c0800" "4500004000000000401100000d0e0f1011121314" "15161718002c0000"
                                      "52444501000100020000000700000006ffffffff" "00000000000000000000000000000000"));
    frame over_zeros = {{0}, LENGTH}, over_ones = {{0}, LENGTH};
    memset(over_ones.bytes, 0xff, LENGTH);
    make(prepare, MYRTHAKEL_PREPARE, 2, 7, 6, MYRTHAKEL_NONE, 0);
    expect(frame_prepare(prepare, sizeof prepare, &over_zeros) == MYRTHAKEL_DONE && same_frame(&over_zeros, &wanted), "each address and port in its place");
    expect(frame_prepare(prepare, sizeof prepare, &over_ones) == MYRTHAKEL_DONE && same_frame(&over_ones, &wanted), "and every byte is written");
    expect(myrthakel_frame_check(0x1718, wanted.bytes, LENGTH) == MYRTHAKEL_DONE && myrthakel_frame_check(0x1516, wanted.bytes, LENGTH) == 24,
           "the destination port is the one that is compared");
}

static void not_framed(const uint8_t *packet, size_t packet_length, size_t length, uint32_t number, const char *what)
{
    frame before = of_length(from_digits(FRAME_B), length), f = before;
    expect(frame_prepare(packet, packet_length, &f) == number && same_frame(&f, &before), what);
}

static void framing_refusals(void)
{
    static const struct { uint32_t kind, round, vote_round; } others[] = {{0, 0, MYRTHAKEL_NONE}, {2, 1, 0}, {3, 1, MYRTHAKEL_NONE}, {4, 1, 1}};
    uint8_t packet[MYRTHAKEL_PACKET_LENGTH + 1] = {0};
    make(packet, MYRTHAKEL_PREPARE, 1, 0, 1, MYRTHAKEL_NONE, 0);
    for (size_t length = 0; length <= LONGEST; length++)
        if (length != LENGTH)
            not_framed(packet, 36, length, 21, "a prepare, into another length");
    not_framed(packet, 35, LENGTH - 1, 1, "1 before 21: 35 bytes");
    not_framed(packet, 37, LENGTH + 1, 1, "1 before 21: 37 bytes");
    packet[5] = 2;
    not_framed(packet, 36, LENGTH - 1, 3, "3 before 21: version 2");
    packet[0] = 0;
    not_framed(packet, 36, LENGTH - 1, 2, "2 before 3: another mark too");
    make(packet, MYRTHAKEL_PREPARE, 1, 0, 1, MYRTHAKEL_NONE, 0);
    packet[15] = 4;
    not_framed(packet, 36, LENGTH - 1, 5, "5 before 21: nobody's round");
    packet[3] = 5;
    not_framed(packet, 36, LENGTH - 1, 4, "4 before 5: type 5 too");
    for (size_t i = 0; i < sizeof others / sizeof *others; i++) {
        make(packet, others[i].kind, 1, 0, others[i].round, others[i].vote_round, 0x2a);
        not_framed(packet, 36, LENGTH - 1, 6, "6 before 21: no prepare");
        not_framed(packet, 36, LENGTH, 6, "6: no prepare");
    }
}

static void sealing(void)
{
    frame b = from_digits(FRAME_B), f = with_word(with_word(b, IPV4_CHECKSUM, 0), UDP_CHECKSUM, 0);
    expect(myrthakel_frame_seal(f.bytes, LENGTH) == MYRTHAKEL_DONE && same_frame(&f, &b), "B without its checksums is sealed as B");
    expect(myrthakel_frame_seal(f.bytes, LENGTH) == MYRTHAKEL_DONE && same_frame(&f, &b), "and sealed again stays");
    frame other = sealed(with_word(with_word(b, TO_PORT, 1), 26, 0x0a00));
    expect(check(&other) == 24 && myrthakel_frame_check(1, other.bytes, LENGTH) == MYRTHAKEL_DONE, "any port and address is sealed");
    const struct { frame f; uint32_t number; } refused[] = {
        {of_length(b, 0), 21}, {of_length(with_word(b, ETHER_TYPE, 0x86dd), LENGTH - 1), 21}, {of_length(b, LENGTH + 4), 21},
        {with_word(with_word(b, ETHER_TYPE, 0x86dd), UDP_LENGTH, 45), 22}, {with_word(b, FIRST_BYTE, 0x46b8), 22}, {with_word(b, TOTAL_LENGTH, 65), 22},
        {with_word(b, FRAGMENT, 0x2000), 22}, {with_word(b, FRAGMENT, 0x4001), 22}, {with_word(b, TIME_AND_PROTOCOL, 0x3f06), 22},
        {with_word(with_word(b, IPV4_CHECKSUM, 0), UDP_LENGTH, 45), 24},
    };
    for (size_t i = 0; i < sizeof refused / sizeof *refused; i++) {
        frame lent = refused[i].f;
        expect(myrthakel_frame_seal(lent.bytes, lent.length) == refused[i].number && same_frame(&lent, &refused[i].f), "what is no frame is not sealed");
    }
}

/* The player answers so and writes this packet; the sums are right, and all before them is as it came. */
static void sent(uint32_t answer, uint32_t verdict, const frame *f, const uint8_t *packet, const char *what)
{
    frame b = from_digits(HEADER_B);
    expect(answer == verdict && memcmp(f->bytes + PACKET, packet, MYRTHAKEL_PACKET_LENGTH) == 0, what);
    expect(check(f) == MYRTHAKEL_DONE && memcmp(f->bytes, b.bytes, b.length) == 0, what);
}

static void leaders(void)
{
    depot d = fresh_depot();
    uint8_t propose[MYRTHAKEL_PACKET_LENGTH], prepare[MYRTHAKEL_PACKET_LENGTH];
    frame f = with_packet(MYRTHAKEL_REQUEST, 9, 0, 0, MYRTHAKEL_NONE, 0x2a);
    make(propose, MYRTHAKEL_PROPOSE, 0, 0, 0, MYRTHAKEL_NONE, 0x2a);
    sent(to_primary(&d, M, &f), MYRTHAKEL_TO_ACCEPTORS, &f, propose, "a request is proposed");
    expect(d.next == 1, "for the next instance");
    expect(myrthakel_backup_start(M, N, 1, 0, 0, 0, 0x2b, prepare, sizeof prepare, d.backup_rounds, N, d.phases, N, d.promisers, N,
                                  d.best_vote_rounds, N, d.best_values, 2 * N, d.own_values, 2 * N) == MYRTHAKEL_TO_ACCEPTORS, "backup 1 is started");
    frame held = with_packet(MYRTHAKEL_PROMISE, 0, 0, 1, MYRTHAKEL_NONE, 0), before = held;
    expect(to_backup(&d, M, &held) == MYRTHAKEL_HOLD && same_frame(&held, &before), "a promise is held, and the frame stays");
    expect(to_backup(&d, M, &held) == MYRTHAKEL_ALREADY_COUNTED && same_frame(&held, &before), "and is counted once, in whatever frame");
    f = with_packet(MYRTHAKEL_PROMISE, 1, 0, 1, 0, 0x2a);
    make(propose, MYRTHAKEL_PROPOSE, 1, 0, 1, MYRTHAKEL_NONE, 0x2a);
    sent(to_backup(&d, M, &f), MYRTHAKEL_TO_ACCEPTORS, &f, propose, "a majority of promises makes it propose");
}

static void acceptor_and_learner(void)
{
    depot d = fresh_depot();
    uint8_t promise[MYRTHAKEL_PACKET_LENGTH];
    frame f = with_packet(MYRTHAKEL_PREPARE, 1, 0, 1, MYRTHAKEL_NONE, 0), old = from_digits(FRAME_B), before = old;
    make(promise, MYRTHAKEL_PROMISE, 0, 0, 1, MYRTHAKEL_NONE, 0);
    sent(to_acceptor(&d, M, &f), MYRTHAKEL_TO_LEADER, &f, promise, "a prepare is promised");
    expect(to_acceptor(&d, M, &old) == MYRTHAKEL_ROUND_BELOW && same_frame(&old, &before), "an old propose is refused by 10");
    frame first = from_digits(VOTE_OF_B), second = with_packet(MYRTHAKEL_VOTE, 2, 0, 0, 0, 0x2a), kept = second;
    expect(to_learner(&d, M, &first) == MYRTHAKEL_HOLD, "a vote is held");
    expect(to_learner(&d, M, &second) == MYRTHAKEL_DECIDED && same_frame(&second, &kept), "a second decides, and the frame stays");
    expect(d.voters[0] == 5 && d.learner_rounds[0] == 0 && d.learner_values[1] == 0x2a, "for v, by acceptors 0 and 2");
    expect(to_learner(&d, M, &first) == MYRTHAKEL_ALREADY_DECIDED, "a third comes too late");
}

int main(void)
{
    frame_a();
    voted_for(FRAME_B, VOTE_OF_B, 0, 0x2a, "B passes and is voted for, and the vote passes");
    voted_for(FRAME_C, VOTE_OF_C, 3, 0x9040, "C passes and is voted for, and the vote passes");
    forms_of_zero();
    lengths();
    headers();
    free_fields();
    orders();
    packets();
    bits();
    framing_places();
    framing_refusals();
    sealing();
    leaders();
    acceptor_and_learner();
    return told();
}
