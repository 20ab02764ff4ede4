/* The operator's hands: starts and kills players, carries frames over the wires, and hears what players and wires did. */
#define _POSIX_C_SOURCE 200809L
#include "operator.h"

#include <arpa/inet.h>
#include <errno.h>
#include <poll.h>
#include <signal.h>
#include <stdio.h>
#include <stdlib.h>
#include <string.h>
#include <sys/socket.h>
#include <sys/wait.h>
#include <time.h>
#include <unistd.h>

/* How long the operator waits for an answer, in milliseconds: far longer than one takes on a busy machine. */
enum { PATIENCE = 2000 };

/* More than the story makes. What comes beyond is dropped, and then missed. */
enum { MOST_EVENTS = 512 };

typedef struct {
    pid_t process; /* 0 before the start and after the end */
    int socket;    /* the player's, opened here and handed over; -1 when closed here */
    int control;   /* the operator's end of the line; -1 when there is none */
    int gone;      /* ended, or silent when its name was called: not waited for again */
} player;

typedef struct {
    int socket;
    uint16_t destination;
    uint32_t arranged[INSTANCES];
} wire;

/* Something heard: a player's report, or what a wire did. It is taken when the story has asked for it. */
typedef struct {
    int source, taken;
    uint32_t verdict;
    uint8_t frame[MYRTHAKEL_FRAME_LENGTH];
} event;

static player players[PLAYERS];
static wire wires[WIRES];
static event events[MOST_EVENTS];
static int event_count, client, capture;
static uint16_t first;
static learned last_learned[PLAYERS];

const char *player_name(int who)
{
    static char name[32];
    static const char *const others[] = {[PRIMARY] = "primary", [BACKUP] = "backup 1", [LEARNER_1] = "learner 1", [LEARNER_2] = "learner 2"};
    if (who >= ACCEPTORS)
        return others[who];
    snprintf(name, sizeof name, "acceptor %d", who);
    return name;
}

/* A value as two numbers. */
typedef struct {
    uint64_t high, low;
} halves;

static halves halves_of(entry value)
{
    return (halves){get_number(value.bytes, 8), get_number(value.bytes + 8, 8)};
}

/* A packet's fields. */
typedef struct {
    uint32_t kind, switch_number, instance, round, vote_round;
    halves value;
} fields;

/* Answers whether the frame's packet has any: a malformed one has none. */
static int read_fields(const uint8_t *frame, fields *into)
{
    return myrthakel_packet_read(frame + PACKET_AT, MYRTHAKEL_PACKET_LENGTH, &into->kind, &into->switch_number, &into->instance, &into->round,
                                 &into->vote_round, &into->value.high, &into->value.low) == MYRTHAKEL_DONE;
}

/* --- Starting and ending --- */

static int open_port(uint16_t port)
{
    struct sockaddr_in own = {.sin_family = AF_INET, .sin_port = htons(port), .sin_addr.s_addr = htonl(INADDR_LOOPBACK)};
    int opened = socket(AF_INET, SOCK_DGRAM, 0);
    if (opened >= 0 && bind(opened, (struct sockaddr *)&own, sizeof own) == 0)
        return opened;
    if (errno == EADDRINUSE)
        fprintf(stderr, "port %u is in use; give another first port: host/example/run %u\n", port, first < 60000 ? first + 1000u : 20001u);
    else
        fprintf(stderr, "port %u cannot be opened: %s\n", port, strerror(errno));
    exit(1);
}

/* All ports are opened before the first player starts: a port in use is then told with nothing to clean up, and no frame comes too early. */
static void open_ports(void)
{
    for (int i = 0; i < PLAYERS; i++)
        players[i] = (player){.socket = open_port((uint16_t)(first + i)), .control = -1};
    for (int i = 0; i < WIRES; i++) {
        wires[i].socket = open_port((uint16_t)(first + WIRE(i)));
        wires[i].destination = (uint16_t)(first + (i < VOTE_WIRE ? i : LEARNER_1));
    }
    client = socket(AF_INET, SOCK_DGRAM, 0);
}

/* In a player's process: closes what is not its own. A copy of the operator's end of a line would keep it open after the operator has ended. */
static void keep_only(int own)
{
    for (int i = 0; i < PLAYERS; i++) {
        close(players[i].control);
        if (i != own)
            close(players[i].socket);
    }
    for (int i = 0; i < WIRES; i++)
        close(wires[i].socket);
    close(client);
}

/* What the primary sends, and the acceptors for learner 1, goes over the wires. */
static place place_of(int who, int control)
{
    place here = {.player = who, .socket = players[who].socket, .control = control, .capture = capture};
    for (int i = 0; i < PLAYERS; i++)
        here.ports[i] = (uint16_t)(first + i);
    if (who == PRIMARY)
        for (int i = 0; i < ACCEPTORS; i++)
            here.ports[i] = (uint16_t)(first + WIRE(PROPOSE_WIRE + i));
    if (who < ACCEPTORS)
        here.ports[LEARNER_1] = (uint16_t)(first + WIRE(VOTE_WIRE + who));
    return here;
}

/* Answers whether it could. A line of one's own keeps commands apart from frames, and its closing tells each side that the other has ended. */
static int start_player(int who)
{
    int line[2];
    if (socketpair(AF_UNIX, SOCK_SEQPACKET, 0, line) != 0)
        return 0;
    place here = place_of(who, line[1]);
    players[who].control = line[0];
    players[who].process = fork();
    if (players[who].process == 0) {
        keep_only(who);
        play(&here);
    }
    /* The player's ends are closed here, so that frames to a player that has ended are lost, as they would be on another machine. */
    close(line[1]);
    close(players[who].socket);
    players[who].socket = -1;
    return players[who].process > 0;
}

void start_players(uint16_t first_port, const char *capture_path)
{
    first = first_port;
    open_ports();
    capture = open_capture(capture_path);
    if (capture < 0) {
        fprintf(stderr, "%s cannot be written: %s\n", capture_path, strerror(errno));
        exit(1);
    }
    for (int i = 0; i < PLAYERS; i++)
        if (!start_player(i)) {
            fprintf(stderr, "the process of %s cannot be started: %s\n", player_name(i), strerror(errno));
            end_players();
            exit(1);
        }
}

/* Takes note that a player's process has ended, or is about to, and answers how. */
static int bury(int who)
{
    int status = 0;
    waitpid(players[who].process, &status, 0);
    close(players[who].control);
    players[who] = (player){.process = 0, .socket = -1, .control = -1, .gone = 1};
    return status;
}

int kill_player(int who)
{
    if (players[who].process <= 0)
        return 0;
    kill(players[who].process, SIGKILL);
    int status = bury(who);
    return WIFSIGNALED(status) && WTERMSIG(status) == SIGKILL;
}

/* A player has nothing to put away, and one that was stopped would not hear a request to end. */
void end_players(void)
{
    for (int i = 0; i < PLAYERS; i++)
        kill_player(i);
}

void name_processes(void)
{
    for (int i = 0; i < PLAYERS; i++)
        printf("%s is process %ld\n", player_name(i), (long)players[i].process);
}

/* --- Hearing --- */

static void keep_event(int source, uint32_t verdict, const uint8_t *frame)
{
    if (event_count == MOST_EVENTS)
        return;
    event *new = &events[event_count++];
    *new = (event){.source = source, .verdict = verdict};
    memcpy(new->frame, frame, sizeof new->frame);
}

static void hear_player(int who)
{
    report heard;
    ssize_t length = recv(players[who].control, &heard, sizeof heard, MSG_DONTWAIT);
    if (length == (ssize_t)sizeof heard) {
        if (heard.verdict == MYRTHAKEL_DONE)
            last_learned[who] = heard.learned;
        keep_event(who, heard.verdict, heard.frame);
    } else if (length == 0 || (length < 0 && errno != EAGAIN && errno != EINTR)) {
        int status = bury(who);
        if (WIFSIGNALED(status))
            printf("%s was killed by signal %d; run the example again\n", player_name(who), WTERMSIG(status));
        else
            printf("%s ended with status %d; run the example again\n", player_name(who), WEXITSTATUS(status));
    }
}

/* Passes a frame on as it is, loses it or holds it back, as arranged. The event keeps what is held back. */
static void hear_wire(int which)
{
    uint8_t frame[MYRTHAKEL_FRAME_LENGTH + 1]; /* one more, so that a longer datagram is not taken for a frame */
    wire *over = &wires[which];
    if (recv(over->socket, frame, sizeof frame, MSG_DONTWAIT) != MYRTHAKEL_FRAME_LENGTH)
        return;
    fields f;
    uint32_t what = PASSED_ON;
    if (read_fields(frame, &f) && f.instance < INSTANCES && over->arranged[f.instance] != 0) {
        what = over->arranged[f.instance];
        over->arranged[f.instance] = 0;
    }
    if (what == PASSED_ON)
        send_frame(over->socket, over->destination, frame);
    keep_event(WIRE(which), what, frame);
}

/* Waits so long for something to arrive, and hears it. */
static void hear(int milliseconds)
{
    struct pollfd waiting[SOURCES];
    for (int i = 0; i < SOURCES; i++)
        waiting[i] = (struct pollfd){.fd = i < PLAYERS ? players[i].control : wires[i - PLAYERS].socket, .events = POLLIN};
    if (poll(waiting, SOURCES, milliseconds) <= 0)
        return;
    for (int i = 0; i < SOURCES; i++)
        if (waiting[i].revents && i < PLAYERS)
            hear_player(i);
        else if (waiting[i].revents)
            hear_wire(i - PLAYERS);
}

static long long now(void)
{
    struct timespec read;
    clock_gettime(CLOCK_MONOTONIC, &read);
    return read.tv_sec * 1000LL + read.tv_nsec / 1000000;
}

void listen_for(int milliseconds)
{
    for (long long end = now() + milliseconds, left; (left = end - now()) > 0;)
        hear((int)left);
}

/* The switch number is left out: which of the acceptors' votes comes second and decides is chance. */
static int is_message(const uint8_t *frame, const message *wanted)
{
    fields f;
    halves value = halves_of(wanted->value);
    return read_fields(frame, &f) && f.kind == wanted->kind && f.instance == wanted->instance && f.round == wanted->round
           && f.vote_round == wanted->vote_round && f.value.high == value.high && f.value.low == value.low;
}

/* Takes an event that was heard before. Events are searched, not read in turn, so that the story does not hang on who happened to run first. */
static int take(int source, uint32_t verdict, const message *wanted)
{
    for (int i = 0; i < event_count; i++)
        if (!events[i].taken && events[i].source == source && events[i].verdict == verdict && (!wanted || is_message(events[i].frame, wanted)))
            return events[i].taken = 1;
    return 0;
}

/* The player on whom it hangs whether a source is heard: for a wire, the sender. */
static int player_behind(int source)
{
    if (source < PLAYERS)
        return source;
    return source < WIRE(VOTE_WIRE) ? PRIMARY : source - WIRE(VOTE_WIRE);
}

static int wait_for(int source, uint32_t verdict, const message *wanted)
{
    for (long long end = now() + PATIENCE, left;;) {
        if (take(source, verdict, wanted))
            return 1;
        if (players[player_behind(source)].gone || (left = end - now()) <= 0)
            return 0;
        hear((int)left);
    }
}

/* Something is missing: asks every player whether it is there, and names those who are not. */
static void call_names(void)
{
    for (int i = 0; i < PLAYERS; i++)
        send_command(i, ROLL_CALL, 0, NULL_ENTRY);
    for (int i = 0; i < PLAYERS; i++)
        if (!players[i].gone && !wait_for(i, MYRTHAKEL_DONE, NULL) && !players[i].gone) {
            printf("%s does not answer; see whether its process is stopped, and run the example again\n", player_name(i));
            players[i].gone = 1;
        }
}

int await(int source, uint32_t verdict, const message *wanted)
{
    if (wait_for(source, verdict, wanted))
        return 1;
    if (!players[player_behind(source)].gone)
        call_names();
    return 0;
}

/* --- Sending --- */

void arrange(int which, uint32_t instance, uint32_t what)
{
    wires[which].arranged[instance] = what;
}

void release(uint32_t instance)
{
    fields f;
    for (int i = 0; i < event_count; i++)
        if (events[i].verdict == HELD_BACK && read_fields(events[i].frame, &f) && f.instance == instance) {
            const wire *over = &wires[events[i].source - PLAYERS];
            send_frame(over->socket, over->destination, events[i].frame);
        }
}

/* A client on a machine of its own would write 36 bytes to a UDP socket, and its kernel the frame around them. */
void send_request(entry value)
{
    uint8_t frame[MYRTHAKEL_FRAME_LENGTH];
    halves asked = halves_of(value);
    begin_frame(frame);
    /* A request of null would be refused, and then nothing is sent. */
    if (myrthakel_packet_write(MYRTHAKEL_REQUEST, 0, 0, 0, MYRTHAKEL_NONE, asked.high, asked.low, frame + PACKET_AT, MYRTHAKEL_PACKET_LENGTH) == MYRTHAKEL_DONE
        && address_frame(frame, CLIENT, PRIMARY))
        send_frame(client, (uint16_t)(first + PRIMARY), frame);
}

void send_command(int who, uint32_t kind, uint32_t instance, entry value)
{
    halves own = halves_of(value);
    command order = {.kind = kind, .instance = instance, .floor = 0, .value_high = own.high, .value_low = own.low};
    if (!players[who].gone)
        (void)send(players[who].control, &order, sizeof order, MSG_NOSIGNAL);
}

const learned *ask_learner(int who)
{
    send_command(who, QUESTION, 0, NULL_ENTRY);
    return await(who, MYRTHAKEL_DONE, NULL) ? &last_learned[who] : NULL;
}
