/* Frames: their headers, their way between processes, and the file of those that arrived. */
#define _POSIX_C_SOURCE 200809L
#include "frames.h"

#include <arpa/inet.h>
#include <fcntl.h>
#include <string.h>
#include <sys/socket.h>
#include <time.h>
#include <unistd.h>

/* Where the fields of a frame stand that this host writes. Ethernet has the destination first, IPv4 and UDP have the source first. */
enum {
    ETHERNET_TO = 0, ETHERNET_FROM = 6, ETHER_TYPE = 12, VERSION = 14, TOTAL_LENGTH = 16, TIME_TO_LIVE = 22, PROTOCOL = 23, IP_FROM = 26, IP_TO = 30,
    PORT_FROM = 34, PORT_TO = 36, UDP_LENGTH = 38
};

uint64_t get_number(const uint8_t *bytes, int width)
{
    uint64_t number = 0;
    for (int i = 0; i < width; i++)
        number = number << 8 | bytes[i];
    return number;
}

void put_number(uint8_t *bytes, int width, uint64_t number)
{
    for (int i = width - 1; i >= 0; i--) {
        bytes[i] = (uint8_t)number;
        number >>= 8;
    }
}

/* Ethernet addresses that are given out locally, and IPv4 addresses that are kept for examples: 192.0.2.10 and on. */
address address_of(int box)
{
    uint8_t last = (uint8_t)(10 + box);
    return (address){.ethernet = {2, 0, 0, 0, 0, last}, .ip = UINT32_C(0xc0000200) + last};
}

void begin_frame(uint8_t *frame)
{
    memset(frame, 0, PACKET_AT);
    put_number(frame + ETHER_TYPE, 2, 0x0800);
    frame[VERSION] = 0x45; /* 4, with a header of five words */
    put_number(frame + TOTAL_LENGTH, 2, MYRTHAKEL_FRAME_LENGTH - VERSION);
    frame[TIME_TO_LIVE] = 64;
    frame[PROTOCOL] = IPPROTO_UDP;
    put_number(frame + UDP_LENGTH, 2, MYRTHAKEL_FRAME_LENGTH - PORT_FROM);
}

int address_frame(uint8_t *frame, int from, int to)
{
    address source = address_of(from), destination = address_of(to);
    memcpy(frame + ETHERNET_TO, destination.ethernet, sizeof destination.ethernet);
    memcpy(frame + ETHERNET_FROM, source.ethernet, sizeof source.ethernet);
    put_number(frame + IP_FROM, 4, source.ip);
    put_number(frame + IP_TO, 4, destination.ip);
    put_number(frame + PORT_FROM, 2, FRAME_PORT);
    put_number(frame + PORT_TO, 2, FRAME_PORT);
    return myrthakel_frame_seal(frame, MYRTHAKEL_FRAME_LENGTH) == MYRTHAKEL_DONE;
}

void send_frame(int socket, uint16_t port, const uint8_t *frame)
{
    struct sockaddr_in to = {.sin_family = AF_INET, .sin_port = htons(port), .sin_addr.s_addr = htonl(INADDR_LOOPBACK)};
    /* A frame that could not be sent is a lost one, and those the protocol bears. */
    (void)sendto(socket, frame, MYRTHAKEL_FRAME_LENGTH, 0, (struct sockaddr *)&to, sizeof to);
}

/* --- The capture --- */

/* The numbers stand in this machine's byte order, which a reader finds by the first of them. */
typedef struct {
    uint32_t magic;
    uint16_t major, minor;
    uint32_t zone, accuracy, longest, link_type;
} capture_header;

typedef struct {
    uint32_t seconds, microseconds, length, length_on_the_wire;
    uint8_t frame[MYRTHAKEL_FRAME_LENGTH + 1];
} capture_record;

enum { ETHERNET_LINK = 1, RECORD_HEADER = 16 };

int open_capture(const char *path)
{
    capture_header header = {.magic = 0xa1b2c3d4, .major = 2, .minor = 4, .longest = 65535, .link_type = ETHERNET_LINK};
    /* Appending keeps the records of several processes apart: each is one write. */
    int capture = open(path, O_WRONLY | O_CREAT | O_TRUNC | O_APPEND, 0644);
    return capture >= 0 && write(capture, &header, sizeof header) == (ssize_t)sizeof header ? capture : -1;
}

int record_frame(int capture, const uint8_t *frame, size_t length)
{
    struct timespec now;
    capture_record record;
    ssize_t size = RECORD_HEADER + (ssize_t)length;
    clock_gettime(CLOCK_REALTIME, &now);
    record.seconds = (uint32_t)now.tv_sec;
    record.microseconds = (uint32_t)(now.tv_nsec / 1000);
    record.length = record.length_on_the_wire = (uint32_t)length;
    memcpy(record.frame, frame, length);
    return write(capture, &record, (size_t)size) == size;
}
