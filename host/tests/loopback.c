/*
 * The kernel as a second judge of UDP's sum: bytes 14 on of a frame go out over loopback by a raw socket, and an ordinary UDP socket gets the packet, or
 * nothing where a bit was flipped. The IPv4 checksum of what a raw socket sends is the kernel's own. Where the kernel allows no such socket, that is printed,
 * and what the calls say of the same frames is counted alone.
 */
#define _POSIX_C_SOURCE 200809L
#include "cases.h"

#include <arpa/inet.h>
#include <errno.h>
#include <sys/socket.h>
#include <sys/time.h>

enum { LENGTH = MYRTHAKEL_FRAME_LENGTH, IPV4 = 14, UDP_CHECKSUM = 40, PACKET = 42 };

static int receiver, sender;
static uint16_t port;

static struct sockaddr_in loopback(void)
{
    return (struct sockaddr_in){.sin_family = AF_INET, .sin_addr.s_addr = htonl(INADDR_LOOPBACK)};
}

/* A socket on a port that the kernel chooses. It does not wait for ever. */
static int open_receiver(void)
{
    struct sockaddr_in own = loopback();
    socklen_t size = sizeof own;
    struct timeval patience = {.tv_sec = 5};
    receiver = socket(AF_INET, SOCK_DGRAM, 0);
    int opened = receiver >= 0 && bind(receiver, (struct sockaddr *)&own, size) == 0 && getsockname(receiver, (struct sockaddr *)&own, &size) == 0
                 && setsockopt(receiver, SOL_SOCKET, SO_RCVTIMEO, &patience, sizeof patience) == 0;
    port = ntohs(own.sin_port);
    return opened;
}

/* A prepare in a round of backup 1, from this port to the receiver's. */
static void make_frame(uint8_t *frame, uint32_t round, uint16_t from)
{
    uint8_t packet[MYRTHAKEL_PACKET_LENGTH];
    make(packet, MYRTHAKEL_PREPARE, 1, 0, round, MYRTHAKEL_NONE, 0);
    expect(myrthakel_frame_prepare(packet, sizeof packet, (uint8_t[6]){0}, (uint8_t[6]){0}, INADDR_LOOPBACK, INADDR_LOOPBACK, from, port, frame, LENGTH)
               == MYRTHAKEL_DONE, "a prepare is framed");
}

static uint16_t udp_checksum(const uint8_t *frame)
{
    return (uint16_t)(frame[UDP_CHECKSUM] << 8 | frame[UDP_CHECKSUM + 1]);
}

/* From the port that makes up what the sum lacks: its complement would be 0, so the checksum is all ones. */
static void make_frame_of_ones(uint8_t *frame, uint32_t round)
{
    make_frame(frame, round, 0);
    make_frame(frame, round, udp_checksum(frame));
    expect(udp_checksum(frame) == 0xffff, "its checksum is ffff");
}

static int send_out(const uint8_t *frame)
{
    struct sockaddr_in to = loopback();
    return sendto(sender, frame + IPV4, LENGTH - IPV4, 0, (struct sockaddr *)&to, sizeof to) == LENGTH - IPV4;
}

/* The next datagram that the ordinary socket gets is the packet of this frame. */
static int arrives(const uint8_t *frame)
{
    uint8_t got[LENGTH];
    return recv(receiver, got, sizeof got, 0) == MYRTHAKEL_PACKET_LENGTH && memcmp(got, frame + PACKET, MYRTHAKEL_PACKET_LENGTH) == 0;
}

int main(void)
{
    uint8_t right[LENGTH], flipped[LENGTH], ones[LENGTH];
    expect(open_receiver(), "a UDP socket is opened");
    make_frame(right, 1, 40001);
    make_frame(flipped, 5, 40001);
    flipped[LENGTH - 1] ^= 1;
    make_frame_of_ones(ones, 9);
    expect(myrthakel_frame_check(port, right, LENGTH) == MYRTHAKEL_DONE, "the frame passes");
    expect(myrthakel_frame_check(port, ones, LENGTH) == MYRTHAKEL_DONE, "the one with all ones passes");
    expect(myrthakel_frame_check(port, flipped, LENGTH) == MYRTHAKEL_WRONG_UDP_CHECKSUM, "the one with a flipped bit is refused by 25");
    sender = socket(AF_INET, SOCK_RAW, IPPROTO_RAW);
    if (sender < 0 || !send_out(right)) {
        printf("left out: frames over the kernel's loopback, since it allows no raw socket: %s\n", strerror(errno));
        return told();
    }
    expect(arrives(right), "the kernel takes the frame, and an ordinary socket gets the packet");
    /* what comes over loopback comes in order: the damaged one would be before the other */
    expect(send_out(flipped) && send_out(ones) && arrives(ones), "the kernel drops a flipped bit, and takes all ones");
    return told();
}
