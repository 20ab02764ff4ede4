/* Frames as this host makes, addresses, sends and records them. The calls read and write the packet and the checksums; the rest of a frame is the host's. */
#ifndef FRAMES_H
#define FRAMES_H

#include "../myrthakel.h"

/* The UDP port that all frames go to, and where the packet stands in a frame. */
enum { FRAME_PORT = 47036, PACKET_AT = MYRTHAKEL_FRAME_LENGTH - MYRTHAKEL_PACKET_LENGTH };

typedef struct {
    uint8_t ethernet[6];
    uint32_t ip;
} address;

/* Of a box by its number, below 246. */
address address_of(int box);

/* Writes all that is alike in the headers of this host's frames. The packet and the addresses are still to come. */
void begin_frame(uint8_t *frame);

/* Addresses a frame from one box to another and seals it, since both checksums know of it. Answers whether it could: only what is a frame is sealed. */
int address_frame(uint8_t *frame, int from, int to);

/* Sends a frame to a UDP port of this machine, which stands for a box's port on a switch. */
void send_frame(int socket, uint16_t port, const uint8_t *frame);

/* A file that packet analysers open (pcap, of Ethernet), made anew. Answers its descriptor, which processes share, or -1. */
int open_capture(const char *path);

/* Answers whether the frame was written behind those before it. */
int record_frame(int capture, const uint8_t *frame, size_t length);

/* A big-endian number of so many bytes, read and written. */
uint64_t get_number(const uint8_t *bytes, int width);
void put_number(uint8_t *bytes, int width, uint64_t number);

#endif
