/*
 * line.h: a hub's line to the others: UDP on loopback, each hub at an address of its own in 127.0.0.0/8.
 *
 * A frame is a head and, of an RPC, its bytes as libp2p's peers send them. The head stands for what a libp2p connection gives: who is
 * there, opening and closing. It also says when the frame arrives by the simulated clock.
 */
#ifndef STREET_LINE_H
#define STREET_LINE_H

#include "orders.h"

enum frame_kind { DIAL, ACCEPT, RPC, BYE };

struct frame {
    struct frame *later;
    uint64_t at, sequence;
    uint32_t from, kind;
    struct address address; /* the sender's, as its socket has it */
    size_t length;
    uint8_t bytes[];
};

/* Binds a socket at an ip; `run` is a number that all hubs of a street share, and no other program; the frames of each life of a hub are
 * numbered apart. Gives the socket. */
int open_line(uint32_t ip, uint32_t id, uint64_t run, uint32_t life, struct address *own);

/* milliseconds from one hub to another: the same both ways, others for each pair */
uint64_t latency(uint64_t seed, uint32_t a, uint32_t b);

void send_frame(struct address to, enum frame_kind kind, const uint8_t *bytes, size_t length, uint64_t at);

/* Takes in all that has come, and sorts it. */
void receive_frames(void);

/* How many frames have come since the start, of those that arrive until now. */
uint64_t arrived_until(uint64_t now);

/* The next frame that arrives until now, or NULL; to be freed. Of one time, by sender and sequence: the same in every run. */
struct frame *take_frame(uint64_t now);

#endif
