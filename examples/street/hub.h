/*
 * hub.h: an honest hub: the router's memory, its peers, and what both halves of the host share. hub.c keeps connections, timers and saves;
 * talk.c carries RPCs and messages.
 */
#ifndef STREET_HUB_H
#define STREET_HUB_H

#include "dice.h"
#include "hivepadlet.h"
#include "news.h"
#include "process.h"

enum { HEARTBEAT_MS = 1000, LARGE = 1000 };

enum peer_state { ABSENT, DIALLING, OPEN };

struct peer {
    enum peer_state state;
    uint32_t id;
    struct address address;
    bool outbound;
    bool mesh;        /* the host's note of the mesh, kept by actions and answers */
    uint64_t since;   /* when it was dialled */
    uint64_t heard;   /* when something last came from it */
    uint64_t said;    /* when something was last sent to it */
    unsigned learned; /* ids of messages that it named since the last heartbeat */
};

struct hub {
    const struct start *start;
    struct dice dice;
    struct peer peers[MOST_PEERS];
    uint64_t idle; /* when the line has taken what the hub sends */
    uint8_t names[HIVEPADLET_NAMES_BYTES];
    uint64_t table[HIVEPADLET_CELLS];
    uint64_t gossip[HIVEPADLET_GOSSIP_CELLS];
    uint32_t actions[HIVEPADLET_ACTION_NUMBERS];
};

extern struct hub hub;

#define ROUTER hub.table, uptime()
#define GOSSIP hub.table, hub.gossip, uptime()
#define LIST hub.actions, HIVEPADLET_ACTION_NUMBERS

/* the router's clock, which begins anew at each start of the hub */
static inline uint64_t uptime(void)
{
    return now - hub.start->time;
}

struct peer *peer_of(uint32_t id);

/* ---- talk.c */

bool name_topics(void);
bool is_done(uint64_t r); /* counts what the router ignored, and fails at what it refused */
void send_actions(uint64_t r);
void send_subscription(struct peer *peer);
void keep_alive(struct peer *peer);
void take_rpc(struct peer *peer, struct span rpc);
void publish_notice(uint32_t notice);
void announce(const uint64_t permutation[HIVEPADLET_SLOTS]);

/* Sends the notices that wait, one after the other, as long as the line is idle; gives when it is so again. */
uint64_t send_waiting(void);

#endif
