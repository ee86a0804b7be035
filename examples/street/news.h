/*
 * news.h: what a hub knows of messages: the table of ids that it lends to the library, what it has seen, and the messages themselves,
 * as long as the router may say that one is to be sent.
 */
#ifndef STREET_NEWS_H
#define STREET_NEWS_H

#include "hivepadlet.h"
#include "rpc.h"

enum { MOST_ROWS = 1024, MOST_PEERS = HIVEPADLET_SLOTS };

struct row {
    uint8_t id[HIVEPADLET_ID_ROW]; /* as in the lent table */
    uint64_t number;               /* ours, by which the router knows the message: a count, so that no two ids share one */
    uint64_t named;                /* when the id last came in */
    uint64_t asked;                /* when it was last asked for by IWANT; 0: never */
    bool seen;
    uint64_t first;      /* when it was seen first */
    uint8_t *rpc;        /* the message as it is sent on; NULL where it is not kept */
    size_t rpc_length;
    unsigned queued;     /* how often it waits to be sent */
    bool unwanted[MOST_PEERS];   /* who said IDONTWANT, for the count of what is spared; the router has its own sets */
    uint8_t replies[MOST_PEERS]; /* by IWANT in this connection, for the report; the router counts by itself */
};

/* the table as the library wants it */
struct ids {
    const uint8_t *ids;
    const uint64_t *numbers, *order;
    size_t count;
};

/* as arguments of a call */
#define IDS(t) (t).ids, HIVEPADLET_ID_ROW * (t).count, (t).numbers, (t).count, (t).order, (t).count

struct row *find_row(struct span id);
struct row *numbered_row(uint64_t number);

/* Finds a row or makes one; NULL for an id that cannot be, or where there is no room. */
struct row *name_row(struct span id, uint64_t now);

struct span id_of_row(const struct row *row);
void keep_rpc(struct row *row, const uint8_t *bytes, size_t length);
struct ids lend_ids(void);

/* Once a heartbeat: messages go after `kept`, ids that came in without their message too, and what was seen after `seen`. */
void forget_rows(uint64_t now, uint64_t kept, uint64_t seen);

/* A peer's connection ends. */
void forget_peer(size_t peer);

#endif
