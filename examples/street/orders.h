/*
 * orders.h: what the clock and a hub tell each other, over a pair of sockets of their own. No RPC goes here: those go from hub to hub.
 *
 * The clock says what time it is and waits for the hub's report, so that time is simulated and a street runs alike under every scheduler.
 * Both ends are one program: the structs go as they are.
 */
#ifndef STREET_ORDERS_H
#define STREET_ORDERS_H

#include <stddef.h>
#include <stdint.h>

/* a UDP socket on loopback; both numbers in the machine's order */
struct address {
    uint32_t ip, port;
};

enum order_kind {
    STEP,    /* it is `time`: take the frames that have come, `count` since the start, do what is due, and report */
    BOOK,    /* another hub is at an address; no report */
    PUBLISH, /* publish the notice of a number; no report */
    SCORES   /* tell the scores and the mesh in notes; no report */
};

struct order {
    uint32_t kind;
    uint32_t number; /* of a BOOK the hub, of a PUBLISH the notice */
    struct address address;
    uint64_t time; /* milliseconds */
    uint64_t count;
};

/* a frame that the hub sent, and when it is there: the clock counts it, so that no hub runs ahead of what is on its way */
struct parcel {
    struct address to;
    uint64_t at;
};

enum note_kind {
    HEARD,    /* a notice came, the first time: its number; value 1 where it was asked for by IWANT */
    SAVED,    /* the number of bytes */
    LOADED,   /* the number of bytes */
    BELOW,    /* at a save: a peer whose record is below zero; in thousandths */
    RETURNED, /* a peer connected to a hub that was restarted; its record's score in thousandths */
    BACK,     /* a hub that was restarted is in a mesh again; milliseconds since its start */
    SCORE,    /* a peer; the score in thousandths */
    MEMBER    /* a peer in the mesh */
};

struct note {
    uint32_t kind;
    uint32_t number; /* of the peer or notice */
    int64_t value;
};

/* what a hub counts from its start on */
enum tally {
    COPIES,          /* notices sent to mesh members */
    COPY_BYTES,
    AGAIN,           /* notices that came once more */
    IDONTWANTS,      /* sent */
    IDONTWANT_BYTES,
    SPARED,          /* copies that were not sent because of an IDONTWANT */
    SPARED_BYTES,
    IHAVES,          /* sent */
    REPLIES,         /* notices sent for an IWANT */
    CROWD_ASKED,     /* ids in IWANTs of the crowd */
    CROWD_REPLIES,
    MOST_REPLIES,    /* to one peer for one notice in one connection */
    INVALID,         /* notices with a wrong signature */
    IGNORED,         /* calls that the router ignored */
    BROKEN,          /* RPCs that are no protobuf */
    TALLIES
};

enum { MOST_NOTES = 64, MOST_PARCELS = 256 };

struct report {
    uint64_t next; /* when the hub wants to be woken, if nothing comes before */
    uint32_t more; /* 1: another report of this step follows */
    uint32_t last; /* 1: the hub has saved, and ends */
    uint32_t notes, parcels;
    struct address address;
    uint64_t tally[TALLIES];
    struct note note[MOST_NOTES];
    struct parcel parcel[MOST_PARCELS]; /* the last, so that a report is sent as short as it is */
};

#endif
