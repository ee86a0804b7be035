/*
 * process.h: what every hub's process does, whatever it behaves like: it follows the clock's orders, takes frames in a fixed order,
 * reports, and stops at SIGTERM.
 */
#ifndef STREET_PROCESS_H
#define STREET_PROCESS_H

#include "line.h"

struct start {
    uint32_t id; /* 1 and up */
    uint32_t ip;
    int control; /* the socket to the clock */
    uint64_t time, seed, run;
    uint32_t life; /* how often it was started before */
    const char *save; /* the path of the hub's save */
};

struct behaviour {
    void (*begin)(const struct start *start);
    void (*book)(uint32_t hub, struct address address);
    void (*publish)(uint32_t notice);
    void (*scores)(void);
    void (*take)(const struct frame *frame);
    uint64_t (*work)(void); /* what is due now; gives when to come back */
    void (*stop)(void);     /* SIGTERM */
};

extern uint64_t now; /* milliseconds by the clock's last order */
extern uint64_t tally[TALLIES];

/* Ends the process with a word on standard error. */
_Noreturn void fail(const char *why);

/* Goes into the report of this step. */
void tell(enum note_kind kind, uint32_t number, int64_t value);
void tell_parcel(struct address to, uint64_t at);

_Noreturn void run_process(const struct start *start, const struct behaviour *behaviour);

#endif
