/*
 * clock.h: the processes of a street, one for each hub, and the time that they live by.
 *
 * The clock goes from each moment at which something happens to the next, wakes those hubs alone that have something to do then, and goes
 * on when all of them have reported.
 */
#ifndef STREET_CLOCK_H
#define STREET_CLOCK_H

#include "orders.h"

#include <stdbool.h>
#include <sys/types.h>

enum { MOST_HUBS = 200, MOST_CROWD = 64, MOST_PROCESSES = MOST_HUBS + MOST_CROWD, MOST_LIVES = 4, MOST_PATH = 200 };

/* the ends of the time for which a process ran */
struct life {
    uint64_t from, until;
};

struct process {
    uint32_t id, ip;
    bool up;
    bool ending; /* the clock has told it to end */
    pid_t pid;
    int control;
    struct address address;
    uint64_t next;                   /* when it wants to be woken */
    uint64_t count;                  /* frames sent to it for a time that has come, since its start */
    uint64_t *coming;                /* when those on their way arrive */
    size_t coming_count, coming_room;
    struct life lives[MOST_LIVES];
    uint32_t life_count;
    uint64_t tally[TALLIES];         /* of the last life that reported */
    uint64_t before[TALLIES];        /* of the lives that are over */
    char save[MOST_PATH];
};

extern struct process processes[MOST_PROCESSES];
extern size_t process_count;

/* What a note means is the caller's: it has this function. */
void take_note(struct process *process, const struct note *note, uint64_t time);

/* A hub has ended that nobody here told to: the caller's too. */
void take_end(const struct process *process, uint64_t time);

/* Ends all processes and this program. */
_Noreturn void give_up(const char *why, uint32_t hub);

void start_process(struct process *process, uint64_t time, uint64_t seed, uint64_t run);

/* Tells all that are up where it is, and it where the others are. */
void tell_book(struct process *process, uint64_t time);

void terminate_process(struct process *process, uint64_t time); /* SIGTERM */
void kill_process(struct process *process, uint64_t time);      /* SIGKILL */
void order_process(struct process *process, enum order_kind kind, uint32_t number, uint64_t time);

/* The sum of tallies; of the one that is a maximum the larger. */
void add_tally(uint64_t sum[TALLIES], const uint64_t tally[TALLIES]);

uint64_t next_time(void);
void step_processes(uint64_t time);
void end_processes(void);

#endif
