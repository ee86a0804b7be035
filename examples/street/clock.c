/*
 * clock.c: starts, wakes and ends the processes of a street. See clock.h.
 */
#define _POSIX_C_SOURCE 200809L
#include "clock.h"

#include "behaviours.h"

#include <errno.h>
#include <poll.h>
#include <signal.h>
#include <stdio.h>
#include <stdlib.h>
#include <sys/socket.h>
#include <sys/wait.h>
#include <unistd.h>

enum { PATIENCE_MS = 30000 };

struct process processes[MOST_PROCESSES];
size_t process_count;

_Noreturn void give_up(const char *why, uint32_t hub)
{
    fprintf(stderr, "street: %s", why);
    if (hub > 0) {
        fprintf(stderr, ": hub %u", (unsigned)hub);
    }
    fprintf(stderr, "\n");
    end_processes();
    exit(1);
}

/* ---- reports, and the last of them */

void add_tally(uint64_t sum[TALLIES], const uint64_t tally[TALLIES])
{
    uint64_t most = sum[MOST_REPLIES] > tally[MOST_REPLIES] ? sum[MOST_REPLIES] : tally[MOST_REPLIES];
    for (int i = 0; i < TALLIES; i++) {
        sum[i] += tally[i];
    }
    sum[MOST_REPLIES] = most;
}

/* a process that has ended, or is about to; by a signal, from whomever, is as good as any, but not by a failure of its own */
static void bury(struct process *p, uint64_t time)
{
    int status = 0;
    waitpid(p->pid, &status, 0);
    close(p->control);
    p->up = false;
    p->lives[p->life_count - 1].until = time;
    add_tally(p->before, p->tally);
    if (WIFEXITED(status) && WEXITSTATUS(status) != 0) {
        give_up("a hub has failed", p->id);
    }
    if (!p->ending) {
        take_end(p, time);
    }
}

/* counts a frame that is on its way, where its receiver is there still; one of a hub that ended unasked may be late, and is there at
 * once */
static void count_parcel(const struct parcel *parcel, uint64_t time)
{
    size_t i = 0;
    while (i < process_count && processes[i].ip != parcel->to.ip) {
        i++;
    }
    struct process *p = &processes[i];
    if (i == process_count || !p->up || p->address.port != parcel->to.port) {
        return;
    }
    if (p->coming_count == p->coming_room) {
        p->coming_room = 2 * p->coming_room + 64;
        p->coming = realloc(p->coming, p->coming_room * sizeof *p->coming);
        if (p->coming == NULL) {
            give_up("no memory", 0);
        }
    }
    p->coming[p->coming_count++] = parcel->at < time ? time : parcel->at;
}

/* one report, and those that belong to it */
static void take_report(struct process *p, uint64_t time)
{
    static struct report report;
    do {
        struct pollfd wait = { .fd = p->control, .events = POLLIN };
        int ready = poll(&wait, 1, PATIENCE_MS);
        if (ready <= 0) {
            give_up(ready < 0 ? "stopped" : "no report", p->id);
        }
        if (recv(p->control, &report, sizeof report, 0) < (ssize_t)offsetof(struct report, parcel)) {
            bury(p, time); /* killed */
            return;
        }
        p->next = report.next;
        p->address = report.address;
        for (int i = 0; i < TALLIES; i++) {
            p->tally[i] = report.tally[i];
        }
        for (uint32_t i = 0; i < report.parcels; i++) {
            count_parcel(&report.parcel[i], time);
        }
        for (uint32_t i = 0; i < report.notes; i++) {
            take_note(p, &report.note[i], time);
        }
    } while (report.more);
    if (report.last) {
        bury(p, time);
    }
}

/* ---- processes */

/* frames that are there by now are counted, the others stay on their way */
static void arrive(struct process *p, uint64_t time)
{
    size_t left = 0;
    for (size_t i = 0; i < p->coming_count; i++) {
        if (p->coming[i] <= time) {
            p->count++;
        } else {
            p->coming[left++] = p->coming[i];
        }
    }
    p->coming_count = left;
}

/* the child: no end of another hub's sockets stays open in it, so that all hubs end with the clock, however it ends */
static _Noreturn void be_hub(const struct process *p, const struct start *start)
{
    for (size_t i = 0; i < process_count; i++) {
        if (processes[i].up) {
            close(processes[i].control);
        }
    }
    close(p->control);
    run_process(start, p->id >= FIRST_CHEAP ? &cheap : &honest);
}

void start_process(struct process *p, uint64_t time, uint64_t seed, uint64_t run)
{
    static struct start start;
    int ends[2];
    if (p->life_count == MOST_LIVES || socketpair(AF_UNIX, SOCK_SEQPACKET, 0, ends) != 0) {
        give_up("no process could be started", p->id);
    }
    start = (struct start){ .id = p->id, .ip = p->ip, .control = ends[1], .time = time, .seed = seed, .run = run, .life = p->life_count,
                            .save = p->save };
    p->control = ends[0];
    fflush(NULL);
    p->pid = fork();
    if (p->pid == 0) {
        be_hub(p, &start);
    }
    close(ends[1]);
    if (p->pid < 0) {
        give_up("no process could be started", p->id);
    }
    p->up = true;
    p->ending = false;
    p->count = p->coming_count = 0;
    p->lives[p->life_count++] = (struct life){ time, UINT64_MAX };
    take_report(p, time);
}

/* the hub last heard the time when it was woken; an order brings it up to now before it saves */
void terminate_process(struct process *p, uint64_t time)
{
    arrive(p, time);
    order_process(p, STEP, 0, time);
    take_report(p, time);
    if (p->up) {
        p->ending = true;
        kill(p->pid, SIGTERM);
        take_report(p, time);
    }
}

void kill_process(struct process *p, uint64_t time)
{
    p->ending = true;
    kill(p->pid, SIGKILL);
    bury(p, time);
}

void end_processes(void)
{
    for (size_t i = 0; i < process_count; i++) {
        struct process *p = &processes[i];
        if (p->up) {
            kill(p->pid, SIGKILL);
            waitpid(p->pid, NULL, 0);
            close(p->control);
            p->up = false;
        }
        free(p->coming);
        p->coming = NULL;
    }
}

/* ---- orders */

/* where the hub has ended, the next report tells */
static void send_order(const struct process *p, const struct order *order)
{
    if (send(p->control, order, sizeof *order, MSG_NOSIGNAL) < 0 && errno != EPIPE && errno != ECONNRESET) {
        give_up("an order was not sent", p->id);
    }
}

void order_process(struct process *p, enum order_kind kind, uint32_t number, uint64_t time)
{
    struct order order = { .kind = kind, .number = number, .time = time, .count = p->count };
    send_order(p, &order);
    p->next = time;
}

void tell_book(struct process *p, uint64_t time)
{
    struct order order = { .kind = BOOK, .time = time };
    for (size_t i = 0; i < process_count; i++) {
        const struct process *other = &processes[i];
        if (!other->up || other == p) {
            continue;
        }
        if (other->id < FIRST_CHEAP) {
            order.number = other->id;
            order.address = other->address;
            send_order(p, &order);
        }
        if (p->id < FIRST_CHEAP) {
            order.number = p->id;
            order.address = p->address;
            send_order(other, &order);
        }
    }
}

/* ---- time */

static uint64_t next_of(const struct process *p)
{
    uint64_t next = p->next;
    for (size_t i = 0; i < p->coming_count; i++) {
        next = p->coming[i] < next ? p->coming[i] : next;
    }
    return next;
}

uint64_t next_time(void)
{
    uint64_t next = UINT64_MAX;
    for (size_t i = 0; i < process_count; i++) {
        if (processes[i].up) {
            uint64_t its = next_of(&processes[i]);
            next = its < next ? its : next;
        }
    }
    return next;
}

void step_processes(uint64_t time)
{
    bool woken[MOST_PROCESSES] = { false };
    for (size_t i = 0; i < process_count; i++) {
        struct process *p = &processes[i];
        if (p->up && next_of(p) <= time) {
            arrive(p, time);
            order_process(p, STEP, 0, time);
            woken[i] = true;
        }
    }
    for (size_t i = 0; i < process_count; i++) {
        if (woken[i]) {
            take_report(&processes[i], time);
        }
    }
}
