/*
 * process.c: a hub's process between the clock's orders and its line. See process.h.
 *
 * At each step the hub waits until all frames are there that were sent to it for this time (the clock has counted them), so that it does
 * not matter which process the system runs first.
 */
#define _POSIX_C_SOURCE 200809L
#include "process.h"

#include <errno.h>
#include <signal.h>
#include <stdio.h>
#include <stdlib.h>
#include <sys/select.h>
#include <sys/socket.h>
#include <unistd.h>

enum { PATIENCE_SECONDS = 20 };

uint64_t now;
uint64_t tally[TALLIES];

static const struct start *self;
static const struct behaviour *does;
static int line;
static struct report report;
static volatile sig_atomic_t stopping;

_Noreturn void fail(const char *why)
{
    fprintf(stderr, "street: hub %u: %s\n", self == NULL ? 0 : (unsigned)self->id, why);
    _exit(1);
}

/* ---- reports */

static void send_report(uint32_t more)
{
    size_t size = offsetof(struct report, parcel) + report.parcels * sizeof report.parcel[0];
    report.more = more;
    for (int i = 0; i < TALLIES; i++) {
        report.tally[i] = tally[i];
    }
    if (send(self->control, &report, size, MSG_NOSIGNAL) != (ssize_t)size) {
        _exit(0); /* the clock is gone, and nobody would read why */
    }
    report.notes = report.parcels = 0;
}

void tell(enum note_kind kind, uint32_t number, int64_t value)
{
    if (report.notes == MOST_NOTES) {
        send_report(1);
    }
    report.note[report.notes++] = (struct note){ kind, number, value };
}

void tell_parcel(struct address to, uint64_t at)
{
    if (report.parcels == MOST_PARCELS) {
        send_report(1);
    }
    report.parcel[report.parcels++] = (struct parcel){ to, at };
}

/* ---- waiting: SIGTERM gets through here alone, so that it never falls into a step */

static void note_signal(int number)
{
    (void)number;
    stopping = 1;
}

/* until there is something on one of two sockets (-1: none), or SIGTERM; gives which are ready, none at SIGTERM or after the timeout */
static int wait_for(int first, int second, long seconds)
{
    struct timespec limit = { .tv_sec = seconds };
    sigset_t none;
    fd_set set;
    FD_ZERO(&set);
    FD_SET(first, &set);
    if (second >= 0) {
        FD_SET(second, &set);
    }
    sigemptyset(&none);
    int ready = pselect((first > second ? first : second) + 1, &set, NULL, NULL, seconds > 0 ? &limit : NULL, &none);
    if (ready < 0 && errno != EINTR) {
        fail("cannot wait");
    }
    return ready <= 0 ? 0 : (FD_ISSET(first, &set) ? 1 : 0) + (second >= 0 && FD_ISSET(second, &set) ? 2 : 0);
}

static void stop_if_told(void)
{
    if (stopping) {
        does->stop();
        report.last = 1;
        send_report(0);
        _exit(0);
    }
}

/* ---- orders */

static void step(const struct order *order)
{
    struct frame *frame;
    receive_frames();
    while (arrived_until(now) < order->count) {
        if (wait_for(line, -1, PATIENCE_SECONDS) == 0 && !stopping) {
            fail("a frame was lost");
        }
        receive_frames();
    }
    while ((frame = take_frame(now)) != NULL) {
        does->take(frame);
        free(frame);
    }
    report.next = does->work();
    send_report(0);
}

static void follow(const struct order *order)
{
    now = order->time;
    switch (order->kind) {
    case STEP:
        step(order);
        break;
    case BOOK:
        does->book(order->number, order->address);
        break;
    case PUBLISH:
        does->publish(order->number);
        break;
    case SCORES:
        does->scores();
        break;
    }
}

static void take_signals(void)
{
    struct sigaction action = { .sa_handler = note_signal };
    sigset_t set;
    sigemptyset(&set);
    sigaddset(&set, SIGTERM);
    sigprocmask(SIG_BLOCK, &set, NULL);
    sigemptyset(&action.sa_mask);
    sigaction(SIGTERM, &action, NULL);
    signal(SIGINT, SIG_IGN); /* ^C is for the clock, which ends its hubs */
}

_Noreturn void run_process(const struct start *start, const struct behaviour *behaviour)
{
    struct order order;
    self = start;
    does = behaviour;
    now = start->time;
    take_signals();
    line = open_line(start->ip, start->id, start->run, start->life, &report.address);
    does->begin(start);
    report.next = now;
    send_report(0);
    for (;;) {
        int ready = wait_for(start->control, line, 0);
        stop_if_told();
        if (ready & 2) {
            receive_frames();
        }
        if (ready & 1) {
            if (recv(start->control, &order, sizeof order, 0) != (ssize_t)sizeof order) {
                _exit(0); /* the clock is gone */
            }
            follow(&order);
        }
    }
}
