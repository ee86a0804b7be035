/*
 * story.c: a minute of a street: hubs come and go, a crowd of cheap ones dials in, and doors ring. Who hears it, how fast?
 *
 *     street [--hubs N] [--cheap N] [--seconds N] [--seed N] [--pace]
 *
 * Everything happens at fixed parts of the run, so that a short run has all of it; which hubs it happens to is drawn from the seed. Two
 * runs with the same numbers print the same. The exit status is 0 where all that has to hold did.
 */
#define _POSIX_C_SOURCE 200809L
#include "report.h"

#include "behaviours.h"
#include "dice.h"

#include <signal.h>
#include <stdio.h>
#include <stdlib.h>
#include <string.h>
#include <time.h>
#include <unistd.h>

enum { HONEST_NET = 0x7F010001, CROWD_NET = 0x7F420600, PARTS = 600, MOST_TURNS = 1000, MOST_FOLDER = 160 };

enum event_kind { CROWD, NOTICE, TERMINATE, LOSE_POWER, RETURN, RESTART };

/* when, in six hundredths of the run */
static const struct event {
    uint64_t part;
    enum event_kind kind;
} events[] = {
    { 100, NOTICE }, { 120, CROWD },  { 160, NOTICE }, { 210, TERMINATE }, { 218, LOSE_POWER }, { 220, NOTICE }, { 280, NOTICE },
    { 300, RETURN }, { 340, NOTICE }, { 400, NOTICE }, { 430, RESTART },   { 440, RETURN },     { 460, NOTICE }, { 520, NOTICE },
};

enum { EVENTS = sizeof events / sizeof events[0] };

static struct settings settings = { .hubs = 60, .cheap = 24, .seconds = 60, .seed = 1 };
static struct dice dice;
static uint64_t run;
static char folder[MOST_FOLDER];
static volatile sig_atomic_t interrupted;

/* ---- what happens */

/* one that is up; where a time is given, settled by then, to publish, else to be ended, but not the corner house, whose scores are shown.
 * NULL where there is none */
static struct process *random_hub(const uint64_t *settled)
{
    struct process *fit[MOST_HUBS];
    size_t count = 0;
    for (size_t i = settled == NULL ? 1 : 0; i < settings.hubs; i++) {
        if (processes[i].up && (settled == NULL || has_been_up(&processes[i], *settled))) {
            fit[count++] = &processes[i];
        }
    }
    return count == 0 ? NULL : fit[random_below(&dice, count)];
}

static size_t share(size_t of)
{
    size_t count = settings.hubs / of;
    return count == 0 ? 1 : count;
}

static void begin_process(struct process *p, uint64_t time)
{
    start_process(p, time, settings.seed, run);
    tell_book(p, time);
}

static void end_some(uint64_t time, enum event_kind kind)
{
    struct process *chosen[MOST_HUBS], *p;
    size_t count = 0, wanted = share(kind == TERMINATE ? 10 : 30);
    while (count < wanted && (p = random_hub(NULL)) != NULL) {
        chosen[count++] = p;
        if (kind == LOSE_POWER) {
            kill_process(p, time);
        } else {
            terminate_process(p, time);
        }
    }
    tell_ended(time, chosen, count, kind == LOSE_POWER);
}

static void return_all(uint64_t time)
{
    size_t count = 0;
    for (size_t i = 0; i < settings.hubs; i++) {
        if (!processes[i].up) {
            begin_process(&processes[i], time);
            count++;
        }
    }
    tell_returned(time, count);
}

static void dial_in(uint64_t time)
{
    for (size_t i = settings.hubs; i < process_count; i++) {
        begin_process(&processes[i], time);
    }
    tell_crowd(time);
}

static void publish(uint64_t time)
{
    struct process *p = random_hub(&time);
    if (p != NULL) {
        order_process(p, PUBLISH, begin_notice(p, time), time);
    }
}

static void happen(const struct event *event, uint64_t time)
{
    switch (event->kind) {
    case CROWD:
        dial_in(time);
        break;
    case NOTICE:
        publish(time);
        break;
    case TERMINATE:
    case LOSE_POWER:
    case RESTART:
        end_some(time, event->kind);
        break;
    case RETURN:
        return_all(time);
        break;
    }
}

/* ---- the run */

/* with --pace, a simulated millisecond is one of the wall's */
static void keep_pace(uint64_t time)
{
    static struct timespec began;
    if (!settings.pace) {
        return;
    }
    if (began.tv_sec == 0) {
        clock_gettime(CLOCK_MONOTONIC, &began);
    }
    struct timespec until = { .tv_sec = began.tv_sec + (time_t)(time / 1000), .tv_nsec = began.tv_nsec + (long)(time % 1000) * 1000000 };
    until.tv_sec += until.tv_nsec / 1000000000;
    until.tv_nsec %= 1000000000;
    clock_nanosleep(CLOCK_MONOTONIC, TIMER_ABSTIME, &until, NULL);
}

/* a hub that wakes again and again at one time would hold all others */
static void watch_progress(uint64_t time)
{
    static uint64_t last;
    static unsigned turns;
    turns = time == last ? turns + 1 : 0;
    if (time < last || turns > MOST_TURNS) {
        give_up("the time does not go on", 0);
    }
    last = time;
}

static void run_street(void)
{
    const uint64_t end = settings.seconds * 1000;
    size_t i = 0;
    for (;;) {
        uint64_t event = i < EVENTS ? events[i].part * end / PARTS : UINT64_MAX, next = next_time();
        uint64_t time = event < next ? event : next;
        if (interrupted) {
            give_up("stopped", 0);
        }
        if (time > end) {
            break;
        }
        watch_progress(time);
        keep_pace(time);
        if (event == time) {
            happen(&events[i++], time);
        } else {
            step_processes(time);
        }
    }
    for (size_t h = 0; h < settings.hubs; h++) {
        if (processes[h].up) {
            order_process(&processes[h], SCORES, 0, end);
        }
    }
    step_processes(end);
}

/* ---- start and end */

static void interrupt(int number)
{
    (void)number;
    interrupted = 1;
}

static void remove_folder(void)
{
    char path[MOST_PATH + 8];
    for (size_t i = 0; i < process_count; i++) {
        unlink(processes[i].save);
        snprintf(path, sizeof path, "%s.new", processes[i].save);
        unlink(path);
    }
    rmdir(folder);
}

static void make_folder(void)
{
    const char *where = getenv("TMPDIR");
    int length = snprintf(folder, sizeof folder, "%s/street.XXXXXX", where == NULL || *where == 0 ? "/tmp" : where);
    if (length < 0 || (size_t)length >= sizeof folder || mkdtemp(folder) == NULL) {
        fprintf(stderr, "street: no folder for the saves in %s\n", where == NULL ? "/tmp" : where);
        exit(1);
    }
    atexit(remove_folder);
}

/* each honest hub has an address group of its own, the crowd shares one */
static void make_processes(void)
{
    process_count = settings.hubs + settings.cheap;
    for (size_t i = 0; i < process_count; i++) {
        bool honest_one = i < settings.hubs;
        uint32_t nth = (uint32_t)(honest_one ? i + 1 : i - settings.hubs + 1);
        processes[i].id = honest_one ? nth : FIRST_CHEAP - 1 + nth;
        processes[i].ip = honest_one ? HONEST_NET + (nth << 8) : CROWD_NET + nth;
        snprintf(processes[i].save, sizeof processes[i].save, "%s/hub-%u.save", folder, (unsigned)processes[i].id);
    }
}

static uint64_t read_number(const char *text, uint64_t least, uint64_t most)
{
    char *rest;
    unsigned long long number = strtoull(text, &rest, 10);
    if (*text < '0' || *text > '9' || *rest != 0 || number < least || number > most) {
        fprintf(stderr, "street: %s is no number from %llu to %llu\n", text, (unsigned long long)least, (unsigned long long)most);
        exit(2);
    }
    return number;
}

static void read_settings(int count, char **words)
{
    for (int i = 1; i < count; i++) {
        const char *value = i + 1 < count ? words[i + 1] : "";
        if (strcmp(words[i], "--pace") == 0) {
            settings.pace = true;
            continue;
        } else if (strcmp(words[i], "--hubs") == 0) {
            settings.hubs = read_number(value, 3, MOST_HUBS);
        } else if (strcmp(words[i], "--cheap") == 0) {
            settings.cheap = read_number(value, 0, MOST_CROWD);
        } else if (strcmp(words[i], "--seconds") == 0) {
            settings.seconds = read_number(value, 15, 3600);
        } else if (strcmp(words[i], "--seed") == 0) {
            settings.seed = read_number(value, 0, UINT64_MAX);
        } else {
            fprintf(stderr, "usage: street [--hubs 3..200] [--cheap 0..64] [--seconds 15..3600] [--seed N] [--pace]\n");
            exit(2);
        }
        i++;
    }
}

int main(int count, char **words)
{
    struct sigaction action = { .sa_handler = interrupt };
    read_settings(count, words);
    sigemptyset(&action.sa_mask);
    sigaction(SIGINT, &action, NULL);
    sigaction(SIGTERM, &action, NULL);
    make_folder();
    make_processes();
    dice.state = mix(settings.seed);
    run = (uint64_t)getpid() << 32 ^ (uint64_t)time(NULL); /* frames of another street are not ours; nothing that is printed hangs on it */
    begin_report(&settings);
    for (size_t i = 0; i < settings.hubs; i++) {
        start_process(&processes[i], 0, settings.seed, run);
    }
    for (size_t i = 0; i < settings.hubs; i++) {
        tell_book(&processes[i], 0);
    }
    run_street();
    bool good = print_report();
    end_processes();
    return good ? 0 : 1;
}
