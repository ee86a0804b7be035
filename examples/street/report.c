/*
 * report.c: collects the hubs' notes, and prints who heard what, how fast, and what the crowd got. See report.h.
 */
#include "report.h"

#include "behaviours.h"
#include "hivepadlet.h"

#include <inttypes.h>
#include <stdio.h>
#include <stdlib.h>

enum { MOST_NOTICES = 16, MOST_MEMORIES = 4096, SETTLED_MS = 2000, NEVER = -1 };

struct notice {
    const struct process *from;
    uint64_t time;
    int64_t took[MOST_HUBS]; /* milliseconds until a hub heard it; NEVER where it did not */
    bool asked[MOST_HUBS];   /* by IWANT */
};

/* a peer that a hub saved below zero, and its score when it came back after the load */
struct memory {
    const struct process *hub;
    uint32_t peer;
    bool returned;
    int64_t after;
};

/* least and largest of some scores, in thousandths */
struct range {
    size_t count;
    int64_t least, most;
};

static const struct settings *chosen;
static struct notice notices[MOST_NOTICES];
static uint32_t notice_count;
static struct memory memories[MOST_MEMORIES];
static size_t memory_count;
static struct range saves, back, corner[CHEAP_KINDS], elsewhere[CHEAP_KINDS], among_honest, mesh_sizes;
static size_t loads, places[CHEAP_KINDS], members[MOST_HUBS], failures;

static void widen(struct range *range, int64_t value)
{
    range->least = range->count == 0 || value < range->least ? value : range->least;
    range->most = range->count == 0 || value > range->most ? value : range->most;
    range->count++;
}

/* ---- notes */

static void note_heard(size_t hub, const struct note *note, uint64_t time)
{
    if (note->number >= 1 && note->number <= notice_count) {
        struct notice *notice = &notices[note->number - 1];
        notice->took[hub] = (int64_t)(time - notice->time);
        notice->asked[hub] = note->value == 1;
    }
}

static void note_score(size_t hub, const struct note *note)
{
    if (note->number < FIRST_CHEAP) {
        widen(&among_honest, note->value);
    } else {
        widen(hub == 0 ? &corner[cheap_kind(note->number)] : &elsewhere[cheap_kind(note->number)], note->value);
    }
}

static void note_below(const struct process *hub, const struct note *note)
{
    if (memory_count < MOST_MEMORIES) {
        memories[memory_count++] = (struct memory){ .hub = hub, .peer = note->number };
    }
}

static void note_return(const struct process *hub, const struct note *note)
{
    for (size_t i = 0; i < memory_count; i++) {
        struct memory *memory = &memories[i];
        if (memory->hub == hub && memory->peer == note->number && !memory->returned) {
            memory->returned = true;
            memory->after = note->value;
        }
    }
}

void take_note(struct process *process, const struct note *note, uint64_t time)
{
    size_t hub = (size_t)(process - processes);
    switch (note->kind) {
    case HEARD:
        note_heard(hub, note, time);
        break;
    case SAVED:
        widen(&saves, note->value);
        break;
    case LOADED:
        loads++;
        break;
    case BELOW:
        note_below(process, note);
        break;
    case RETURNED:
        note_return(process, note);
        break;
    case BACK:
        widen(&back, note->value);
        break;
    case SCORE:
        note_score(hub, note);
        break;
    case MEMBER:
        members[hub]++;
        if (note->number >= FIRST_CHEAP) {
            places[cheap_kind(note->number)]++;
        }
        break;
    }
}

/* ---- as it happens */

static void say_time(uint64_t time)
{
    printf("%6.1f s  ", (double)time / 1000);
}

void begin_report(const struct settings *settings)
{
    chosen = settings;
    printf("A street of %zu hubs, a process each, on UDP; %" PRIu64 " simulated seconds, seed %" PRIu64 ".\n", settings->hubs,
           settings->seconds, settings->seed);
}

void tell_crowd(uint64_t time)
{
    if (chosen->cheap > 0) {
        say_time(time);
        printf("%zu cheap hubs dial in from one address group\n", chosen->cheap);
    }
}

void tell_ended(uint64_t time, struct process *const *ended, size_t count, bool power)
{
    if (count == 0) {
        return;
    }
    say_time(time);
    printf("%zu %s %s", count, count == 1 ? "hub" : "hubs", power ? "lost power (SIGKILL):" : "stopped (SIGTERM):");
    for (size_t i = 0; i < count; i++) {
        printf(" %u", (unsigned)ended[i]->id);
    }
    if (!power && saves.count == 1) {
        printf("; a save of %" PRId64 " bytes", saves.least);
    } else if (!power) {
        printf("; saves of %" PRId64 " to %" PRId64 " bytes", saves.least, saves.most);
    }
    printf("\n");
    saves.count = 0;
}

void tell_returned(uint64_t time, size_t count)
{
    if (count > 0) {
        say_time(time);
        printf("%zu started again, %zu of them from a save\n", count, loads);
    }
    loads = 0;
}

void take_end(const struct process *process, uint64_t time)
{
    say_time(time);
    printf("hub %u ended, by another's hand\n", (unsigned)process->id);
    saves.count = 0;
}

uint32_t begin_notice(const struct process *from, uint64_t time)
{
    struct notice *notice = &notices[notice_count++];
    notice->from = from;
    notice->time = time;
    for (size_t i = 0; i < MOST_HUBS; i++) {
        notice->took[i] = NEVER;
    }
    return notice_count;
}

bool has_been_up(const struct process *process, uint64_t time)
{
    return process->up && process->lives[process->life_count - 1].from + SETTLED_MS <= time;
}

/* ---- the end */

/* whether a hub was there, settled before a notice and not gone at once after it */
static bool was_there(const struct process *process, uint64_t time)
{
    for (uint32_t i = 0; i < process->life_count; i++) {
        const struct life *life = &process->lives[i];
        if (life->from + SETTLED_MS <= time && life->until >= time + SETTLED_MS) {
            return true;
        }
    }
    return false;
}

static int by_size(const void *a, const void *b)
{
    int64_t x = *(const int64_t *)a, y = *(const int64_t *)b;
    return x < y ? -1 : x > y;
}

static void print_notice(uint32_t number)
{
    const struct notice *notice = &notices[number];
    int64_t took[MOST_HUBS];
    size_t there = 0, heard = 0, asked = 0, others = 0;
    for (size_t i = 0; i < chosen->hubs; i++) {
        bool was = was_there(&processes[i], notice->time), has = notice->took[i] != NEVER;
        there += was;
        others += !was && has;
        asked += has && notice->asked[i];
        if (was && has) {
            took[heard++] = notice->took[i];
        }
    }
    qsort(took, heard, sizeof *took, by_size);
    printf("%6u  %7.1f s  hub %-4u  %3zu of %-3zu  %5" PRId64 " ms  %5" PRId64 " ms  %8zu  %25zu\n", (unsigned)number + 1,
           (double)notice->time / 1000, (unsigned)notice->from->id, heard, there, heard == 0 ? 0 : took[heard / 2],
           heard == 0 ? 0 : took[heard - 1], asked, others);
    failures += heard < there;
}

static void print_notices(void)
{
    printf("notice  published  by        heard by     median     worst  by IWANT  by hubs that came or went\n");
    for (uint32_t i = 0; i < notice_count; i++) {
        print_notice(i);
    }
}

static void print_range(const struct range *range)
{
    char text[40] = "-";
    if (range->count > 0 && range->least / 100 == range->most / 100) {
        snprintf(text, sizeof text, "%.1f", (double)range->least / 1000);
    } else if (range->count > 0) {
        snprintf(text, sizeof text, "%.1f to %.1f", (double)range->least / 1000, (double)range->most / 1000);
    }
    printf("  %22s", text);
}

static void print_crowd(void)
{
    static const char *const does[CHEAP_KINDS] = { "sends GRAFT in its backoff", "sends invalid notices", "asks for everything",
                                                   "only listens" };
    printf("%-30s  %22s  %22s  %16s\n", "a cheap hub that", "scored by hub 1", "by the other hubs", "places in meshes");
    for (int i = 0; i < CHEAP_KINDS; i++) {
        printf("%-30s", does[i]);
        print_range(&corner[i]);
        print_range(&elsewhere[i]);
        printf("  %16zu\n", places[i]);
    }
    printf("%-30s", "(honest hubs, by each other)");
    print_range(&among_honest);
    printf("  members of a mesh: %" PRId64 " to %" PRId64 "\n", mesh_sizes.least, mesh_sizes.most);
}

static void sum_tallies(uint64_t sum[TALLIES])
{
    for (int i = 0; i < TALLIES; i++) {
        sum[i] = 0;
    }
    for (size_t i = 0; i < chosen->hubs; i++) {
        add_tally(sum, processes[i].before);
        add_tally(sum, processes[i].tally);
        widen(&mesh_sizes, (int64_t)members[i]);
    }
}

static void print_bytes(const uint64_t sum[TALLIES])
{
    printf("Hubs that started again were in a mesh after %" PRId64 " to %" PRId64 " ms.\n", back.least, back.most);
    printf("Copies: %" PRIu64 " sent along meshes, %.1f MB, and %" PRIu64 " by IWANT, after %" PRIu64 " IHAVEs; %" PRIu64
           " came to a hub that had it.\n",
           sum[COPIES], (double)sum[COPY_BYTES] / 1e6, sum[REPLIES], sum[IHAVES], sum[AGAIN]);
    printf("IDONTWANT: %" PRIu64 " sent, %.1f KB; they spared %" PRIu64 " copies, %.1f MB.\n", sum[IDONTWANTS],
           (double)sum[IDONTWANT_BYTES] / 1e3, sum[SPARED], (double)sum[SPARED_BYTES] / 1e6);
    printf("The crowd sent %" PRIu64 " invalid notices and %" PRIu64 " RPCs that are no protobuf; the routers ignored %" PRIu64 " calls.\n",
           sum[INVALID], sum[BROKEN], sum[IGNORED]);
    printf("The crowd asked %" PRIu64 " times by IWANT and drew %" PRIu64 " replies, at most %" PRIu64 " for one notice from one hub.\n",
           sum[CROWD_ASKED], sum[CROWD_REPLIES], sum[MOST_REPLIES]);
}

static void check(bool holds, const char *what)
{
    printf("%s: %s\n", holds ? "ok" : "FAILED", what);
    failures += !holds;
}

/* of the peers that a hub saved below zero and that came back after the load, how many were below zero still */
static void check_memory(void)
{
    char what[120];
    size_t returned = 0, kept = 0;
    for (size_t i = 0; i < memory_count; i++) {
        returned += memories[i].returned;
        kept += memories[i].returned && memories[i].after < 0;
    }
    snprintf(what, sizeof what, "of %zu peers that a hub saved below zero, %zu were so when they came back after its restart", returned,
             kept);
    check(kept == returned, what);
}

bool print_report(void)
{
    uint64_t sum[TALLIES], setup[HIVEPADLET_SETUP_NUMBERS];
    char what[120];
    hivepadlet_ordinary_setup(setup);
    sum_tallies(sum);
    print_notices();
    bool all_heard = failures == 0;
    failures = 0;
    if (chosen->cheap > 0) {
        print_crowd();
    }
    print_bytes(sum);
    check(all_heard, "every honest hub that was there heard every notice");
    check(places[FLAPS] + places[LIES] == 0, "no hub that sends GRAFT in its backoff or invalid notices is in an honest mesh");
    snprintf(what, sizeof what, "no peer drew more replies for a notice than the bound, which is %" PRIu64, setup[HIVEPADLET_REPLY_BOUND]);
    check(sum[MOST_REPLIES] <= setup[HIVEPADLET_REPLY_BOUND], what);
    check(among_honest.least >= 0, "no honest hub scores another below zero");
    check_memory();
    return failures == 0;
}
