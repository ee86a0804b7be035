/*
 * power_cycle.c: a hub is penalised, the power goes, and in the morning it is still out.
 *
 * The lobby's host saves what its router remembers before the power goes, and loads it when the power comes back, at a clock that
 * begins anew. All peers have to connect again; what they did is not forgotten.
 *
 *     gcc -Iinclude examples/power_cycle.c crates/host/out/libhost.a -o power_cycle && ./power_cycle
 */
#include <inttypes.h>
#include <stdio.h>
#include <stdlib.h>
#include <string.h>

#include "hivepadlet.h"

enum { CHEAP = 3, TOPIC = 0 };

#define LIST actions, HIVEPADLET_ACTION_NUMBERS

static uint64_t table[HIVEPADLET_CELLS];
static uint32_t actions[HIVEPADLET_ACTION_NUMBERS];
static int64_t numbers[HIVEPADLET_NUMBERS];

/* what survives the night: flash, in a product */
static uint8_t flash[HIVEPADLET_SAVE_BYTES];
static size_t kept;

/* the value of an answer 0; this host makes no call that may be refused */
static uint32_t done(uint64_t r)
{
    if (hivepadlet_number(r) != HIVEPADLET_DONE) {
        printf("answered %u\n", hivepadlet_number(r));
        exit(1);
    }
    return hivepadlet_value(r);
}

/* the hub connects, and tells that it is in the topic */
static void dial(uint64_t time)
{
    static const uint8_t name[] = { '/', 'm', 'e', 's', 'h', 's', 'u', 'b', '/', '1', '.', '1', '.', '0' };
    const uint64_t group = 7;
    done(hivepadlet_connect(table, time, CHEAP, &group, 1, 0, name, sizeof name, LIST));
    done(hivepadlet_subscribe(table, time, CHEAP, TOPIC, LIST));
}

static void say_score(uint64_t time)
{
    int64_t why[HIVEPADLET_WHY_NUMBERS] = { 0 };
    done(hivepadlet_score(table, time, CHEAP, why, LIST));
    printf("%6" PRIu64 "  score %" PRId64 " thousandths\n", time, why[HIVEPADLET_WHY_SCORE] / 1000000);
}

/* what a call told the host to send */
static void say_actions(uint64_t time, const char *what, uint32_t count)
{
    printf("%6" PRIu64 "  %s:", time, what);
    for (uint32_t i = 0; i < count; i++) {
        int graft = hivepadlet_action_kind(actions, i) == HIVEPADLET_GRAFT;
        printf(" %s to %" PRIu32 ", backoff %" PRIu32, graft ? "GRAFT" : "PRUNE", hivepadlet_action_peer(actions, i),
               hivepadlet_action_seconds(actions, i));
    }
    printf("%s\n", count == 0 ? " nothing to send" : "");
}

static void graft(uint64_t time)
{
    say_actions(time, "GRAFT comes in", done(hivepadlet_graft(table, time, CHEAP, TOPIC, LIST)));
}

static void heartbeat(uint64_t time)
{
    static uint64_t permutation[HIVEPADLET_SLOTS];
    for (uint64_t i = 0; i < HIVEPADLET_SLOTS; i++) {
        permutation[i] = i;
    }
    say_actions(time, "heartbeat", done(hivepadlet_heartbeat(table, time, TOPIC, 0, permutation, HIVEPADLET_SLOTS, LIST)));
}

static void evening(void)
{
    printf("In the evening.\n");
    done(hivepadlet_fresh(numbers, HIVEPADLET_EDITION_1, table));
    done(hivepadlet_join(table, 1000, TOPIC, LIST));
    dial(1000);
    graft(1000);
    for (int i = 0; i < 2; i++) {
        done(hivepadlet_deliver(table, 2000, CHEAP, TOPIC, HIVEPADLET_INVALID, LIST));
    }
    say_score(2000);
    heartbeat(2000);
    graft(20000);
    say_score(20000);
}

static void power_cycle(void)
{
    kept = done(hivepadlet_save(table, 30000, flash, sizeof flash));
    printf("The power goes, and comes back; %zu bytes were kept.\n", kept);
    memset(table, 0xFF, sizeof table);
    done(hivepadlet_load(numbers, HIVEPADLET_EDITION_1, 500, flash, kept, table));
}

static void morning(void)
{
    printf("In the morning.\n");
    done(hivepadlet_join(table, 600, TOPIC, LIST));
    dial(600);
    say_score(600);
    heartbeat(1000);
    graft(1000);
    say_score(1000);
}

int main(void)
{
    hivepadlet_ordinary(numbers);
    evening();
    power_cycle();
    morning();
    return 0;
}
