/*
 * How much stack each call takes: it is made on a stack that was filled with a mark, and the bytes that lost it are counted. The
 * proofs do not speak of the stack, so this is measured; a call that takes more than MOST fails the test, and so does an IHAVE whose
 * numbers make it take more than others.
 */
#define _XOPEN_SOURCE 700 /* for ucontext.h */
#include "hivepadlet.h"

#include <stdio.h>
#include <string.h>
#include <ucontext.h>

/* all slots but one are taken, the last by the calls that are measured */
enum { SIZE = 1 << 18, MOST = 1 << 13, MARK = 0xa5, PEERS = HIVEPADLET_SLOTS - 1 };

static _Alignas(64) uint8_t stack[SIZE];
static ucontext_t home, there;
static uint64_t table[HIVEPADLET_CELLS], fresh_table[HIVEPADLET_CELLS], old_table[HIVEPADLET_OLD_CELLS];
static uint8_t save[HIVEPADLET_SAVE_BYTES];
static uint32_t actions[HIVEPADLET_ACTION_NUMBERS];
static int64_t numbers[HIVEPADLET_NUMBERS], why[HIVEPADLET_WHY_NUMBERS];
static uint64_t edition;
static uint64_t permutation[HIVEPADLET_SLOTS];
static uint8_t bytes[HIVEPADLET_PARAMETER_BYTES], theirs[HIVEPADLET_SUPPLIER_BYTES];
static uint8_t names[HIVEPADLET_NAMES_BYTES], rpc[HIVEPADLET_WRITTEN_BYTES];
static uint8_t ids[HIVEPADLET_ID_ROW] = { 64 };
static const uint64_t id_number = 7, id_row = 0;
static uint32_t prunes[3 * HIVEPADLET_MESSAGE_ACTIONS];
static uint64_t topics[HIVEPADLET_MESSAGE_ACTIONS], joins[2 * HIVEPADLET_TOPICS], entries[HIVEPADLET_ENTRY_NUMBERS];
static uint64_t answer;
static uint64_t groups[HIVEPADLET_GROUPS];

/* a router with a second array */
static uint64_t second[HIVEPADLET_CELLS], gossip[HIVEPADLET_GOSSIP_CELLS], setup[HIVEPADLET_SETUP_NUMBERS];
static uint64_t given[HIVEPADLET_MESSAGE_NUMBERS], told[HIVEPADLET_MESSAGE_NUMBERS];
static size_t saved_bytes;

#define LIST actions, HIVEPADLET_ACTION_NUMBERS
#define NAME (const uint8_t *)"/meshsub/1.1.0", 14
#define BOTH second, gossip
#define NEWEST (const uint8_t *)"/meshsub/1.2.0", 14

/* four groups that no other peer has */
static const uint64_t *own(uint64_t id)
{
    size_t k;

    for (k = 0; k < HIVEPADLET_GROUPS; k++)
        groups[k] = 1000 * k + id;
    return groups;
}

static void nothing(void) { answer = 0; }
static void connect(void) { answer = hivepadlet_connect(table, 1, PEERS + 1, own(PEERS + 1), HIVEPADLET_GROUPS, 1, NAME, LIST); }
static void subscribe(void) { answer = hivepadlet_subscribe(table, 1, PEERS + 1, 0, LIST); }
static void graft(void) { answer = hivepadlet_graft(table, 1, PEERS + 1, 0, LIST); }
static void deliver(void) { answer = hivepadlet_deliver(table, 1, PEERS + 1, 0, 1, LIST); }
static void prune(void) { answer = hivepadlet_prune(table, 1, PEERS + 1, 0, 60, LIST); }
static void unsubscribe(void) { answer = hivepadlet_unsubscribe(table, 1, PEERS + 1, 0, LIST); }
static void rate(void) { answer = hivepadlet_rate(table, 1, PEERS + 1, 5, LIST); }
static void scored(void) { answer = hivepadlet_score(table, 1, PEERS + 1, why, LIST); }
static void disconnect(void) { answer = hivepadlet_disconnect(table, 1, PEERS + 1, LIST); }
static void join(void) { answer = hivepadlet_join(table, 1, 1, LIST); }
static void heartbeat(void) { answer = hivepadlet_heartbeat(table, 1, 0, 1, permutation, HIVEPADLET_SLOTS, LIST); }
static void decay(void) { answer = hivepadlet_decay(table, 1, LIST); }
static void leave(void) { answer = hivepadlet_leave(table, 1, 0, LIST); }
static void is_router(void) { answer = hivepadlet_is_router(table) ? 0 : HIVEPADLET_NOT_ROUTER; }
static void to_old(void) { answer = hivepadlet_to_old(table, old_table); }
static void from_old(void) { answer = hivepadlet_from_old(old_table, fresh_table); }
static void saved(void)
{
    answer = hivepadlet_save(table, 2, save, sizeof save);
    saved_bytes = hivepadlet_value(answer);
}
static void loaded(void) { answer = hivepadlet_load(numbers, HIVEPADLET_EDITION_1, 0, save, saved_bytes, fresh_table); }
static void fresh(void) { answer = hivepadlet_fresh(numbers, HIVEPADLET_EDITION_2, fresh_table); }
static void written(void) { answer = hivepadlet_write(numbers, HIVEPADLET_EDITION_2, bytes, sizeof bytes); }
static void exported(void) { answer = hivepadlet_export(numbers, theirs, sizeof theirs); }
static void imported(void) { answer = hivepadlet_import(theirs, sizeof theirs, numbers); }
static void tests_names(void) { answer = hivepadlet_names(names); }
static void message(void)
{
    answer = hivepadlet_write_message(names, ids, sizeof ids, &id_number, 1, &id_row, 1, prunes, 3 * HIVEPADLET_MESSAGE_ACTIONS, topics,
                                      HIVEPADLET_MESSAGE_ACTIONS, joins, 2 * HIVEPADLET_TOPICS, rpc, sizeof rpc);
}
static void message_read(void)
{
    answer = hivepadlet_read_message(names, ids, sizeof ids, &id_number, 1, &id_row, 1, rpc, hivepadlet_value(answer), entries,
                                     HIVEPADLET_ENTRY_NUMBERS);
}
static void gossip_connect(void)
{
    answer = hivepadlet_gossip_connect(BOTH, 1, PEERS + 1, own(PEERS + 1), HIVEPADLET_GROUPS, 1, NEWEST, LIST);
}
static void send_idontwant(void) { answer = hivepadlet_send_idontwant(BOTH, 1, 0, 0, 5, LIST); }
static void idontwant(void) { answer = hivepadlet_idontwant(BOTH, 1, 1, 5, LIST); }
static void relay(void) { answer = hivepadlet_relay(BOTH, 1, 0, 0, 5, LIST); }
static void store(void) { answer = hivepadlet_store(BOTH, 1, 0, 5, LIST); }
static void announce(void)
{
    answer = hivepadlet_announce(BOTH, 1, 0, permutation, HIVEPADLET_SLOTS, told, HIVEPADLET_MESSAGE_NUMBERS, LIST);
}
/* numbers in an order in which a sort that calls itself as deep as its numbers make it goes deep; `given` rises */
static const uint8_t chosen_order[HIVEPADLET_MESSAGE_NUMBERS] = {
    1, 2, 0, 4, 110, 109, 108, 121, 116, 115, 111, 107, 106, 105, 186, 181, 180, 175, 174, 169, 168, 192, 187, 163,
    162, 157, 156, 151, 150, 145, 144, 139, 138, 133, 132, 128, 127, 122, 104, 103, 102, 101, 100, 99, 98, 97, 96, 95,
    94, 93, 92, 91, 90, 89, 88, 87, 86, 85, 84, 83, 82, 81, 80, 79, 78, 77, 76, 75, 74, 73, 72, 71, 70, 69, 68, 67,
    66, 65, 64, 63, 62, 61, 113, 60, 130, 119, 136, 59, 154, 142, 160, 125, 178, 166, 184, 148, 190, 172, 58, 114,
    120, 57, 179, 185, 155, 161, 167, 173, 191, 131, 137, 143, 149, 56, 55, 54, 126, 53, 52, 51, 50, 49, 48, 47, 46,
    45, 44, 43, 42, 41, 40, 39, 38, 37, 36, 35, 34, 33, 32, 31, 30, 29, 28, 27, 26, 25, 24, 23, 22, 21, 20, 19, 129,
    18, 117, 134, 112, 152, 123, 140, 158, 17, 176, 146, 164, 182, 118, 170, 188, 153, 177, 16, 159, 183, 135, 165,
    171, 15, 141, 147, 189, 14, 13, 124, 12, 11, 10, 9, 8, 7, 6, 5
};

static void ihave_chosen(void)
{
    static uint64_t chosen[HIVEPADLET_MESSAGE_NUMBERS];
    size_t k;

    for (k = 0; k < HIVEPADLET_MESSAGE_NUMBERS; k++)
        chosen[k] = 1000 + chosen_order[k];
    answer = hivepadlet_ihave(BOTH, 1, 1, 0, chosen, HIVEPADLET_MESSAGE_NUMBERS, told, HIVEPADLET_MESSAGE_NUMBERS, LIST);
}

static void ihave(void)
{
    answer = hivepadlet_ihave(BOTH, 1, 1, 0, given, HIVEPADLET_MESSAGE_NUMBERS, told, HIVEPADLET_MESSAGE_NUMBERS, LIST);
}
static void iwant(void) { answer = hivepadlet_iwant(BOTH, 1, 1, 5, LIST); }
static void beat(void) { answer = hivepadlet_beat(BOTH, 1, LIST); }
static void is_gossip_router(void) { answer = hivepadlet_gossip_is_router(BOTH) ? 0 : HIVEPADLET_NOT_ROUTER; }
static void gossip_disconnect(void) { answer = hivepadlet_gossip_disconnect(BOTH, 1, 1, LIST); }
static void gossip_leave(void) { answer = hivepadlet_gossip_leave(BOTH, 1, 0, LIST); }
static void gossip_loaded(void)
{
    answer = hivepadlet_gossip_load(numbers, HIVEPADLET_EDITION_1, setup, 0, save, saved_bytes, BOTH);
}
static void ordinary_setup(void)
{
    hivepadlet_ordinary_setup(setup);
    answer = 0;
}
static void gossip_fresh(void) { answer = hivepadlet_gossip_fresh(numbers, HIVEPADLET_EDITION_2, setup, BOTH); }
static void read_back(void) { answer = hivepadlet_read(bytes, hivepadlet_value(answer), numbers, &edition); }

static const struct {
    const char *name;
    void (*call)(void);
} calls[] = {
    {"nothing", nothing},
    {"connect", connect},
    {"subscribe", subscribe},
    {"GRAFT in", graft},
    {"delivery", deliver},
    {"PRUNE in", prune},
    {"GRAFT too early", graft},
    {"unsubscribe", unsubscribe},
    {"setting P5", rate},
    {"score", scored},
    {"disconnect", disconnect},
    {"join", join},
    {"heartbeat", heartbeat},
    {"decay", decay},
    {"leave", leave},
    {"test 12", is_router},
    {"into the old form", to_old},
    {"out of the old form", from_old},
    {"a save", saved},
    {"a load", loaded},
    {"a fresh router", fresh},
    {"parameters written", written},
    {"parameters read", read_back},
    {"parameters exported", exported},
    {"parameters imported", imported},
    {"names", tests_names},
    {"a message written", message},
    {"a message read", message_read},
    {"connect, array", gossip_connect},
    {"sending IDONTWANT", send_idontwant},
    {"IDONTWANT in", idontwant},
    {"relay", relay},
    {"storing a number", store},
    {"announcing", announce},
    {"IHAVE in", ihave},
    {"IHAVE, chosen", ihave_chosen},
    {"IWANT in", iwant},
    {"heartbeat, array", beat},
    {"test 12, array", is_gossip_router},
    {"disconnect, array", gossip_disconnect},
    {"leave, array", gossip_leave},
    {"a load, array", gossip_loaded},
    {"set-up numbers", ordinary_setup},
    {"a fresh array", gossip_fresh},
};

/* the longest message: as many PRUNEs as it may hold, a join of every topic, names of 64 bytes */
static void prepare_message(void)
{
    uint8_t k, i;

    for (k = 0; k < HIVEPADLET_TOPICS; k++) {
        memset(names + 65 * k, k, 65);
        names[65 * k] = 64;
        joins[2 * k] = 1;
        joins[2 * k + 1] = k;
    }
    for (i = 0; i < HIVEPADLET_MESSAGE_ACTIONS; i++) {
        prunes[3 * i] = HIVEPADLET_PRUNE;
        prunes[3 * i + 1] = 1;
        prunes[3 * i + 2] = 3600;
        topics[i] = i % HIVEPADLET_TOPICS;
    }
}

/* half of the peers members, the others to be told by IHAVE; stores, replies and sets in use */
static void prepare_gossip(void)
{
    uint64_t id;

    hivepadlet_ordinary_setup(setup);
    hivepadlet_gossip_fresh(numbers, HIVEPADLET_EDITION_1, setup, BOTH);
    hivepadlet_join(second, 0, 0, LIST);
    for (id = 1; id <= PEERS; id++) {
        hivepadlet_gossip_connect(BOTH, 0, id, own(id), HIVEPADLET_GROUPS, 1, NEWEST, LIST);
        hivepadlet_subscribe(second, 0, id, 0, LIST);
        if (id % 2 == 0)
            hivepadlet_graft(second, 0, id, 0, LIST);
        hivepadlet_idontwant(BOTH, 0, id, 4, LIST);
    }
    for (id = 0; id < HIVEPADLET_MESSAGE_NUMBERS; id++) {
        given[id] = 1000 + id;
        if (id < 60)
            hivepadlet_store(BOTH, 0, 0, 1000 + 2 * id, LIST);
        hivepadlet_iwant(BOTH, 0, 2, 1000 + 2 * id, LIST);
    }
}

/* a router with a mesh far over D_hi, so that a heartbeat has all to do */
static void prepare(void)
{
    uint64_t id;

    hivepadlet_ordinary(numbers);
    hivepadlet_fresh(numbers, HIVEPADLET_EDITION_1, table);
    hivepadlet_join(table, 0, 0, LIST);
    for (id = 1; id <= PEERS; id++) {
        hivepadlet_connect(table, 0, id, own(id), HIVEPADLET_GROUPS, 1, NAME, LIST);
        hivepadlet_subscribe(table, 0, id, 0, LIST);
        hivepadlet_graft(table, 0, id, 0, LIST);
    }
    for (id = 0; id < HIVEPADLET_SLOTS; id++)
        permutation[id] = HIVEPADLET_SLOTS - 1 - id;
    prepare_message();
    prepare_gossip();
}

/* the bytes of stack that a call takes, with what making it takes */
static size_t taken(void (*call)(void))
{
    size_t left = 0;

    memset(stack, MARK, SIZE);
    getcontext(&there);
    there.uc_stack.ss_sp = stack;
    there.uc_stack.ss_size = SIZE;
    there.uc_link = &home;
    makecontext(&there, call, 0);
    swapcontext(&home, &there);
    while (left < SIZE && stack[left] == MARK)
        left++;
    return SIZE - left;
}

int main(void)
{
    size_t k, used, own = 0, rising = 0, failed = 0;

    prepare();
    for (k = 0; k < sizeof calls / sizeof calls[0]; k++) {
        used = taken(calls[k].call);
        if (k == 0) {
            own = used;
            continue;
        }
        used -= own;
        printf("%-20s%6zu bytes of stack\n", calls[k].name, used);
        if (calls[k].call == ihave)
            rising = used;
        if (calls[k].call == ihave_chosen && used != rising) {
            printf("%s: the numbers make the stack grow\n", calls[k].name);
            failed++;
        }
        if (hivepadlet_number(answer) != HIVEPADLET_DONE || used > MOST) {
            printf("%s: answer %u, %zu bytes\n", calls[k].name, hivepadlet_number(answer), used);
            failed++;
        }
    }
    return failed != 0;
}
