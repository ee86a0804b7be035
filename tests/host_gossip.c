/*
 * The functions with a second array, through the C ABI: every number that each answers, what its actions and numbers are, and what a
 * refusal leaves: table, array and lists as they were. Prints each check that fails, and at the end how many passed.
 */
#include "hivepadlet.h"

#include <stdio.h>
#include <string.h>

enum { TOPIC = 0, OLDER = 6, NEWEST = 7, OUTSIDE = 8, BOUND = 2 };

static uint64_t table[HIVEPADLET_CELLS], table_before[HIVEPADLET_CELLS];
static uint64_t gossip[HIVEPADLET_GOSSIP_CELLS], gossip_before[HIVEPADLET_GOSSIP_CELLS];
static uint32_t actions[HIVEPADLET_ACTION_NUMBERS];
static uint64_t told[HIVEPADLET_MESSAGE_NUMBERS + 1], given[HIVEPADLET_MESSAGE_NUMBERS + 1];
static uint64_t permutation[HIVEPADLET_SLOTS];
static int64_t numbers[HIVEPADLET_NUMBERS];
static uint64_t setup[HIVEPADLET_SETUP_NUMBERS];
static const uint64_t group[] = { 1 };
static unsigned passed, failed;

#define BOTH table, gossip
#define LIST actions, HIVEPADLET_ACTION_NUMBERS
#define SHORT_LIST actions, HIVEPADLET_ACTION_NUMBERS - 1
#define TOLD told, HIVEPADLET_MESSAGE_NUMBERS
#define GROUP group, 1
#define NAME_1 (const uint8_t *)"/meshsub/1.1.0", 14
#define NAME_2 (const uint8_t *)"/meshsub/1.2.0", 14
#define NAME_3 (const uint8_t *)"/meshsub/1.3.0", 14

static void check(const char *what, int holds)
{
    if (holds) {
        passed++;
    } else {
        failed++;
        printf("host: %s\n", what);
    }
}

/* marks the lists, and notes what stands */
static void stands(void)
{
    memcpy(table_before, table, sizeof table);
    memcpy(gossip_before, gossip, sizeof gossip);
    memset(actions, 0xA5, sizeof actions);
    memset(told, 0xA5, sizeof told);
}

/* past so many actions and numbers the lists are as they were marked */
static int lists_stand(size_t from_action, size_t from_number)
{
    int stands = 1;
    for (size_t i = 3 * from_action; i < HIVEPADLET_ACTION_NUMBERS; i++) {
        stands = stands && actions[i] == 0xA5A5A5A5u;
    }
    for (size_t i = from_number; i < sizeof told / sizeof told[0]; i++) {
        stands = stands && told[i] == UINT64_C(0xA5A5A5A5A5A5A5A5);
    }
    return stands;
}

static int array_stands(void)
{
    return memcmp(gossip_before, gossip, sizeof gossip) == 0;
}

/* a refusal: its number, and nothing changed since `stands` */
static void refuses(const char *what, uint64_t r, unsigned number)
{
    check(what, r == number);
    check(what, memcmp(table_before, table, sizeof table) == 0 && array_stands() && lists_stand(0, 0));
    stands();
}

/* 11: the clock alone, here not even that, since the time is the same */
static void ignores(const char *what, uint64_t r)
{
    refuses(what, r, HIVEPADLET_IGNORED);
}

/* 0 with so many actions and numbers */
static void does(const char *what, uint64_t r, uint32_t acts, uint32_t count)
{
    check(what, hivepadlet_number(r) == HIVEPADLET_DONE && hivepadlet_actions(r) == acts && hivepadlet_numbers(r) == count);
    check(what, lists_stand(acts, count));
}

static void is_action(const char *what, size_t i, uint32_t kind, uint32_t peer)
{
    check(what, hivepadlet_action_kind(actions, i) == kind && hivepadlet_action_peer(actions, i) == peer
          && hivepadlet_action_seconds(actions, i) == 0);
    stands();
}

/* ---- made */

static void set_up(void)
{
    static const uint64_t ordinary[] = { 10, 6, 250, 10, 3 }, most[] = { 32, 48, 1000, 32, 32 };
    uint8_t save[HIVEPADLET_SETUP_NUMBERS] = { 2, 0 };
    hivepadlet_ordinary(numbers);
    hivepadlet_ordinary_setup(setup);
    check("the ordinary set-up numbers", memcmp(setup, ordinary, sizeof setup) == 0);
    stands();
    for (size_t i = 0; i < HIVEPADLET_SETUP_NUMBERS; i++) {
        setup[i] = most[i] + 1;
        refuses("a set-up number past its range", hivepadlet_gossip_fresh(numbers, 1, setup, BOTH), HIVEPADLET_OUT_OF_RANGE);
        refuses("the same of a load", hivepadlet_gossip_load(numbers, 1, setup, 0, save, 2, BOTH), HIVEPADLET_OUT_OF_RANGE);
        setup[i] = most[i];
    }
    setup[HIVEPADLET_IDONTWANT_LIMIT] = 0;
    numbers[HIVEPADLET_D] = 49;
    refuses("before the parameters", hivepadlet_gossip_fresh(numbers, 1, setup, BOTH), HIVEPADLET_OUT_OF_RANGE);
    setup[HIVEPADLET_IDONTWANT_LIMIT] = 1;
    refuses("D 49", hivepadlet_gossip_fresh(numbers, 1, setup, BOTH), HIVEPADLET_BROKEN + 256 * HIVEPADLET_D);
    numbers[HIVEPADLET_D] = 6;
    refuses("edition 3", hivepadlet_gossip_fresh(numbers, 3, setup, BOTH), HIVEPADLET_OUT_OF_RANGE);
    refuses("a save cut off", hivepadlet_gossip_load(numbers, 1, setup, 0, save, 1, BOTH), HIVEPADLET_MALFORMED + 256);
    check("no router's", hivepadlet_gossip_is_router(BOTH) == 0);
    check("a load of no record", hivepadlet_gossip_load(numbers, 1, setup, 5, save, 2, BOTH) == 0);
    check("a loaded router's", hivepadlet_gossip_is_router(BOTH) == 1);
    setup[HIVEPADLET_IHAVE_BOUND] = setup[HIVEPADLET_REPLY_BOUND] = BOUND;
    check("a fresh router", hivepadlet_gossip_fresh(numbers, 1, setup, BOTH) == 0);
    check("a fresh router's", hivepadlet_gossip_is_router(BOTH) == 1);
    for (uint64_t i = 0; i < HIVEPADLET_SLOTS; i++) {
        permutation[i] = i;
    }
    stands();
}

/* two members, one of them of version 1.2, and a subscribed peer outside the mesh */
static void peers(void)
{
    refuses("an unknown name", hivepadlet_gossip_connect(BOTH, 5, 9, GROUP, 0, NAME_3, LIST), HIVEPADLET_UNKNOWN_PROTOCOL);
    does("join", hivepadlet_join(table, 5, TOPIC, LIST), 0, 0);
    does("connect", hivepadlet_gossip_connect(BOTH, 5, OLDER, GROUP, 0, NAME_1, LIST), 0, 0);
    does("connect", hivepadlet_gossip_connect(BOTH, 5, NEWEST, GROUP, 0, NAME_2, LIST), 0, 0);
    does("connect", hivepadlet_gossip_connect(BOTH, 5, OUTSIDE, GROUP, 0, NAME_2, LIST), 0, 0);
    stands();
    refuses("connected already", hivepadlet_gossip_connect(BOTH, 5, OLDER, GROUP, 0, NAME_1, LIST), HIVEPADLET_ALREADY_CONNECTED);
    for (uint64_t id = OLDER; id <= OUTSIDE; id++) {
        does("subscribe", hivepadlet_subscribe(table, 5, id, TOPIC, LIST), 0, 0);
    }
    does("GRAFT", hivepadlet_graft(table, 5, OLDER, TOPIC, LIST), 0, 0);
    does("GRAFT", hivepadlet_graft(table, 5, NEWEST, TOPIC, LIST), 0, 0);
    stands();
}

/* ---- order 6 */

static void notices(void)
{
    refuses("topic 8", hivepadlet_send_idontwant(BOTH, 5, 8, 0, 1, LIST), HIVEPADLET_OUT_OF_RANGE);
    refuses("a sender of 33 bits", hivepadlet_relay(BOTH, 5, TOPIC, UINT64_C(1) << 32, 1, LIST), HIVEPADLET_OUT_OF_RANGE);
    refuses("a short list", hivepadlet_send_idontwant(BOTH, 5, TOPIC, 0, 1, SHORT_LIST), HIVEPADLET_LIST_SHORT);
    refuses("an early time", hivepadlet_relay(BOTH, 4, TOPIC, 0, 1, LIST), HIVEPADLET_EARLY);
    refuses("a sender who is nobody", hivepadlet_send_idontwant(BOTH, 5, TOPIC, 99, 1, LIST), HIVEPADLET_NOT_CONNECTED);
    ignores("a topic not joined", hivepadlet_relay(BOTH, 5, 1, 0, 1, LIST));
    does("IDONTWANT to the member of version 1.2", hivepadlet_send_idontwant(BOTH, 5, TOPIC, 0, 1, LIST), 1, 0);
    is_action("IDONTWANT 7", 0, HIVEPADLET_IDONTWANT, NEWEST);
    does("not to the sender", hivepadlet_send_idontwant(BOTH, 5, TOPIC, NEWEST, 1, LIST), 0, 0);
    does("a message to both members", hivepadlet_relay(BOTH, 5, TOPIC, 0, 1, LIST), 2, 0);
    is_action("the message 6", 0, HIVEPADLET_RELAY, OLDER);
    refuses("id 0", hivepadlet_idontwant(BOTH, 5, 0, 1, LIST), HIVEPADLET_OUT_OF_RANGE);
    refuses("IDONTWANT of nobody", hivepadlet_idontwant(BOTH, 5, 99, 1, LIST), HIVEPADLET_NOT_CONNECTED);
    ignores("IDONTWANT of an older peer", hivepadlet_idontwant(BOTH, 5, OLDER, 1, LIST));
    does("IDONTWANT", hivepadlet_idontwant(BOTH, 5, NEWEST, 1, LIST), 0, 0);
    does("held already", hivepadlet_idontwant(BOTH, 5, NEWEST, 1, LIST), 0, 0);
    stands();
    ignores("beyond the limit of 1", hivepadlet_idontwant(BOTH, 5, NEWEST, 2, LIST));
    does("a message to who wants it", hivepadlet_relay(BOTH, 5, TOPIC, 0, 1, LIST), 1, 0);
    is_action("the message 6", 0, HIVEPADLET_RELAY, OLDER);
}

/* ---- order 7 */

static void stores(void)
{
    refuses("topic 8", hivepadlet_store(BOTH, 5, 8, 1, LIST), HIVEPADLET_OUT_OF_RANGE);
    ignores("a topic not joined", hivepadlet_store(BOTH, 5, 1, 1, LIST));
    for (uint64_t n = 100; n < 164; n++) {
        does("a number stored", hivepadlet_store(BOTH, 5, TOPIC, n, LIST), 0, 0);
    }
    stands();
    refuses("a 65th", hivepadlet_store(BOTH, 5, TOPIC, 164, LIST), HIVEPADLET_NO_ROOM);
    does("stored already", hivepadlet_store(BOTH, 5, TOPIC, 100, LIST), 0, 0);
    does("a heartbeat", hivepadlet_beat(BOTH, 6, LIST), 0, 0);
    stands();
    refuses("an early heartbeat", hivepadlet_beat(BOTH, 5, LIST), HIVEPADLET_EARLY);
    does("another number", hivepadlet_store(BOTH, 6, TOPIC, 164, LIST), 0, 0);
    stands();
}

static void announcements(void)
{
    refuses("191 numbers", hivepadlet_announce(BOTH, 6, TOPIC, permutation, HIVEPADLET_SLOTS, told, 191, LIST), HIVEPADLET_LIST_SHORT);
    refuses("255 slots", hivepadlet_announce(BOTH, 6, TOPIC, permutation, 255, TOLD, LIST), HIVEPADLET_NOT_PERMUTATION);
    ignores("a topic not joined", hivepadlet_announce(BOTH, 6, 1, permutation, HIVEPADLET_SLOTS, TOLD, LIST));
    does("IHAVE", hivepadlet_announce(BOTH, 6, TOPIC, permutation, HIVEPADLET_SLOTS, TOLD, LIST), 1, 65);
    check("oldest first", told[0] == 100 && told[63] == 163 && told[64] == 164);
    is_action("IHAVE 8", 0, HIVEPADLET_IHAVE, OUTSIDE);
    given[0] = given[2] = 99;
    given[1] = 100;
    given[3] = 165;
    refuses("193 numbers", hivepadlet_ihave(BOTH, 6, OUTSIDE, TOPIC, given, 193, TOLD, LIST), HIVEPADLET_OUT_OF_RANGE);
    refuses("a short list", hivepadlet_ihave(BOTH, 6, OUTSIDE, TOPIC, given, 4, told, 191, LIST), HIVEPADLET_LIST_SHORT);
    refuses("IHAVE of nobody", hivepadlet_ihave(BOTH, 6, 99, TOPIC, given, 4, TOLD, LIST), HIVEPADLET_NOT_CONNECTED);
    ignores("a topic not joined", hivepadlet_ihave(BOTH, 6, OUTSIDE, 1, given, 4, TOLD, LIST));
    does("an IHAVE", hivepadlet_ihave(BOTH, 6, OUTSIDE, TOPIC, given, 4, TOLD, LIST), 0, 2);
    check("what is not stored, each once", told[0] == 99 && told[1] == 165);
    stands();
    does("an empty one", hivepadlet_ihave(BOTH, 6, OUTSIDE, TOPIC, given, 0, TOLD, LIST), 0, 0);
    stands();
    ignores("beyond the bound", hivepadlet_ihave(BOTH, 6, OUTSIDE, TOPIC, given, 4, TOLD, LIST));
}

static void wants(void)
{
    refuses("IWANT of nobody", hivepadlet_iwant(BOTH, 6, 99, 100, LIST), HIVEPADLET_NOT_CONNECTED);
    ignores("a number that is not stored", hivepadlet_iwant(BOTH, 6, OUTSIDE, 99, LIST));
    for (int i = 0; i < BOUND; i++) {
        does("IWANT", hivepadlet_iwant(BOTH, 6, OUTSIDE, 100, LIST), 0, 0);
    }
    stands();
    ignores("beyond the bound", hivepadlet_iwant(BOTH, 6, OUTSIDE, 100, LIST));
    does("another peer", hivepadlet_iwant(BOTH, 6, OLDER, 100, LIST), 0, 0);
    stands();
    refuses("disconnect of nobody", hivepadlet_gossip_disconnect(BOTH, 6, 99, LIST), HIVEPADLET_NOT_CONNECTED);
    does("disconnect", hivepadlet_gossip_disconnect(BOTH, 6, OUTSIDE, LIST), 0, 0);
    does("connect again", hivepadlet_gossip_connect(BOTH, 6, OUTSIDE, GROUP, 0, NAME_2, LIST), 0, 0);
    does("IWANT of a new connection", hivepadlet_iwant(BOTH, 6, OUTSIDE, 100, LIST), 0, 0);
    does("P5 of -11 points", hivepadlet_rate(table, 6, OUTSIDE, -11000000, LIST), 0, 0);
    stands();
    ignores("IWANT from below the gossip threshold", hivepadlet_iwant(BOTH, 6, OUTSIDE, 101, LIST));
}

/* ---- damage */

/* cells of the array by their place: what a host need not know, and a damage may hit. The third slot is that of peer 8 */
enum {
    UNUSED = 5,
    FIRST_COUNTS = 8,
    FIRST_STORE_COUNT = 8712,
    ROWS = 11312,
    FIRST_ROW = 11313,
    FIRST_HINT = 11314,
    FIRST_LANES = 11315
};

/* another number in a cell: 12 by every call that is handed the array, and nothing changed */
static void damaged(const char *what, size_t cell, uint64_t value)
{
    uint64_t old = gossip[cell];
    gossip[cell] = value;
    stands();
    check(what, hivepadlet_gossip_is_router(BOTH) == 0 && hivepadlet_is_router(table) == 1);
    refuses(what, hivepadlet_send_idontwant(BOTH, 6, 8, 0, 1, SHORT_LIST), HIVEPADLET_NOT_ROUTER);
    refuses(what, hivepadlet_idontwant(BOTH, 6, 0, 1, SHORT_LIST), HIVEPADLET_NOT_ROUTER);
    refuses(what, hivepadlet_relay(BOTH, 6, TOPIC, 0, 1, LIST), HIVEPADLET_NOT_ROUTER);
    refuses(what, hivepadlet_beat(BOTH, 6, LIST), HIVEPADLET_NOT_ROUTER);
    refuses(what, hivepadlet_store(BOTH, 6, TOPIC, 1, LIST), HIVEPADLET_NOT_ROUTER);
    refuses(what, hivepadlet_announce(BOTH, 6, TOPIC, permutation, 0, told, 0, LIST), HIVEPADLET_NOT_ROUTER);
    refuses(what, hivepadlet_ihave(BOTH, 6, OUTSIDE, TOPIC, given, 193, TOLD, LIST), HIVEPADLET_NOT_ROUTER);
    refuses(what, hivepadlet_iwant(BOTH, 6, OUTSIDE, 100, LIST), HIVEPADLET_NOT_ROUTER);
    refuses(what, hivepadlet_gossip_connect(BOTH, 6, 9, GROUP, 0, NAME_2, LIST), HIVEPADLET_NOT_ROUTER);
    refuses(what, hivepadlet_gossip_disconnect(BOTH, 6, OLDER, LIST), HIVEPADLET_NOT_ROUTER);
    refuses(what, hivepadlet_gossip_leave(BOTH, 6, TOPIC, LIST), HIVEPADLET_NOT_ROUTER);
    gossip[cell] = old;
}

/* a number that no state reads may be any */
static void not_read(const char *what, size_t cell)
{
    gossip[cell] = UINT64_MAX;
    check(what, hivepadlet_gossip_is_router(BOTH) == 1);
}

static void damages(void)
{
    damaged("a limit of 0", HIVEPADLET_IDONTWANT_LIMIT, 0);
    damaged("a bound of 33", HIVEPADLET_REPLY_BOUND, 33);
    damaged("a count of a slot that nobody has", FIRST_COUNTS + 100, 1);
    damaged("65 numbers of a heartbeat", FIRST_STORE_COUNT + 1, 65);
    damaged("numbers of a topic not joined", FIRST_STORE_COUNT + 5, 1);
    damaged("more rows than there are", ROWS, UINT64_MAX);
    damaged("a row of a number that is not stored", FIRST_ROW, 1);
    damaged("a count of replies over the bound", FIRST_LANES, BOUND + 1);
    damaged("a count of a slot that is not connected", FIRST_LANES, UINT64_C(1) << 18);
    not_read("an unused cell", UNUSED);
    not_read("a hint", FIRST_HINT);
    not_read("the last cell", HIVEPADLET_GOSSIP_CELLS - 1);
    does("a leave, with a PRUNE for each member", hivepadlet_gossip_leave(BOTH, 6, TOPIC, LIST), 2, 0);
    stands();
    ignores("left already", hivepadlet_gossip_leave(BOTH, 6, TOPIC, LIST));
    ignores("a number of the topic that was left", hivepadlet_iwant(BOTH, 6, OLDER, 100, LIST));
}

int main(void)
{
    set_up();
    peers();
    notices();
    stores();
    announcements();
    wants();
    damages();
    printf("%u passed, %u failed\n", passed, failed);
    return failed != 0;
}
