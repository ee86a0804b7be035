/*
 * Three hubs in one process: an example host of the router.
 *
 * Each hub has a table, an action list and an inbox of its own; a cable is a copy of bytes into the other's inbox. Clock and
 * random numbers are the host's. The host carries: every action of a call is written as a message, and every entry of a message
 * that arrives becomes a call.
 *
 * The story has four parts: what goes over a cable; a mesh forms; a bad hub is thrown out and kept out; an honest one goes away
 * and comes back. It prints the same lines every time: three_hubs.expected has them, and says why each is right.
 */
#include "hivepadlet.h"

#include <inttypes.h>
#include <stdbool.h>
#include <stdio.h>
#include <stdlib.h>
#include <string.h>

enum { LOBBY, FOURTH, CHEAP, HUBS };
enum { TOPIC = 0, WIRELESS = 100, INBOX = 64, MOST_BYTES = 64 };

/* what a cable carries: a notice, that is a message of the topic, or the bytes of an RPC, which the library writes and reads */
struct message {
    int from;
    uint64_t notice; /* what the receiver finds it to be; 0 where it is an RPC */
    size_t length;
    uint8_t bytes[MOST_BYTES];
};

struct hub {
    const char *name;
    uint64_t groups[HIVEPADLET_GROUPS]; /* its address groups, lowest first: the floor's cable, and the building's wireless */
    size_t group_count;
    bool deaf;   /* throws every PRUNE away */
    bool joined; /* the topic */
    bool linked[HUBS];
    bool mesh[HUBS]; /* the host's note of the topic's mesh, kept by actions and answers: notices go along it */
    struct message inbox[INBOX];
    size_t waiting;
    uint64_t table[HIVEPADLET_CELLS];
    uint32_t actions[HIVEPADLET_ACTION_NUMBERS];
};

static struct hub hubs[HUBS] = {
    { .name = "lobby", .groups = { 0, WIRELESS }, .group_count = 2 },
    { .name = "fourth", .groups = { 4, WIRELESS }, .group_count = 2 },
    { .name = "cheap", .groups = { 7 }, .group_count = 1, .deaf = true },
};

static uint64_t now; /* milliseconds */
static uint8_t names[HIVEPADLET_NAMES_BYTES];

/* the hubs send no IDONTWANT: a table of message ids without rows */
static const uint8_t no_ids[1];
static const uint64_t no_numbers[1];
static uint64_t entries[HIVEPADLET_ENTRY_NUMBERS]; /* of the message that is being read */

/* ---- what is printed */

static void say(int hub, const char *before, const char *whom, const char *after)
{
    printf("%6.3f  %-6s  %s%s%s\n", (double)now / 1000, hubs[hub].name, before, whom, after);
}

/* a score in points, cut to thousandths */
static void say_score(int hub, int peer, int64_t score)
{
    uint64_t size = score < 0 ? 0 - (uint64_t)score : (uint64_t)score;
    uint64_t points = size / (uint64_t)HIVEPADLET_POINT;
    uint64_t thousandths = size % (uint64_t)HIVEPADLET_POINT / 1000000;
    printf("%6.3f  %-6s  scores %s at %s%" PRIu64 ".%03" PRIu64 "\n", (double)now / 1000, hubs[hub].name, hubs[peer].name,
           score < 0 ? "-" : "", points, thousandths);
}

static void say_mesh(int hub)
{
    printf("%6.3f  %-6s  has in its mesh:", (double)now / 1000, hubs[hub].name);
    for (int peer = 0; peer < HUBS; peer++) {
        if (hubs[hub].mesh[peer]) {
            printf(" %s", hubs[peer].name);
        }
    }
    printf("\n");
}

static void say_meshes(void)
{
    for (int hub = 0; hub < HUBS; hub++) {
        say_mesh(hub);
    }
}

/* ---- random numbers: a permutation of the slots. A product takes them from hardware: peers must not foresee them. */

static uint64_t seed = UINT64_C(0x9E3779B97F4A7C15);

static uint64_t random_below(uint64_t n)
{
    seed ^= seed << 13;
    seed ^= seed >> 7;
    seed ^= seed << 17;
    return seed % n;
}

static void shuffle(uint64_t permutation[HIVEPADLET_SLOTS])
{
    for (uint64_t i = 0; i < HIVEPADLET_SLOTS; i++) {
        permutation[i] = i;
    }
    for (uint64_t i = HIVEPADLET_SLOTS - 1; i > 0; i--) {
        uint64_t j = random_below(i + 1);
        uint64_t slot = permutation[i];
        permutation[i] = permutation[j];
        permutation[j] = slot;
    }
}

/* ---- cables */

static uint64_t id_of(int hub)
{
    return (uint64_t)hub + 1;
}

/* a full inbox loses what comes, as a cable would */
static void send(int to, struct message m)
{
    struct hub *h = &hubs[to];
    if (hubs[m.from].linked[to] && h->waiting < INBOX) {
        h->inbox[h->waiting++] = m;
    }
}

/* the length of a message that was written; this host lends enough room and sends nothing but its own calls' actions, so a refusal is a
 * mistake of its own */
static size_t written(uint64_t r)
{
    if (hivepadlet_number(r) != HIVEPADLET_DONE) {
        fprintf(stderr, "a message was refused: %u\n", hivepadlet_number(r));
        exit(1);
    }
    return hivepadlet_value(r);
}

/* an RPC of one action of a call, three numbers, in the topic */
static struct message action_message(int from, const uint32_t *action)
{
    static const uint64_t topic[] = { TOPIC };
    struct message m = { .from = from };
    m.length = written(hivepadlet_write_message(names, no_ids, 0, no_numbers, 0, no_numbers, 0, action, 3, topic, 1, topic, 0, m.bytes,
                                                MOST_BYTES));
    return m;
}

/* an RPC that tells of our join (1) or leave (0) */
static struct message change_message(int from, uint64_t join)
{
    const uint64_t change[] = { join, TOPIC };
    static const uint32_t none[1];
    struct message m = { .from = from };
    m.length = written(hivepadlet_write_message(names, no_ids, 0, no_numbers, 0, no_numbers, 0, none, 0, change, 0, change, 2, m.bytes,
                                                MOST_BYTES));
    return m;
}

static void send_change(int from, uint64_t join)
{
    for (int to = 0; to < HUBS; to++) {
        send(to, change_message(from, join));
    }
}

/* carries what a call told the hub to do, and gives the number of actions; 0 where the call was refused or ignored */
static uint32_t carry(int hub, uint64_t r)
{
    struct hub *h = &hubs[hub];
    if (hivepadlet_number(r) != HIVEPADLET_DONE) {
        bool ignored = hivepadlet_number(r) == HIVEPADLET_IGNORED;
        printf("%6.3f  %-6s  answers %u: %s\n", (double)now / 1000, h->name, hivepadlet_number(r),
               ignored ? "ignored" : "refused");
        return 0;
    }
    for (uint32_t i = 0; i < hivepadlet_value(r); i++) {
        int peer = (int)hivepadlet_action_peer(h->actions, i) - 1;
        bool graft = hivepadlet_action_kind(h->actions, i) == HIVEPADLET_GRAFT;
        uint32_t seconds = hivepadlet_action_seconds(h->actions, i);
        h->mesh[peer] = graft;
        if (graft) {
            say(hub, "sends GRAFT to ", hubs[peer].name, "");
        } else {
            printf("%6.3f  %-6s  sends PRUNE to %s, backoff %" PRIu32 " s\n", (double)now / 1000, h->name, hubs[peer].name,
                   seconds);
        }
        send(peer, action_message(hub, h->actions + 3 * i));
    }
    return hivepadlet_value(r);
}

/* the same of a call by which a peer goes: where it is done, the peer is out of the mesh; one that is ignored leaves it in */
static void let_go(int hub, int peer, uint64_t r)
{
    carry(hub, r);
    if (hivepadlet_number(r) == HIVEPADLET_DONE) {
        hubs[hub].mesh[peer] = false;
    }
}

/* ---- every entry of a message that arrives is a call */

static void take_subscription(int hub, int peer, bool subscribes)
{
    struct hub *h = &hubs[hub];
    if (subscribes) {
        carry(hub, hivepadlet_subscribe(h->table, now, id_of(peer), TOPIC, h->actions, HIVEPADLET_ACTION_NUMBERS));
    } else {
        let_go(hub, peer, hivepadlet_unsubscribe(h->table, now, id_of(peer), TOPIC, h->actions, HIVEPADLET_ACTION_NUMBERS));
    }
}

static void take_graft(int hub, int peer)
{
    struct hub *h = &hubs[hub];
    uint64_t r = hivepadlet_graft(h->table, now, id_of(peer), TOPIC, h->actions, HIVEPADLET_ACTION_NUMBERS);
    if (carry(hub, r) == 0 && hivepadlet_number(r) == HIVEPADLET_DONE) {
        h->mesh[peer] = true;
        say(hub, "takes ", hubs[peer].name, " into its mesh");
    }
}

static void take_prune(int hub, int peer, uint64_t seconds)
{
    struct hub *h = &hubs[hub];
    if (h->deaf) {
        return;
    }
    let_go(hub, peer, hivepadlet_prune(h->table, now, id_of(peer), TOPIC, seconds, h->actions, HIVEPADLET_ACTION_NUMBERS));
}

static void take_entry(int hub, int peer, uint32_t i)
{
    uint64_t value = hivepadlet_entry_value(entries, i);
    if (hivepadlet_entry_topic(entries, i) != TOPIC) {
        return;
    }
    switch (hivepadlet_entry_kind(entries, i)) {
    case HIVEPADLET_SUBSCRIPTION:
        take_subscription(hub, peer, value == 1);
        break;
    case HIVEPADLET_GRAFT:
        take_graft(hub, peer);
        break;
    case HIVEPADLET_PRUNE:
        take_prune(hub, peer, value);
        break;
    }
}

static void take(int hub, const struct message *m)
{
    struct hub *h = &hubs[hub];
    if (m->notice != 0) {
        carry(hub, hivepadlet_deliver(h->table, now, id_of(m->from), TOPIC, m->notice, h->actions, HIVEPADLET_ACTION_NUMBERS));
        return;
    }
    uint64_t r = hivepadlet_read_message(names, no_ids, 0, no_numbers, 0, no_numbers, 0, m->bytes, m->length, entries,
                                         HIVEPADLET_ENTRY_NUMBERS);
    if (hivepadlet_number(r) != HIVEPADLET_DONE) {
        say(hub, "cannot read what comes from ", hubs[m->from].name, "");
        return;
    }
    for (uint32_t i = 0; i < hivepadlet_value(r); i++) {
        take_entry(hub, m->from, i);
    }
}

/* until every inbox is empty */
static void take_all(void)
{
    bool any = true;
    while (any) {
        any = false;
        for (int hub = 0; hub < HUBS; hub++) {
            struct hub *h = &hubs[hub];
            for (size_t i = 0; i < h->waiting; i++) {
                any = true;
                take(hub, &h->inbox[i]); /* a hub sends nothing to itself, so its inbox stands meanwhile */
            }
            h->waiting = 0;
        }
    }
}

/* ---- what a hub does */

static void connect_end(int hub, int peer, uint64_t flags)
{
    static const uint8_t name[] = { '/', 'm', 'e', 's', 'h', 's', 'u', 'b', '/', '1', '.', '1', '.', '0' };
    struct hub *h = &hubs[hub];
    h->linked[peer] = true;
    const struct hub *p = &hubs[peer];
    carry(hub, hivepadlet_connect(h->table, now, id_of(peer), p->groups, p->group_count, flags, name, sizeof name, h->actions,
                                  HIVEPADLET_ACTION_NUMBERS));
}

/* who dials is told as outbound to its own router, and as inbound to the other's; both tell of their subscription */
static void dial(int hub, int peer)
{
    say(hub, "dials ", hubs[peer].name, "");
    connect_end(hub, peer, HIVEPADLET_OUTBOUND);
    connect_end(peer, hub, 0);
    if (hubs[hub].joined) {
        send(peer, change_message(hub, 1));
    }
    if (hubs[peer].joined) {
        send(hub, change_message(peer, 1));
    }
}

static void hang_up(int hub, int peer)
{
    struct hub *h = &hubs[hub];
    h->linked[peer] = false;
    let_go(hub, peer, hivepadlet_disconnect(h->table, now, id_of(peer), h->actions, HIVEPADLET_ACTION_NUMBERS));
}

static void join(int hub)
{
    say(hub, "joins the topic", "", "");
    carry(hub, hivepadlet_join(hubs[hub].table, now, TOPIC, hubs[hub].actions, HIVEPADLET_ACTION_NUMBERS));
    hubs[hub].joined = true;
    send_change(hub, 1);
}

static void leave(int hub)
{
    say(hub, "leaves the topic", "", "");
    carry(hub, hivepadlet_leave(hubs[hub].table, now, TOPIC, hubs[hub].actions, HIVEPADLET_ACTION_NUMBERS));
    hubs[hub].joined = false;
    send_change(hub, 0);
}

/* a notice to every hub in the mesh; all are linked to each other, so nobody passes it on */
static void publish(int hub, enum hivepadlet_delivery found)
{
    for (int peer = 0; peer < HUBS; peer++) {
        if (hubs[hub].mesh[peer]) {
            send(peer, (struct message){ .from = hub, .notice = found });
        }
    }
    take_all();
}

static int64_t score_of(int hub, int peer)
{
    int64_t why[HIVEPADLET_WHY_NUMBERS] = { 0 };
    carry(hub, hivepadlet_score(hubs[hub].table, now, id_of(peer), why, hubs[hub].actions, HIVEPADLET_ACTION_NUMBERS));
    return why[HIVEPADLET_WHY_SCORE];
}

/* ---- the timer: a second passes; then each hub's counters decay, and the meshes are maintained */

static void second(void)
{
    uint64_t permutation[HIVEPADLET_SLOTS];
    now += 1000;
    for (int hub = 0; hub < HUBS; hub++) {
        struct hub *h = &hubs[hub];
        uint64_t ask = now % 60000 == 0;
        shuffle(permutation);
        carry(hub, hivepadlet_decay(h->table, now, h->actions, HIVEPADLET_ACTION_NUMBERS));
        if (h->joined) {
            carry(hub, hivepadlet_heartbeat(h->table, now, TOPIC, ask, permutation, HIVEPADLET_SLOTS, h->actions,
                                            HIVEPADLET_ACTION_NUMBERS));
        }
        take_all();
    }
}

static void until(uint64_t time)
{
    while (now < time) {
        second();
    }
}

/* ---- the story */

static bool make_hubs(void)
{
    static const char name[] = "notices";
    int64_t numbers[HIVEPADLET_NUMBERS];
    names[65 * TOPIC] = sizeof name - 1;
    memcpy(names + 65 * TOPIC + 1, name, sizeof name - 1);
    if (hivepadlet_number(hivepadlet_names(names)) != HIVEPADLET_DONE) {
        return false;
    }
    hivepadlet_ordinary(numbers);
    for (int hub = 0; hub < HUBS; hub++) {
        uint64_t r = hivepadlet_fresh(numbers, HIVEPADLET_EDITION_1, hubs[hub].table);
        if (hivepadlet_number(r) != HIVEPADLET_DONE) {
            return false;
        }
    }
    return true;
}

static void show(const char *what, struct message m)
{
    printf("%-16s", what);
    for (size_t i = 0; i < m.length; i++) {
        printf(" %02X", m.bytes[i]);
    }
    printf("\n");
}

static void messages(void)
{
    static const uint32_t graft[] = { HIVEPADLET_GRAFT, 1, 0 }, prune[] = { HIVEPADLET_PRUNE, 1, 60 };
    printf("What goes over a cable.\n");
    show("a join", change_message(LOBBY, 1));
    show("a leave", change_message(LOBBY, 0));
    show("GRAFT", action_message(LOBBY, graft));
    show("PRUNE, 60 s", action_message(LOBBY, prune));
}

static void mesh_forms(void)
{
    printf("A mesh forms.\n");
    for (int hub = 0; hub < HUBS; hub++) {
        join(hub);
    }
    dial(LOBBY, FOURTH);
    dial(LOBBY, CHEAP);
    dial(FOURTH, CHEAP);
    take_all();
    second();
    say_meshes();
}

static void bad_hub(void)
{
    printf("A bad hub is thrown out and kept out.\n");
    say(CHEAP, "and fourth publish a notice a second, for twelve seconds", "", "");
    for (int i = 0; i < 12; i++) {
        publish(CHEAP, HIVEPADLET_FIRST);
        publish(FOURTH, HIVEPADLET_FIRST);
        second();
    }
    say_score(LOBBY, CHEAP, score_of(LOBBY, CHEAP));
    while (score_of(LOBBY, CHEAP) >= 0) {
        say(CHEAP, "publishes an invalid notice", "", "");
        publish(CHEAP, HIVEPADLET_INVALID);
        say_score(LOBBY, CHEAP, score_of(LOBBY, CHEAP));
        second();
    }
    say_meshes();
    static const uint64_t waits[] = { 5000, 5000, 1000 };
    const uint32_t graft[] = { HIVEPADLET_GRAFT, (uint32_t)id_of(LOBBY), 0 };
    for (int i = 0; i < 3; i++) {
        until(now + waits[i]);
        say(CHEAP, "sends GRAFT to ", hubs[LOBBY].name, " all the same");
        send(LOBBY, action_message(CHEAP, graft));
        take_all();
        say_score(LOBBY, CHEAP, score_of(LOBBY, CHEAP));
    }
    say_mesh(LOBBY);
}

static void honest_hub(void)
{
    printf("An honest hub goes away and comes back.\n");
    leave(FOURTH);
    take_all();
    say_score(LOBBY, FOURTH, score_of(LOBBY, FOURTH));
    for (int peer = 0; peer < HUBS; peer++) {
        if (peer != FOURTH) {
            hang_up(FOURTH, peer);
            hang_up(peer, FOURTH);
        }
    }
    say(FOURTH, "hangs up", "", "");
    until(now + 4000);
    join(FOURTH);
    dial(FOURTH, LOBBY);
    dial(FOURTH, CHEAP);
    take_all();
    say_score(LOBBY, FOURTH, score_of(LOBBY, FOURTH));
    say_score(FOURTH, CHEAP, score_of(FOURTH, CHEAP));
    until(now + 10000);
    say_meshes();
}

int main(void)
{
    if (!make_hubs()) {
        printf("the parameters or the topic's name are refused\n");
        return 1;
    }
    now = 1000;
    messages();
    mesh_forms();
    bad_hub();
    honest_hub();
    return 0;
}
