/*
 * large_message.c: three hubs in a mesh, and one message of 100,000 bytes.
 *
 * Whoever gets a message passes it on along the mesh, so that in a mesh of three each of the two receivers sends it to the other, who
 * has it already. A hub of version 1.2 therefore tells the others IDONTWANT as soon as it has a large message: 14 bytes that can
 * save 100,000. The story is told twice: with hubs that speak /meshsub/1.1.0, and with hubs that speak /meshsub/1.2.0.
 *
 * A hub sends one thing after the other, 1,000 bytes in a millisecond. The host carries and counts the bytes; the router says who
 * is told IDONTWANT, and to whom the message goes. examples/three_hubs.c shows how a mesh forms and how an RPC is written; here the
 * hubs take each other's GRAFT at once.
 *
 *     gcc -Iinclude examples/large_message.c crates/host/out/libhost.a -o large_message && ./large_message
 */
#include <inttypes.h>
#include <stdbool.h>
#include <stdio.h>
#include <stdlib.h>
#include <string.h>

#include "hivepadlet.h"

enum { LOBBY, FOURTH, ROOF, HUBS };
enum { TOPIC = 0, OURSELVES = 0, NAME_BYTES = 14, MOST_ON_CABLES = 16 };

/* the message: its number stands for its id, by which all hubs know it. A hub need not tell of a message under some size: IDONTWANT
 * would cost as much as it saves */
#define MESSAGE UINT64_C(0xC0FFEE)
enum { MESSAGE_BYTES = 100000, LARGE = 1000 };

/* an RPC with one IDONTWANT of an id of 8 bytes: control, IDONTWANT and id have a tag and a length each */
enum { IDONTWANT_BYTES = 14 };

enum { BYTES_IN_A_MILLISECOND = 1000 };

struct hub {
    const char *name;
    uint64_t table[HIVEPADLET_CELLS];
    uint64_t gossip[HIVEPADLET_GOSSIP_CELLS]; /* beside the table: it remembers who wants no more of what */
    uint32_t actions[HIVEPADLET_ACTION_NUMBERS];
    bool seen;     /* the message */
    uint64_t idle; /* when its cable has taken what it sends */
};

/* something on its way over a cable */
struct parcel {
    uint64_t at; /* when it is there */
    int from;
    int to;
    bool idontwant; /* else it is the message */
};

static struct hub hubs[HUBS] = { { .name = "lobby" }, { .name = "fourth" }, { .name = "roof" } };
static struct parcel cables[MOST_ON_CABLES]; /* in the order of sending */
static size_t waiting;
static uint64_t now, sent;

#define LIST(h) (h)->actions, HIVEPADLET_ACTION_NUMBERS

static void say(int hub, const char *before, const char *whom)
{
    printf("%6.3f  %-6s  %s%s\n", (double)now / 1000, hubs[hub].name, before, whom);
}

/* an answer 0; this host makes no call that may be refused or ignored */
static uint64_t done(uint64_t r)
{
    if (hivepadlet_number(r) != HIVEPADLET_DONE) {
        printf("answered %u\n", hivepadlet_number(r));
        exit(1);
    }
    return r;
}

/* ---- cables */

static uint64_t id_of(int hub)
{
    return (uint64_t)hub + 1;
}

static int hub_of(uint32_t id)
{
    return (int)id - 1;
}

/* behind what the hub is sending already */
static void send(int from, int to, bool idontwant)
{
    struct hub *h = &hubs[from];
    uint64_t bytes = idontwant ? IDONTWANT_BYTES : MESSAGE_BYTES;
    say(from, idontwant ? "sends IDONTWANT to " : "sends the message to ", hubs[to].name);
    h->idle = (h->idle < now ? now : h->idle) + (bytes + BYTES_IN_A_MILLISECOND - 1) / BYTES_IN_A_MILLISECOND;
    cables[waiting++] = (struct parcel){ .at = h->idle, .from = from, .to = to, .idontwant = idontwant };
    sent += bytes;
}

/* takes what is there next off its cable; of two that are there at one time the one that was sent first */
static struct parcel take_next(void)
{
    size_t next = 0;
    for (size_t i = 1; i < waiting; i++) {
        if (cables[i].at < cables[next].at) {
            next = i;
        }
    }
    struct parcel p = cables[next];
    waiting--;
    memmove(cables + next, cables + next + 1, (waiting - next) * sizeof *cables);
    return p;
}

/* ---- what a hub does with the message: it has it from a peer, or it is its own (sender 0) */

static void pass_on(int hub, uint64_t sender)
{
    struct hub *h = &hubs[hub];
    uint64_t r;
    h->seen = true;
    if (MESSAGE_BYTES >= LARGE) {
        /* first of all, so that it overtakes the message */
        r = done(hivepadlet_send_idontwant(h->table, h->gossip, now, TOPIC, sender, MESSAGE, LIST(h)));
        for (uint32_t i = 0; i < hivepadlet_actions(r); i++) {
            send(hub, hub_of(hivepadlet_action_peer(h->actions, i)), true);
        }
    }
    /* the mesh but the sender and those who told us that they do not want it */
    r = done(hivepadlet_relay(h->table, h->gossip, now, TOPIC, sender, MESSAGE, LIST(h)));
    for (uint32_t i = 0; i < hivepadlet_actions(r); i++) {
        send(hub, hub_of(hivepadlet_action_peer(h->actions, i)), false);
    }
    if (hivepadlet_actions(r) == 0) {
        say(hub, "passes it on to nobody", "");
    }
}

static void take_message(int hub, int peer)
{
    struct hub *h = &hubs[hub];
    uint64_t kind = h->seen ? HIVEPADLET_NEAR_FIRST : HIVEPADLET_FIRST;
    done(hivepadlet_deliver(h->table, now, id_of(peer), TOPIC, kind, LIST(h)));
    if (h->seen) {
        say(hub, "gets it once more, from ", hubs[peer].name);
        return;
    }
    say(hub, "has the message from ", hubs[peer].name);
    pass_on(hub, id_of(peer));
}

static void take(struct parcel p)
{
    struct hub *h = &hubs[p.to];
    now = p.at;
    if (!p.idontwant) {
        take_message(p.to, p.from);
        return;
    }
    done(hivepadlet_idontwant(h->table, h->gossip, now, id_of(p.from), MESSAGE, LIST(h)));
    say(p.to, "notes that it is not wanted by ", hubs[p.from].name);
}

/* ---- the story */

/* one end of a connection: the peer is in the topic, and sent GRAFT */
static void meet(int hub, int peer, const char *protocol)
{
    struct hub *h = &hubs[hub];
    uint64_t id = id_of(peer), group = id, flags = hub < peer ? HIVEPADLET_OUTBOUND : 0;
    done(hivepadlet_gossip_connect(h->table, h->gossip, now, id, &group, 1, flags, (const uint8_t *)protocol, NAME_BYTES, LIST(h)));
    done(hivepadlet_subscribe(h->table, now, id, TOPIC, LIST(h)));
    done(hivepadlet_graft(h->table, now, id, TOPIC, LIST(h)));
}

/* three fresh routers, each in the mesh of the others */
static void make_hubs(const char *protocol)
{
    int64_t numbers[HIVEPADLET_NUMBERS];
    uint64_t setup[HIVEPADLET_SETUP_NUMBERS];
    hivepadlet_ordinary(numbers);
    hivepadlet_ordinary_setup(setup);
    for (int hub = 0; hub < HUBS; hub++) {
        struct hub *h = &hubs[hub];
        h->seen = false;
        h->idle = 0;
        done(hivepadlet_gossip_fresh(numbers, HIVEPADLET_EDITION_1, setup, h->table, h->gossip));
        done(hivepadlet_join(h->table, now, TOPIC, LIST(h)));
        for (int peer = 0; peer < HUBS; peer++) {
            if (peer != hub) {
                meet(hub, peer, protocol);
            }
        }
    }
}

static void tell(const char *protocol)
{
    now = 1000;
    sent = 0;
    make_hubs(protocol);
    now = 2000;
    say(LOBBY, "publishes a message", "");
    pass_on(LOBBY, OURSELVES);
    while (waiting > 0) {
        take(take_next());
    }
    printf("%" PRIu64 " bytes were sent.\n", sent);
}

int main(void)
{
    printf("Hubs that speak /meshsub/1.1.0.\n");
    tell("/meshsub/1.1.0");
    printf("Hubs that speak /meshsub/1.2.0.\n");
    tell("/meshsub/1.2.0");
    return 0;
}
