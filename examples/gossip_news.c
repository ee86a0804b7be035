/*
 * gossip_news.c: a hub outside the mesh hears of a message, asks for it and gets it.
 *
 * A message goes along the mesh. Who is not in the mesh, here the attic, is told once a second which messages there were (IHAVE), asks
 * for those that it has not got (IWANT), and is sent them. The router keeps the numbers of the messages of the last five heartbeats,
 * and counts: a message is sent to a peer by IWANT no more often than REPLY_BOUND says in one connection, however often it asks.
 *
 * The host keeps the messages and carries what is sent. A message is its number here, and a cable is a copy into the other's inbox; in a
 * product all of this is RPCs, as in examples/three_hubs.c.
 *
 *     gcc -Iinclude examples/gossip_news.c crates/host/out/libhost.a -o gossip_news && ./gossip_news
 */
#include <inttypes.h>
#include <stdbool.h>
#include <stdio.h>
#include <stdlib.h>

#include "hivepadlet.h"

enum { LOBBY, FOURTH, ATTIC, HUBS };
enum { TOPIC = 0, OURSELVES = 0, INBOX = 16 };

/* the one message of the story */
#define NEWS UINT64_C(7001)

enum kind { GRAFT, PRUNE, IHAVE, IWANT, MESSAGE };

struct parcel {
    enum kind kind;
    int from;
    uint64_t seconds; /* of a PRUNE */
    size_t count;     /* of the message numbers */
    uint64_t numbers[HIVEPADLET_MESSAGE_NUMBERS];
};

struct hub {
    const char *name;
    bool seen; /* the news */
    struct parcel inbox[INBOX];
    size_t waiting;
    uint64_t table[HIVEPADLET_CELLS];
    uint64_t gossip[HIVEPADLET_GOSSIP_CELLS]; /* beside the table: message numbers, and who was sent them how often */
    uint32_t actions[HIVEPADLET_ACTION_NUMBERS];
};

static struct hub hubs[HUBS] = { { .name = "lobby" }, { .name = "fourth" }, { .name = "attic" } };
static uint64_t now; /* milliseconds */

/* by slot; a product shuffles it anew each time, so that it is not always the same peers who are told */
static uint64_t permutation[HIVEPADLET_SLOTS];

#define LIST(h) (h)->actions, HIVEPADLET_ACTION_NUMBERS

static void say(int hub, const char *before, const char *whom)
{
    printf("%5.1f  %-6s  %s%s\n", (double)now / 1000, hubs[hub].name, before, whom);
}

/* an answer 0, of a call that is never refused or ignored in this story */
static uint64_t done(uint64_t r)
{
    if (hivepadlet_number(r) != HIVEPADLET_DONE) {
        printf("answered %u\n", hivepadlet_number(r));
        exit(1);
    }
    return r;
}

static uint64_t id_of(int hub)
{
    return (uint64_t)hub + 1;
}

static int hub_of(uint32_t id)
{
    return (int)id - 1;
}

static void send(int to, struct parcel p)
{
    static const char *const sends[] = { "sends GRAFT to ", "sends PRUNE to ", "sends IHAVE to ", "sends IWANT to ", "sends the news to " };
    struct hub *h = &hubs[to];
    say(p.from, sends[p.kind], hubs[to].name);
    if (h->waiting < INBOX) {
        h->inbox[h->waiting++] = p;
    }
}

static struct parcel with_number(enum kind kind, int from, uint64_t number)
{
    return (struct parcel){ .kind = kind, .from = from, .count = 1, .numbers = { number } };
}

/* the actions of a mesh call are GRAFTs and PRUNEs; gives how many */
static uint32_t send_mesh(int hub, uint64_t r)
{
    struct hub *h = &hubs[hub];
    for (uint32_t i = 0; i < hivepadlet_value(done(r)); i++) {
        bool graft = hivepadlet_action_kind(h->actions, i) == HIVEPADLET_GRAFT;
        struct parcel p = { .kind = graft ? GRAFT : PRUNE, .from = hub, .seconds = hivepadlet_action_seconds(h->actions, i) };
        send(hub_of(hivepadlet_action_peer(h->actions, i)), p);
    }
    return hivepadlet_value(r);
}

/* ---- a message: along the mesh, and into the store, from which the next announcements take it */

static void pass_on(int hub, uint64_t sender)
{
    struct hub *h = &hubs[hub];
    h->seen = true;
    uint64_t r = done(hivepadlet_relay(h->table, h->gossip, now, TOPIC, sender, NEWS, LIST(h)));
    for (uint32_t i = 0; i < hivepadlet_actions(r); i++) {
        send(hub_of(hivepadlet_action_peer(h->actions, i)), with_number(MESSAGE, hub, NEWS));
    }
    done(hivepadlet_store(h->table, h->gossip, now, TOPIC, NEWS, LIST(h)));
}

/* ---- what comes in */

static void take_graft(int hub, int peer)
{
    struct hub *h = &hubs[hub];
    if (send_mesh(hub, hivepadlet_graft(h->table, now, id_of(peer), TOPIC, LIST(h))) == 0) {
        say(hub, "takes into its mesh: ", hubs[peer].name);
    }
}

/* asks for what it has not got */
static void take_ihave(int hub, const struct parcel *p)
{
    struct hub *h = &hubs[hub];
    struct parcel wanted = { .kind = IWANT, .from = hub };
    uint64_t r = done(hivepadlet_ihave(h->table, h->gossip, now, id_of(p->from), TOPIC, p->numbers, p->count, wanted.numbers,
                                       HIVEPADLET_MESSAGE_NUMBERS, LIST(h)));
    wanted.count = hivepadlet_numbers(r);
    if (wanted.count == 0) {
        say(hub, "has all that it hears of from ", hubs[p->from].name);
    } else {
        send(p->from, wanted);
    }
}

/* one call for each number. An answer 0 is the word to send it; 11 is no fault of anybody's */
static void take_iwant(int hub, const struct parcel *p)
{
    struct hub *h = &hubs[hub];
    for (size_t i = 0; i < p->count; i++) {
        uint64_t r = hivepadlet_iwant(h->table, h->gossip, now, id_of(p->from), p->numbers[i], LIST(h));
        if (hivepadlet_number(r) == HIVEPADLET_IGNORED) {
            say(hub, "does not answer ", hubs[p->from].name);
        } else {
            done(r);
            send(p->from, with_number(MESSAGE, hub, p->numbers[i]));
        }
    }
}

static void take_message(int hub, int peer)
{
    struct hub *h = &hubs[hub];
    if (h->seen) {
        say(hub, "has the news again, from ", hubs[peer].name);
        return;
    }
    say(hub, "has the news from ", hubs[peer].name);
    done(hivepadlet_deliver(h->table, now, id_of(peer), TOPIC, HIVEPADLET_FIRST, LIST(h)));
    pass_on(hub, id_of(peer));
}

static void take(int hub, const struct parcel *p)
{
    struct hub *h = &hubs[hub];
    switch (p->kind) {
    case GRAFT:
        take_graft(hub, p->from);
        break;
    case PRUNE:
        done(hivepadlet_prune(h->table, now, id_of(p->from), TOPIC, p->seconds, LIST(h)));
        break;
    case IHAVE:
        take_ihave(hub, p);
        break;
    case IWANT:
        take_iwant(hub, p);
        break;
    case MESSAGE:
        take_message(hub, p->from);
        break;
    }
}

/* until every inbox is empty */
static void take_all(void)
{
    bool any = true;
    while (any) {
        any = false;
        for (int hub = 0; hub < HUBS; hub++) {
            struct hub *h = &hubs[hub];
            for (size_t i = 0; i < h->waiting; i++) {
                any = true;
                take(hub, &h->inbox[i]); /* a hub sends nothing to itself, so its inbox stands meanwhile */
            }
            h->waiting = 0;
        }
    }
}

/* ---- the timer: once a second the mesh is maintained, the stores move on, and the rest is told */

static void announce(int hub)
{
    struct hub *h = &hubs[hub];
    struct parcel news = { .kind = IHAVE, .from = hub };
    uint64_t r = done(hivepadlet_announce(h->table, h->gossip, now, TOPIC, permutation, HIVEPADLET_SLOTS, news.numbers,
                                          HIVEPADLET_MESSAGE_NUMBERS, LIST(h)));
    news.count = hivepadlet_numbers(r);
    for (uint32_t i = 0; i < hivepadlet_actions(r); i++) {
        send(hub_of(hivepadlet_action_peer(h->actions, i)), news);
    }
}

static void until(uint64_t time)
{
    while (now / 1000 < time / 1000) {
        now = (now / 1000 + 1) * 1000;
        for (int hub = 0; hub < HUBS; hub++) {
            struct hub *h = &hubs[hub];
            send_mesh(hub, hivepadlet_heartbeat(h->table, now, TOPIC, 0, permutation, HIVEPADLET_SLOTS, LIST(h)));
            done(hivepadlet_beat(h->table, h->gossip, now, LIST(h)));
            announce(hub);
            take_all();
        }
    }
    now = time;
}

/* ---- the story */

static void connect_end(int hub, int peer, uint64_t flags)
{
    static const uint8_t name[] = { '/', 'm', 'e', 's', 'h', 's', 'u', 'b', '/', '1', '.', '2', '.', '0' };
    struct hub *h = &hubs[hub];
    const uint64_t group = id_of(peer);
    done(hivepadlet_gossip_connect(h->table, h->gossip, now, id_of(peer), &group, 1, flags, name, sizeof name, LIST(h)));
    done(hivepadlet_subscribe(h->table, now, id_of(peer), TOPIC, LIST(h)));
}

/* who dials is told as outbound to its own router, and as inbound to the other's; all are in the topic */
static void dial(int hub, int peer)
{
    say(hub, "dials ", hubs[peer].name);
    connect_end(hub, peer, HIVEPADLET_OUTBOUND);
    connect_end(peer, hub, 0);
}

static void hang_up(int hub, int peer)
{
    say(hub, "hangs up on ", hubs[peer].name);
    done(hivepadlet_gossip_disconnect(hubs[hub].table, hubs[hub].gossip, now, id_of(peer), LIST(&hubs[hub])));
    done(hivepadlet_gossip_disconnect(hubs[peer].table, hubs[peer].gossip, now, id_of(hub), LIST(&hubs[peer])));
}

/* meshes of one peer, so that a third hub is outside; and two replies */
static void make_hubs(void)
{
    int64_t numbers[HIVEPADLET_NUMBERS];
    uint64_t setup[HIVEPADLET_SETUP_NUMBERS];
    hivepadlet_ordinary(numbers);
    numbers[HIVEPADLET_D_LO] = numbers[HIVEPADLET_D] = numbers[HIVEPADLET_D_HI] = 1;
    numbers[HIVEPADLET_D_OUT] = numbers[HIVEPADLET_D_SCORE] = 0;
    hivepadlet_ordinary_setup(setup);
    setup[HIVEPADLET_REPLY_BOUND] = 2;
    for (int hub = 0; hub < HUBS; hub++) {
        struct hub *h = &hubs[hub];
        done(hivepadlet_gossip_fresh(numbers, HIVEPADLET_EDITION_1, setup, h->table, h->gossip));
        done(hivepadlet_join(h->table, now, TOPIC, LIST(h)));
    }
    for (uint64_t i = 0; i < HIVEPADLET_SLOTS; i++) {
        permutation[i] = i;
    }
}

/* the attic wants the news of the lobby, whatever it has */
static void ask(void)
{
    send(LOBBY, with_number(IWANT, ATTIC, NEWS));
    take_all();
}

int main(void)
{
    printf("The attic is outside the mesh.\n");
    now = 1000;
    make_hubs();
    dial(LOBBY, FOURTH);
    dial(ATTIC, LOBBY);
    until(2500);
    printf("It hears of the news, and gets them.\n");
    say(FOURTH, "publishes the news", "");
    pass_on(FOURTH, OURSELVES);
    take_all();
    until(3500);
    printf("It loses them, and asks twice more.\n");
    ask();
    ask();
    until(5500);
    printf("It comes back, and asks again.\n");
    hang_up(ATTIC, LOBBY);
    dial(ATTIC, LOBBY);
    ask();
    until(7500);
    printf("Five heartbeats later.\n");
    ask();
    return 0;
}
