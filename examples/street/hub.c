/*
 * hub.c: an honest hub of the street: connections, heartbeats, and a save over a restart. See hub.h.
 *
 * The hub keeps some connections that it dialled itself, hangs up on who is silent, and once a second makes the router's calls of that
 * time. At SIGTERM it saves what the router remembers and says goodbye; at its next start it loads that, at a clock that begins anew.
 */
#include "behaviours.h"

#include "hub.h"
#include "notice.h"

#include <stdio.h>

enum {
    DIALS = 5,            /* connections that the hub keeps up by itself */
    DIAL_MS = 900,        /* who has not answered by then is not there */
    QUIET_MS = 1500,      /* after which a peer is sent an empty RPC */
    SILENCE_MS = 5000,    /* after which a peer is taken for gone */
    KEPT_MS = 6000,       /* messages: beyond the five heartbeats for which the router may ask for them */
    SEEN_MS = 120000,
    FIRST_HEARTBEAT_MS = 100, /* connections are there by then */
    MOST_BOOK = 256
};

struct hub hub;

static struct {
    uint32_t id;
    struct address address;
} book[MOST_BOOK];

static size_t book_length;
static uint64_t next_heartbeat;

struct peer *peer_of(uint32_t id)
{
    for (size_t i = 0; i < MOST_PEERS; i++) {
        if (hub.peers[i].state != ABSENT && hub.peers[i].id == id) {
            return &hub.peers[i];
        }
    }
    return NULL;
}

/* a peer's score, and that of its record alone, which a save holds: without its address group. In thousandths */
static int64_t score_of(const struct peer *peer, bool of_record)
{
    int64_t why[HIVEPADLET_WHY_NUMBERS] = { 0 };
    is_done(hivepadlet_score(ROUTER, peer->id, why, LIST));
    return (why[HIVEPADLET_WHY_SCORE] - (of_record ? why[HIVEPADLET_WHY_P6] : 0)) / (HIVEPADLET_POINT / 1000);
}

/* ---- connections */

static void send_word(struct address to, uint32_t peer, enum frame_kind kind)
{
    send_frame(to, kind, NULL, 0, now + latency(hub.start->seed, hub.start->id, peer));
}

static struct peer *new_peer(uint32_t id, struct address address, bool outbound)
{
    for (size_t i = 0; i < MOST_PEERS; i++) {
        if (hub.peers[i].state == ABSENT) {
            hub.peers[i] = (struct peer){ .state = DIALLING, .id = id, .address = address, .outbound = outbound, .since = now };
            return &hub.peers[i];
        }
    }
    return NULL;
}

static void drop(struct peer *peer)
{
    if (peer->state == OPEN) {
        is_done(hivepadlet_gossip_disconnect(GOSSIP, peer->id, LIST));
        forget_peer((size_t)(peer - hub.peers));
    }
    peer->state = ABSENT;
    peer->mesh = false;
}

/* a connection is there, and both sides tell what they are subscribed to. The address group is the first three bytes of the address */
static bool open_peer(struct peer *peer)
{
    static const uint8_t name[] = { '/', 'm', 'e', 's', 'h', 's', 'u', 'b', '/', '1', '.', '2', '.', '0' };
    const uint64_t group = peer->address.ip >> 8, flags = peer->outbound ? HIVEPADLET_OUTBOUND : 0;
    uint64_t r = hivepadlet_gossip_connect(GOSSIP, peer->id, &group, 1, flags, name, sizeof name, LIST);
    if (hivepadlet_number(r) == HIVEPADLET_NO_SLOT) {
        return false;
    }
    is_done(r);
    peer->state = OPEN;
    peer->heard = now;
    if (hub.start->life > 0) {
        tell(RETURNED, peer->id, score_of(peer, true));
    }
    return true;
}

/* of two hubs that dial each other at once the lower one's connection counts */
static void take_dial(struct peer *peer, const struct frame *frame)
{
    if (peer != NULL && peer->state == DIALLING && peer->address.port == frame->address.port && hub.start->id < frame->from) {
        return;
    }
    if (peer != NULL) {
        drop(peer); /* it has begun anew */
    }
    peer = new_peer(frame->from, frame->address, false);
    if (peer == NULL || !open_peer(peer)) {
        send_word(frame->address, frame->from, BYE);
        if (peer != NULL) {
            drop(peer);
        }
        return;
    }
    send_word(peer->address, peer->id, ACCEPT);
    send_subscription(peer);
}

static void take_accept(struct peer *peer)
{
    if (open_peer(peer)) {
        send_subscription(peer);
    } else {
        send_word(peer->address, peer->id, BYE);
        drop(peer);
    }
}

static void take(const struct frame *frame)
{
    struct peer *peer = peer_of(frame->from);
    bool known = peer != NULL && peer->address.ip == frame->address.ip && peer->address.port == frame->address.port;
    switch (frame->kind) {
    case DIAL:
        take_dial(peer, frame);
        break;
    case ACCEPT:
        if (known && peer->state == DIALLING) {
            take_accept(peer);
        }
        break;
    case RPC:
        if (known && peer->state == OPEN) {
            peer->heard = now;
            take_rpc(peer, (struct span){ frame->bytes, frame->length });
        } else if (!known) {
            send_word(frame->address, frame->from, BYE); /* of a connection that ended */
        }
        break;
    case BYE:
        if (known) {
            drop(peer);
        }
        break;
    }
}

/* dials hubs of the book until there are enough; who does not answer is dropped at the next heartbeat */
static void dial_more(void)
{
    size_t outbound = 0, left = 0, strangers[MOST_BOOK];
    for (size_t i = 0; i < MOST_PEERS; i++) {
        outbound += hub.peers[i].state != ABSENT && hub.peers[i].outbound;
    }
    for (size_t i = 0; i < book_length; i++) {
        if (peer_of(book[i].id) == NULL) {
            strangers[left++] = i;
        }
    }
    for (; outbound < DIALS && left > 0; outbound++) {
        size_t chosen = random_below(&hub.dice, left);
        size_t i = strangers[chosen];
        strangers[chosen] = strangers[--left];
        if (new_peer(book[i].id, book[i].address, true) != NULL) {
            send_word(book[i].address, book[i].id, DIAL);
        }
    }
}

static void tend_peers(void)
{
    for (size_t i = 0; i < MOST_PEERS; i++) {
        struct peer *peer = &hub.peers[i];
        peer->learned = 0;
        if (peer->state == DIALLING && now - peer->since >= DIAL_MS) {
            drop(peer);
        } else if (peer->state == OPEN && now - peer->heard >= SILENCE_MS) {
            send_word(peer->address, peer->id, BYE);
            drop(peer);
        } else if (peer->state == OPEN && now - peer->said >= QUIET_MS) {
            keep_alive(peer);
        }
    }
}

/* ---- the timer */

static void shuffle(uint64_t permutation[HIVEPADLET_SLOTS])
{
    for (uint64_t i = 0; i < HIVEPADLET_SLOTS; i++) {
        permutation[i] = i;
    }
    for (uint64_t i = HIVEPADLET_SLOTS - 1; i > 0; i--) {
        uint64_t j = random_below(&hub.dice, i + 1);
        uint64_t slot = permutation[i];
        permutation[i] = permutation[j];
        permutation[j] = slot;
    }
}

static void heartbeat(void)
{
    uint64_t permutation[HIVEPADLET_SLOTS];
    tend_peers();
    dial_more();
    forget_rows(now, KEPT_MS, SEEN_MS);
    is_done(hivepadlet_decay(ROUTER, LIST));
    is_done(hivepadlet_beat(GOSSIP, LIST));
    shuffle(permutation);
    send_actions(hivepadlet_heartbeat(ROUTER, TOPIC, 0, permutation, HIVEPADLET_SLOTS, LIST));
    shuffle(permutation);
    announce(permutation);
}

/* a hub that was restarted tells when it first has a peer in its mesh */
static void tell_back(void)
{
    static bool told;
    for (size_t i = 0; i < MOST_PEERS && hub.start->life > 0 && !told; i++) {
        if (hub.peers[i].mesh) {
            tell(BACK, hub.start->id, (int64_t)uptime());
            told = true;
        }
    }
}

static uint64_t work(void)
{
    if (now == hub.start->time) {
        dial_more();
    }
    if (now >= next_heartbeat) {
        heartbeat();
        next_heartbeat += HEARTBEAT_MS;
    }
    tell_back();
    uint64_t idle = send_waiting();
    return idle < next_heartbeat ? idle : next_heartbeat;
}

/* ---- start and end */

static bool load(const int64_t numbers[HIVEPADLET_NUMBERS], const uint64_t setup[HIVEPADLET_SETUP_NUMBERS])
{
    static uint8_t bytes[HIVEPADLET_SAVE_BYTES];
    FILE *file = fopen(hub.start->save, "rb");
    if (file == NULL) {
        return false;
    }
    size_t length = fread(bytes, 1, sizeof bytes, file);
    fclose(file);
    if (!is_done(hivepadlet_gossip_load(numbers, HIVEPADLET_EDITION_1, setup, 0, bytes, length, hub.table, hub.gossip))) {
        return false;
    }
    tell(LOADED, hub.start->id, (int64_t)length);
    return true;
}

static void begin(const struct start *start)
{
    int64_t numbers[HIVEPADLET_NUMBERS];
    uint64_t setup[HIVEPADLET_SETUP_NUMBERS];
    hub.start = start;
    hub.dice.state = mix(start->seed ^ mix((uint64_t)start->id << 32 | start->life));
    hivepadlet_ordinary(numbers);
    hivepadlet_ordinary_setup(setup);
    bool loaded = load(numbers, setup);
    if (!name_topics() || (!loaded && !is_done(hivepadlet_gossip_fresh(numbers, HIVEPADLET_EDITION_1, setup, hub.table, hub.gossip)))) {
        fail("the parameters or the topic's name are refused");
    }
    is_done(hivepadlet_join(ROUTER, TOPIC, LIST));
    next_heartbeat = now + FIRST_HEARTBEAT_MS + random_below(&hub.dice, HEARTBEAT_MS); /* not all hubs at once */
}

/* into a new file first, so that a save is there as a whole or not at all */
static void save(void)
{
    static uint8_t bytes[HIVEPADLET_SAVE_BYTES];
    char path[256];
    uint64_t r = hivepadlet_save(hub.table, uptime(), bytes, sizeof bytes);
    size_t length = is_done(r) ? hivepadlet_value(r) : 0;
    snprintf(path, sizeof path, "%s.new", hub.start->save);
    FILE *file = fopen(path, "wb");
    if (file == NULL || fwrite(bytes, 1, length, file) != length || fclose(file) != 0 || rename(path, hub.start->save) != 0) {
        fail("the save was not written");
    }
    tell(SAVED, hub.start->id, (int64_t)length);
}

static void stop(void)
{
    for (size_t i = 0; i < MOST_PEERS; i++) {
        struct peer *peer = &hub.peers[i];
        if (peer->state == OPEN && score_of(peer, true) < 0) {
            tell(BELOW, peer->id, score_of(peer, true));
        }
        if (peer->state == OPEN) {
            send_word(peer->address, peer->id, BYE);
        }
    }
    save();
}

static void tell_scores(void)
{
    for (size_t i = 0; i < MOST_PEERS; i++) {
        struct peer *peer = &hub.peers[i];
        if (peer->state == OPEN) {
            tell(SCORE, peer->id, score_of(peer, false));
        }
        if (peer->state == OPEN && peer->mesh) {
            tell(MEMBER, peer->id, 0);
        }
    }
}

static void note_address(uint32_t id, struct address address)
{
    size_t i = 0;
    while (i < book_length && book[i].id != id) {
        i++;
    }
    if (i < MOST_BOOK) {
        book[i].id = id;
        book[i].address = address;
        book_length += i == book_length;
    }
}

const struct behaviour honest = { begin, note_address, publish_notice, tell_scores, take, work, stop };
