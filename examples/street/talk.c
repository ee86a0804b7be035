/*
 * talk.c: what an honest hub sends, and what it does with what comes: every action of the router is an RPC, every entry of an RPC a call.
 * See hub.h.
 *
 * Notices are large, so that they wait for the line, one copy after the other, and small things overtake them. Before each copy the router
 * is asked again to whom the notice goes: who has said IDONTWANT meanwhile is spared.
 */
#include "hub.h"

#include "behaviours.h"
#include "notice.h"

#include <stdio.h>
#include <string.h>

enum {
    BYTES_IN_A_MILLISECOND = 250, /* of the line */
    NEAR_MS = 500,                /* for which a message that comes again counts as near first */
    ASK_AGAIN_MS = 1500,          /* after which a message that did not come is asked for again */
    MOST_LEARNED = 16,            /* new ids that a peer may name between two heartbeats */
    MOST_QUEUE = 64
};

/* a notice that goes along the mesh */
struct outgoing {
    struct row *row;
    uint32_t sender;        /* 0: ourselves */
    bool sent[MOST_PEERS];
    bool meant[MOST_PEERS]; /* the mesh without the sender, when it came */
};

static struct outgoing queue[MOST_QUEUE];
static size_t queued;
static uint8_t buffer[HIVEPADLET_MESSAGE_BYTES];
static uint64_t entries[HIVEPADLET_ENTRY_NUMBERS];
static uint64_t numbers[HIVEPADLET_MESSAGE_NUMBERS];

bool name_topics(void)
{
    struct span name = topic_name();
    hub.names[65 * TOPIC] = (uint8_t)name.length;
    memcpy(hub.names + 65 * TOPIC + 1, name.at, name.length);
    return hivepadlet_number(hivepadlet_names(hub.names)) == HIVEPADLET_DONE;
}

/* this host makes no call that is refused but for want of room in the store: any other refusal is a mistake of its own */
bool is_done(uint64_t r)
{
    if (hivepadlet_number(r) == HIVEPADLET_IGNORED || hivepadlet_number(r) == HIVEPADLET_NO_ROOM) {
        tally[IGNORED]++;
    } else if (hivepadlet_number(r) != HIVEPADLET_DONE) {
        char why[40];
        snprintf(why, sizeof why, "the router answered %u", hivepadlet_number(r));
        fail(why);
    }
    return hivepadlet_number(r) == HIVEPADLET_DONE;
}

/* ---- what is sent */

static void send_small(struct peer *peer, size_t length)
{
    peer->said = now;
    send_frame(peer->address, RPC, buffer, length, now + latency(hub.start->seed, hub.start->id, peer->id));
}

static void send_large(struct peer *peer, const struct row *row)
{
    peer->said = now;
    hub.idle = (hub.idle < now ? now : hub.idle) + (row->rpc_length + BYTES_IN_A_MILLISECOND - 1) / BYTES_IN_A_MILLISECOND;
    send_frame(peer->address, RPC, row->rpc, row->rpc_length, hub.idle + latency(hub.start->seed, hub.start->id, peer->id));
}

static size_t written(uint64_t r)
{
    return is_done(r) ? hivepadlet_value(r) : 0;
}

/* an RPC of one action, with its topic, or its message's number; gives its length */
static size_t send_action(const uint32_t *action, uint64_t topic)
{
    struct peer *peer = peer_of(hivepadlet_action_peer(action, 0));
    struct ids ids = lend_ids();
    size_t length = written(hivepadlet_write_message(hub.names, IDS(ids), action, 3, &topic, 1, &topic, 0, buffer, sizeof buffer));
    if (peer != NULL) {
        send_small(peer, length);
    }
    return length;
}

/* the GRAFTs and PRUNEs of a call */
void send_actions(uint64_t r)
{
    for (uint32_t i = 0; is_done(r) && i < hivepadlet_value(r); i++) {
        struct peer *peer = peer_of(hivepadlet_action_peer(hub.actions, i));
        if (peer != NULL) {
            peer->mesh = hivepadlet_action_kind(hub.actions, i) == HIVEPADLET_GRAFT;
        }
        send_action(hub.actions + 3 * i, TOPIC);
    }
}

void send_subscription(struct peer *peer)
{
    static const uint32_t none[1];
    const uint64_t change[] = { 1, TOPIC };
    struct ids ids = lend_ids();
    send_small(peer, written(hivepadlet_write_message(hub.names, IDS(ids), none, 0, change, 0, change, 2, buffer, sizeof buffer)));
}

/* an RPC without contents */
void keep_alive(struct peer *peer)
{
    send_small(peer, 0);
}

/* ---- notices on their way out */

static void enqueue(struct row *row, uint32_t sender)
{
    if (queued == MOST_QUEUE) {
        return;
    }
    struct outgoing *out = &queue[queued++];
    *out = (struct outgoing){ .row = row, .sender = sender };
    row->queued++;
    for (size_t i = 0; i < MOST_PEERS; i++) {
        out->meant[i] = hub.peers[i].state == OPEN && hub.peers[i].mesh && hub.peers[i].id != sender;
    }
}

/* the first peer to which the router would still pass it on, and that has not got it from us; NULL where there is none */
static struct peer *next_target(const struct outgoing *out)
{
    const struct peer *sender = peer_of(out->sender);
    uint32_t from = sender != NULL && sender->state == OPEN ? out->sender : 0;
    uint64_t r = hivepadlet_relay(GOSSIP, TOPIC, from, out->row->number, LIST);
    for (uint32_t i = 0; is_done(r) && i < hivepadlet_actions(r); i++) {
        struct peer *peer = peer_of(hivepadlet_action_peer(hub.actions, i));
        if (peer != NULL && peer->id != out->sender && !out->sent[peer - hub.peers]) {
            return peer;
        }
    }
    return NULL;
}

static void dequeue(void)
{
    const struct outgoing *out = &queue[0];
    out->row->queued--;
    for (size_t i = 0; i < MOST_PEERS; i++) {
        if (out->meant[i] && !out->sent[i] && out->row->unwanted[i]) {
            tally[SPARED]++;
            tally[SPARED_BYTES] += out->row->rpc_length;
        }
    }
    queued--;
    memmove(queue, queue + 1, queued * sizeof *queue);
}

uint64_t send_waiting(void)
{
    while (queued > 0 && hub.idle <= now) {
        struct peer *peer = next_target(&queue[0]);
        if (peer == NULL) {
            dequeue();
        } else {
            queue[0].sent[peer - hub.peers] = true;
            tally[COPIES]++;
            tally[COPY_BYTES] += queue[0].row->rpc_length;
            send_large(peer, queue[0].row);
        }
    }
    return queued > 0 ? hub.idle : UINT64_MAX;
}

/* a message that we have now, from a peer or by ourselves (0): IDONTWANT first, so that it overtakes the copies */
static void pass_on(struct row *row, uint32_t sender)
{
    if (row->rpc_length >= LARGE) {
        uint64_t r = hivepadlet_send_idontwant(GOSSIP, TOPIC, sender, row->number, LIST);
        for (uint32_t i = 0; is_done(r) && i < hivepadlet_actions(r); i++) {
            tally[IDONTWANTS]++;
            tally[IDONTWANT_BYTES] += send_action(hub.actions + 3 * i, row->number);
        }
    }
    is_done(hivepadlet_store(GOSSIP, TOPIC, row->number, LIST));
    enqueue(row, sender);
}

static void have_seen(struct row *row, const uint8_t *rpc, size_t length)
{
    row->seen = true;
    row->first = now;
    keep_rpc(row, rpc, length);
}

void publish_notice(uint32_t notice)
{
    uint8_t id[MOST_ID_BYTES];
    struct field field;
    size_t length = write_notice(hub.start->id, now, notice, PICTURE_BYTES, hub.start->run, buffer, sizeof buffer);
    struct span rpc = { buffer, length };
    next_field(&rpc, &field);
    struct publication message = read_publication(field.bytes);
    struct row *row = name_row((struct span){ id, write_id(&message, id) }, now);
    if (row != NULL) {
        have_seen(row, buffer, length);
        tell(HEARD, notice, 0);
        pass_on(row, 0);
    }
}

/* ---- gossip */

/* IHAVE, to some peers outside the mesh */
void announce(const uint64_t permutation[HIVEPADLET_SLOTS])
{
    struct span ids[HIVEPADLET_MESSAGE_NUMBERS];
    uint64_t r = hivepadlet_announce(GOSSIP, TOPIC, permutation, HIVEPADLET_SLOTS, numbers, HIVEPADLET_MESSAGE_NUMBERS, LIST);
    size_t count = 0;
    for (uint32_t i = 0; is_done(r) && i < hivepadlet_numbers(r); i++) {
        const struct row *row = numbered_row(numbers[i]);
        if (row != NULL) {
            ids[count++] = id_of_row(row);
        }
    }
    for (uint32_t i = 0; i < hivepadlet_actions(r); i++) {
        struct peer *peer = peer_of(hivepadlet_action_peer(hub.actions, i));
        if (peer != NULL) {
            tally[IHAVES]++;
            send_small(peer, write_ihave(topic_name(), ids, count, buffer, sizeof buffer));
        }
    }
}

/* the row of an id that a peer names; the rows are for all peers, so that each may fill few */
static struct row *learn(struct peer *peer, struct span id)
{
    struct row *row = find_row(id);
    if (row != NULL || peer->learned >= MOST_LEARNED) {
        return row;
    }
    peer->learned++;
    return name_row(id, now);
}

static size_t read_ihave(struct peer *peer, struct span ihave, uint64_t given[HIVEPADLET_MESSAGE_NUMBERS])
{
    struct span topic = { NULL, 0 };
    struct field field;
    size_t count = 0;
    while (next_field(&ihave, &field)) {
        if (field.number == IHAVE_TOPIC) {
            topic = field.bytes;
        } else if (field.number == IHAVE_ID && count < HIVEPADLET_MESSAGE_NUMBERS) {
            const struct row *row = learn(peer, field.bytes);
            if (row != NULL) {
                given[count++] = row->number;
            }
        }
    }
    return same_span(topic, topic_name()) ? count : 0;
}

/* asks for what is neither seen nor asked for already */
static void take_ihave(struct peer *peer, struct span ihave)
{
    uint64_t given[HIVEPADLET_MESSAGE_NUMBERS];
    struct span ids[HIVEPADLET_MESSAGE_NUMBERS];
    size_t count = read_ihave(peer, ihave, given), wanted = 0;
    uint64_t r = hivepadlet_ihave(GOSSIP, peer->id, TOPIC, given, count, numbers, HIVEPADLET_MESSAGE_NUMBERS, LIST);
    for (uint32_t i = 0; is_done(r) && i < hivepadlet_numbers(r); i++) {
        struct row *row = numbered_row(numbers[i]);
        if (row != NULL && !row->seen && (row->asked == 0 || now - row->asked >= ASK_AGAIN_MS)) {
            row->asked = now;
            ids[wanted++] = id_of_row(row);
        }
    }
    if (wanted > 0) {
        send_small(peer, write_iwant(ids, wanted, buffer, sizeof buffer));
    }
}

/* the router says how often a peer gets one message */
static void take_iwant(struct peer *peer, struct span iwant)
{
    struct field field;
    while (next_field(&iwant, &field)) {
        struct row *row = field.number == IWANT_ID ? find_row(field.bytes) : NULL;
        bool crowd = peer->id >= FIRST_CHEAP; /* for the report alone */
        tally[CROWD_ASKED] += crowd && field.number == IWANT_ID;
        if (row != NULL && row->rpc != NULL && is_done(hivepadlet_iwant(GOSSIP, peer->id, row->number, LIST))) {
            uint8_t *replies = &row->replies[peer - hub.peers];
            ++*replies;
            tally[crowd ? CROWD_REPLIES : REPLIES]++;
            if (tally[MOST_REPLIES] < *replies) {
                tally[MOST_REPLIES] = *replies;
            }
            send_large(peer, row);
        }
    }
}

/* ---- messages that come in */

static bool deliver(const struct peer *peer, enum hivepadlet_delivery kind)
{
    return is_done(hivepadlet_deliver(ROUTER, peer->id, TOPIC, kind, LIST));
}

static void take_first(struct peer *peer, struct row *row, const struct publication *message)
{
    if (!deliver(peer, HIVEPADLET_FIRST)) {
        return; /* it is not heard */
    }
    have_seen(row, buffer, write_publication(message, buffer, sizeof buffer));
    tell(HEARD, notice_number(message), row->asked != 0 && !peer->mesh);
    pass_on(row, peer->id);
}

static void take_publication(struct peer *peer, struct span bytes)
{
    uint8_t id[MOST_ID_BYTES];
    struct publication message = read_publication(bytes);
    if (!same_span(message.topic, topic_name())) {
        return;
    }
    if (!is_sealed(&message, hub.start->run)) {
        tally[INVALID]++;
        deliver(peer, HIVEPADLET_INVALID);
        return;
    }
    struct row *row = name_row((struct span){ id, write_id(&message, id) }, now);
    if (row == NULL) {
        return;
    }
    if (!row->seen) {
        take_first(peer, row, &message);
        return;
    }
    tally[AGAIN]++;
    if (now - row->first <= NEAR_MS) {
        deliver(peer, HIVEPADLET_NEAR_FIRST);
    }
}

/* ---- RPCs that come in */

static void take_graft(struct peer *peer)
{
    uint64_t r = hivepadlet_graft(ROUTER, peer->id, TOPIC, LIST);
    if (hivepadlet_number(r) == HIVEPADLET_DONE && hivepadlet_value(r) == 0) {
        peer->mesh = true;
    }
    send_actions(r);
}

static void take_entry(struct peer *peer, uint64_t kind, uint64_t value)
{
    uint64_t r;
    switch (kind) {
    case HIVEPADLET_SUBSCRIPTION:
        r = value == 1 ? hivepadlet_subscribe(ROUTER, peer->id, TOPIC, LIST) : hivepadlet_unsubscribe(ROUTER, peer->id, TOPIC, LIST);
        if (is_done(r) && value == 0) {
            peer->mesh = false;
        }
        break;
    case HIVEPADLET_GRAFT:
        take_graft(peer);
        break;
    case HIVEPADLET_PRUNE:
        if (is_done(hivepadlet_prune(ROUTER, peer->id, TOPIC, value, LIST))) {
            peer->mesh = false;
        }
        break;
    case HIVEPADLET_IDONTWANT:
        if (is_done(hivepadlet_idontwant(GOSSIP, peer->id, value, LIST))) {
            numbered_row(value)->unwanted[peer - hub.peers] = true;
        }
        break;
    }
}

/* the ids of an IDONTWANT get their rows before the library reads them: most are of messages that we have not yet */
static void learn_unwanted(struct peer *peer, struct span control)
{
    struct field list, field;
    while (next_field(&control, &list)) {
        while (list.number == CONTROL_IDONTWANT && next_field(&list.bytes, &field)) {
            if (field.number == IDONTWANT_ID) {
                learn(peer, field.bytes);
            }
        }
    }
}

/* what the library skips */
static void take_rest(struct peer *peer, struct span rpc)
{
    struct field field, list;
    while (next_field(&rpc, &field)) {
        if (field.number == RPC_PUBLISH) {
            take_publication(peer, field.bytes);
        }
        while (field.number == RPC_CONTROL && next_field(&field.bytes, &list)) {
            if (list.number == CONTROL_IHAVE) {
                take_ihave(peer, list.bytes);
            } else if (list.number == CONTROL_IWANT) {
                take_iwant(peer, list.bytes);
            }
        }
    }
}

void take_rpc(struct peer *peer, struct span rpc)
{
    struct span rest = rpc;
    struct field field;
    while (next_field(&rest, &field)) {
        if (field.number == RPC_CONTROL) {
            learn_unwanted(peer, field.bytes);
        }
    }
    struct ids ids = lend_ids();
    uint64_t r = hivepadlet_read_message(hub.names, IDS(ids), rpc.at, rpc.length, entries, HIVEPADLET_ENTRY_NUMBERS);
    if (hivepadlet_number(r) != HIVEPADLET_DONE) {
        tally[BROKEN]++;
        return;
    }
    for (uint32_t i = 0; i < hivepadlet_value(r); i++) {
        if (hivepadlet_entry_topic(entries, i) == TOPIC) {
            take_entry(peer, hivepadlet_entry_kind(entries, i), hivepadlet_entry_value(entries, i));
        }
    }
    take_rest(peer, rpc);
}
