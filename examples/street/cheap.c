/*
 * cheap.c: the crowd: hubs that dial in from one address group and do no work. No router runs here.
 *
 * One kind sends PRUNE and GRAFT again and again, so that each GRAFT falls into its own backoff; one publishes notices without a proper
 * seal, and bytes that are nothing; one asks for every notice that it hears of, again and again; one takes its place in the mesh and
 * passes nothing on.
 */
#include "behaviours.h"

#include "dice.h"
#include "hivepadlet.h"
#include "notice.h"

#include <stdbool.h>
#include <string.h>

enum { TARGETS = 8, CORNER_HOUSE = 1, JUNK_MS = 400, AGAIN_MS = 1000, MOST_KNOWN = 8, LEAVE_SECONDS = 10, MOST_HUBS = 256, NONSENSE = 4 };

static struct target {
    uint32_t id;
    struct address address;
    bool open;
    uint64_t dialled;
} targets[TARGETS];

static const struct start *self;
static struct dice dice;
static size_t target_count, book_length, known_count;
static struct target book[MOST_HUBS];
static uint64_t next_junk, seqno;
static uint8_t names[HIVEPADLET_NAMES_BYTES], known[MOST_KNOWN][MOST_ID_BYTES], buffer[MOST_NOTICE_BYTES];
static size_t known_length[MOST_KNOWN];

static void begin(const struct start *start)
{
    struct span name = topic_name();
    self = start;
    dice.state = mix(start->seed ^ mix(start->id));
    names[65 * TOPIC] = (uint8_t)name.length;
    memcpy(names + 65 * TOPIC + 1, name.at, name.length);
    next_junk = start->time + random_below(&dice, JUNK_MS);
}

/* ---- what it sends */

static void send_to(const struct target *target, enum frame_kind kind, size_t length)
{
    send_frame(target->address, kind, buffer, length, now + latency(self->seed, self->id, target->id));
}

/* a join of ours, or PRUNE and GRAFT, in the library's bytes */
static void send_control(const struct target *target, const uint32_t *actions, size_t count, size_t joins)
{
    static const uint8_t no_ids[1];
    static const uint64_t no_numbers[1], topics[] = { TOPIC, TOPIC }, join[] = { 1, TOPIC };
    uint64_t r = hivepadlet_write_message(names, no_ids, 0, no_numbers, 0, no_numbers, 0, actions, 3 * count, topics, count, join,
                                          2 * joins, buffer, sizeof buffer);
    if (hivepadlet_number(r) != HIVEPADLET_DONE) {
        fail("a message was refused");
    }
    send_to(target, RPC, hivepadlet_value(r));
}

static void send_iwant(const struct target *target)
{
    struct span ids[MOST_KNOWN];
    size_t count = known_count < MOST_KNOWN ? known_count : MOST_KNOWN;
    for (size_t i = 0; i < count; i++) {
        ids[i] = (struct span){ known[i], known_length[i] };
    }
    send_to(target, RPC, count == 0 ? 0 : write_iwant(ids, count, buffer, sizeof buffer));
}

/* a notice without a proper seal, or any bytes */
static size_t write_lie(void)
{
    size_t length = 1 + random_below(&dice, JUNK_BYTES);
    if (random_below(&dice, NONSENSE) > 0) {
        return write_notice(self->id, ++seqno, 0, JUNK_BYTES, mix(self->run), buffer, sizeof buffer);
    }
    for (size_t i = 0; i < length; i++) {
        buffer[i] = (uint8_t)random_below(&dice, 256);
    }
    return length;
}

static void send_junk(const struct target *target)
{
    const uint32_t prune[] = { HIVEPADLET_PRUNE, target->id, LEAVE_SECONDS }, graft[] = { HIVEPADLET_GRAFT, target->id, 0 };
    switch (cheap_kind(self->id)) {
    case FLAPS:
        send_control(target, prune, 1, 0);
        send_control(target, graft, 1, 0);
        break;
    case LIES:
        send_to(target, RPC, write_lie());
        break;
    case ASKS:
        send_iwant(target);
        break;
    default:
        send_to(target, RPC, 0);
        break;
    }
}

/* ---- whom it sends it to */

static void note_address(uint32_t id, struct address address)
{
    for (size_t i = 0; i < target_count; i++) {
        if (targets[i].id == id) {
            targets[i].address = address;
        }
    }
    if (book_length < MOST_HUBS) {
        book[book_length++] = (struct target){ .id = id, .address = address };
    }
}

static bool is_target(uint32_t id)
{
    for (size_t i = 0; i < target_count; i++) {
        if (targets[i].id == id) {
            return true;
        }
    }
    return false;
}

/* the corner house, and some others */
static void choose_targets(void)
{
    for (size_t tries = 0; book_length > 0 && target_count < TARGETS && tries < MOST_HUBS; tries++) {
        size_t i = target_count == 0 ? 0 : random_below(&dice, book_length);
        if ((target_count > 0 || book[i].id == CORNER_HOUSE) && !is_target(book[i].id)) {
            targets[target_count++] = book[i];
        }
    }
}

static uint64_t work(void)
{
    if (now < next_junk) {
        return next_junk;
    }
    if (target_count == 0) {
        choose_targets();
    }
    for (size_t i = 0; i < target_count; i++) {
        struct target *target = &targets[i];
        if (target->open) {
            send_junk(target);
        } else if (target->dialled == 0 || now - target->dialled >= AGAIN_MS) {
            target->dialled = now;
            send_to(target, DIAL, 0);
        }
    }
    next_junk = now + JUNK_MS;
    return next_junk;
}

/* ---- what it hears: ids, to ask for */

static void remember(struct span id)
{
    for (size_t i = 0; i < known_count && i < MOST_KNOWN; i++) {
        if (same_span((struct span){ known[i], known_length[i] }, id)) {
            return;
        }
    }
    if (id.length > 0 && id.length <= MOST_ID_BYTES) {
        memcpy(known[known_count % MOST_KNOWN], id.at, id.length);
        known_length[known_count % MOST_KNOWN] = id.length;
        known_count++;
    }
}

static void listen_to(struct span rpc)
{
    uint8_t id[MOST_ID_BYTES];
    struct field field, list, part;
    while (next_field(&rpc, &field)) {
        if (field.number == RPC_PUBLISH) {
            struct publication message = read_publication(field.bytes);
            remember((struct span){ id, write_id(&message, id) });
        }
        while (field.number == RPC_CONTROL && next_field(&field.bytes, &list)) {
            while (list.number == CONTROL_IHAVE && next_field(&list.bytes, &part)) {
                if (part.number == IHAVE_ID) {
                    remember(part.bytes);
                }
            }
        }
    }
}

static void take(const struct frame *frame)
{
    const uint32_t graft[] = { HIVEPADLET_GRAFT, frame->from, 0 };
    size_t i = 0;
    while (i < target_count && targets[i].id != frame->from) {
        i++;
    }
    if (i == target_count) {
        return;
    }
    if (frame->kind == ACCEPT) {
        targets[i].open = true;
        send_control(&targets[i], graft, cheap_kind(self->id) == ASKS ? 0 : 1, 1);
    } else if (frame->kind == BYE) {
        targets[i].open = false;
    } else if (frame->kind == RPC) {
        listen_to((struct span){ frame->bytes, frame->length });
    }
}

static void nothing(void)
{
}

static void publish(uint32_t notice)
{
    (void)notice;
}

const struct behaviour cheap = { begin, note_address, publish, nothing, take, work, nothing };
