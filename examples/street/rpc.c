/*
 * rpc.c: published messages, IHAVE and IWANT to and from protobuf. See rpc.h.
 *
 * All fields that are written here are runs of bytes with a number under 16: a tag of one byte, the length, the bytes.
 */
#include "rpc.h"

#include <string.h>

enum { VARINT = 0, EIGHT_BYTES = 1, BYTES = 2, FOUR_BYTES = 5, MOST_SHIFT = 63 };
enum { MESSAGE_FROM = 1, MESSAGE_DATA = 2, MESSAGE_SEQNO = 3, MESSAGE_TOPIC = 4, MESSAGE_SIGNATURE = 5 };

bool same_span(struct span a, struct span b)
{
    return a.length == b.length && (a.length == 0 || memcmp(a.at, b.at, a.length) == 0);
}

/* ---- reading */

static bool next_number(struct span *rest, uint64_t *number)
{
    *number = 0;
    for (unsigned shift = 0; rest->length > 0 && shift <= MOST_SHIFT; shift += 7) {
        uint8_t byte = *rest->at;
        rest->at++;
        rest->length--;
        *number |= (uint64_t)(byte & 127) << shift;
        if (byte < 128) {
            return true;
        }
    }
    return false;
}

static bool next_bytes(struct span *rest, uint64_t length, struct span *bytes)
{
    if (length > rest->length) {
        return false;
    }
    *bytes = (struct span){ rest->at, (size_t)length };
    rest->at += length;
    rest->length -= (size_t)length;
    return true;
}

bool next_field(struct span *rest, struct field *field)
{
    uint64_t tag, number;
    struct span skipped;
    if (rest->length == 0 || !next_number(rest, &tag)) {
        return false;
    }
    *field = (struct field){ .number = tag >> 3 };
    switch (tag & 7) {
    case VARINT:
        return next_number(rest, &number);
    case EIGHT_BYTES:
        return next_bytes(rest, 8, &skipped);
    case BYTES:
        return next_number(rest, &number) && next_bytes(rest, number, &field->bytes);
    case FOUR_BYTES:
        return next_bytes(rest, 4, &skipped);
    default:
        return false;
    }
}

struct publication read_publication(struct span bytes)
{
    struct publication message = { .topic.length = 0 };
    struct span *const parts[] = { [MESSAGE_FROM] = &message.from, [MESSAGE_DATA] = &message.data, [MESSAGE_SEQNO] = &message.seqno,
                                   [MESSAGE_TOPIC] = &message.topic, [MESSAGE_SIGNATURE] = &message.signature };
    struct field field;
    while (next_field(&bytes, &field)) {
        if (field.number >= MESSAGE_FROM && field.number <= MESSAGE_SIGNATURE) {
            *parts[field.number] = field.bytes;
        }
    }
    return message;
}

/* ---- writing: lengths come before contents, so each is computed first */

struct writer {
    uint8_t *at;
    size_t length;
};

static size_t number_size(size_t number)
{
    size_t size = 1;
    for (; number > 127; number >>= 7) {
        size++;
    }
    return size;
}

static size_t field_size(size_t length)
{
    return 1 + number_size(length) + length;
}

/* tag and length of a run of bytes */
static void put_head(struct writer *w, unsigned number, size_t length)
{
    w->at[w->length++] = (uint8_t)(number << 3 | BYTES);
    for (; length > 127; length >>= 7) {
        w->at[w->length++] = (uint8_t)(length | 128);
    }
    w->at[w->length++] = (uint8_t)length;
}

static void put_field(struct writer *w, unsigned number, struct span bytes)
{
    put_head(w, number, bytes.length);
    for (size_t i = 0; i < bytes.length; i++) {
        w->at[w->length++] = bytes.at[i];
    }
}

size_t write_publication(const struct publication *message, uint8_t *buffer, size_t room)
{
    const struct span *const parts[] = { &message->from, &message->data, &message->seqno, &message->topic, &message->signature };
    struct writer w = { .at = buffer };
    size_t inner = 0;
    for (unsigned i = 0; i < 5; i++) {
        inner += field_size(parts[i]->length);
    }
    if (field_size(inner) > room) {
        return 0;
    }
    put_head(&w, RPC_PUBLISH, inner);
    for (unsigned i = 0; i < 5; i++) {
        put_field(&w, MESSAGE_FROM + i, *parts[i]);
    }
    return w.length;
}

/* a control message with one IHAVE or IWANT */
static size_t write_ids(unsigned kind, const struct span *topic, unsigned number, const struct span *ids, size_t count,
                        uint8_t *buffer, size_t room)
{
    struct writer w = { .at = buffer };
    size_t inner = topic == NULL ? 0 : field_size(topic->length);
    for (size_t i = 0; i < count; i++) {
        inner += field_size(ids[i].length);
    }
    if (field_size(field_size(inner)) > room) {
        return 0;
    }
    put_head(&w, RPC_CONTROL, field_size(inner));
    put_head(&w, kind, inner);
    if (topic != NULL) {
        put_field(&w, IHAVE_TOPIC, *topic);
    }
    for (size_t i = 0; i < count; i++) {
        put_field(&w, number, ids[i]);
    }
    return w.length;
}

size_t write_ihave(struct span topic, const struct span *ids, size_t count, uint8_t *buffer, size_t room)
{
    return write_ids(CONTROL_IHAVE, &topic, IHAVE_ID, ids, count, buffer, room);
}

size_t write_iwant(const struct span *ids, size_t count, uint8_t *buffer, size_t room)
{
    return write_ids(CONTROL_IWANT, NULL, IWANT_ID, ids, count, buffer, room);
}
