/*
 * notice.c: door notices as pubsub messages. See notice.h.
 */
#include "notice.h"

#include "dice.h"

#include <string.h>

enum { FROM_BYTES = 4, SEQNO_BYTES = 8, NUMBER_BYTES = 4, SEAL_BYTES = 8 };

struct span topic_name(void)
{
    return (struct span){ (const uint8_t *)TOPIC_NAME, sizeof TOPIC_NAME - 1 };
}

/* highest byte first */
static void put_number(uint8_t *at, size_t bytes, uint64_t number)
{
    for (size_t i = bytes; i > 0; i--) {
        at[i - 1] = (uint8_t)number;
        number >>= 8;
    }
}

static uint64_t hash(uint64_t start, struct span bytes)
{
    uint64_t h = mix(start ^ bytes.length);
    for (size_t i = 0; i < bytes.length; i++) {
        h = (h ^ bytes.at[i]) * UINT64_C(0x100000001B3);
    }
    return mix(h);
}

static uint64_t seal(const struct publication *m, uint64_t key)
{
    return hash(hash(hash(hash(key, m->from), m->data), m->seqno), m->topic);
}

size_t write_notice(uint32_t hub, uint64_t seqno, uint32_t notice, size_t picture, uint64_t key, uint8_t *buffer, size_t room)
{
    uint8_t from_bytes[FROM_BYTES], seqno_bytes[SEQNO_BYTES], seal_bytes[SEAL_BYTES], data[NUMBER_BYTES + PICTURE_BYTES];
    struct publication m = { { from_bytes, FROM_BYTES }, { data, NUMBER_BYTES + picture }, { seqno_bytes, SEQNO_BYTES }, topic_name(),
                             { seal_bytes, SEAL_BYTES } };
    put_number(from_bytes, FROM_BYTES, hub);
    put_number(seqno_bytes, SEQNO_BYTES, seqno);
    put_number(data, NUMBER_BYTES, notice);
    memset(data + NUMBER_BYTES, (int)notice, picture);
    put_number(seal_bytes, SEAL_BYTES, seal(&m, key));
    return write_publication(&m, buffer, room);
}

bool is_sealed(const struct publication *message, uint64_t key)
{
    uint8_t bytes[SEAL_BYTES];
    put_number(bytes, SEAL_BYTES, seal(message, key));
    return message->data.length >= NUMBER_BYTES && same_span(message->signature, (struct span){ bytes, SEAL_BYTES });
}

uint32_t notice_number(const struct publication *message)
{
    uint32_t number = 0;
    for (size_t i = 0; i < NUMBER_BYTES && i < message->data.length; i++) {
        number = number << 8 | message->data.at[i];
    }
    return number;
}

size_t write_id(const struct publication *message, uint8_t id[MOST_ID_BYTES])
{
    size_t from = message->from.length, seqno = message->seqno.length;
    if (from == 0 || seqno == 0 || from > MOST_ID_BYTES || seqno > MOST_ID_BYTES - from) {
        return 0;
    }
    memcpy(id, message->from.at, from);
    memcpy(id + from, message->seqno.at, seqno);
    return from + seqno;
}
