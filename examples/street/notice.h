/*
 * notice.h: the street's messages: a door rings, and a small picture goes to every hub.
 */
#ifndef STREET_NOTICE_H
#define STREET_NOTICE_H

#include "rpc.h"

#define TOPIC_NAME "door"

enum { TOPIC = 0, PICTURE_BYTES = 6000, JUNK_BYTES = 100, MOST_NOTICE_BYTES = 8192, MOST_ID_BYTES = 64 };

struct span topic_name(void);

/* Writes an RPC that publishes a notice: its number, and so many bytes of a picture. The key seals it. */
size_t write_notice(uint32_t hub, uint64_t seqno, uint32_t notice, size_t picture, uint64_t key, uint8_t *buffer, size_t room);

/* Whether a message is a notice that has the seal. In a product: whether its signature is that of the hub that it names. */
bool is_sealed(const struct publication *message, uint64_t key);

uint32_t notice_number(const struct publication *message);

/* A message's id, as pubsub has it: who published it, and its sequence number. Gives its length, 0 where it would be too long. */
size_t write_id(const struct publication *message, uint8_t id[MOST_ID_BYTES]);

#endif
