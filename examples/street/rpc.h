/*
 * rpc.h: the parts of gossipsub's RPC that the library leaves to the host, as protobuf: published messages, IHAVE and IWANT.
 *
 * Subscriptions, GRAFT, PRUNE and IDONTWANT are read and written by hivepadlet_read_message and hivepadlet_write_message; of an
 * IDONTWANT the ids are read here too, because an id has to be in the lent table before the library can name its number.
 */
#ifndef STREET_RPC_H
#define STREET_RPC_H

#include <stdbool.h>
#include <stddef.h>
#include <stdint.h>

/* field numbers of the public schema: of an RPC, of its control message, and of what that holds */
enum { RPC_PUBLISH = 2, RPC_CONTROL = 3 };
enum { CONTROL_IHAVE = 1, CONTROL_IWANT = 2, CONTROL_IDONTWANT = 5 };
enum { IHAVE_TOPIC = 1, IHAVE_ID = 2, IWANT_ID = 1, IDONTWANT_ID = 1 };

/* bytes inside a message; not kept beyond it */
struct span {
    const uint8_t *at;
    size_t length;
};

struct field {
    uint64_t number;
    struct span bytes; /* empty where the field is no run of bytes */
};

/* a message of a topic; absent parts are empty */
struct publication {
    struct span from, data, seqno, topic, signature;
};

bool same_span(struct span a, struct span b);

/* Takes the next field off the front of a message: false at its end, and where its bytes are no protobuf. */
bool next_field(struct span *rest, struct field *field);

struct publication read_publication(struct span bytes);

/* Each writes an RPC of its own to the start of a buffer and gives its length, 0 where the buffer is too short. */
size_t write_publication(const struct publication *message, uint8_t *buffer, size_t room);
size_t write_ihave(struct span topic, const struct span *ids, size_t count, uint8_t *buffer, size_t room);
size_t write_iwant(const struct span *ids, size_t count, uint8_t *buffer, size_t room);

#endif
