/*
 * hivepadlet.h: a gossipsub mesh router for firmware, versions 1.1 and 1.2.
 *
 * The router keeps the score of every peer, its backoffs, and who is in the mesh of each topic. It opens no socket, reads no
 * clock, makes no random number and allocates nothing: you tell it what happened and when, it tells you what to send. Link
 * libhost.a (x86-64, written by `rt lib` in crates/host); it needs memcpy and memset, and nothing else.
 *
 *     static uint64_t table[HIVEPADLET_CELLS];
 *     static uint32_t actions[HIVEPADLET_ACTION_NUMBERS];
 *     int64_t numbers[HIVEPADLET_NUMBERS];
 *
 *     hivepadlet_ordinary(numbers);
 *     hivepadlet_fresh(numbers, HIVEPADLET_EDITION_1, table);
 *     uint64_t r = hivepadlet_join(table, time, 0, actions, HIVEPADLET_ACTION_NUMBERS);
 *     if (hivepadlet_number(r) == HIVEPADLET_DONE) ...
 *
 * examples/three_hubs.c is a whole host; examples/power_cycle.c keeps what it remembers over a loss of power;
 * examples/large_message.c and examples/gossip_news.c send IDONTWANT, IHAVE and IWANT; examples/street does all of it over sockets.
 *
 * WHAT EVERY CALL PROMISES
 *
 * No call needs a check before it. Any number, name, permutation, list length and table content may be passed: what is bad is
 * refused by a number (below), and a call that refuses changes nothing, neither the table nor the list. A call that is
 * ignored (11) moves the router's clock and nothing else. Every call ends, and none traps.
 *
 * MEMORY
 *
 * All memory is yours, and is lent for the length of one call; nothing is kept between calls but the table, and, where a router
 * has one, the second array (IDONTWANT, IHAVE and IWANT, below).
 *
 * - The table, HIVEPADLET_CELLS numbers of 64 bits (100,352 bytes), is the whole router. You may have any number of routers, one
 *   table each. A table may be copied, saved and restored as bytes on the same machine. Only the calls write it; a damaged
 *   table is refused (12).
 *   Some of its numbers are no part of the router's state: those of slots that no peer has taken yet, the times of a peer in a
 *   topic whose mesh it is not in, and some between the others that are kept for later. No call goes by them, so they may hold
 *   anything, and two tables of the same state may differ there: compare routers by what the calls answer, not byte by byte.
 * - The action list is HIVEPADLET_ACTION_NUMBERS numbers of 32 bits, or more; under that, a call refuses (8). A call writes its
 *   actions from the start of the list and leaves the numbers past them as they were. One list may serve all calls.
 * - Lengths count elements, not bytes.
 * - The stack: most calls take some 3 KiB, hivepadlet_to_old, _announce, _ihave and _beat up to 6 KiB, hivepadlet_heartbeat, _leave,
 *   _fresh, _save, _load and the functions of parameters up to 8 KiB, with the array too, as measured by tests/host_stack.c and not
 *   proved. No input makes it grow: no function calls itself but the reader and the writer of one parameter, ten deep at most, and
 *   the sorting of a save's and an IHAVE's numbers, nine deep.
 *
 * What C cannot check is up to you: a pointer is aligned, is not NULL (also where its length is 0), points to as much memory
 * as its type and length say, and what a call writes overlaps nothing else that it is given. Calls on one table must not
 * overlap in time, from two threads or from an interrupt. Calls on different tables may.
 *
 * WHAT COMES BACK
 *
 * One number of 64 bits: the answer's number in its low 8 bits (hivepadlet_number), and above it the value that goes with the
 * answer (hivepadlet_value), 0 where the table below names none. HIVEPADLET_DONE is 0, so `r & 255` is 0 for success.
 *
 * A call makes its tests in the order 12, 2, 8, 1, 6, 7, 3, 4, 5, 11, those that can concern it, and answers the first that
 * fails; hivepadlet_read in the order 10, 9; hivepadlet_write 2, 8, 9; hivepadlet_import 10, 9; hivepadlet_export 13, 9;
 * hivepadlet_fresh 2, 9; hivepadlet_save 12, 2, 1, 13; hivepadlet_load in the order that it tells below;
 * hivepadlet_from_old and hivepadlet_to_old 12; hivepadlet_names 2; hivepadlet_read_message 8, 2, 10;
 * hivepadlet_write_message 2, 13.
 *
 * TIMES AND UNITS
 *
 * - Times are milliseconds, 0 to HIVEPADLET_MAX_TIME, of a clock of yours that never goes back (1). The router's clock is the
 *   time of the last call that answered 0 or 11; that of a fresh router is 0, and that of a loaded one the clock of the load.
 * - Peer ids are yours: 1 to 4294967295, one for each peer, the same when the peer comes back. Topics are 0 to 7.
 * - A score, and each of its parts, is a whole number of 10^-9 points, never beyond 2.6 * 10^18 either way.
 *
 * ACTIONS
 *
 * An action is three numbers of the list: its kind (1 GRAFT, 2 PRUNE), the peer's id, and the seconds of backoff to send with a
 * PRUNE (0 for a GRAFT, and for a /meshsub/1.0.0 peer, whose PRUNE has no such field). The topic is that of the call. Send them
 * in order: the router has already changed its mesh and its backoffs accordingly. An answer 0 has the number of actions as its
 * value. Of the calls handed the table alone only hivepadlet_leave, hivepadlet_graft and hivepadlet_heartbeat give any, at most one
 * for each peer; the kinds 3, 4 and 5 of the calls with the second array are told there.
 *
 * To know along whom to pass a topic's messages, keep a note of its mesh: a peer is in after a GRAFT sent, and after a GRAFT
 * from it that is answered 0 with no action; it is out after a PRUNE sent, and after a PRUNE from it, its unsubscribing or its
 * disconnecting that is answered 0 (one answered 11 leaves it in).
 *
 * WHEN TO CALL
 *
 * Each time something happens, the call of that name. And by a timer of yours: hivepadlet_heartbeat for each joined topic, and
 * hivepadlet_decay; the ordinary parameters are meant for one of each a second.
 */
#ifndef HIVEPADLET_H
#define HIVEPADLET_H

#include <stddef.h>
#include <stdint.h>

#ifdef __cplusplus
extern "C" {
#endif

/* ---- sizes */

#define HIVEPADLET_CELLS 12544          /* numbers of a table */
#define HIVEPADLET_OLD_CELLS 21661      /* numbers of a table of the old form */
#define HIVEPADLET_NUMBERS 147          /* numbers of the parameters */
#define HIVEPADLET_ACTION_NUMBERS 768   /* numbers of an action list: three for each slot */
#define HIVEPADLET_PARAMETER_BYTES 737  /* bytes that written parameters may take (edition 1: 735) */
#define HIVEPADLET_SUPPLIER_BYTES 1323  /* bytes of the other supplier's parameters */
#define HIVEPADLET_SAVE_BYTES 43267     /* the longest save: 3 bytes, and 169 for each of 256 records */
#define HIVEPADLET_GOSSIP_CELLS 82993   /* numbers of the array of IDONTWANT, IHAVE and IWANT */
#define HIVEPADLET_SETUP_NUMBERS 5      /* set-up numbers beside the parameters */
#define HIVEPADLET_MESSAGE_NUMBERS 192  /* numbers of a list of message numbers */
#define HIVEPADLET_SLOTS 256            /* peers that a router holds, and numbers of a permutation */
#define HIVEPADLET_TOPICS 8
#define HIVEPADLET_GROUPS 4             /* address groups that a peer may have */
#define HIVEPADLET_WHY_NUMBERS 6        /* numbers of a score: its five parts, and the score */
#define HIVEPADLET_NAMES_BYTES 520      /* topic names: for each topic a length (0: no name, 1 to 64) and 64 bytes */
#define HIVEPADLET_ID_ROW 65            /* bytes of a message id in its table: a length (1 to 64) and 64 bytes */
#define HIVEPADLET_MESSAGE_ACTIONS 64   /* actions that one message may hold */
#define HIVEPADLET_MESSAGE_BYTES 16384  /* the longest message that is read */
#define HIVEPADLET_ENTRY_NUMBERS 24576  /* numbers of a list of entries: three for each of 8,192 */
#define HIVEPADLET_WRITTEN_BYTES 5107   /* the longest message that is written */

#define HIVEPADLET_MAX_TIME (UINT64_C(1) << 40) /* milliseconds */
#define HIVEPADLET_POINT INT64_C(1000000000)    /* one point of a score */

/* ---- why a score is what it is: five parts, then the score, which is the sum of the four before it; all in 10^-9 points */

enum hivepadlet_why {
    HIVEPADLET_WHY_TOPICS = 0, /* all topics together, before the topic cap: time in mesh (P1) and first message deliveries (P2)
                                  raise it; mesh message delivery deficit (P3), mesh failure penalty (P3b) and invalid
                                  messages (P4) lower it */
    HIVEPADLET_WHY_CAPPED = 1, /* the same, cut to the topic cap where it is above it: what counts in the score */
    HIVEPADLET_WHY_P5 = 2,     /* application-specific score: the host's points for the peer (hivepadlet_rate) times W5 */
    HIVEPADLET_WHY_P6 = 3,     /* IP colocation, never above 0: in each of its address groups the connected peers above
                                  P6_THRESHOLD, squared, and these added */
    HIVEPADLET_WHY_P7 = 4,     /* behaviour penalty, never above 0: GRAFTs that it sent during a backoff */
    HIVEPADLET_WHY_SCORE = 5   /* below 0 the peer is put out of every mesh; below GRAYLIST_THRESHOLD it is not heard */
};

/* ---- the answers' numbers, and the value that goes with each */

enum hivepadlet_answer {
    HIVEPADLET_DONE = 0,              /* done; of a call the number of actions, of reading, writing and saving the number of
                                         bytes, of reading a message the number of entries */
    HIVEPADLET_EARLY = 1,             /* the time is before the router's clock */
    HIVEPADLET_OUT_OF_RANGE = 2,      /* time, id, group, flags, topic, kind, ask or P5 outside its range; groups that are none,
                                         more than four, repeated or not in order; an edition other than 1 and 2; a set-up
                                         number outside its range; an IHAVE of more than 192 numbers; topic names
                                         or a table of message ids that cannot be, or a list that is no message's */
    HIVEPADLET_NOT_CONNECTED = 3,     /* no connected peer has the id */
    HIVEPADLET_ALREADY_CONNECTED = 4, /* connect of a connected id */
    HIVEPADLET_NO_SLOT = 5,           /* all 256 slots are taken, and none can be reclaimed yet */
    HIVEPADLET_UNKNOWN_PROTOCOL = 6,  /* the protocol name is none of the three */
    HIVEPADLET_NOT_PERMUTATION = 7,   /* not each of 0 to 255 once */
    HIVEPADLET_LIST_SHORT = 8,        /* action list under 768 numbers; list of message numbers under 192; list of entries under
                                         24,576; in writing parameters, buffer under 735 bytes, or 737 for edition 2 */
    HIVEPADLET_BROKEN = 9,            /* a parameter outside its limits, or a broken entry of the other supplier's: its index; or
                                         a joint rule broken: 200 + the rule. Of a save: the place where the edition, the count or
                                         the first number outside its range begins */
    HIVEPADLET_MALFORMED = 10,        /* bytes that are no parameters, or no save: the place where the first bad number begins,
                                         also where the bytes end inside it; or the first byte left over; or the length if the
                                         bytes end between numbers. Of the other supplier's parameters: their length, which is not 1323
                                         (a length beyond 4294967295 is told as that). Of a message: where the innermost broken
                                         field begins, the first from the front; 16384 where it is longer */
    HIVEPADLET_IGNORED = 11,          /* ignored: only the clock moved. In the place of an entry's topic: no topic of ours, or no
                                         id of the table, and no clock */
    HIVEPADLET_NOT_ROUTER = 12,       /* the table (with its array, where a call is handed one) is no router's: damaged, or never
                                         made by a call */
    HIVEPADLET_NO_ROOM = 13           /* in writing a message, a buffer shorter than it; in exporting parameters, one under 1323
                                         bytes; in saving, one shorter than the save; in storing a message number, 64 of this
                                         heartbeat are stored */
};

static inline unsigned hivepadlet_number(uint64_t r)
{
    return (unsigned)(r & 255);
}

static inline uint32_t hivepadlet_value(uint64_t r)
{
    return (uint32_t)(r >> 8);
}

/* ---- the actions that a call wrote: i counts them from 0 */

enum hivepadlet_action {
    HIVEPADLET_GRAFT = 1,
    HIVEPADLET_PRUNE = 2,
    HIVEPADLET_IDONTWANT = 3, /* these three by the calls with a second array alone; their third number is 0 */
    HIVEPADLET_RELAY = 4,     /* the message itself */
    HIVEPADLET_IHAVE = 5
};

static inline uint32_t hivepadlet_action_kind(const uint32_t *actions, size_t i)
{
    return actions[3 * i];
}

static inline uint32_t hivepadlet_action_peer(const uint32_t *actions, size_t i)
{
    return actions[3 * i + 1];
}

static inline uint32_t hivepadlet_action_seconds(const uint32_t *actions, size_t i)
{
    return actions[3 * i + 2];
}

/* ---- the parameters: 147 numbers, 19 general ones and 16 for each topic, each within its limits (9: its index)
 *
 * They come in two editions. Edition 1 is the plain one; edition 2 differs in one joint rule: it asks D_score <= D where edition
 * 1 asks D_score + D_out <= D, so that D_score 5 goes with D 6 and D_out 2. Where the D_score best leave too few places for
 * outbound peers, a cut keeps fewer of the best: those of the lowest score give way. As bytes, edition 2 has 00 02 in front.
 *
 * Where nothing else is said, thresholds and caps are thousandths, of a point or of a message: 1000 is one. Decays are
 * thousandths by which a counter is multiplied at each hivepadlet_decay. */

enum hivepadlet_edition {
    HIVEPADLET_EDITION_1 = 1,
    HIVEPADLET_EDITION_2 = 2
};

enum hivepadlet_general {
    HIVEPADLET_D_LO = 0,                     /* 1..48: a mesh under it is filled up to D */
    HIVEPADLET_D = 1,                        /* 1..48 */
    HIVEPADLET_D_HI = 2,                     /* 1..48: a mesh over it is cut to D */
    HIVEPADLET_D_OUT = 3,                    /* 0..24: peers in a mesh whose connection we opened */
    HIVEPADLET_D_SCORE = 4,                  /* 0..48: the best that a cut keeps */
    HIVEPADLET_PRUNE_BACKOFF = 5,            /* 1..3600 seconds */
    HIVEPADLET_UNSUBSCRIBE_BACKOFF = 6,      /* 1..3600 seconds */
    HIVEPADLET_RETAIN = 7,                   /* 0..86400 seconds for which the record of a disconnected peer is kept */
    HIVEPADLET_OPPORTUNISTIC_THRESHOLD = 8,  /* 0..10^6 */
    HIVEPADLET_GRAYLIST_THRESHOLD = 9,       /* -10^9..-1: below it a peer is not heard */
    HIVEPADLET_GOSSIP_THRESHOLD = 10,        /* -10^9..-1: below it a peer gets no IHAVE; its IHAVE, IWANT ignored unless explicit */
    HIVEPADLET_PUBLISH_THRESHOLD = 11,       /* -10^9..-1: for the host's own use */
    HIVEPADLET_TOPIC_CAP = 12,               /* 0..10^9: most that all topics together add to a score; 0 is none */
    HIVEPADLET_W5 = 13,                      /* 1..100: weight of P5, application-specific score */
    HIVEPADLET_W6 = 14,                      /* -100..-1: weight of P6, IP colocation */
    HIVEPADLET_P6_THRESHOLD = 15,            /* 1..256: peers that may share an address group freely */
    HIVEPADLET_W7 = 16,                      /* -100..-1: weight of P7, behaviour penalty */
    HIVEPADLET_P7_DECAY = 17,                /* 1..999 */
    HIVEPADLET_DECAY_TO_ZERO = 18            /* 0..1000: a counter below it becomes 0 */
};

enum hivepadlet_of_topic {
    HIVEPADLET_WEIGHT = 0,        /* 0..1000 thousandths */
    HIVEPADLET_W1 = 1,            /* 0..100: weight of P1, time in mesh */
    HIVEPADLET_P1_QUANTUM = 2,    /* 1..3600000 ms */
    HIVEPADLET_P1_CAP = 3,        /* 0..1000 quanta */
    HIVEPADLET_W2 = 4,            /* 0..100: weight of P2, first message deliveries */
    HIVEPADLET_P2_DECAY = 5,      /* 1..999 */
    HIVEPADLET_P2_CAP = 6,        /* 0..10^6 */
    HIVEPADLET_W3 = 7,            /* -100..0: weight of P3, mesh message delivery deficit */
    HIVEPADLET_P3_DECAY = 8,      /* 1..999 */
    HIVEPADLET_P3_CAP = 9,        /* 1..10^6 */
    HIVEPADLET_P3_THRESHOLD = 10, /* 1..10^6 */
    HIVEPADLET_P3_ACTIVATION = 11, /* 0..3600000 ms in the mesh, past which P3 counts */
    HIVEPADLET_W3B = 12,          /* -100..0: weight of P3b, mesh failure penalty */
    HIVEPADLET_P3B_DECAY = 13,    /* 1..999 */
    HIVEPADLET_W4 = 14,           /* -100..0: weight of P4, invalid messages */
    HIVEPADLET_P4_DECAY = 15      /* 1..999 */
};

/* the index of a topic's number, as HIVEPADLET_OF_TOPIC(0, HIVEPADLET_W4) */
#define HIVEPADLET_OF_TOPIC(topic, field) (19 + 16 * (topic) + (field))

/* the joint rules, in the order in which they are tested (9: 200 + the rule) */
enum hivepadlet_rule {
    HIVEPADLET_RULE_LO_D = 0,           /* D_lo <= D */
    HIVEPADLET_RULE_D_HI = 1,           /* D <= D_hi */
    HIVEPADLET_RULE_OUT_LO = 2,         /* D_out < D_lo */
    HIVEPADLET_RULE_OUT_D = 3,          /* 2 * D_out <= D */
    HIVEPADLET_RULE_SCORE_OUT_D = 4,    /* D_score + D_out <= D; in edition 2 D_score <= D */
    HIVEPADLET_RULE_PUBLISH_GOSSIP = 5, /* publish <= gossip */
    HIVEPADLET_RULE_GRAYLIST_PUBLISH = 6, /* graylist < publish */
    HIVEPADLET_RULE_P3_CAP = 7          /* P3 cap >= P3 threshold, in every topic */
};

/* Writes the ordinary parameters, which are accepted in both editions: D_lo 4, D 6, D_hi 12, D_out 2, D_score 4, backoffs 60 and
 * 10 s. */
void hivepadlet_ordinary(int64_t numbers[HIVEPADLET_NUMBERS]);

/* Reads parameters from bytes, all of them, of either edition. 0 with the length, or 10, or 9; the numbers and the edition are
 * written only with 0. Lengths and places count the two bytes in front of edition 2, indices do not. */
uint64_t hivepadlet_read(const uint8_t *bytes, size_t length, int64_t numbers[HIVEPADLET_NUMBERS], uint64_t *edition);

/* Writes parameters of an edition to the start of a buffer of at least HIVEPADLET_PARAMETER_BYTES. 0 with the length, or 2, or 8,
 * or 9. What is read from these bytes is the same numbers and the same edition; the bytes past them are unchanged. */
uint64_t hivepadlet_write(const int64_t numbers[HIVEPADLET_NUMBERS], uint64_t edition, uint8_t *buffer, size_t length);

/* The other supplier's parameters: the same 147 fields in the same order, an entry of nine bytes each, a kind and then eight
 * bytes, low first. Kind 0, the decays and DECAY_TO_ZERO: a 64-bit float, n / 1000 of our number n bit for bit. Kind 2, the
 * backoffs, RETAIN, P1_QUANTUM and P3_ACTIVATION: unsigned nanoseconds, a whole number of our seconds or milliseconds. Kind 1, the
 * rest: a signed number. An entry of another kind than its field's, or of a number outside the limits, is broken. They know no
 * edition: what is imported or exported is tested by the rules of edition 1. */

/* Imports them from bytes, all of them. 0 with the length, or 10, or 9; the numbers are written only with 0. */
uint64_t hivepadlet_import(const uint8_t *bytes, size_t length, int64_t numbers[HIVEPADLET_NUMBERS]);

/* Exports parameters to the start of a buffer of at least HIVEPADLET_SUPPLIER_BYTES. 0 with the length, or 13, or 9. What is
 * imported from these bytes is the same numbers; the bytes past them are unchanged. */
uint64_t hivepadlet_export(const int64_t numbers[HIVEPADLET_NUMBERS], uint8_t *buffer, size_t length);

/* ---- the router */

/* Makes a fresh router, whatever was in the table: clock 0, no topic joined, no peer. 0, or 2, or 9. */
uint64_t hivepadlet_fresh(const int64_t numbers[HIVEPADLET_NUMBERS], uint64_t edition, uint64_t table[HIVEPADLET_CELLS]);

/* 1 if the table is a router's, else 0. Every call makes this test itself. */
uint32_t hivepadlet_is_router(const uint64_t table[HIVEPADLET_CELLS]);

/* The old form of a table, HIVEPADLET_OLD_CELLS numbers (173,288 bytes), is that of the editions of this library before members
 * were bits: a row of numbers for each peer, and one for each peer in a topic. The calls work on a table of today's form; these
 * two turn a router from each form into the other, where a table was kept in the old one. */

/* Fills a table, whatever was in it, from one of the old form: the same router, which answers and acts as it did. 0; or 12 where
 * the old table is no router's, and then nothing is written. */
uint64_t hivepadlet_from_old(const uint64_t old[HIVEPADLET_OLD_CELLS], uint64_t table[HIVEPADLET_CELLS]);

/* Fills a table of the old form, every number of it, from a table of today's. 0, or 12. What hivepadlet_from_old made of an old
 * table comes back number for number; a table that is turned and turned back is the same router. */
uint64_t hivepadlet_to_old(const uint64_t table[HIVEPADLET_CELLS], uint64_t old[HIVEPADLET_OLD_CELLS]);

/* Over a power cycle. A save is what the router remembers of its peers, in few bytes and free of the table's form, so that who was
 * penalised in the evening is still so in the morning. For each peer it holds the id, the retain time that is left, P5 and P7,
 * and for each topic the counters of P2, P3, P3b and P4 and the backoff that is left. A connected peer is saved as if it
 * disconnected at that moment; one whose record may be given up by then is left out. It holds no parameters (write them beside
 * it), no topic joined, no subscription, no mesh, no address group and no clock. Unlike a copy of the table, it may be loaded by
 * another machine, at a clock that begins anew, by a later edition of this library, and with other parameters where its
 * counters keep to their caps.
 *
 *     uint64_t r = hivepadlet_save(table, time, buffer, HIVEPADLET_SAVE_BYTES);     (keep buffer, hivepadlet_value(r) bytes)
 *     ... the power goes, and comes back ...
 *     r = hivepadlet_load(numbers, HIVEPADLET_EDITION_1, clock, buffer, length, table);
 */

/* Saves the records as they are at a time, to the start of a buffer; HIVEPADLET_SAVE_BYTES are always enough. The table is not
 * changed, nor is its clock. 0 with the length; or 12, 2, 1; or 13 where the buffer is shorter than the save, and then nothing is
 * written. The bytes past the save are unchanged. */
uint64_t hivepadlet_save(const uint64_t table[HIVEPADLET_CELLS], uint64_t time, uint8_t *buffer, size_t length);

/* Makes a router of a save, all of the bytes, with parameters and a clock of yours, whatever was in the table: nobody connected, no
 * topic joined, and of each saved peer its record, with as much of its times left, counted from the clock. A save loads with the
 * parameters of the router that it was saved of. 0; or, the first of these: 2 for a number that is no edition of parameters; 9 for
 * the parameters, as in hivepadlet_fresh; 2 for the clock; 10 or 9 for the edition of the save (1 and 2 are known) and 10 or 9 for
 * the count of records, each with its place; 10 for numbers that do not stand there, or bytes left over; 9 for the first number
 * outside its range, or id that is not above the one before it. A load that refuses writes nothing. */
uint64_t hivepadlet_load(const int64_t numbers[HIVEPADLET_NUMBERS], uint64_t edition, uint64_t clock, const uint8_t *bytes,
                         size_t length, uint64_t table[HIVEPADLET_CELLS]);

/* ---- what happens to peers */

enum hivepadlet_flag {
    HIVEPADLET_OUTBOUND = 1, /* we opened the connection */
    HIVEPADLET_EXPLICIT = 2  /* a peer that we are told to keep: never in a mesh, never graylisted */
};

/* A peer connects. groups: its address groups, one to HIVEPADLET_GROUPS different ones, lowest first; each is any 32-bit number,
 * as the first bytes of an address, one for each way to it (wired and wireless). flags: the sum of the above.
 * name: the protocol it speaks, "/meshsub/1.0.0", "/meshsub/1.1.0" or "/meshsub/1.2.0", with no closing zero. A peer that comes
 * back while its record is kept has its counters and backoffs again, and the groups that it now has. 0, or 6, 4, 5. */
uint64_t hivepadlet_connect(uint64_t table[HIVEPADLET_CELLS], uint64_t time, uint64_t id, const uint64_t *groups,
                            size_t groups_length, uint64_t flags, const uint8_t *name, size_t name_length, uint32_t *actions,
                            size_t actions_length);

/* A peer disconnects: it leaves every mesh and loses its subscriptions; its record is kept for the retain seconds, and as
 * long as a backoff runs. 0, or 3. */
uint64_t hivepadlet_disconnect(uint64_t table[HIVEPADLET_CELLS], uint64_t time, uint64_t id, uint32_t *actions,
                               size_t actions_length);

/* Sets P5 of a peer, its application-specific score: millionths of a point, -10^9 to 10^9. 0, or 3. */
uint64_t hivepadlet_rate(uint64_t table[HIVEPADLET_CELLS], uint64_t time, uint64_t id, int64_t p5, uint32_t *actions,
                         size_t actions_length);

/* The score of a peer and why it is what it is, six numbers by enum hivepadlet_why, written only if the answer is 0. 0, or 3. */
uint64_t hivepadlet_score(uint64_t table[HIVEPADLET_CELLS], uint64_t time, uint64_t id, int64_t why[HIVEPADLET_WHY_NUMBERS],
                          uint32_t *actions, size_t actions_length);

/* ---- what we do in a topic */

/* We join a topic. Its mesh is empty until a heartbeat or a GRAFT. 0, or 11 where it is joined already. */
uint64_t hivepadlet_join(uint64_t table[HIVEPADLET_CELLS], uint64_t time, uint64_t topic, uint32_t *actions,
                         size_t actions_length);

/* We leave a topic: a PRUNE to every member, with the unsubscribe backoff. 0, or 11 where it is not joined. */
uint64_t hivepadlet_leave(uint64_t table[HIVEPADLET_CELLS], uint64_t time, uint64_t topic, uint32_t *actions,
                          size_t actions_length);

/* The heartbeat's work for one topic: negative members go, a mesh under D_lo or over D_hi is brought to D, and
 * to D_out outbound peers; if ask is 1 (else 0), a mesh whose median score is poor takes in up to two better peers. The caller
 * decides how often to ask; once a minute is usual. A peer that had a backoff in the topic is sent a GRAFT from a second after
 * its end on, so that a neighbour whose clock is a little late does not count it as one during the backoff.
 * permutation: each of 0 to 255 once (permutation_length 256), drawn anew for each call from random numbers that no peer can
 * foresee. Of several peers that qualify, the one whose slot comes first in it is taken. 0, or 7, or 11 where the topic is not
 * joined. */
uint64_t hivepadlet_heartbeat(uint64_t table[HIVEPADLET_CELLS], uint64_t time, uint64_t topic, uint64_t ask,
                              const uint64_t *permutation, size_t permutation_length, uint32_t *actions,
                              size_t actions_length);

/* Counters fade, and the mesh time of members is brought up to now. 0. */
uint64_t hivepadlet_decay(uint64_t table[HIVEPADLET_CELLS], uint64_t time, uint32_t *actions, size_t actions_length);

/* ---- what comes from peers: each is 11 from a peer below the graylist threshold, and 3 where the id is not connected */

/* A peer subscribes to a topic, joined by us or not. 0, also if it was subscribed already. */
uint64_t hivepadlet_subscribe(uint64_t table[HIVEPADLET_CELLS], uint64_t time, uint64_t id, uint64_t topic, uint32_t *actions,
                              size_t actions_length);

/* A peer unsubscribes, and is out of the topic's mesh with no PRUNE. 0. */
uint64_t hivepadlet_unsubscribe(uint64_t table[HIVEPADLET_CELLS], uint64_t time, uint64_t id, uint64_t topic,
                                uint32_t *actions, size_t actions_length);

/* A GRAFT came in. 0: with no action the peer is in the mesh; with one, a PRUNE, it is not, and its backoff runs anew. A GRAFT
 * during a backoff costs the peer points (P7). 11 also where the topic is not joined. */
uint64_t hivepadlet_graft(uint64_t table[HIVEPADLET_CELLS], uint64_t time, uint64_t id, uint64_t topic, uint32_t *actions,
                          size_t actions_length);

/* A PRUNE came in, with the seconds of its backoff: 0 where it had none, any number else (above 3600 counts as 3600). The peer
 * is out of the mesh, and is sent no GRAFT before the backoff is over by a second. 0, or 11 also where the topic is not joined. */
uint64_t hivepadlet_prune(uint64_t table[HIVEPADLET_CELLS], uint64_t time, uint64_t id, uint64_t topic, uint64_t seconds,
                          uint32_t *actions, size_t actions_length);

enum hivepadlet_delivery {
    HIVEPADLET_FIRST = 1,      /* a valid message that no other peer had brought */
    HIVEPADLET_NEAR_FIRST = 2, /* a valid one that another had brought a moment before */
    HIVEPADLET_INVALID = 3     /* a message that the host found invalid */
};

/* A message came in from a peer. 0, or 11 also where the topic is not joined. */
uint64_t hivepadlet_deliver(uint64_t table[HIVEPADLET_CELLS], uint64_t time, uint64_t id, uint64_t topic, uint64_t kind,
                            uint32_t *actions, size_t actions_length);

/* ---- IDONTWANT, IHAVE and IWANT: version 1.2 notices, and gossip to peers outside the mesh
 *
 * A router that takes part in these has a second array beside its table, HIVEPADLET_GOSSIP_CELLS numbers of 64 bits (663,944
 * bytes, of which a quiet router touches a few; it may lie in slower memory). It holds the numbers that each peer told us not to
 * send (at most 32), the message numbers of the last five heartbeats of each topic (at most 64 a heartbeat), and how often each
 * peer was sent each of them. Such a router is made by hivepadlet_gossip_fresh or hivepadlet_gossip_load, and three calls are
 * made by their forms below, which are handed both: hivepadlet_gossip_connect, _disconnect and _leave. The other ten calls change
 * nothing there and stay as they are; they, hivepadlet_save, _from_old and _to_old test the table alone (12), a call below both.
 * Do not call the plain connect, disconnect or leave on such a router: they leave in the array what belonged to the peer or topic
 * that went, which a later call refuses (12), or counts for the next peer of the slot. A host without gossip needs none of this.
 *
 * A message is a number of 64 bits here, any number, one for each message: a hash of its id, or a count of yours. The router never
 * sees the message; keep those of the last five heartbeats, to answer IWANT, and a list of what you have seen.
 *
 * What a host does:
 *
 *     a message comes in (or is ours: sender 0), not seen before, in a topic that we joined:
 *         if it is large:  r = hivepadlet_send_idontwant(table, gossip, time, topic, sender, number, ...);
 *                          send IDONTWANT with its id to each peer of the actions (kind 3)
 *         r = hivepadlet_relay(table, gossip, time, topic, sender, number, ...);
 *                          send the message to each peer of the actions (kind 4)
 *         hivepadlet_store(table, gossip, time, topic, number, ...);
 *     IDONTWANT comes in, for each id:  hivepadlet_idontwant(table, gossip, time, id, number, ...);
 *     once a second:
 *         hivepadlet_beat(table, gossip, time, ...);
 *         for each joined topic:  r = hivepadlet_announce(table, gossip, time, topic, permutation, ..., numbers, ...);
 *                          send IHAVE with these numbers' ids to each peer of the actions (kind 5)
 *     IHAVE comes in:      r = hivepadlet_ihave(table, gossip, time, id, topic, given, ..., numbers, ...);
 *                          send IWANT for these numbers, without those that are seen or asked for already
 *     IWANT comes in, for each id:  if hivepadlet_iwant(table, gossip, time, id, number, ...) answers 0, send the message
 *
 * These calls make their tests in the order 12, 2, 8, 1, 7, 3, 11, 13, those that can concern them; none of them changes a mesh, a
 * score or a backoff. The actions' third number is 0. What comes back: the answer's number, then how many actions were written
 * (hivepadlet_actions), then how many numbers (hivepadlet_numbers). */

/* how many actions, and how many message numbers, a call below has written */
static inline uint32_t hivepadlet_actions(uint64_t result)
{
    return (uint32_t)(result >> 8 & 65535);
}

static inline uint32_t hivepadlet_numbers(uint64_t result)
{
    return (uint32_t)(result >> 24);
}

/* the set-up numbers, in their order */
enum hivepadlet_setup {
    HIVEPADLET_IDONTWANT_LIMIT = 0, /* 1 to 32: numbers that a peer may put into its set in a heartbeat */
    HIVEPADLET_D_LAZY = 1,          /* 0 to 48: peers that are sent IHAVE, at least */
    HIVEPADLET_GOSSIP_FACTOR = 2,   /* 0 to 1000: and at least so many thousandths of those that could be */
    HIVEPADLET_IHAVE_BOUND = 3,     /* 1 to 32: IHAVEs of a peer that are answered in a heartbeat */
    HIVEPADLET_REPLY_BOUND = 4      /* 1 to 32: times that a peer is sent one message by IWANT in one connection, while it stays stored */
};

/* The ordinary set-up numbers: 10, 6, 250, 10, 3. */
void hivepadlet_ordinary_setup(uint64_t setup[HIVEPADLET_SETUP_NUMBERS]);

/* Makes a fresh router with an array: 0; or 2 where a set-up number is out of range; or as hivepadlet_fresh. Nothing is written but
 * with 0. */
uint64_t hivepadlet_gossip_fresh(const int64_t numbers[HIVEPADLET_NUMBERS], uint64_t edition,
                                 const uint64_t setup[HIVEPADLET_SETUP_NUMBERS], uint64_t table[HIVEPADLET_CELLS],
                                 uint64_t gossip[HIVEPADLET_GOSSIP_CELLS]);

/* Makes a router of a save, with an array in which nothing is held: 2 for the set-up numbers comes before all that hivepadlet_load
 * tests. Nothing is written but with 0. */
uint64_t hivepadlet_gossip_load(const int64_t numbers[HIVEPADLET_NUMBERS], uint64_t edition,
                                const uint64_t setup[HIVEPADLET_SETUP_NUMBERS], uint64_t clock, const uint8_t *bytes,
                                size_t length, uint64_t table[HIVEPADLET_CELLS], uint64_t gossip[HIVEPADLET_GOSSIP_CELLS]);

/* Test 12 of both: 1 if they are a router's, else 0. */
uint32_t hivepadlet_gossip_is_router(const uint64_t table[HIVEPADLET_CELLS], const uint64_t gossip[HIVEPADLET_GOSSIP_CELLS]);

/* hivepadlet_connect of a router with an array: a record that is given up takes its counts with it. */
uint64_t hivepadlet_gossip_connect(uint64_t table[HIVEPADLET_CELLS], uint64_t gossip[HIVEPADLET_GOSSIP_CELLS], uint64_t time,
                                   uint64_t id, const uint64_t *groups, size_t groups_length, uint64_t flags,
                                   const uint8_t *name, size_t name_length, uint32_t *actions, size_t actions_length);

/* hivepadlet_disconnect: the peer's set and what it was sent end with its connection. */
uint64_t hivepadlet_gossip_disconnect(uint64_t table[HIVEPADLET_CELLS], uint64_t gossip[HIVEPADLET_GOSSIP_CELLS],
                                      uint64_t time, uint64_t id, uint32_t *actions, size_t actions_length);

/* hivepadlet_leave: the topic's message numbers go. */
uint64_t hivepadlet_gossip_leave(uint64_t table[HIVEPADLET_CELLS], uint64_t gossip[HIVEPADLET_GOSSIP_CELLS], uint64_t time,
                                 uint64_t topic, uint32_t *actions, size_t actions_length);

/* We have a large message of a topic, from a sender (0: ourselves): whom to send IDONTWANT. All /meshsub/1.2.0 members of the topic
 * but the sender, kind 3, by slot. The number goes with the actions. 0, 3, or 11. */
uint64_t hivepadlet_send_idontwant(uint64_t table[HIVEPADLET_CELLS], const uint64_t gossip[HIVEPADLET_GOSSIP_CELLS],
                                   uint64_t time, uint64_t topic, uint64_t sender, uint64_t number, uint32_t *actions,
                                   size_t actions_length);

/* A peer sent IDONTWANT: the number goes into its set, where it stays for two more heartbeats. 0 where it is put in or held
 * already; 3; 11 from a peer of an older version or, unless it is explicit, below the graylist threshold, beyond the limit, or with
 * a full set. */
uint64_t hivepadlet_idontwant(uint64_t table[HIVEPADLET_CELLS], uint64_t gossip[HIVEPADLET_GOSSIP_CELLS], uint64_t time,
                              uint64_t id, uint64_t number, uint32_t *actions, size_t actions_length);

/* To whom a message is passed on: the members and the connected, subscribed explicit peers but the sender (0: ourselves) and those
 * whose set holds the number, kind 4, by slot. 0, 3, or 11. */
uint64_t hivepadlet_relay(uint64_t table[HIVEPADLET_CELLS], const uint64_t gossip[HIVEPADLET_GOSSIP_CELLS], uint64_t time,
                          uint64_t topic, uint64_t sender, uint64_t number, uint32_t *actions, size_t actions_length);

/* A heartbeat of all topics: the counts of this heartbeat begin anew, an IDONTWANT ends at the third after its arrival, and the
 * message numbers of five heartbeats ago go. 0. */
uint64_t hivepadlet_beat(uint64_t table[HIVEPADLET_CELLS], uint64_t gossip[HIVEPADLET_GOSSIP_CELLS], uint64_t time,
                         uint32_t *actions, size_t actions_length);

/* We have a message of a topic. 0 also where it is stored there already; 11; 13 where this heartbeat has 64. */
uint64_t hivepadlet_store(uint64_t table[HIVEPADLET_CELLS], uint64_t gossip[HIVEPADLET_GOSSIP_CELLS], uint64_t time,
                          uint64_t topic, uint64_t number, uint32_t *actions, size_t actions_length);

/* IHAVE of a topic: the numbers of the last three heartbeats, oldest first, into a list of at least HIVEPADLET_MESSAGE_NUMBERS, and
 * to whom, kind 5, in the order of the permutation; nobody where there is no number. 0, 7, or 11. */
uint64_t hivepadlet_announce(uint64_t table[HIVEPADLET_CELLS], const uint64_t gossip[HIVEPADLET_GOSSIP_CELLS], uint64_t time,
                             uint64_t topic, const uint64_t *permutation, size_t permutation_length, uint64_t *numbers,
                             size_t numbers_length, uint32_t *actions, size_t actions_length);

/* A peer sent IHAVE with at most 192 numbers of a topic: those that no topic stores, each once, in their order, go into a list of
 * at least HIVEPADLET_MESSAGE_NUMBERS. 0, 3, or 11. */
uint64_t hivepadlet_ihave(uint64_t table[HIVEPADLET_CELLS], uint64_t gossip[HIVEPADLET_GOSSIP_CELLS], uint64_t time,
                          uint64_t id, uint64_t topic, const uint64_t *given, size_t given_length, uint64_t *numbers,
                          size_t numbers_length, uint32_t *actions, size_t actions_length);

/* A peer sent IWANT for a message: 0 is the reply, send it; 3; 11 where it is not stored, the peer is below the gossip threshold and
 * not explicit, or it was sent this message as often as the bound says in this connection, while it stayed stored. */
uint64_t hivepadlet_iwant(uint64_t table[HIVEPADLET_CELLS], uint64_t gossip[HIVEPADLET_GOSSIP_CELLS], uint64_t time,
                          uint64_t id, uint64_t number, uint32_t *actions, size_t actions_length);

/* ---- messages: the bytes that peers send each other, gossipsub's RPC as protobuf
 *
 * These three functions use no router and no clock. What they read and write of an RPC are subscriptions, GRAFTs, PRUNEs and
 * IDONTWANTs; the messages of topics (publish), IHAVE and IWANT, which are in the same bytes, are skipped.
 *
 * Peers name a topic by bytes. Topic k's name is in row k of the names: names[65 * k] is its length, 1 to 64, or 0 where the
 * topic has none; its bytes follow. Test the names once, at set-up:
 *
 *     static uint8_t names[HIVEPADLET_NAMES_BYTES];
 *     names[0] = 7;
 *     memcpy(names + 1, "notices", 7);
 *     if (hivepadlet_number(hivepadlet_names(names)) != HIVEPADLET_DONE) ...
 *
 * IDONTWANT names messages by their ids, bytes too. A message is a number of 64 bits here, any number of yours, one for each. A
 * table that you lend with each call has ids and numbers, n rows, as many as you like; with none, no id is known, and a host that
 * sends no IDONTWANT needs no more (pass any pointers that are not NULL, and the lengths 0).
 *
 *     uint8_t ids[HIVEPADLET_ID_ROW * n]; row k: ids[65 * k] is the length of its id, 1 to 64; the id's bytes follow. Shorter ids
 *                                         come first, and those of one length as memcmp sorts them; none twice.
 *     uint64_t numbers[n];                row k's number; none twice.
 *     uint64_t order[n];                  the rows by rising number: order[0] is the row of the smallest, order[1] of the next.
 *
 * A table in another order, or with an id or number twice, is refused (2). Both functions test all of it at each call, in time that
 * grows with n, and search it by halves: keep the rows sorted as ids come and go.
 *
 * A message that comes in is read into a list of entries, subscriptions first, then GRAFTs, then PRUNEs, then an entry for each id
 * of the IDONTWANTs. Each is a call, the last of a router with the second array:
 *
 *     uint64_t r = hivepadlet_read_message(names, ids, HIVEPADLET_ID_ROW * n, numbers, n, order, n, message, length, entries,
 *                                          HIVEPADLET_ENTRY_NUMBERS);
 *     for (uint32_t i = 0; hivepadlet_number(r) == HIVEPADLET_DONE && i < hivepadlet_value(r); i++) {
 *         uint64_t topic = hivepadlet_entry_topic(entries, i);
 *         uint64_t value = hivepadlet_entry_value(entries, i);
 *         if (topic == HIVEPADLET_IGNORED)
 *             continue;
 *         switch (hivepadlet_entry_kind(entries, i)) {
 *         case HIVEPADLET_SUBSCRIPTION:
 *             if (value == 1) hivepadlet_subscribe(table, time, id, topic, ...); else hivepadlet_unsubscribe(...);
 *             break;
 *         case HIVEPADLET_GRAFT: hivepadlet_graft(table, time, id, topic, ...); break;
 *         case HIVEPADLET_PRUNE: hivepadlet_prune(table, time, id, topic, value, ...); break;
 *         case HIVEPADLET_IDONTWANT: hivepadlet_idontwant(table, gossip, time, id, value, ...); break;
 *         }
 *     }
 *
 * and carry out the actions of each call before the next: they share the action list. */

/* Tests names: 0, or 2 where a length is over 64 or two names are alike. The bytes of a row past its name are not looked at. */
uint64_t hivepadlet_names(const uint8_t names[HIVEPADLET_NAMES_BYTES]);

/* the kinds of entries: this one, HIVEPADLET_GRAFT, HIVEPADLET_PRUNE and HIVEPADLET_IDONTWANT */
enum hivepadlet_entry {
    HIVEPADLET_SUBSCRIPTION = 0
};

static inline uint64_t hivepadlet_entry_kind(const uint64_t *entries, size_t i)
{
    return entries[3 * i];
}

/* 0 to 7, or HIVEPADLET_IGNORED where the entry names no topic of ours; of an IDONTWANT 0, or HIVEPADLET_IGNORED where its id is not
 * in the table */
static inline uint64_t hivepadlet_entry_topic(const uint64_t *entries, size_t i)
{
    return entries[3 * i + 1];
}

/* of a subscription 1, or 0 for the end of one; of a GRAFT 0; of a PRUNE the seconds of its backoff, 0 where it has none; of an
 * IDONTWANT the message's number, all 64 bits of it, 0 where its id is not in the table */
static inline uint64_t hivepadlet_entry_value(const uint64_t *entries, size_t i)
{
    return entries[3 * i + 2];
}

/* Reads a message into a list of at least HIVEPADLET_ENTRY_NUMBERS numbers. 0 with the number of entries, or 8, or 2 for the table of
 * ids, or 10 with the place. The list is written only if the answer is 0, and the numbers past the entries are unchanged. */
uint64_t hivepadlet_read_message(const uint8_t names[HIVEPADLET_NAMES_BYTES], const uint8_t *ids, size_t ids_length,
                                 const uint64_t *numbers, size_t numbers_length, const uint64_t *order, size_t order_length,
                                 const uint8_t *message, size_t length, uint64_t *entries, size_t entries_length);

/* Writes one message for one peer to the start of a buffer; HIVEPADLET_WRITTEN_BYTES are always enough.
 * actions: at most HIVEPADLET_MESSAGE_ACTIONS as the calls write them, GRAFTs, PRUNEs and IDONTWANTs, all with the same peer's id;
 * topics: the topic of each, of an IDONTWANT the message's number, so that actions_length is 3 * topics_length. changes: at most 8
 * of our own joins and leaves, pairs of 1 (join) or 0 (leave) and a topic. Every topic has a name, every number of a message is in
 * the table, and the third number of an IDONTWANT is 0. 0 with the length of the message, 0 for empty lists; or 2 for any other
 * list or for the table of ids; or 13. The buffer is written only if the answer is 0, and the bytes past the message are unchanged.
 * What is read from these bytes is the joins and leaves, then the GRAFTs, then the PRUNEs, then the IDONTWANTs, each in their
 * order. */
uint64_t hivepadlet_write_message(const uint8_t names[HIVEPADLET_NAMES_BYTES], const uint8_t *ids, size_t ids_length,
                                  const uint64_t *numbers, size_t numbers_length, const uint64_t *order, size_t order_length,
                                  const uint32_t *actions, size_t actions_length, const uint64_t *topics, size_t topics_length,
                                  const uint64_t *changes, size_t changes_length, uint8_t *buffer, size_t length);

#ifdef __cplusplus
}
#endif

#endif /* HIVEPADLET_H */
