/*
 * The proved reader and writer of RPCs, a line of standard input each:
 *   names HEX              sets the names of the topics                     prints the answer
 *   ids HEX N,N.. ROW,ROW..  sets the table of message ids, - for none      prints 0 0
 *   read HEX               reads a message                                  prints answer and value, then each entry: kind,topic,value
 *   write ROOM ITEM..      writes a message into a buffer of ROOM bytes,    prints answer and value, then the message in hex
 *                          of actions a,KIND,ID,THIRD,TOPIC (of kind 3 the message's number) and changes c,JOIN,TOPIC
 * A line ends with `changed` if a call wrote where it must not.
 */
#include "hivepadlet.h"

#include <inttypes.h>
#include <stdio.h>
#include <stdlib.h>
#include <string.h>

#define LINE_BYTES (1 << 18)
#define ROOM_BYTES 8192
#define ITEMS 100
#define BYTE_MARK 0xA5u
#define NUMBER_MARK 0xA5A5A5A5A5A5A5A5u

static char line[LINE_BYTES];
static uint8_t message[LINE_BYTES / 2];
static uint8_t names[HIVEPADLET_NAMES_BYTES];
static uint8_t ids[ITEMS * HIVEPADLET_ID_ROW];
static uint64_t numbers[ITEMS], order[ITEMS];
static size_t ids_length, rows, places;
static uint64_t entries[HIVEPADLET_ENTRY_NUMBERS];
static uint8_t buffer[ROOM_BYTES];

static void fail(const char *why)
{
    fprintf(stderr, "ours: %s\n", why);
    exit(2);
}

static uint8_t digit(char c)
{
    const char *digits = "0123456789abcdef";
    const char *at = c == '\0' ? NULL : strchr(digits, c);
    if (at == NULL) {
        fail("not a hex digit");
    }
    return (uint8_t)(at - digits);
}

static size_t from_hex(const char *text, uint8_t *bytes, size_t room)
{
    size_t length = strlen(text) / 2;
    if (length > room) {
        fail("too many bytes");
    }
    for (size_t i = 0; i < length; i++) {
        bytes[i] = (uint8_t)(digit(text[2 * i]) * 16 + digit(text[2 * i + 1]));
    }
    return length;
}

static void answer(uint64_t r)
{
    printf("%" PRIu64 " %" PRIu64, r & 0xFF, r >> 8);
}

static void set_names(const char *text)
{
    if (from_hex(text, names, sizeof names) != sizeof names) {
        fail("names of another length");
    }
    answer(hivepadlet_names(names));
}

static size_t from_list(const char *text, uint64_t *list)
{
    size_t length = 0;
    char *end = NULL;
    for (; *text != '-' && *text != '\0'; text = *end == ',' ? end + 1 : end) {
        if (length == ITEMS) {
            fail("too many numbers");
        }
        list[length++] = strtoull(text, &end, 10);
    }
    return length;
}

static void set_ids(char *text)
{
    const char *data = strtok(text, " "), *listed = strtok(NULL, " "), *named = strtok(NULL, " ");
    if (data == NULL || listed == NULL || named == NULL) {
        fail("not a table of ids");
    }
    ids_length = *data == '-' ? 0 : from_hex(data, ids, sizeof ids);
    rows = from_list(listed, numbers);
    places = from_list(named, order);
    answer(0);
}

static void read_message(const char *text)
{
    size_t length = from_hex(text, message, sizeof message);
    uint64_t r = hivepadlet_read_message(names, ids, ids_length, numbers, rows, order, places, message, length, entries,
                                         HIVEPADLET_ENTRY_NUMBERS);
    uint64_t said = (r & 0xFF) == 0 ? 3 * (r >> 8) : 0;
    int changed = 0;
    answer(r);
    for (uint64_t i = 0; i < HIVEPADLET_ENTRY_NUMBERS; i++) {
        if (i < said) {
            printf("%c%" PRIu64, i % 3 == 0 ? ' ' : ',', entries[i]);
        } else {
            changed |= entries[i] != NUMBER_MARK;
        }
        entries[i] = NUMBER_MARK;
    }
    fputs(changed ? " changed" : "", stdout);
}

static void write_message(char *text)
{
    static uint32_t actions[3 * ITEMS];
    static uint64_t topics[ITEMS], changes[2 * ITEMS];
    size_t acts = 0, joins = 0;
    char *word = strtok(text, " ");
    size_t room = word == NULL ? ROOM_BYTES + 1 : strtoul(word, NULL, 10);
    if (room > ROOM_BYTES) {
        fail("more room than there is");
    }
    while ((word = strtok(NULL, " ")) != NULL) {
        uint32_t *a = actions + 3 * acts;
        uint64_t *c = changes + 2 * joins;
        if (acts == ITEMS || joins == ITEMS) {
            fail("too many items");
        }
        if (sscanf(word, "a,%" SCNu32 ",%" SCNu32 ",%" SCNu32 ",%" SCNu64, &a[0], &a[1], &a[2], &topics[acts]) == 4) {
            acts++;
        } else if (sscanf(word, "c,%" SCNu64 ",%" SCNu64, &c[0], &c[1]) == 2) {
            joins++;
        } else {
            fail("not an item");
        }
    }
    memset(buffer, BYTE_MARK, sizeof buffer);
    uint64_t r = hivepadlet_write_message(names, ids, ids_length, numbers, rows, order, places, actions, 3 * acts, topics, acts, changes,
                                          2 * joins, buffer, room);
    uint64_t said = (r & 0xFF) == 0 ? r >> 8 : 0;
    int changed = 0;
    answer(r);
    printf(" ");
    for (uint64_t i = 0; i < sizeof buffer; i++) {
        if (i < said) {
            printf("%02x", buffer[i]);
        } else {
            changed |= buffer[i] != BYTE_MARK;
        }
    }
    fputs(changed ? " changed" : "", stdout);
}

int main(void)
{
    for (size_t i = 0; i < HIVEPADLET_ENTRY_NUMBERS; i++) {
        entries[i] = NUMBER_MARK;
    }
    while (fgets(line, sizeof line, stdin) != NULL) {
        line[strcspn(line, "\n")] = '\0';
        if (strncmp(line, "names ", 6) == 0) {
            set_names(line + 6);
        } else if (strncmp(line, "ids ", 4) == 0) {
            set_ids(line + 4);
        } else if (strncmp(line, "read ", 5) == 0) {
            read_message(line + 5);
        } else if (strncmp(line, "write ", 6) == 0) {
            write_message(line + 6);
        } else {
            fail("not a line");
        }
        printf("\n");
    }
    return 0;
}
