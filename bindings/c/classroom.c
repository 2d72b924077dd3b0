/* A class with two tablets, on a hub that is kept in this program's own memory. It makes every call of ropethatch.h at least once and prints
   a line for what each answered. An answer that is not the expected one ends it: a message on stderr, and exit 1. So it is a test too. */
#include "ropethatch.h"
#include <stdio.h>
#include <stdlib.h>
#include <string.h>

enum { NAME = 2, SUBSCRIPTION = 3, CODE = 5, ABSENT = 9 }; /* handles */
enum { RECORDS = 3, STORE = 16, MTU = 23, AS_LENT = 0xEE };

struct link {
    ropethatch_identity who;
    uint8_t level;
    ropethatch_prepared prepared;
    uint8_t bytes[ROPETHATCH_PREPARED_SIZE];
};

/* All that is lent to the calls. */
static struct classroom {
    ropethatch_slot slots[ROPETHATCH_SLOTS];
    ropethatch_record list[RECORDS];
    uint8_t store[STORE];
    ropethatch_table tables[ROPETHATCH_SLOTS];
    struct link anna, ben;
    uint8_t out[ROPETHATCH_TABLE_SIZE]; /* AS_LENT before each call; a response gets its first MTU bytes */
} hub, before;

/* How the argument list of each call begins. */
#define HUB hub.slots, ROPETHATCH_SLOTS, hub.list, RECORDS, hub.store, STORE, hub.tables, ROPETHATCH_SLOTS
#define HUB_OF_SEVEN hub.slots, 7, hub.list, RECORDS, hub.store, STORE, hub.tables, ROPETHATCH_SLOTS

static void put_u16(uint8_t *at, unsigned number)
{
    at[0] = (uint8_t)(number & 0xFF);
    at[1] = (uint8_t)(number >> 8);
}

/* The 32 bytes of a list record, for a 16-bit UUID. */
static ropethatch_record record(uint16_t handle, uint16_t uuid, uint8_t flags, uint16_t capacity, uint16_t start, uint16_t length,
                                uint8_t read_need, uint8_t write_need)
{
    ropethatch_record r = {{0}};
    put_u16(r.bytes + 0, handle);
    put_u16(r.bytes + 2, capacity);
    put_u16(r.bytes + 4, start);
    put_u16(r.bytes + 6, length);
    r.bytes[8] = read_need;
    r.bytes[9] = write_need;
    r.bytes[10] = flags;
    r.bytes[11] = 2;
    put_u16(r.bytes + 12, uuid);
    return r;
}

static void print_bytes(FILE *to, const uint8_t *bytes, size_t len)
{
    size_t shown = len <= 24 ? len : 24;
    fprintf(to, "%zu byte%s%s", len, len == 1 ? "" : "s", len == 0 ? "" : ":");
    for (size_t i = 0; i < shown; i++)
        fprintf(to, " %02X", (unsigned)bytes[i]);
    if (shown < len)
        fprintf(to, " ...");
}

static void print_reply(FILE *to, ropethatch_reply reply, const uint8_t *bytes)
{
    switch (reply.status) {
    case ROPETHATCH_STATUS_DONE:
        fprintf(to, "done");
        break;
    case ROPETHATCH_STATUS_NOTHING:
        fprintf(to, "nothing");
        break;
    case ROPETHATCH_STATUS_VALUE:
        if (reply.len <= ROPETHATCH_TABLE_SIZE)
            print_bytes(to, bytes, reply.len);
        else
            fprintf(to, "%zu bytes, more than were lent", reply.len);
        break;
    case ROPETHATCH_STATUS_ATT:
        fprintf(to, "ATT error 0x%02X", (unsigned)reply.code);
        break;
    case ROPETHATCH_STATUS_REFUSED:
        fprintf(to, "refused %u", (unsigned)reply.code);
        break;
    default:
        fprintf(to, "status %u, code %u, len %zu", (unsigned)reply.status, (unsigned)reply.code, reply.len);
    }
}

static void fail(const char *what, const char *why)
{
    fflush(stdout);
    fprintf(stderr, "classroom: %s: %s\n", what, why);
    exit(1);
}

/* Holds an answer to the expected one, in every field and in every byte of the buffer. A refusal must have left the hub as it was after the
   call before. */
static void check(const char *what, ropethatch_reply reply, unsigned status, unsigned code, const void *bytes, size_t len)
{
    if (reply.status != status || reply.code != code || reply.len != len || memcmp(hub.out, bytes, len) != 0) {
        ropethatch_reply wanted = {(uint8_t)status, (uint8_t)code, len};
        fflush(stdout);
        fprintf(stderr, "classroom: %s: answered ", what);
        print_reply(stderr, reply, hub.out);
        fprintf(stderr, " (status %u, code %u, len %zu); expected ", (unsigned)reply.status, (unsigned)reply.code, reply.len);
        print_reply(stderr, wanted, bytes);
        fprintf(stderr, " (status %u, code %u, len %zu)\n", status, code, len);
        exit(1);
    }
    for (size_t i = len; i < sizeof hub.out; i++)
        if (hub.out[i] != AS_LENT)
            fail(what, "a byte past the reported length was changed");
    if (status == ROPETHATCH_STATUS_REFUSED && memcmp(&hub, &before, sizeof hub) != 0)
        fail(what, "refused, but the hub was changed");
}

/* Makes the buffer ready for the next call, and remembers the hub. */
static void ready(void)
{
    memset(hub.out, AS_LENT, sizeof hub.out);
    memcpy(&before, &hub, sizeof hub);
}

static void expect(const char *what, ropethatch_reply reply, unsigned status, unsigned code, const void *bytes, size_t len)
{
    check(what, reply, status, code, bytes, len);
    printf("%s: ", what);
    print_reply(stdout, reply, hub.out);
    printf("\n");
    ready();
}

static void expect_done(const char *what, ropethatch_reply reply)
{
    expect(what, reply, ROPETHATCH_STATUS_DONE, 0, "", 0);
}

static void expect_nothing(const char *what, ropethatch_reply reply)
{
    expect(what, reply, ROPETHATCH_STATUS_NOTHING, 0, "", 0);
}

static void expect_yes(const char *what, ropethatch_reply reply)
{
    check(what, reply, ROPETHATCH_STATUS_YES, 0, "", 0);
    printf("%s: yes\n", what);
    ready();
}

static void expect_no(const char *what, ropethatch_reply reply)
{
    check(what, reply, ROPETHATCH_STATUS_NO, 0, "", 0);
    printf("%s: no\n", what);
    ready();
}

static void expect_value(const char *what, ropethatch_reply reply, const void *bytes, size_t len)
{
    expect(what, reply, ROPETHATCH_STATUS_VALUE, 0, bytes, len);
}

static void expect_att(const char *what, ropethatch_reply reply, unsigned code)
{
    expect(what, reply, ROPETHATCH_STATUS_ATT, code, "", 0);
}

static void expect_refused(const char *what, ropethatch_reply reply, unsigned number)
{
    expect(what, reply, ROPETHATCH_STATUS_REFUSED, number, "", 0);
}

/* A saved table, and how much of what was lent it is. Nothing is written. */
static void expect_length(const char *what, ropethatch_reply reply, size_t len)
{
    size_t told = reply.len;
    reply.len = 0;
    check(what, reply, ROPETHATCH_STATUS_VALUE, 0, "", 0);
    if (told != len)
        fail(what, "another length");
    printf("%s: %zu bytes\n", what, told);
    ready();
}

/* A request that has come in over a link: its opcode, its numbers, and the bytes that it brings. */
static ropethatch_reply request(struct link *link, uint8_t op, uint16_t handle, uint16_t other, const void *data, size_t data_count)
{
    ropethatch_request rq = {op, handle, other, 0};
    return ropethatch_process(HUB, link->who, link->level, &link->prepared, link->bytes, rq, data, data_count, hub.out, MTU);
}

static ropethatch_reply read_request(struct link *link, uint16_t handle)
{
    return request(link, ROPETHATCH_OP_READ, handle, 0, ROPETHATCH_NO_BYTES, 0);
}

static ropethatch_reply write_request(struct link *link, uint16_t handle, const void *data, size_t data_count)
{
    return request(link, ROPETHATCH_OP_WRITE, handle, 0, data, data_count);
}

int main(void)
{
    static const ropethatch_identity anna = {0, {0x01, 0x00, 0x00, 0x5E, 0x00, 0x00}};
    static const ropethatch_identity ben = {1, {0x02, 0x00, 0x00, 0x00, 0x00, 0xC0}};
    static const ropethatch_identity nobody = {0, {0, 0, 0, 0, 0, 0}};
    uint8_t saved[ROPETHATCH_TABLE_SIZE];
    ropethatch_reply reply;

    /* The list, the store, and two links. */
    hub.list[0] = record(NAME, 0x2A00, ROPETHATCH_FLAG_VARIABLE, STORE, 0, 6, ROPETHATCH_NEED_ANY, ROPETHATCH_NEED_NEVER);
    hub.list[1] = record(SUBSCRIPTION, 0x2902, ROPETHATCH_FLAG_CLIENT, 2, 0, 0, ROPETHATCH_NEED_ANY, ROPETHATCH_NEED_ANY);
    hub.list[2] = record(CODE, 0x2A3D, ROPETHATCH_FLAG_CLIENT | ROPETHATCH_FLAG_VARIABLE, 8, 0, 0, ROPETHATCH_NEED_ENCRYPTED,
                         ROPETHATCH_NEED_ENCRYPTED);
    memcpy(hub.store, "Room 7", 6);
    hub.anna.who = anna;
    hub.anna.level = ROPETHATCH_LEVEL_ENCRYPTED;
    hub.ben.who = ben;
    hub.ben.level = ROPETHATCH_LEVEL_ENCRYPTED;
    memset(hub.slots, 0xAA, sizeof hub.slots); /* what they held before does not matter */
    memset(hub.tables, 0xAA, sizeof hub.tables);
    ready();

    expect_refused("a hub with seven slots is opened", ropethatch_new(HUB_OF_SEVEN), ROPETHATCH_REFUSAL_STATE);
    expect_done("the hub is opened", ropethatch_new(HUB));
    expect_done("Anna's tablet connects", ropethatch_connect(HUB, anna));
    expect_done("Ben's tablet connects", ropethatch_connect(HUB, ben));
    expect_refused("nobody connects", ropethatch_connect(HUB, nobody), ROPETHATCH_REFUSAL_IDENTITY);

    /* A code, and a shorter one after it: no old tail. */
    expect_value("Anna writes 3E1047 to 5", write_request(&hub.anna, CODE, "3E1047", 6), "\x13", 1);
    expect_value("Anna reads 5", read_request(&hub.anna, CODE), "\x0B" "3E1047", 7);
    expect_value("Anna writes 3E10 to 5", write_request(&hub.anna, CODE, "3E10", 4), "\x13", 1);
    expect_value("Anna reads 5", read_request(&hub.anna, CODE), "\x0B" "3E10", 5);
    expect_value("Ben reads 5, his own", read_request(&hub.ben, CODE), "\x0B", 1);
    expect_value("Anna writes nine bytes to 5", write_request(&hub.anna, CODE, "3E1047000", 9), "\x01\x12\x05\x00\x0D", 5);
    expect_value("Anna reads 9, which is not listed", read_request(&hub.anna, ABSENT), "\x01\x0A\x09\x00\x0A", 5);

    /* A response buffer that is a byte too short. */
    reply = ropethatch_process(HUB, anna, ROPETHATCH_LEVEL_ENCRYPTED, &hub.anna.prepared, hub.anna.bytes,
                               (ropethatch_request){ROPETHATCH_OP_READ, CODE, 0, 0}, ROPETHATCH_NO_BYTES, 0, hub.out, MTU - 1);
    expect_refused("Anna reads 5 into a buffer of 22 bytes", reply, ROPETHATCH_REFUSAL_BUFFER);

    /* The level of a link. */
    hub.ben.level = ROPETHATCH_LEVEL_PLAIN;
    expect_value("Ben, on a plain link, reads 2", read_request(&hub.ben, NAME), "\x0B" "Room 7", 7);
    expect_value("Ben, on a plain link, reads 5", read_request(&hub.ben, CODE), "\x01\x0A\x05\x00\x0F", 5);
    expect_value("Ben writes to 2", write_request(&hub.ben, NAME, "x", 1), "\x01\x12\x02\x00\x03", 5);
    expect_yes("may a plain link read 2", ropethatch_can_read(HUB, ben, ROPETHATCH_LEVEL_PLAIN, NAME));
    expect_att("may a link that is gone read 2", ropethatch_can_read(HUB, ben, ROPETHATCH_LEVEL_GONE, NAME),
               ROPETHATCH_ATT_INVALID_HANDLE);
    expect_att("may an authenticated link write 2", ropethatch_can_write(HUB, ben, ROPETHATCH_LEVEL_AUTHENTICATED, NAME),
               ROPETHATCH_ATT_WRITE_NOT_PERMITTED);

    /* A subscription is a client value of two bytes. */
    expect_no("should Anna be notified by 3", ropethatch_should_notify(HUB, anna, SUBSCRIPTION));
    expect_value("Anna writes 01 00 to 3", write_request(&hub.anna, SUBSCRIPTION, "\x01\x00", 2), "\x13", 1);
    expect_yes("should Anna be notified by 3", ropethatch_should_notify(HUB, anna, SUBSCRIPTION));
    expect_no("should Anna get indications by 3", ropethatch_should_indicate(HUB, anna, SUBSCRIPTION));
    expect_no("should Ben be notified by 3", ropethatch_should_notify(HUB, ben, SUBSCRIPTION));

    /* A code in two parts, on a link of its own; then requests that have no answer. */
    hub.ben.level = ROPETHATCH_LEVEL_AUTHENTICATED;
    expect_value("Ben prepares 3E at 0 of 5", request(&hub.ben, ROPETHATCH_OP_PREPARE_WRITE, CODE, 0, "3E", 2),
                 "\x17\x05\x00\x00\x00" "3E", 7);
    expect_value("Ben prepares 2051 at 2 of 5", request(&hub.ben, ROPETHATCH_OP_PREPARE_WRITE, CODE, 2, "2051", 4),
                 "\x17\x05\x00\x02\x00" "2051", 9);
    expect_value("Ben executes what is prepared", request(&hub.ben, ROPETHATCH_OP_EXECUTE_WRITE, 0, 1, ROPETHATCH_NO_BYTES, 0), "\x19", 1);
    expect_value("Ben reads 5 from offset 2", request(&hub.ben, ROPETHATCH_OP_READ_BLOB, CODE, 2, ROPETHATCH_NO_BYTES, 0),
                 "\x0D" "2051", 5);
    expect_nothing("Ben writes 3E to 5 by a command", request(&hub.ben, ROPETHATCH_OP_WRITE_COMMAND, CODE, 0, "3E", 2));
    expect_nothing("Ben asks for an MTU of 185", request(&hub.ben, ROPETHATCH_OP_EXCHANGE_MTU, 0, 185, ROPETHATCH_NO_BYTES, 0));
    expect_value("Ben finds the handles and types", request(&hub.ben, ROPETHATCH_OP_FIND_INFORMATION, 1, 0xFFFF, ROPETHATCH_NO_BYTES, 0),
                 "\x05\x01\x02\x00\x00\x2A\x03\x00\x02\x29\x05\x00\x3D\x2A", 14);
    expect_value("Ben finds handles from 5 to 4", request(&hub.ben, ROPETHATCH_OP_FIND_INFORMATION, 5, 4, ROPETHATCH_NO_BYTES, 0),
                 "\x01\x08\x05\x00\x01", 5);

    /* The application's own reading and writing. */
    expect_value("the application gets Ben's 5", ropethatch_get(HUB, ben, CODE, hub.out, 8), "3E", 2);
    expect_value("the application gets one byte of it", ropethatch_get(HUB, ben, CODE, hub.out, 1), "3", 1);
    expect_done("the application sets 2 to Room 12", ropethatch_set(HUB, ben, NAME, (const uint8_t *)"Room 12", 7));
    expect_value("Anna reads 2", read_request(&hub.anna, NAME), "\x0B" "Room 12", 8);
    expect_att("the application sets Ben's 5 to nine bytes", ropethatch_set(HUB, ben, CODE, (const uint8_t *)"3E1047000", 9),
               ROPETHATCH_ATT_INVALID_LENGTH);
    expect_refused("the application gets 9", ropethatch_get(HUB, ben, ABSENT, hub.out, 8), ROPETHATCH_REFUSAL_HANDLE);
    expect_refused("the application sets Ben's 3 to one byte", ropethatch_set(HUB, ben, SUBSCRIPTION, (const uint8_t *)"\x01", 1),
                   ROPETHATCH_REFUSAL_LENGTH);

    /* Anna's table is saved. Her tablet leaves, unbonded, and is forgotten. */
    static const uint8_t table[ROPETHATCH_TABLE_SIZE] = {
        0x02, 0x00, 0x0C, 0x00,                   /* two entries, 12 bytes of values */
        0x03, 0x00, 0x00, 0x00,                   /* 3, fixed, at 0 */
        0x05, 0x80, 0x02, 0x00,                   /* 5, variable, at 2 */
        0x01, 0x00,                               /* 3 */
        0x04, 0x00, '3',  'E',  '1', '0'          /* 5: its length, its bytes; zeros from where 47 stood */
    };
    reply = ropethatch_get_client_att_table(HUB, anna, hub.out);
    memcpy(saved, hub.out, sizeof saved);
    expect_value("Anna's table is saved", reply, table, sizeof table);
    expect_length("so much of it is the table", ropethatch_saved_length(saved, sizeof saved), 24);
    expect_length("and no byte more is needed", ropethatch_saved_length(saved, 24), 24);
    expect_refused("one byte less is no table", ropethatch_saved_length(saved, 23), ROPETHATCH_REFUSAL_TABLE);
    expect_refused("nor is no byte at all", ropethatch_saved_length(ROPETHATCH_NO_BYTES, 0), ROPETHATCH_REFUSAL_TABLE);
    expect_done("Anna's tablet leaves, unbonded", ropethatch_disconnect(HUB, anna, 0));
    expect_value("Anna reads 5", read_request(&hub.anna, CODE), "\x01\x0A\x05\x00\x0A", 5);
    expect_att("the application gets Anna's 5", ropethatch_get(HUB, anna, CODE, hub.out, 8), ROPETHATCH_ATT_NOT_FOUND);
    expect_no("should Anna be notified by 3", ropethatch_should_notify(HUB, anna, SUBSCRIPTION));
    expect_nothing("Anna's table is asked for", ropethatch_get_client_att_table(HUB, anna, hub.out));

    /* It comes back, fresh, and is given the saved table. */
    expect_done("Anna's tablet connects", ropethatch_connect(HUB, anna));
    expect_value("Anna reads 5", read_request(&hub.anna, CODE), "\x0B", 1);
    expect_refused("three bytes of a table are put back", ropethatch_set_client_att_table(HUB, anna, saved, 3), ROPETHATCH_REFUSAL_TABLE);
    expect_done("Anna's table is put back", ropethatch_set_client_att_table(HUB, anna, saved, 24));
    expect_value("Anna reads 5", read_request(&hub.anna, CODE), "\x0B" "3E10", 5);
    expect_value("Anna reads 3", read_request(&hub.anna, SUBSCRIPTION), "\x0B\x01\x00", 3);

    /* It leaves once more, bonded: what it wrote is kept. */
    expect_done("Anna's tablet leaves, bonded", ropethatch_disconnect(HUB, anna, 1));
    expect_done("Anna's tablet connects", ropethatch_connect(HUB, anna));
    expect_value("Anna reads 5", read_request(&hub.anna, CODE), "\x0B" "3E10", 5);
    return 0;
}
